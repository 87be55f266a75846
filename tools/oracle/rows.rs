//! The bench table's rows of a sensor that is locked out and comes back, T = 500 at 100 Hz, by the Rust and in the words of `bench`.

use fusion_ahrs::{Ahrs, AhrsSettings, Convention, Vector};
use std::io::{self, Write};

const UPRIGHT: [f32; 3] = [0.0, 0.0, 1.0];
const NORTH: [f32; 3] = [1.0, 0.0, 0.0];
const WEST: [f32; 3] = [0.0, 1.0, 0.0];
const LEVEL: [f32; 3] = [1.0, 0.0, 0.0];

/// A filter out of startup, freshly reset.
fn start() -> Ahrs {
    let mut ahrs = Ahrs::with_settings(AhrsSettings {
        sample_rate: 100.0,
        convention: Convention::Nwu,
        gain: 0.5,
        gyroscope_range: 2000.0,
        acceleration_rejection: 10.0,
        magnetic_rejection: 10.0,
        rejection_timeout: 5.0,
    });
    ahrs.skip_startup();
    ahrs
}

/// So many updates of a pole that stands still.
fn hold(ahrs: &mut Ahrs, [accelerometer, magnetometer]: [[f32; 3]; 2], updates: u32) {
    let [a, m] = [accelerometer, magnetometer].map(|[x, y, z]| Vector::new(x, y, z));
    for _ in 0..updates {
        ahrs.update(Vector::new(0.0, 0.0, 0.0), a, m);
    }
}

/// Whether the last update ignored a sensor, the bits of its trigger's ratio, and its recovery flag.
fn shown(ahrs: &Ahrs, compass: bool) -> (bool, u32, bool) {
    let (states, flags) = (ahrs.internal_states(), ahrs.flags());
    if compass {
        (states.magnetometer_ignored, states.magnetic_recovery_trigger.to_bits(), flags.magnetic_recovery)
    } else {
        (states.accelerometer_ignored, states.acceleration_recovery_trigger.to_bits(), flags.acceleration_recovery)
    }
}

fn story(name: &str, compass: bool, over: [[f32; 3]; 2], out: &mut impl Write) -> io::Result<()> {
    let mut ahrs = start();
    let stages = [
        ("over its limit, 500 readings", over, 500),
        ("over its limit, 501 readings", over, 1),
        ("then good, 55 readings", [UPRIGHT, NORTH], 55),
        ("then good, 56 readings", [UPRIGHT, NORTH], 1),
    ];
    for (text, readings, updates) in stages {
        hold(&mut ahrs, readings, updates);
        let (ignored, ratio, flag) = shown(&ahrs, compass);
        let (used, up) = (if ignored { "ignored" } else { "used" }, if flag { "yes" } else { "no" });
        writeln!(out, "{name} {text}, {used}: ratio {ratio:08x}, recovery flag up: {up}")?;
    }
    Ok(())
}

/// A compass that stays as it is: the filter turns to it.
fn left(out: &mut impl Write) -> io::Result<()> {
    let (mut ahrs, mut later) = (start(), 0);
    hold(&mut ahrs, [UPRIGHT, WEST], 501);
    while ahrs.flags().magnetic_recovery {
        hold(&mut ahrs, [UPRIGHT, WEST], 1);
        later += 1;
    }
    writeln!(out, "compass left as it is, out of recovery {later} readings later")
}

pub fn print(out: &mut impl Write) -> io::Result<()> {
    story("compass", true, [UPRIGHT, WEST], out)?;
    left(out)?;
    story("accelerometer", false, [LEVEL, NORTH], out)
}
