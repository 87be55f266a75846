//! The Rust's constants as bits, and for each angle given its squared limit and the port's: a program of its own, which tools/constants
//! builds over a copy of the crate whose private names are public, and over the exported text.

use fusion_ahrs::{BiasSettings, DEG_TO_RAD, ahrs, bias};
use gateweave::trig;

/// The coefficient of a cutoff of 1/2 at rate 1, ((2 x pi) x 1/2) x 1, which is the pi of bias.rs itself.
fn pi() -> f32 {
    let settings = BiasSettings { sample_rate: 1.0, cutoff_frequency: 0.5, ..Default::default() };
    bias::derived(&settings).0
}

fn main() {
    let floats = [
        ("DEG_TO_RAD", DEG_TO_RAD),
        ("PI", pi()),
        ("INITIAL_STARTUP_GAIN", ahrs::INITIAL_STARTUP_GAIN),
        ("STARTUP_PERIOD", ahrs::STARTUP_PERIOD),
        ("OVERRANGE_FACTOR", ahrs::OVERRANGE_FACTOR),
        ("MAX", ahrs::rejection_threshold(0.0)),
    ];
    for (name, value) in floats {
        println!("{name} {:08X} {value:?}", value.to_bits());
    }
    println!("RECOVERY_DECREMENT {0:08X} {0}", ahrs::RECOVERY_DECREMENT);
    for angle in std::env::args().skip(1) {
        let degrees = angle.parse().expect("an angle");
        let (rust, port) = (ahrs::rejection_threshold(degrees), trig::rejection_threshold(degrees));
        println!("{angle} {:08X} {:08X} {rust:?} {port:?}", rust.to_bits(), port.to_bits());
    }
}
