//! The Rust with its fields public, and nothing else changed: a whole state is read field by field, and any limit can be set.

use crate::words::bits;
use fusion_ahrs::{Ahrs, AhrsSettings, Bias};

pub fn of_ahrs(ahrs: &Ahrs) -> [u32; 37] {
    let (s, c, q, a) = (&ahrs.settings, &ahrs.config, &ahrs.quaternion, &ahrs.accelerometer);
    let (i, m) = (&ahrs.acceleration, &ahrs.magnetic);
    [
        bits(s.sample_rate),
        s.convention as u32,
        bits(s.gain),
        bits(s.gyroscope_range),
        bits(s.acceleration_rejection),
        bits(s.magnetic_rejection),
        bits(s.rejection_timeout),
        bits(c.sample_period),
        bits(c.gain),
        bits(c.startup_gain_rate),
        c.overrange_enabled as u32,
        bits(c.overrange_threshold),
        bits(c.acceleration_rejection),
        bits(c.magnetic_rejection),
        c.rejection_timeout as u32,
        bits(q.w),
        bits(q.x),
        bits(q.y),
        bits(q.z),
        bits(a.x),
        bits(a.y),
        bits(a.z),
        ahrs.startup as u32,
        bits(ahrs.startup_gain),
        ahrs.overrange_recovery as u32,
        bits(i.half_residual.x),
        bits(i.half_residual.y),
        bits(i.half_residual.z),
        i.recovery_trigger as u32,
        i.recovery_threshold as u32,
        i.ignored as u32,
        bits(m.half_residual.x),
        bits(m.half_residual.y),
        bits(m.half_residual.z),
        m.recovery_trigger as u32,
        m.recovery_threshold as u32,
        m.ignored as u32,
    ]
}

pub fn of_bias(bias: &Bias) -> [u32; 10] {
    let (s, o) = (&bias.settings, &bias.offset);
    [
        bits(s.sample_rate),
        bits(s.stationary_threshold),
        bits(s.stationary_period),
        bits(s.cutoff_frequency),
        bits(bias.filter_coefficient),
        bias.timeout,
        bias.timer,
        bits(o.x),
        bits(o.y),
        bits(o.z),
    ]
}

/// What the Rust's `rejection_threshold` gives for an angle.
pub fn limit_of(degrees: f32) -> f32 {
    let settings = AhrsSettings { gain: 1.0, rejection_timeout: 1.0, acceleration_rejection: degrees, ..Default::default() };
    Ahrs::with_settings(settings).config.acceleration_rejection
}

/// The floats of a state that more than settings and a period change: orientation, accelerometer, startup gain, both residuals.
pub fn floats(ahrs: &mut Ahrs) -> [&mut f32; 14] {
    let (q, a) = (&mut ahrs.quaternion, &mut ahrs.accelerometer);
    let (i, m) = (&mut ahrs.acceleration.half_residual, &mut ahrs.magnetic.half_residual);
    [
        &mut q.w,
        &mut q.x,
        &mut q.y,
        &mut q.z,
        &mut a.x,
        &mut a.y,
        &mut a.z,
        &mut ahrs.startup_gain,
        &mut i.x,
        &mut i.y,
        &mut i.z,
        &mut m.x,
        &mut m.y,
        &mut m.z,
    ]
}

/// Any limit will do here, so no angle is looked for.
pub fn angle_of(_: f32) -> Option<f32> {
    Some(0.0)
}

pub fn angle_for(limit: f32) -> Option<f32> {
    angle_of(limit)
}

/// The limits in use are the ones given, where the Rust has rejection on: then an angle of 90 degrees is a limit of its own.
pub fn hold_limits(ahrs: &mut Ahrs, given: [(u32, u32); 2]) {
    let [(acceleration, _), (magnetic, _)] = given;
    let right_angle = Ahrs::with_settings(AhrsSettings { acceleration_rejection: 90.0, ..ahrs.settings });
    if right_angle.config.acceleration_rejection < f32::MAX {
        ahrs.config.acceleration_rejection = f32::from_bits(acceleration);
        ahrs.config.magnetic_rejection = f32::from_bits(magnetic);
    }
}
