//! For how many updates in a row, up to now, each sensor was ignored, counted beside the Rust, which keeps only a mark: the
//! accelerometer's count and then the magnetometer's.

use crate::record::UPDATES;
use fusion_ahrs::Ahrs;

/// The Rust's marks: whether the last update ignored the accelerometer, and the magnetometer.
pub fn marks(ahrs: &Ahrs) -> [bool; 2] {
    let s = ahrs.internal_states();
    [s.accelerometer_ignored, s.magnetometer_ignored]
}

/// The counts after an accepted call, by the marks after it. An update that goes over range clears them before it counts.
pub fn after(code: u32, was: [u32; 2], over: u32, marks: [bool; 2]) -> [u32; 2] {
    let from = if over == 0 { was } else { [0; 2] };
    let counted = |i: usize| if marks[i] { from[i].saturating_add(1) } else { 0 };
    match code {
        0x80 | 0x83 | 0x90 => [0; 2],
        _ if UPDATES.contains(&code) => [counted(0), counted(1)],
        _ => was,
    }
}
