//! The axes that went over the gyroscope's range, worked out beside the Rust, whose flag says only that some did. A set is a
//! word: 1 for x, 2 for y and 4 for z, added up.

use crate::record::UPDATES;
use crate::state::{OVERRANGE, PRODUCT};
use crate::words::f;

/// The axes about which a gyroscope is over, by the words of the state before the update.
pub fn over(gyroscope: &[u32], before: &[u32; 37]) -> u32 {
    let is_over = |w: u32| before[OVERRANGE] == 1 && f(w).abs() > f(before[PRODUCT]);
    gyroscope.iter().zip([1, 2, 4]).map(|(w, axis)| if is_over(*w) { axis } else { 0 }).sum()
}

/// The axes after an accepted call: the latest that went over, until startup ends or is skipped, or a restart.
pub fn after(code: u32, was: u32, over: u32, startup: bool) -> u32 {
    match code {
        0x80 | 0x83 | 0x84 | 0x90 => 0,
        _ if UPDATES.contains(&code) && !startup => 0,
        _ if UPDATES.contains(&code) && over != 0 => over,
        _ => was,
    }
}
