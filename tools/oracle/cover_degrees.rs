//! What a script reaches of sines and cosines, and of limits in degrees.

use crate::cover::{Cover, SENSORS};
use crate::filter::RIGHT_ANGLE;
use crate::record::{QUIET, Record, call};
use crate::words::{MINUS_ZERO, f};

/// Whether a size is so many steps above another.
fn is_beside(word: u32, size: f32, steps: i32) -> bool {
    word & !MINUS_ZERO == size.to_bits().saturating_add_signed(steps)
}

fn is_octant(word: u32) -> bool {
    f(word) % 45.0 == 0.0
}

impl Cover {
    /// By the kind of the limits before the call.
    pub fn degrees(&mut self, r: &Record, number: u32, were_angles: bool) {
        match r[0] & !QUIET {
            0x47 | 0x48 => self.sine(r, number),
            0x90 | 0x91 => self.angles(r, number),
            0x8E => self.count("> settings read back with angles", were_angles),
            _ => (),
        }
        let (changes, what) = match r[0] & !QUIET {
            0x80 => (were_angles, "> start by limits after angles"),
            0x81 => (were_angles, "> settings by limits after angles"),
            0x90 => (!were_angles, "> start by angles after limits"),
            0x91 => (!were_angles, "> settings by angles after limits"),
            _ => return,
        };
        self.count(what, changes && number == 0);
    }

    fn sine(&mut self, r: &Record, number: u32) {
        let (name, taken, word) = (call(r[0] & !QUIET).unwrap().1, number == 0, r[1]);
        let size = f(word).abs();
        let beside_octant = !is_octant(word) && (is_octant(word.wrapping_add(1)) || is_octant(word.wrapping_sub(1)));
        let mut at = |what: &str, here: bool| self.count(&format!("> {name} {what}"), here);
        at("of zero", word == 0);
        at("of minus zero", word == MINUS_ZERO);
        at("of a subnormal", size.is_subnormal());
        at("below a degree", size > 0.0 && size < 1.0);
        at("at a degree or a step beside it", (-1..=1).any(|steps| is_beside(word, 1.0, steps)));
        at("at a multiple of 45", taken && size > 0.0 && is_octant(word));
        at("one step beside one", taken && size > 1.0 && beside_octant);
        at("below 0", taken && f(word) < 0.0);
        at("one step beyond 360", is_beside(word, 360.0, 1));
    }

    fn angles(&mut self, r: &Record, number: u32) {
        let (taken, after) = (number == 0, self.machine.ahrs.is_some().then(|| self.machine.ahrs_words()));
        let off = taken && (f(r[3]) == 0.0 || f(r[7]) == 0.0);
        self.count("> angles with rejection off", off);
        for ((name, _, limit, _), word) in SENSORS.into_iter().zip([r[5], r[6]]) {
            let used = after.map_or(0.0, |w| f(w[limit]));
            let mut at = |what: &str, here: bool| self.count(&format!("> {name} angle {what}"), here);
            at("0", taken && !off && word == 0);
            at("-0", taken && !off && word == MINUS_ZERO);
            at("below a degree", taken && f(word) > 0.0 && f(word) < 1.0);
            at("whose square vanishes", taken && f(word) > 0.0 && used == 0.0);
            at("90", taken && word == RIGHT_ANGLE.to_bits());
            at("one step above 90, refused", number == 6 && word == RIGHT_ANGLE.to_bits() + 1);
            at("one step below 0, refused", number == 6 && word == MINUS_ZERO + 1);
            at("not finite, refused", number == 5 && !f(word).is_finite());
        }
    }
}
