//! What a run reaches of headings without a compass.

use crate::headings::points;
use crate::orientation::{is_far, is_zero};
use crate::record::Record;
use crate::state::{MAGNETIC, QUATERNION, ahrs_finite};
use crate::tally::{Tally, steps};
use crate::words::f;

/// Whether a point is not finite.
fn is_lost([y, x]: [f32; 2]) -> bool {
    !(y.is_finite() && x.is_finite())
}

impl Tally {
    /// Calls 93 to 95.
    pub fn heading(&mut self, r: &Record, number: u32, before: &[u32; 37], after: &[u32; 37]) {
        self.headings += 1;
        let four = &before[QUATERNION..QUATERNION + 4];
        let [yaw, roll] = points(four);
        let near = |[y, x]: [f32; 2]| y.abs().max(x.abs()) < 1e-3;
        self.state5 += u64::from(!ahrs_finite(before));
        self.steep += u64::from(number == 0 && (near(yaw) || near(roll)));
        self.heading_on_zero += u64::from(is_zero(four));
        self.heading_on_far += u64::from(number == 0 && is_far(four));
        match r[0] {
            0x93 => self.set(r[1], number, is_lost(yaw)),
            0x94 => self.external(r[7], number, is_lost(roll), after),
            _ => self.alone(number, after),
        }
    }

    fn set(&mut self, heading: u32, number: u32, lost: bool) {
        self.set_heading += 1;
        self.set_heading5 += u64::from(number == 5);
        self.set_heading6 += u64::from(number == 6);
        self.set_heading7 += u64::from(number == 7);
        self.yaw7 += u64::from(number == 7 && lost);
        self.ends(heading);
    }

    fn external(&mut self, heading: u32, number: u32, lost: bool, after: &[u32; 37]) {
        self.external += 1;
        self.external5 += u64::from(number == 5);
        self.external6 += u64::from(number == 6);
        self.external7 += u64::from(number == 7);
        self.roll7 += u64::from(number == 7 && lost);
        let (out, ignored) = (number == 0 && after[22] == 0, after[MAGNETIC + 5] == 1);
        self.external_used += u64::from(out && !ignored);
        self.external_ignored += u64::from(out && ignored);
        self.ends(heading);
    }

    fn ends(&mut self, heading: u32) {
        let beside = steps(heading, 360f32.to_bits());
        self.heading_end += u64::from(f(heading).abs() == 360.0);
        self.beside_heading_end += u64::from(beside == 1);
    }

    fn alone(&mut self, number: u32, after: &[u32; 37]) {
        self.alone += 1;
        self.alone5 += u64::from(number == 5);
        self.alone7 += u64::from(number == 7);
        self.zeroed += u64::from(number == 0 && after[22] == 1);
    }
}
