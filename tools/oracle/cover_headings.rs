//! What a script reaches of angles of points, and of headings without a compass.

use crate::axes::over;
use crate::cover::Cover;
use crate::headings::points;
use crate::orientation::{is_far, is_zero};
use crate::record::{QUIET, Record};
use crate::state::{MAGNETIC, QUATERNION};
use crate::words::{MINUS_ZERO, all_finite, f};

/// The octants, from the one behind and below on.
const OCTANTS: [&str; 8] = ["-180", "-135", "-90", "-45", "0", "45", "90", "135"];
const SIGNS: [&str; 4] = ["0 and 0", "-0 and 0", "0 and -0", "-0 and -0"];

/// The octant that a point is within, if it is within one.
fn octant(y: f32, x: f32) -> Option<usize> {
    let angle = f64::from(y).atan2(f64::from(x)).to_degrees() / 45.0 + 4.0;
    (y != 0.0 && x != 0.0 && y.abs() != x.abs()).then(|| (angle as usize).min(7))
}

impl Cover {
    pub fn headings(&mut self, r: &Record, number: u32, before: Option<&[u32; 37]>) {
        match (r[0] & !QUIET, before) {
            (0x49, _) => self.point(r, number),
            (0x93, Some(before)) => {
                self.heading("heading", r[1], number);
                self.set(r, number, before);
            }
            (0x94, Some(before)) => {
                self.heading("external heading", r[7], number);
                let beyond = f(r[7]).is_finite() && f(r[7]).abs() > 360.0;
                self.count("> external heading beyond 360 beside what is not finite, refused 5", number == 5 && beyond);
                self.by_heading("external heading", r, number, before);
                self.external(number, before);
            }
            (0x95, Some(before)) => {
                self.by_heading("no magnetometer", r, number, before);
                self.alone(r, number, before);
            }
            _ => (),
        }
    }

    /// The angle of a point.
    fn point(&mut self, r: &Record, number: u32) {
        let (y, x, taken) = (f(r[1]), f(r[2]), number == 0);
        let (small, large) = (y.abs().min(x.abs()), y.abs().max(x.abs()));
        let minus = |w: u32| w == MINUS_ZERO;
        for (n, name) in OCTANTS.into_iter().enumerate() {
            self.count(&format!("> angle in the octant from {name}"), taken && octant(y, x) == Some(n));
        }
        for (n, name) in SIGNS.into_iter().enumerate() {
            self.count(&format!("> angle of {name}"), (r[1], r[2]) == ((n as u32 & 1) << 31, (n as u32 & 2) << 30));
        }
        for (name, here) in
            [("0", x > 0.0 && y == 0.0), ("180", x < 0.0 && y == 0.0), ("90", x == 0.0 && y > 0.0), ("-90", x == 0.0 && y < 0.0)]
        {
            self.count(&format!("> angle at {name}"), taken && here);
            self.count(&format!("> angle at {name} beside a minus zero"), taken && here && (minus(r[1]) || minus(r[2])));
        }
        for (name, up, ahead) in [("45", true, true), ("135", true, false), ("-45", false, true), ("-135", false, false)] {
            self.count(
                &format!("> angle at {name}"),
                taken && small == large && large > 0.0 && (y > 0.0, x > 0.0) == (up, ahead),
            );
        }
        let mut at = |what: &str, here: bool| self.count(&format!("> angle {what}"), here);
        at("one step beside a diagonal", taken && small.to_bits() + 1 == large.to_bits());
        at("whose ratio vanishes", taken && small > 0.0 && small / large == 0.0);
        at("whose ratio is subnormal", taken && (small / large).is_subnormal());
        at("of two subnormals", taken && small > 0.0 && large.is_subnormal());
        at("of the largest f32", taken && large == f32::MAX);
        at("of a y that is not finite, refused", number == 5 && x.is_finite());
        at("of an x that is not finite, refused", number == 5 && y.is_finite());
    }

    /// A heading, by itself.
    fn heading(&mut self, name: &str, word: u32, number: u32) {
        let x = f(word);
        let mut at = |what: &str, here: bool| self.count(&format!("> {name} {what}"), here);
        for (text, place) in [("0", 0.0f32), ("-0", -0.0), ("180", 180.0), ("-180", -180.0), ("360", 360.0), ("-360", -360.0)] {
            at(text, number == 0 && word == place.to_bits());
        }
        at("of a subnormal", number == 0 && x.is_subnormal());
        at("one step above 360, refused", number == 6 && word == 360f32.to_bits() + 1);
        at("one step below -360, refused", number == 6 && word == (-360f32).to_bits() + 1);
        at("of a NaN, refused", number == 5 && x.is_nan());
        at("of an infinity, refused", number == 5 && x.is_infinite());
    }

    /// One that is set.
    fn set(&mut self, r: &Record, number: u32, before: &[u32; 37]) {
        let (taken, four) = (number == 0, &before[QUATERNION..QUATERNION + 4]);
        let [y, x] = points(four)[0];
        let yaw = f64::from(y).atan2(f64::from(x)).to_degrees();
        let counts = self.machine.ignored;
        let mut at = |what: &str, here: bool| self.count(&format!("> heading {what}"), taken && here);
        at("set in startup", before[22] == 1);
        at("set out of startup", before[22] == 0);
        at("set on a quaternion of zero", is_zero(four));
        at("set far from length 1", is_far(four));
        at("set at yaw's zero point", y == 0.0 && x == 0.0);
        at("set near it", y.abs().max(x.abs()) < 1e-3 && (y != 0.0 || x != 0.0));
        at("set from behind", x < 0.0);
        at("set beyond a half turn", (yaw - f64::from(f(r[1]))).abs() > 180.0);
        at("leaves the acceleration count", counts[0] > 0);
        at("leaves the magnetic count", counts[1] > 0);
        let axes = self.machine.axes;
        self.count("> axes left by a heading", taken && axes != 0);
    }

    /// An update without a magnetometer.
    fn by_heading(&mut self, name: &str, r: &Record, number: u32, before: &[u32; 37]) {
        let (taken, four, after) = (number == 0, &before[QUATERNION..QUATERNION + 4], self.machine.ahrs_words());
        let (startup, axes) = (after[22] == 1, over(&r[1..4], before));
        let mut at = |what: &str, here: bool| self.count(&format!("> {name} {what}"), here);
        at("in startup", taken && startup);
        at("out of startup", taken && !startup);
        at("with which startup ends", taken && before[22] == 1 && !startup);
        at("with an overrange", taken && axes != 0);
        at("far from length 1", taken && is_far(four));
        at("on a quaternion of zero, refused", number == 7 && is_zero(four));
        at("to a quaternion of zero", taken && !startup && is_zero(&after[QUATERNION..QUATERNION + 4]));
        at("to a quaternion of zero in startup", taken && startup && is_zero(&after[QUATERNION..QUATERNION + 4]));
        at("refused 7 in startup", number == 7 && !is_zero(four) && before[22] == 1);
        at("refused 7 out of startup", number == 7 && !is_zero(four) && before[22] == 0);
        at("that skips the accelerometer", taken && is_zero(&r[4..7]));
    }

    /// What an external heading does as a magnetometer, and the roll that it asks for.
    fn external(&mut self, number: u32, before: &[u32; 37]) {
        let (after, taken) = (self.machine.ahrs_words(), number == 0);
        let [y, x] = points(&before[QUATERNION..])[1];
        let recovers = |w: &[u32; 37]| w[MAGNETIC + 3] as i32 > w[MAGNETIC + 4] as i32;
        let (was, is, ignored) = (recovers(before), recovers(&after), after[MAGNETIC + 5] == 1);
        let mut at = |what: &str, here: bool| self.count(&format!("> external heading {what}"), taken && here);
        at("at roll's zero point", y == 0.0 && x == 0.0);
        at("near it", y.abs().max(x.abs()) < 1e-3 && (y != 0.0 || x != 0.0));
        at("of a roll beyond a right angle", x < 0.0);
        at("used out of startup", after[22] == 0 && !ignored);
        at("over its limit, ignored", ignored);
        at("with which recovery begins", !was && is);
        at("with which recovery ends", was && !is);
    }

    /// What an update with neither does; in startup it turns yaw to 0.
    fn alone(&mut self, r: &Record, number: u32, before: &[u32; 37]) {
        let (taken, counts, startup) = (number == 0, self.machine.ignored, self.machine.ahrs_words()[22] == 1);
        let [y, x] = points(&before[QUATERNION..])[0];
        let mut at = |what: &str, here: bool| self.count(&format!("> no magnetometer {what}"), here);
        at("turned by a right angle in startup", taken && startup && y.abs() > x.abs());
        at("turned from behind in startup", taken && startup && x < 0.0);
        at("that is ignored again", taken && counts[1] > 1);
        at("beside a gyroscope that is not finite, refused", number == 5 && !all_finite(&r[1..4]));
        at("beside an accelerometer that is not finite, refused", number == 5 && !all_finite(&r[4..7]));
    }
}
