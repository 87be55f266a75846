//! Headings without a compass: points of every octant and where one octant ends; headings at the ends of what is taken and beside them; and
//! the three calls among all others, straight up and down, far from length 1, and on a quaternion of zero.

use crate::degrees::{beside, few_steps, turn};
use crate::generate::{Script, bits};
use crate::random::Random;
use crate::record::{Record, record};
use crate::state::{self, QUATERNION};
use crate::words::{MINUS_ZERO, f, of_v};
use std::f64::consts::{FRAC_PI_2, PI};

/// Sizes of a part at which an angle, or the ratio that it is made of, changes its manner.
const SIZES: [f32; 8] = [0.0, 1e-45, f32::MIN_POSITIVE, 1e-20, 1.0, 3.0, 1e20, f32::MAX];
/// Headings at the ends of what is taken, one step beyond them, and where an angle is easily taken for another.
const HEADINGS: [f32; 13] =
    [0.0, -0.0, 1e-45, 90.0, 180.0, -180.0, 360.0, -360.0, 360.000_03, -360.000_03, f32::NAN, f32::INFINITY, f32::NEG_INFINITY];
/// Orientations straight up, beside that, upside down, turned about, and about both ends of what may be set.
const TURNED: [[f32; 4]; 6] = [
    [0.5, 0.5, 0.5, -0.5],
    [0.5, -0.5, 0.500_1, 0.5],
    [0.0, 1.0, 0.0, 0.0],
    [0.0, 0.0, 0.0, 1.0],
    [2.0, 0.0, 0.0, 0.0],
    [0.3, 0.0, 0.0, -0.4],
];
/// A level sensor at rest.
const STILL: [f32; 6] = [0.0, 0.0, 0.0, 0.0, 0.0, 1.0];

/// The points whose angles are yaw and roll, y first, as the Rust makes them of an orientation.
pub fn points(four: &[u32]) -> [[f32; 2]; 2] {
    let [w, x, y, z] = [0, 1, 2, 3].map(|i| f(four[i]));
    [[w * z + x * y, 0.5 - y * y - z * z], [w * x + y * z, 0.5 - y * y - x * x]]
}

/// A point whose angle is asked for.
fn point(r: &mut Random) -> [u32; 2] {
    let large = r.positive();
    let [one, other] = match r.below(8) {
        0 | 1 => [large, beside(f(large), few_steps(r))],
        2 => [r.pick(&SIZES), r.pick(&SIZES)].map(f32::to_bits),
        3 => [r.loose(), r.loose()],
        4 => [bits(10f64.powf(-46.0 * r.unit())), bits(1.0 + r.unit())],
        5 => [r.any() % 0x80_0000, r.any() % 0x100_0000],
        _ => [bits(r.unit()), bits(r.unit())],
    };
    let parts = if r.one_in(2) { [one, other] } else { [other, one] };
    parts.map(|part| part ^ (r.any() & MINUS_ZERO))
}

/// An orientation with the sensor's x about straight up or down, where yaw and roll are one. Of four equal parts the points are exact.
fn steep(r: &mut Random) -> [u32; 4] {
    if r.one_in(4) {
        return [0; 4].map(|_: u32| bits(r.pick(&[0.5, -0.5])));
    }
    let aside = r.pick(&[0.0, 1.0, 1.0, -1.0]) * 10f64.powf(-7.0 * r.unit());
    let pitch = r.pick(&[FRAC_PI_2, -FRAC_PI_2]) + aside;
    let [roll, yaw] = [r.within(PI), r.within(PI)];
    let [(sr, cr), (sp, cp), (sy, cy)] = [roll, pitch, yaw].map(|angle| (angle / 2.0).sin_cos());
    let length = if r.one_in(2) { 1.0 } else { 2f64.powf(r.within(1.0)) };
    let four =
        [cr * cp * cy + sr * sp * sy, sr * cp * cy - cr * sp * sy, cr * sp * cy + sr * cp * sy, cr * cp * sy - sr * sp * cy];
    four.map(|part| bits(part * length))
}

impl Script<'_> {
    /// The record of an update without its magnetometer, where it is one of those that are given so.
    pub fn without_magnetometer(&mut self, code: u32, args: &[u32]) -> Option<Record> {
        if self.by_headings == 0 || code != 0x86 || !self.random.one_in(self.by_headings) {
            return None;
        }
        if self.random.one_in(2) {
            return Some(record(0x95, &args[..6]));
        }
        let heading = self.heading();
        Some(record(0x94, &[&args[..6], &[heading]].concat()))
    }

    /// Every point and every heading; from then on half of the updates have no magnetometer, and half of the settings are by angles.
    pub fn begin_headings(&mut self) {
        for [y, x] in SIZES.iter().flat_map(|y| SIZES.map(|x| [*y, x])) {
            self.signed(y, x);
        }
        self.every_heading();
        self.every_turn();
        (self.by_angles, self.by_headings) = (2, 2);
    }

    /// Some of it all, for a short script.
    pub fn some_headings(&mut self) {
        let one_step_on = f(beside(1.0, 1));
        let points = [
            [0.0, 0.0],
            [0.0, 1.0],
            [1.0, 0.0],
            [1.0, 1.0],
            [1.0, 2.0],
            [2.0, 1.0],
            [one_step_on, 1.0],
            [1e-45, 3.0],
            [1e-40, 1.0],
        ];
        for [y, x] in points.into_iter().chain([[1e-45, 1e-45], [f32::MAX, f32::MAX]]) {
            self.signed(y, x);
        }
        for [y, x] in [[f32::NAN, 1.0], [1.0, f32::INFINITY]] {
            self.put(0x49, &[y, x].map(f32::to_bits));
        }
        self.every_heading();
        self.every_turn();
        self.by_headings = 16;
    }

    /// A point with each sign of each part.
    fn signed(&mut self, y: f32, x: f32) {
        for signs in 0..4 {
            self.put(0x49, &[y.to_bits() | (signs & 1) << 31, x.to_bits() | (signs & 2) << 30]);
        }
    }

    pub fn point(&mut self) {
        let parts = point(&mut self.random);
        self.put(0x49, &parts);
    }

    /// Every heading, set and with an update in and out of startup, and readings that are not finite, beside one beyond the range too.
    fn every_heading(&mut self) {
        let (still, nan) = (STILL.map(f32::to_bits), f32::NAN.to_bits());
        for heading in HEADINGS.map(f32::to_bits) {
            self.put(0x93, &[heading]);
            self.put(0x94, &[&still[..], &[heading]].concat());
        }
        for (at, heading) in [(0, bits(30.0)), (5, bits(400.0))] {
            let mut given = still;
            given[at] = nan;
            self.put(0x94, &[&given[..], &[heading]].concat());
            self.put(0x95, &given);
        }
        for code in [0x83, 0x84] {
            self.put(code, &[]);
            self.put(0x93, &[bits(100.0)]);
            self.put(0x94, &[&still[..], &[bits(-100.0)]].concat());
            self.put(0x95, &still);
        }
    }

    /// What the three calls may find: orientations that are easily got wrong, a knock, the end of startup, recovery, and no orientation.
    fn every_turn(&mut self) {
        for four in TURNED.map(|four| four.map(f32::to_bits)) {
            self.put(0x85, &four);
            self.put(0x93, &[bits(100.0)]);
            self.put(0x85, &four);
            self.update_by(&STILL, 20.0);
            self.put(0x85, &four);
            self.update_by_none(&STILL);
        }
        self.shaken();
        self.lose();
    }

    /// An update with an external heading.
    fn update_by(&mut self, readings: &[f32; 6], heading: f64) -> u32 {
        self.put(0x94, &[&readings.map(f32::to_bits)[..], &[bits(heading)]].concat())
    }

    /// And with neither heading nor magnetometer.
    fn update_by_none(&mut self, readings: &[f32; 6]) -> u32 {
        self.put(0x95, &readings.map(f32::to_bits))
    }

    /// Fresh, with this gain: at 11 startup ends with the first update. Its limits are of 10 degrees, and T is 3.
    fn fresh(&mut self, gain: f64) {
        let (limit, angle) = (state::limit_of(10.0).to_bits(), bits(10.0));
        self.put(0x80, &[bits(100.0), 0, bits(gain), bits(300.0), limit, limit, bits(0.035), angle, angle]);
    }

    /// Headings after a knock, with which startup ends, and that are off until they are taken all the same.
    fn shaken(&mut self) {
        let mut knock = [0.0; 6];
        knock[self.random.below(3) as usize] = 1000.0;
        let updates: [fn(&mut Self, &[f32; 6]) -> u32; 2] = [|s, readings| s.update_by(readings, 30.0), Self::update_by_none];
        for update in updates {
            self.fresh(0.5);
            update(self, &knock);
            self.put(0x93, &[bits(-30.0)]);
            self.fresh(11.0);
            update(self, &STILL);
        }
        self.fresh(0.5);
        self.put(0x84, &[]);
        for heading in [80.0, 80.0, 80.0, 80.0, 0.0, 0.0] {
            self.update_by(&STILL, heading);
        }
    }

    /// In startup and out of it: rates too large for a float, and rates of which the quaternion becomes zero.
    pub fn lose(&mut self) {
        let (mut fast, at) = (STILL, self.random.below(3) as usize);
        for startup in [true, false] {
            self.fresh(0.5);
            if !startup {
                self.put(0x84, &[]);
            }
            self.put(0x82, &[f32::MAX.to_bits()]);
            fast[at] = 200.0;
            self.update_by(&fast, 20.0);
            self.update_by_none(&fast);
            self.put(0x81, &self.unlimited());
            fast[at] = 1e22;
            self.update_by_none(&fast);
            self.put(0x93, &[bits(50.0)]);
            self.update_by_none(&STILL);
            self.update_by(&STILL, 20.0);
            self.fit_quaternion();
            self.update_by(&fast, 20.0);
        }
        self.fit_quaternion();
    }

    /// Settings without an overrange, at a second an update.
    fn unlimited(&self) -> [u32; 9] {
        [bits(1.0), 0, bits(0.5), 0, f32::MAX.to_bits(), f32::MAX.to_bits(), 0, 0, 0]
    }

    /// A heading: any, or one that the orientation nearly has. North is y under the second convention.
    fn heading(&mut self) -> u32 {
        if self.random.one_in(2) {
            return turn(&mut self.random);
        }
        let now = self.machine.ahrs_words();
        let [y, x] = points(&now[QUATERNION..])[0].map(f64::from);
        let north = if now[1] == 1 { -90.0 } else { 0.0 };
        bits(y.atan2(x).to_degrees() + north + self.random.within(2.0))
    }

    /// One of the three calls.
    pub fn one_heading(&mut self) {
        let mut u = self.common_update();
        if self.random.one_in(2) {
            u[3..6].copy_from_slice(&of_v(self.machine.ahrs.as_ref().unwrap().gravity()));
        }
        u[6] = self.heading();
        self.put_one(&u);
    }

    /// One of them with a word or two of any kind.
    pub fn strange_heading(&mut self) {
        let mut u = self.common_update();
        u[6] = turn(&mut self.random);
        for _ in 0..1 + self.random.below(2) {
            let at = self.random.below(7) as usize;
            u[at] = self.random.loose();
        }
        self.put_one(&u);
    }

    /// Any of them, with the heading in the seventh word.
    fn put_one(&mut self, u: &[u32; 9]) {
        match self.random.below(3) {
            0 => self.put(0x93, &u[6..7]),
            1 => self.put(0x94, &u[..7]),
            _ => self.put(0x95, &u[..6]),
        };
    }

    /// Straight up or down, and some of the calls from there.
    pub fn set_steep(&mut self) {
        let four = steep(&mut self.random);
        self.put(0x85, &four);
        for _ in 0..1 + self.random.below(3) {
            self.one_heading();
        }
    }

    /// Some calls of one kind.
    pub fn headings(&mut self) {
        match self.random.below(10) {
            0 => (0..80).for_each(|_| self.point()),
            1 => (0..60).for_each(|_| self.set_steep()),
            2 => (0..60).for_each(|_| self.from_any()),
            3 => (0..20).for_each(|_| self.strange_heading()),
            4 => self.lose(),
            5 => self.both_kinds(),
            6 | 7 => self.pole(),
            _ => self.edge(),
        }
    }

    /// An orientation that may be far from length 1, and some of the calls from there, in startup or out of it.
    fn from_any(&mut self) {
        self.fit_quaternion();
        if self.random.one_in(4) {
            let code = self.random.pick(&[0x83, 0x84]);
            self.put(code, &[]);
        }
        for _ in 0..1 + self.random.below(3) {
            self.one_heading();
        }
    }
}
