//! Limits in degrees: sines and cosines where they are easily got wrong; settings by angles of every kind among settings by squared
//! limits; and updates under limits that come from angles.

use crate::filter::RIGHT_ANGLE;
use crate::generate::{Script, bits};
use crate::random::Random;
use crate::record::{Record, record};
use crate::state::{self, ACCELERATION, MAGNETIC, QUATERNION};
use crate::words::{MINUS_ZERO, f};

/// Sizes at which a sine, or what is made of it, changes its manner; the last eight are the multiples of 45.
const PLACES: [f32; 15] =
    [0.0, 1e-45, f32::MIN_POSITIVE, 1e-20, 0.01, 0.5, 1.0, 45.0, RIGHT_ANGLE, 135.0, 180.0, 225.0, 270.0, 315.0, 360.0];
/// Settings by squared limits and by angles, starts first.
const SETTLING: [u32; 4] = [0x80, 0x81, 0x90, 0x91];

/// The float so many steps above a size, or below it.
pub fn beside(size: f32, steps: i32) -> u32 {
    size.to_bits().saturating_add_signed(steps)
}

pub fn few_steps(r: &mut Random) -> i32 {
    r.below(5) as i32 - 2
}

/// An angle whose sine is asked for, or a heading.
pub fn turn(r: &mut Random) -> u32 {
    let size = match r.below(8) {
        0 | 1 => beside(r.pick(&PLACES), few_steps(r)),
        2 => bits(45.0 * r.below(9) as f64 + r.within(0.01)),
        3 => bits(10f64.powf(-45.0 * r.unit())),
        4 => bits(1.0 + r.within(0.01)),
        5 => bits(2.0 * r.unit()),
        6 if r.one_in(2) => r.loose(),
        _ => bits(365.0 * r.unit()),
    };
    size ^ (r.any() & MINUS_ZERO)
}

/// An angle of rejection.
fn angle(r: &mut Random) -> u32 {
    match r.below(10) {
        0 => r.pick(&[0, MINUS_ZERO]),
        1 => beside(RIGHT_ANGLE, -(r.below(3) as i32)),
        // The squares of the smallest vanish.
        2 => r.pick(&[1, 0x7F_FFFF, 0x80_0000, bits(1e-20), bits(1e-18)]),
        3 => bits(10f64.powf(-4.0 * r.unit())),
        4 => beside(1.0, few_steps(r)),
        5 => bits(90.0 * r.unit()),
        _ => bits(r.pick(&[1.0, 5.0, 10.0, 15.0, 20.0, 30.0, 45.0])),
    }
}

/// One that is none.
fn no_angle(r: &mut Random) -> u32 {
    match r.below(4) {
        0 => beside(RIGHT_ANGLE, 1),
        1 => r.pick(&[MINUS_ZERO | 1, bits(-10.0), bits(90.01), bits(180.0), bits(360.0), f32::MAX.to_bits()]),
        2 => r.not_finite(),
        _ => r.loose(),
    }
}

/// The angle whose limit is this square, if one is.
fn angle_of(square: f32) -> Option<u32> {
    let guess = bits((2.0 * f64::from(square).sqrt()).asin().to_degrees());
    (0..8).flat_map(|n| [guess + n, guess - n]).find(|angle| state::limit_of(f(*angle)) == square)
}

impl Script<'_> {
    /// The record by angles of settings by squared limits, where they come from angles and where it is one of those that are given so.
    pub fn in_degrees(&mut self, code: u32, args: &[u32]) -> Option<Record> {
        if self.by_angles == 0 || !matches!(code, 0x80 | 0x81) || !self.random.one_in(self.by_angles) {
            return None;
        }
        let [rate, convention, gain, range, .., timeout, acceleration, magnetic] = *args else { return None };
        let comes_from =
            |limit: u32, angle: u32| (0.0..=RIGHT_ANGLE).contains(&f(angle)) && state::limit_of(f(angle)).to_bits() == limit;
        let both = comes_from(args[4], acceleration) && comes_from(args[5], magnetic);
        both.then(|| record(code + 0x10, &[rate, convention, gain, range, acceleration, magnetic, timeout]))
    }

    /// Every place and the floats beside it, and every angle; from then on half of the settings that may be are given by angles.
    pub fn begin_degrees(&mut self) {
        self.by_angles = 2;
        for place in PLACES {
            [-1, 0, 1].map(|steps| self.at_place(place, steps));
        }
        self.not_finite();
        self.every_angle();
    }

    /// Some of it all, for a short script.
    pub fn some_degrees(&mut self) {
        self.by_angles = 4;
        PLACES.map(|place| self.at_place(place, 0));
        // A multiple of 45 below 360, which is taken on either side of it.
        let (octant, steps) = (self.random.pick(&PLACES[7..14]), self.random.pick(&[-1, 1]));
        self.at_place(octant, steps);
        self.at_place(360.0, 1);
        self.not_finite();
        self.every_angle();
        (0..3).for_each(|_| self.both_kinds());
        self.near_limit(ACCELERATION);
        self.near_limit(MAGNETIC);
    }

    fn at_place(&mut self, place: f32, steps: i32) {
        for sign in [0, MINUS_ZERO] {
            [0x47, 0x48].map(|code| self.put(code, &[beside(place, steps) | sign]));
        }
    }

    fn not_finite(&mut self) {
        for x in [f32::NAN, f32::INFINITY, f32::NEG_INFINITY] {
            [0x47, 0x48].map(|code| self.put(code, &[x.to_bits()]));
        }
    }

    pub fn sine(&mut self) {
        let x = turn(&mut self.random);
        let code = self.random.pick(&[0x47, 0x48]);
        self.put(code, &[x]);
    }

    /// Some calls of one kind.
    pub fn degrees(&mut self) {
        match self.random.below(9) {
            0 => (0..150).for_each(|_| self.sine()),
            1 | 2 => self.both_kinds(),
            3 => (0..8).for_each(|_| self.strange_angles()),
            4 => (0..3).for_each(|_| self.near_limit(ACCELERATION)),
            5 => (0..3).for_each(|_| self.near_limit(MAGNETIC)),
            6 => self.pole(),
            _ => self.edge(),
        }
    }

    /// Every angle that is easily taken for another, of either sensor, and what else refuses settings, by both calls.
    fn every_angle(&mut self) {
        let (ten, half, nan) = (bits(10.0), bits(0.5), f32::NAN.to_bits());
        let of = |first: u32, second: u32| [bits(100.0), 0, half, 0, first, second, half];
        let angles = [0, MINUS_ZERO, MINUS_ZERO | 1, 1, beside(RIGHT_ANGLE, 0), beside(RIGHT_ANGLE, 1), nan];
        // The period of a rate of 1 step is infinite; with a gain or a timeout of 0 nothing is rejected.
        let others = [(0, 1), (0, 0), (1, 3), (2, 0), (6, 0)].map(|(at, word)| {
            let mut s = of(ten, ten);
            s[at] = word;
            s
        });
        let settings = angles.iter().flat_map(|angle| [of(*angle, ten), of(ten, *angle)]).chain(others);
        for s in settings {
            [0x90, 0x91].map(|code| self.put(code, &s));
        }
    }

    pub fn angle_settings(&mut self) -> [u32; 7] {
        let [rate, convention, gain, range, .., timeout, _, _] = self.ahrs_settings();
        let r = &mut self.random;
        [rate, convention, gain, range, angle(r), angle(r), timeout]
    }

    /// Settings of the one kind after those of the other, read back, with updates between.
    pub fn both_kinds(&mut self) {
        for _ in 0..4 {
            let code = self.random.pick(&SETTLING);
            if code < 0x90 {
                let s = self.ahrs_settings();
                self.put(code, &s);
            } else {
                let s = self.angle_settings();
                self.put(code, &s);
            }
            self.put(0x8E, &[]);
            if self.random.one_in(2) {
                self.put(0x84, &[]);
                self.row();
            }
        }
    }

    /// Settings by angles with one or two words that may be refused.
    pub fn strange_angles(&mut self) {
        let mut s = self.angle_settings();
        let r = &mut self.random;
        for _ in 0..1 + r.below(2) {
            let at = r.below(7) as usize;
            s[at] = match at {
                1 => r.pick(&[3, 4, 255, 256, 258, 1 << 31]),
                4 | 5 => no_angle(r),
                _ => r.loose(),
            };
        }
        let code = r.pick(&[0x90, 0x91]);
        self.put(code, &s);
    }

    /// An update whose squared residual is the limit of an angle, under that angle and under those a step beside it.
    pub fn near_limit(&mut self, sensor: usize) {
        let mut tried = (0..8).filter_map(|_| self.residual(sensor));
        let Some((u, angle)) = tried.find_map(|(u, square)| Some((u, angle_of(square)?))) else { return };
        let now = self.machine.ahrs_words();
        for angle in [angle, angle - 1, angle + 1] {
            let mut s = [bits(100.0), now[1], bits(0.5), 0, 0, 0, bits(0.05)];
            s[if sensor == ACCELERATION { 4 } else { 5 }] = angle;
            self.put(0x91, &s);
            self.put(0x84, &[]);
            self.put(0x85, &now[QUATERNION..QUATERNION + 4]);
            self.put(0x86, &u);
        }
    }
}
