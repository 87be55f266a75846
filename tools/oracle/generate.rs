//! Scripts from a seed. The generator runs the calls that it makes, so that it can aim at the state: a limit equal to the
//! squared residual, a rate equal to the overrange threshold, a T below the trigger.

use crate::machine::{Answer, Machine, gives};
use crate::orientation::fit;
use crate::random::Random;
use crate::record::{CALLS, QUIET, READS, Record, UPDATES, is_of_degrees, record};
use crate::state;
use crate::words::packed;

/// What each call is handed to, with the Rust's answer to it and the states after it.
pub type Out<'a> = dyn FnMut(&Record, &Answer, &Machine) + 'a;

/// A script in the making. Each call is handed on with the Rust's answer to it; one call in `quiet` prints its state.
pub struct Script<'a> {
    pub random: Random,
    pub machine: Machine,
    pub out: &'a mut Out<'a>,
    pub quiet: u64,
    pub left: u64,
    /// Updates refused with 7 since the last accepted one, and after how many the quaternion is set anew.
    pub stuck: u32,
    pub patience: u32,
    /// Startup is skipped after one update in so many; never by itself where this is 0.
    pub haste: u64,
    /// Of settings whose limits come from angles one in so many is given by the angles; none where this is 0.
    pub by_angles: u64,
    /// Of updates one in so many has a heading in place of a magnetometer, or neither; none where this is 0.
    pub by_headings: u64,
}

pub fn bits(x: f64) -> u32 {
    (x as f32).to_bits()
}

impl Script<'_> {
    pub fn put(&mut self, code: u32, args: &[u32]) -> u32 {
        let r =
            self.in_degrees(code, args).or_else(|| self.without_magnetometer(code, args)).unwrap_or_else(|| record(code, args));
        self.put_record(r).number
    }

    pub fn put_record(&mut self, mut r: Record) -> Answer {
        if self.left == 0 {
            return gives([]);
        }
        self.left -= 1;
        if self.quiet > 1 && !self.random.one_in(self.quiet) {
            r[0] |= QUIET;
        }
        let answer = self.machine.call(&r);
        (self.out)(&r, &answer, &self.machine);
        if UPDATES.contains(&(r[0] & !QUIET)) {
            self.leave(answer.number);
        }
        answer
    }

    /// After an update: leaves what would take up the script.
    fn leave(&mut self, number: u32) {
        // On a quaternion of zero every update is refused: leave it after a few.
        self.stuck = if number == 7 { self.stuck + 1 } else { 0 };
        if self.stuck == self.patience {
            self.put(0x85, &[bits(1.0), 0, 0, 0]);
        }
        let startup = |machine: &Machine| machine.ahrs.as_ref().unwrap().flags().startup;
        if self.haste > 0 && startup(&self.machine) && self.random.one_in(self.haste) {
            self.put(0x84, &[]);
        }
    }

    /// Every script starts both sides, so that any later call has a state.
    pub fn begin(&mut self) {
        self.put(0x60, &[bits(100.0), bits(3.0), bits(3.0), bits(0.02)]);
        self.put(0x80, &[bits(100.0), 0, bits(0.5), 0, f32::MAX.to_bits(), f32::MAX.to_bits(), 0, 0, 0]);
    }

    pub fn make(&mut self, mode: &str) {
        self.begin();
        match mode {
            "mounting" => self.mountings(),
            "bias" => self.records(),
            "sample" => self.sample(),
            "locked" => self.longest(),
            "foot" => self.begin_foot(),
            "degrees" => self.begin_degrees(),
            "heading" => self.begin_headings(),
            _ => (),
        }
        while self.left > 0 {
            match mode {
                "math" => self.math(),
                "mounting" => self.mounting(),
                "bias" => self.bias(),
                "pole" | "sample" => self.pole(),
                "locked" => self.locked(),
                "edge" => self.edge(),
                "foot" => self.foot(),
                "degrees" => self.degrees(),
                "heading" => self.headings(),
                "fuzz" => self.fuzz(),
                "mix" => self.mix(),
                _ => panic!("no mode {mode}"),
            }
        }
    }

    fn mix(&mut self) {
        match self.random.below(7) {
            0 => (0..50).for_each(|_| self.math()),
            1 => (0..20).for_each(|_| self.mounting()),
            2 => self.bias(),
            3 => self.pole(),
            4 | 5 => self.edge(),
            _ => (0..100).for_each(|_| self.fuzz()),
        }
    }

    /// Some of everything, hard cases first; what is left of the script is walks with the pole.
    fn sample(&mut self) {
        let all = self.left;
        self.records();
        self.orientations();
        self.knocks();
        self.spells();
        self.refusals();
        let any = self.random.below(24) as u32;
        self.rotations(any);
        self.rotations(24);
        self.some_degrees();
        self.some_headings();
        self.some_foot();
        let parts: [(u64, fn(&mut Self)); 5] =
            [(53, Self::edge), (65, Self::math), (72, Self::mounting), (89, Self::bias), (94, Self::fuzz)];
        for (percent, calls) in parts {
            while self.left > all - all * percent / 100 {
                calls(self);
            }
        }
    }

    /// The refusals that random calls seldom get.
    fn refusals(&mut self) {
        let [nan, most, hundred] = [f32::NAN, f32::MAX, 100.0].map(f32::to_bits);
        // The period of a rate as small as 1 step is infinite.
        for (rate, convention) in [(hundred, 3), (nan, 0), (0, 0), (1, 0)] {
            for code in [0x80, 0x81] {
                self.put(code, &[rate, convention, bits(0.5), 0, most, most, 0, 0, 0]);
            }
            for code in [0x60, 0x61] {
                self.put(code, &[rate, bits(3.0), bits(3.0), bits(0.02)]);
            }
        }
        self.put(0x82, &[nan]);
        self.put(0x82, &[0]);
        for offset in [nan, bits(-3e38), 0] {
            self.put(0x64, &[offset; 3]);
            self.put(0x62, &[if offset == nan { nan } else { bits(3e38) }; 3]);
        }
        for (number, part) in [(0, nan), (24, 0)] {
            self.put(0x50, &[number, part, 0, 0]);
            self.put(0x51, &[number, 0]);
            self.put(0x52, &[number]);
            self.put(0x53, &[number, 6]);
            self.put(0x55, &[number, 3, 3, part, 0, 0]);
        }
        self.put(0x53, &[0, 5]);
        for (len, name) in [(6, b"+X+Y+Z"), (5, b"+X+Y+Z"), (6, b"+X+Y-Z")] {
            self.put(0x54, &[&[len as u32], &packed(&name[..len])[..]].concat());
        }
    }

    pub fn math(&mut self) {
        let calls: Vec<_> = CALLS.iter().filter(|c| c.0 < 0x47).collect();
        let (code, _, kinds) = *self.random.pick(&calls);
        let r = &mut self.random;
        let kind = r.below(6);
        let mut args: Vec<u32> = kinds
            .iter()
            .map(|_| match kind {
                0 => r.any(),
                1 => r.edge(),
                2 => r.finite(),
                3 => r.loose(),
                _ => r.common(),
            })
            .collect();
        if code >= 0x44 && r.one_in(2) {
            args = args
                .iter()
                .map(|_| r.pick(&[0, 1, 9, !0, 16_777_217, 16_777_219, 0x7FFF_FFFF, 0x8000_0000, 0x7FFF_FFF7]))
                .collect();
        }
        self.put(code, &args);
    }

    /// Every pair, every inverse, every name, every matrix, once.
    fn mountings(&mut self) {
        for a in 0..25 {
            for b in 0..25 {
                self.put(0x51, &[a, b]);
            }
            self.put(0x52, &[a]);
            self.put(0x50, &[a, bits(1.0), bits(-2.0), bits(0.5)]);
            self.put(0x50, &[a, 0, 0x8000_0000, 0]);
            self.rotations(a);
            for len in 0..9 {
                self.put(0x53, &[a, len]);
            }
        }
    }

    /// The matrix of a mounting, and by it vectors that a product might change: the ends of the range, zeros of both signs, a NaN.
    fn rotations(&mut self, number: u32) {
        self.put(0x56, &[number]);
        let [most, least, nan] = [f32::MAX, f32::MIN, f32::NAN].map(f32::to_bits);
        for [x, y, z] in [[bits(1.0), bits(-2.0), bits(0.5)], [most, 1, least], [0, nan, 0]] {
            self.put(0x57, &[number, x, y, z]);
        }
        for signs in 0..8 {
            let [x, y, z] = [0, 1, 2].map(|i| (signs >> i) << 31);
            self.put(0x57, &[number, x, y, z]);
        }
    }

    pub fn mounting(&mut self) {
        let r = &mut self.random;
        let number = if r.one_in(16) { r.any() } else { r.below(26) as u32 };
        match r.below(10) {
            n @ (0 | 8) => {
                let args = [number, r.loose(), r.loose(), r.loose()];
                self.put(if n == 0 { 0x50 } else { 0x57 }, &args);
            }
            1 => {
                let second = r.below(25) as u32;
                self.put(0x51, &[number, second]);
            }
            2 => drop(self.put(0x52, &[number])),
            3 => {
                let len = if r.one_in(2) { 6 } else { r.below(64) as u32 };
                self.put(0x53, &[number, len]);
            }
            4 => self.name(),
            9 => drop(self.put(0x56, &[number])),
            _ => self.run(number),
        }
    }

    /// A name, now and then damaged or of another length.
    fn name(&mut self) {
        let r = &mut self.random;
        let mut bytes = vec![0; 56];
        for i in 0..3 {
            bytes[2 * i] = r.pick(b"+-");
            bytes[2 * i + 1] = r.pick(b"XYZ");
        }
        if r.one_in(4) {
            bytes[r.below(6) as usize] ^= 1 << r.below(8);
        }
        let len = match r.below(8) {
            0 => r.below(57) as usize,
            1 => r.below(9) as usize,
            _ => 6,
        };
        bytes.truncate(len);
        let mut args = vec![len as u32];
        args.extend(packed(&bytes));
        self.put(0x54, &args);
    }

    /// A run of vectors, or of floats that are none.
    fn run(&mut self, number: u32) {
        let r = &mut self.random;
        let given = if r.one_in(2) { 3 * r.below(5) } else { r.below(13) } as u32;
        let lent = if r.one_in(4) { r.below(13) as u32 } else { given };
        let strange = r.one_in(4);
        let mut args = vec![number, given, lent];
        args.extend((0..given).map(|_| if strange { r.loose() } else { r.float() }));
        self.put(0x55, &args);
    }

    pub fn bias_settings(&mut self) -> [u32; 4] {
        let r = &mut self.random;
        let rate = match r.below(6) {
            0 => r.float(),
            1 => r.positive(),
            _ => r.pick(&[bits(100.0), bits(400.0), bits(1.0), bits(0.3), bits(999.5)]),
        };
        let period = match r.below(6) {
            0 => r.float(),
            1 => bits(1e9),
            2 => bits(-1.0),
            3 => 0,
            _ => bits(r.below(12) as f64 / f64::from(f32::from_bits(rate)).clamp(1e-3, 1e6)),
        };
        let threshold = if r.one_in(6) { r.float() } else { bits(r.pick(&[3.0, 0.0, 0.5, 1e-3, 50.0])) };
        let cutoff = if r.one_in(6) { r.float() } else { bits(r.pick(&[0.02, 0.0, 1.0, 20.0, -0.02])) };
        [rate, threshold, period, cutoff]
    }

    pub fn bias(&mut self) {
        let settings = self.bias_settings();
        let code = if self.random.one_in(3) { 0x60 } else { 0x61 };
        self.put(code, &settings);
        for _ in 0..self.random.below(60) {
            self.bias_call();
        }
    }

    fn bias_call(&mut self) {
        let r = &mut self.random;
        match r.below(27) {
            0 => drop(self.put(0x63, &[])),
            1 => self.set_offset(),
            2 if r.one_in(4) => drop(self.put(0x65, &[])),
            3 => drop(self.put(0x66, &[])),
            4 => drop(self.put(0x67, &[])),
            5 => self.record(),
            6 => self.any_record(0x69),
            7 => {
                let gyroscope = [r.loose(), r.loose(), r.loose()];
                self.put(0x62, &gyroscope);
            }
            n @ 24.. => self.any_record(0x6A + n as u32 - 24),
            n => self.still(n),
        }
    }

    /// A reading about the offset, with an axis at the threshold or one step beside it now and then.
    fn still(&mut self, kind: u64) {
        let at = state::of_bias(self.machine.bias.as_ref().unwrap());
        let threshold = f32::from_bits(at[1]);
        let r = &mut self.random;
        let mut g = [0; 3];
        for (i, g) in g.iter_mut().enumerate() {
            let rate = match kind {
                8 | 9 => {
                    let beside = threshold.to_bits().wrapping_add(r.below(3) as u32).wrapping_sub(1);
                    f32::from_bits(r.pick(&[threshold.to_bits(), beside, 0])) * r.pick(&[1.0, -1.0])
                }
                10 => r.within(f64::from(threshold) * 1.5) as f32,
                _ => r.within(f64::from(threshold)) as f32,
            };
            *g = (f32::from_bits(at[7 + i]) + rate).to_bits();
        }
        self.put(0x62, &g);
    }

    fn set_offset(&mut self) {
        let offset = self.random.offset();
        self.put(0x64, &offset);
    }

    /// The record of the offset, be it one that was just set.
    fn record(&mut self) {
        if self.random.one_in(3) {
            self.set_offset();
        }
        let r = &mut self.random;
        let len = if r.one_in(4) { r.below(40) as u32 } else { 18 };
        let number = r.below(26) as u32;
        self.put(0x68, &[number, len]);
    }

    /// An angle of rejection, and the limit that the Rust makes of it.
    fn limit(&mut self) -> (u32, u32) {
        let r = &mut self.random;
        let angle = match r.below(10) {
            0 | 1 => 0.0,
            2 => 90.0,
            3 => f32::from_bits(r.positive()),
            4 => 180.0,
            5 => r.unit() as f32,
            _ => r.pick(&[5.0, 10.0, 15.0, 20.0, 30.0, 45.0]),
        };
        let limit = state::limit_of(angle);
        if limit.is_finite() { (limit.to_bits(), angle.to_bits()) } else { (f32::MAX.to_bits(), 0) }
    }

    pub fn ahrs_settings(&mut self) -> [u32; 9] {
        let ((acceleration, acceleration_angle), (magnetic, magnetic_angle)) = (self.limit(), self.limit());
        let r = &mut self.random;
        let rate = match r.below(8) {
            0 => r.positive(),
            1 => r.float(),
            2 => bits(r.pick(&[0.25, 0.333, 1.0, 1e-3, 1e9])),
            _ => bits(r.pick(&[100.0, 400.0, 50.0, 10.0, 104.17])),
        };
        let gain = match r.below(8) {
            0 => r.float(),
            1 => r.pick(&[0, 0x8000_0000, bits(10.0), bits(11.0), bits(9.999999), bits(1e30), bits(-1.0), bits(20.0)]),
            _ => bits(r.pick(&[0.5, 0.5, 1.0, 0.25, 5.0])),
        };
        let range = match r.below(4) {
            0 => r.float(),
            1 => 0,
            _ => bits(r.pick(&[2000.0, 500.0, 300.0, 100.0])),
        };
        let timeout = match r.below(8) {
            0 => r.float() & 0x7FFF_FFFF,
            1 => r.pick(&[0, 0x8000_0000, bits(1e9), bits(3.4e38), 1]),
            2 => bits(0.9 / f64::from(f32::from_bits(rate)).clamp(1e-6, 1e6)),
            _ => bits(r.below(40) as f64 / f64::from(f32::from_bits(rate)).clamp(1e-6, 1e6)),
        };
        [rate, r.below(3) as u32, gain, range, acceleration, magnetic, timeout, acceleration_angle, magnetic_angle]
    }

    pub fn readings(&mut self) {
        let code = self.random.pick(&READS);
        self.put(code, &[]);
    }

    /// One call of any kind, but those of degrees and of the foot, with bits changed at random. A limit that is to be accepted has to be
    /// one of the Rust's.
    pub fn fuzz(&mut self) {
        let r = &mut self.random;
        let left_out = |code: u32| is_of_degrees(code) || matches!(code, 0x53..=0x55 | 0x68..=0x6C | 0xA0..=0xA4);
        let (code, _, kinds) = *r.pick(&CALLS.iter().filter(|c| !left_out(c.0)).collect::<Vec<_>>());
        if code == 0x80 || code == 0x81 {
            let mut s = self.ahrs_settings();
            let r = &mut self.random;
            for _ in 0..r.below(3) {
                let at = r.pick(&[0, 1, 2, 3, 6]);
                s[at] ^= 1 << r.below(32);
            }
            self.put(code, &s);
            return;
        }
        let mut args: Vec<u32> = kinds.iter().map(|_| r.loose()).collect();
        if code == 0x85 && r.one_in(2) {
            args = fit(r).to_vec();
        }
        if !args.is_empty() {
            for _ in 0..r.below(4) {
                let at = r.below(args.len() as u64) as usize;
                args[at] ^= match r.below(3) {
                    0 => 1 << r.below(32),
                    1 => 0x8000_0000,
                    _ => r.any(),
                };
            }
        }
        if matches!(code, 0x50..=0x52 | 0x56 | 0x57) {
            args[0] %= 26;
        }
        self.put(code, &args);
    }
}
