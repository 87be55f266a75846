//! Hard cases, aimed at the state that the calls before left.

use crate::generate::{Script, bits};
use crate::state::{self, ACCELERATION, MAGNETIC};
use crate::words::of_v;
use fusion_ahrs::Vector;

impl Script<'_> {
    /// New settings, and some cases under them.
    pub fn edge(&mut self) {
        let s = self.ahrs_settings();
        let code = if self.random.one_in(2) { 0x80 } else { 0x81 };
        self.put(code, &s);
        if self.random.one_in(2) {
            self.put(0x84, &[]);
        }
        for _ in 0..self.random.below(80) {
            self.case();
        }
    }

    fn case(&mut self) {
        match self.random.below(33) {
            0 => self.equal_limit(ACCELERATION),
            1 => self.equal_limit(MAGNETIC),
            2 | 3 => self.dot_zero(),
            4 | 5 => self.overrange(),
            6 => self.lower_timeout(),
            7 => self.loose(0x85, 4),
            8 => self.strange_quaternion(),
            9 => self.period(),
            10 if self.random.one_in(3) => drop(self.put(0x83, &[])),
            11 if self.random.one_in(3) => drop(self.put(0x84, &[])),
            12 => {
                let s = self.ahrs_settings();
                self.put(0x81, &s);
            }
            13 => self.strange_settings(),
            14..=16 => self.readings(),
            17 => self.loose(0x86, 9),
            18 => self.along_gravity(),
            19 => self.faint(),
            20 | 21 => self.set_and_turned(),
            22 => self.vanish(),
            23 => self.heavy(),
            24 => self.knock(),
            25 => self.spell(),
            _ => self.row(),
        }
    }

    /// A call with floats of any kind.
    fn loose(&mut self, code: u32, floats: usize) {
        let args: Vec<u32> = (0..floats).map(|_| self.random.loose()).collect();
        self.put(code, &args);
    }

    fn period(&mut self) {
        let r = &mut self.random;
        let p = match r.below(4) {
            0 => r.loose(),
            1 => r.pick(&[0, 0x8000_0000, 1, bits(3.5), bits(1e30), bits(-0.01)]),
            _ => bits(0.01),
        };
        self.put(0x82, &[p]);
    }

    /// Settings with one field that may be refused. A limit that no angle gives has to be refused by its own bits.
    fn strange_settings(&mut self) {
        let mut s = self.ahrs_settings();
        let r = &mut self.random;
        let at = r.below(7) as usize;
        s[at] = match at {
            1 => r.below(5) as u32,
            4 | 5 => r.pick(&[0x7FC0_0000, 0x7F80_0000, 0xBF80_0000, 0x8000_0001]),
            _ => r.loose(),
        };
        self.put(0x81, &s);
    }

    /// With gravity and opposite to it, and readings whose squares vanish or overflow.
    fn along_gravity(&mut self) {
        let gravity = self.machine.ahrs.as_ref().unwrap().gravity();
        let size = self.random.pick(&[-1.0f32, -0.5, 1e-23, -1e-30, 1e19, -1e20, 1e38]);
        let a = of_v(gravity * size);
        let m = if self.random.one_in(2) { a } else { self.random.vector() };
        self.put(0x86, &[0, 0, 0, a[0], a[1], a[2], m[0], m[1], m[2]]);
    }

    /// An acceleration that may overflow where it is turned into the Earth's frame.
    fn heavy(&mut self) {
        let r = &mut self.random;
        let a = [0; 3].map(|_: u32| bits(r.within(3.4e38)));
        self.put(0x86, &[0, 0, 0, a[0], a[1], a[2], 0, 0, 0]);
        if self.random.one_in(2) {
            self.fit_quaternion();
        }
        self.put(0x89, &[]);
        self.put(0x8A, &[]);
    }

    /// Good or bad readings in a row, so that triggers move.
    pub fn row(&mut self) {
        let (n, bad) = (1 + self.random.below(12), self.random.one_in(2));
        let gravity = of_v(self.machine.ahrs.as_ref().unwrap().gravity());
        for _ in 0..n {
            let mut u = self.common_update();
            if !bad {
                u[3..6].copy_from_slice(&gravity);
            }
            if self.random.one_in(8) {
                u[6..9].copy_from_slice(&[0, 0x8000_0000, 0]);
            }
            if self.random.one_in(16) {
                u[3..6].copy_from_slice(&[0x8000_0000, 0x8000_0000, 0]);
            }
            self.put(0x86, &u);
        }
    }

    pub fn common_update(&mut self) -> [u32; 9] {
        [0; 9].map(|_: u32| self.random.common())
    }

    /// An update, and the square of the residual that it has for a sensor, where an angle may have it as its limit; now and then on an
    /// orientation that may be far from length 1.
    pub fn residual(&mut self, sensor: usize) -> Option<([u32; 9], f32)> {
        if self.random.one_in(4) {
            self.fit_quaternion();
        }
        let u = self.common_update();
        let mut tried = self.machine.ahrs.clone().unwrap();
        let f = f32::from_bits;
        tried.update([0.0, 0.0, 0.0], [f(u[3]), f(u[4]), f(u[5])], [f(u[6]), f(u[7]), f(u[8])]);
        let after = state::of_ahrs(&tried);
        let square = Vector::new(f(after[sensor]), f(after[sensor + 1]), f(after[sensor + 2])).norm_squared();
        (square > 0.0 && square < 0.25).then_some((u, square))
    }

    /// An update whose squared residual equals the limit, then with the limit one step below it and above.
    pub fn equal_limit(&mut self, sensor: usize) {
        let Some((u, square)) = self.residual(sensor) else { return };
        let now = self.machine.ahrs_words();
        let quaternion = now[state::QUATERNION..state::QUATERNION + 4].to_vec();
        for step in [0u32, 1, !0] {
            let limit = square.to_bits().wrapping_add(step);
            let Some(angle) = state::angle_for(f32::from_bits(limit)) else { continue };
            let mut s = [bits(100.0), now[1], bits(0.5), 0, f32::MAX.to_bits(), f32::MAX.to_bits(), bits(0.05), 0, 0];
            let at = if sensor == ACCELERATION { 0 } else { 1 };
            s[4 + at] = limit;
            s[7 + at] = angle.to_bits();
            self.put(0x81, &s);
            self.put(0x84, &[]);
            self.put(0x85, &quaternion);
            self.put(0x86, &u);
        }
    }

    /// Sensors at a right angle to where they should be, exactly: the dot product is 0.
    pub fn dot_zero(&mut self) {
        let r = &mut self.random;
        let along = [[1.0, 0.0, 0.0, 0.0], [0.0, 1.0, 0.0, 0.0], [-1.0, 0.0, 0.0, 0.0], [0.0, 0.0, 0.0, 1.0]];
        // Of the last of these gravity is zero.
        let beside = [[2.0, 0.0, 0.0, 0.0], [0.0, 0.0, 0.5, 0.0], [0.5, 0.0, 0.0, 0.5]];
        let q = if r.one_in(4) { r.pick(&beside) } else { r.pick(&along) }.map(bits);
        let (a, b, c, d) = (r.common(), r.common(), r.common(), r.pick(&[0, 0x8000_0000]));
        self.put(0x85, &q);
        self.put(0x86, &[0, 0, 0, a, b, d, d, c, a]);
        self.put(0x85, &q);
        self.put(0x86, &[0, 0, 0, d, b, a, c, d, d]);
    }

    /// Rates whose products are subnormal, and ones that cancel beside a minus zero, with nothing else to hide them.
    pub fn faint(&mut self) {
        let r = &mut self.random;
        let identity = [bits(1.0), 0, 0, 0];
        let half = [r.pick(&[0, 0x8000_0000]), bits(0.5), bits(0.5), r.pick(&[0, 0x8000_0000])];
        let most = r.pick(&[4, 0x200, 0x80_0000, 0x0200_0000, 0x4100_0000]);
        let rate = r.any() % most;
        let period = bits(r.pick(&[1.0, 2.0, 0.5, 0.01]));
        let q = r.pick(&[identity, half]);
        self.put(0x82, &[period]);
        self.put(0x85, &q);
        self.put(0x86, &[rate, rate ^ 0x8000_0000, 0, 0, 0, 0, 0, 0, 0]);
    }

    /// New settings with a smaller T while a trigger stands above it.
    pub fn lower_timeout(&mut self) {
        let now = self.machine.ahrs_words();
        let trigger = now[ACCELERATION + 3].max(now[MAGNETIC + 3]);
        let mut s = self.ahrs_settings();
        s[0] = bits(100.0);
        s[6] = bits(self.random.below(u64::from(trigger) + 2) as f64 / 100.0);
        self.put(0x81, &s);
        self.put(0x8B, &[]);
        self.put(0x8C, &[]);
    }
}
