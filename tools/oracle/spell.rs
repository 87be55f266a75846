//! Spells in which one sensor or both are ignored, for being all zero, or over the limit out of startup: what makes the counts of
//! such updates longer, what leaves them, clears them, or begins them anew.

use crate::generate::{Script, bits};
use crate::random::Random;
use crate::state;
use crate::words::{MINUS_ZERO, of_v};
use fusion_ahrs::Vector;

/// How many things may come in a spell.
const TURNS: u64 = 16;
/// Each sensor's bit in a set of them, and the place of its reading in an update.
const SENSORS: [(u32, usize); 2] = [(1, 3), (2, 6)];

/// A reading all zero, with either sign.
fn nothing(r: &mut Random) -> [u32; 3] {
    [0; 3].map(|_: u32| r.pick(&[0, MINUS_ZERO]))
}

impl Script<'_> {
    /// Everything that may come in a spell, in turn.
    pub fn spells(&mut self) {
        for n in 0..TURNS {
            self.fall_deaf(1, 1);
            self.go_on(n);
        }
    }

    /// A spell, and something that may come in it.
    pub fn spell(&mut self) {
        let (alone, both) = (self.random.pick(&[1, 1, 2, 3, 20]), self.random.pick(&[0, 1, 1, 2, 12]));
        self.fall_deaf(alone, both);
        self.go_on_any();
    }

    /// How a spell begins: so many updates in which one of the sensors is ignored, and so many in which both are.
    pub fn fall_deaf(&mut self, alone: u64, both: u64) {
        self.deafening(0x81, 1.0, 1000);
        if !self.random.one_in(4) {
            self.put(0x84, &[]);
        }
        let first = self.random.pick(&[1, 2]);
        self.deaf(first, alone);
        self.deaf(3, both);
        self.ask_counts();
    }

    pub fn go_on_any(&mut self) {
        let n = self.random.below(TURNS);
        self.go_on(n);
    }

    /// Something that comes in a spell, and some more of it.
    fn go_on(&mut self, n: u64) {
        self.turn(n);
        self.ask_counts();
        let (set, updates) = (self.random.pick(&[1, 2, 3]), 1 + self.random.below(3));
        self.deaf(set, updates);
        self.ask_counts();
    }

    fn turn(&mut self, n: u64) {
        let (one, period) = (self.random.pick(&[1, 2]), bits(self.random.pick(&[0.01, 0.02, 1.0])));
        match n {
            0 => self.refused_for_a_float(),
            1 => self.refused_for_its_state(),
            2 => self.deafening(0x81, 0.5, 100),
            3 => drop(self.put(0x82, &[period])),
            4 => self.fit_quaternion(),
            5 => drop(self.put(0x84, &[])),
            6 => drop(self.put(0x83, &[])),
            7 => self.deafening(0x80, 1.0, 1000),
            8 => self.over_range(3),
            9 => self.over_range(0),
            10 => self.over_range(one),
            11 => self.over_range_at_once(),
            12 => self.deaf(0, 1),
            13 => self.deaf(one, 2),
            14 => self.recover(),
            _ => self.stay_deaf(),
        }
    }

    /// Settings with limits that nearly every reading out of startup is over, and a T.
    fn deafening(&mut self, code: u32, gain: f64, timeout: u32) {
        let r = &mut self.random;
        let (angle, range, convention) = (r.pick(&[0.5f32, 1.0, 5.0]), r.pick(&[2000.0, 500.0, 300.0]), r.pick(&[0, 2]));
        let (limit, angle) = (state::limit_of(angle).to_bits(), angle.to_bits());
        let seconds = bits((f64::from(timeout) + 0.5) / 100.0);
        self.put(code, &[bits(100.0), convention, bits(gain), bits(range), limit, limit, seconds, angle, angle]);
    }

    /// Updates in which these sensors are ignored, and no other.
    fn deaf(&mut self, set: u32, updates: u64) {
        for _ in 0..updates {
            let ahrs = self.machine.ahrs.as_ref().unwrap();
            let startup = ahrs.flags().startup;
            // North is x in the conventions of a spell.
            let north = ahrs.quaternion().conjugate().rotate(Vector::new(1.0, 0.0, 0.0));
            let agreeing = [ahrs.gravity(), north].map(of_v);
            let mut u = self.common_update();
            for ((sensor, at), agreeing) in SENSORS.into_iter().zip(agreeing) {
                if set & sensor == 0 {
                    u[at..at + 3].copy_from_slice(&agreeing);
                } else if startup || self.random.one_in(2) {
                    u[at..at + 3].copy_from_slice(&nothing(&mut self.random));
                }
            }
            self.put(0x86, &u);
        }
    }

    fn ask_counts(&mut self) {
        self.put(0x92, &[]);
    }

    /// An update of zeros, but for a rate that is not finite.
    fn refused_for_a_float(&mut self) {
        let r = &mut self.random;
        let mut u = [0; 9];
        u[r.below(3) as usize] = r.not_finite();
        self.put(0x86, &u);
    }

    /// One that turns further than a float can say.
    fn refused_for_its_state(&mut self) {
        self.put(0x82, &[f32::MAX.to_bits()]);
        self.put(0x86, &[bits(200.0), 0, 0, 0, 0, 0, 0, 0, 0]);
        self.ask_counts();
        self.put(0x82, &[bits(0.01)]);
    }

    /// An update that goes over range, with these sensors all zero.
    fn over_range(&mut self, set: u32) {
        let mut u = self.common_update();
        u[..3].copy_from_slice(&self.rates_over());
        for (_, at) in SENSORS.into_iter().filter(|(sensor, _)| set & sensor != 0) {
            u[at..at + 3].copy_from_slice(&nothing(&mut self.random));
        }
        self.put(0x86, &u);
    }

    /// One with which startup ends at once, so that readings over their limits are ignored.
    fn over_range_at_once(&mut self) {
        self.deafening(0x81, 11.0, 1000);
        self.over_range(0);
    }

    /// Readings over their limits until recovery begins, and then they are used.
    fn recover(&mut self) {
        self.deafening(0x81, 1.0, 3);
        self.put(0x84, &[]);
        for _ in 0..5 {
            let u = self.common_update();
            self.put(0x86, &u);
        }
    }

    /// Some tens of updates, out of startup.
    fn stay_deaf(&mut self) {
        self.put(0x84, &[]);
        let updates = 11 + self.random.below(20);
        self.deaf(3, updates);
    }
}
