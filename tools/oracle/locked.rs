//! One sensor locked out until it is back: readings over its limit, of which the first T are ignored and each later one is used, and then
//! good ones until recovery has ended. What 02's P11 says of them is held to the Rust's state after each.

use crate::generate::{Script, bits};
use crate::record::READS;
use crate::state::{self, ACCELERATION, MAGNETIC};
use crate::words::of_v;
use fusion_ahrs::Vector;

/// Each sensor: the place of its reading in an update, and that of its rejection in a state.
const SENSORS: [(usize, usize); 2] = [(3, ACCELERATION), (6, MAGNETIC)];

#[derive(Clone, Copy)]
enum Reading {
    Over,
    Good,
    Nothing,
}
use Reading::*;

/// What a sensor's rejection has.
#[derive(PartialEq, Debug)]
struct Standing {
    trigger: i32,
    threshold: i32,
    ignored: bool,
}

impl Standing {
    fn recovers(&self) -> bool {
        self.trigger > self.threshold
    }
}

impl Script<'_> {
    /// The bench table's: T = 500 at 100 Hz, the compass and then the accelerometer, with nothing between the readings.
    pub fn longest(&mut self) {
        for sensor in [1, 0] {
            self.lock_out(sensor, 500, false);
        }
    }

    /// Any T, and between the readings whatever may come there.
    pub fn locked(&mut self) {
        let r = &mut self.random;
        let (sensor, timeout) = (r.below(2) as usize, r.pick(&[0, 1, 2, 8, 9, 10, 18, 19, 27, 100]));
        self.lock_out(sensor, timeout, true);
    }

    fn lock_out(&mut self, sensor: usize, timeout: i32, busy: bool) {
        self.freshly_reset(timeout);
        for n in 1..=timeout + 1 + self.random.below(9) as i32 {
            self.between(sensor, busy);
            let Some(now) = self.reads(sensor, Over) else { return };
            let begun = n > timeout;
            let claimed = Standing { trigger: n.min(timeout), threshold: if begun { 0 } else { timeout }, ignored: !begun };
            assert_eq!(now, claimed, "reading {n} over the limit at T = {timeout}");
        }
        self.recover_from(sensor, timeout, busy);
    }

    /// Recovery has begun and the trigger is T: good readings until it has ended, and now and then a bad one.
    fn recover_from(&mut self, sensor: usize, timeout: i32, busy: bool) {
        let (mut left, mut good, mut bad) = (timeout, 0, 0);
        while left > 0 {
            self.between(sensor, busy);
            if busy && self.random.one_in(6) {
                let Some(now) = self.reads(sensor, Over) else { return };
                (left, bad) = ((left + 1).min(timeout), bad + 1);
                assert_eq!(now, Standing { trigger: left, threshold: 0, ignored: false }, "a bad one at T = {timeout}");
            }
            let Some(now) = self.reads(sensor, Good) else { return };
            (left, good) = ((left - 9).max(0), good + 1);
            assert_eq!((now.trigger, now.recovers()), (left, left > 0), "good reading {good} at T = {timeout}");
        }
        assert!(bad > 0 || good == (timeout + 8) / 9, "{good} good ones at T = {timeout}");
        let ended = self.standing(sensor);
        assert_eq!((ended.trigger, ended.threshold), (0, timeout), "recovery has ended at T = {timeout}");
    }

    /// A start with limits of 10 degrees and this T, startup skipped.
    fn freshly_reset(&mut self, timeout: i32) {
        let (limit, angle) = (state::limit_of(10.0).to_bits(), bits(10.0));
        let seconds = if timeout == 500 { 5.0 } else { (f64::from(timeout) + 0.5) / 100.0 };
        let convention = self.random.pick(&[0, 2]);
        self.put(0x80, &[bits(100.0), convention, bits(0.5), bits(2000.0), limit, limit, bits(seconds), angle, angle]);
        self.put(0x84, &[]);
    }

    fn standing(&self, sensor: usize) -> Standing {
        let (w, at) = (state::of_ahrs(self.machine.ahrs.as_ref().unwrap()), SENSORS[sensor].1);
        Standing { trigger: w[at + 3] as i32, threshold: w[at + 4] as i32, ignored: w[at + 5] == 1 }
    }

    /// What a sensor expects, or a direction 20 to 160 degrees from it, either way.
    fn direction(&mut self, sensor: usize, reading: Reading) -> [u32; 3] {
        let ahrs = self.machine.ahrs.as_ref().unwrap();
        // North is x in the conventions of these scripts.
        let [north, west] = [[1.0, 0.0], [0.0, 1.0]].map(|[x, y]| ahrs.quaternion().conjugate().rotate(Vector::new(x, y, 0.0)));
        let (expected, aside) = if sensor == 0 { (ahrs.gravity(), north) } else { (north, west) };
        let angle = (20.0 + 140.0 * self.random.unit()).to_radians() * self.random.pick(&[1.0, -1.0]);
        match reading {
            Over => of_v(expected * angle.cos() as f32 + aside * angle.sin() as f32),
            Good => of_v(expected),
            Nothing => [0; 3],
        }
    }

    /// An update that brings a sensor this reading, and the other one any; nothing where the script is full.
    fn reads(&mut self, sensor: usize, reading: Reading) -> Option<Standing> {
        if self.left == 0 {
            return None;
        }
        let other = self.random.pick(&[Over, Good, Nothing]);
        let mut u = [0, 1, 2].map(|_| bits(self.random.within(50.0))).to_vec();
        for at in 0..2 {
            u.extend(self.direction(at, if at == sensor { reading } else { other }));
        }
        assert_eq!(self.put(0x86, &u), 0, "an update of a sensor that is locked out");
        Some(self.standing(sensor))
    }

    /// Now and then a call that leaves T and the counts: a new period, an orientation, startup skipped, a reading of zeros, what is refused.
    fn between(&mut self, sensor: usize, busy: bool) {
        if !busy || self.left == 0 || !self.random.one_in(4) {
            return;
        }
        let was = self.standing(sensor);
        let half = self.random.within(3.0);
        let period = bits(self.random.pick(&[0.01, 0.0125, 0.005]));
        let (nan, read) = (self.random.not_finite(), self.random.pick(&READS));
        match self.random.below(7) {
            0 => drop(self.put(0x82, &[period])),
            1 => drop(self.put(0x85, &[bits(half.cos()), 0, 0, bits(half.sin())])),
            2 => drop(self.put(0x84, &[])),
            3 => drop(self.put(0x86, &[0, 0, nan, 0, 0, 0, 0, 0, 0])),
            4 => drop(self.put(0x81, &[nan, 0, 0, 0, 0, 0, 0, 0, 0])),
            5 => drop(self.put(read, &[])),
            _ => drop(self.reads(sensor, Nothing)),
        }
        let now = self.standing(sensor);
        assert_eq!((now.trigger, now.threshold), (was.trigger, was.threshold), "what comes between");
    }
}
