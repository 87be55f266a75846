//! A walk with a pole: slow turns, noise, knocks, stretches of magnetic disturbance and of lost sensors.

use crate::generate::{Script, bits};
use crate::random::Random;

/// The true attitude, as gravity and north in the sensor's frame, and what troubles the sensors for how many steps more.
pub struct Walk {
    rate: f64,
    flip: f64,
    up: [f64; 3],
    north: [f64; 3],
    turn: [f64; 3],
    disturbed: u64,
    knocked: u64,
    lost: u64,
    /// The places of the sensors that are lost then.
    deaf: (usize, usize),
}

/// A direction that stays while the sensor turns by `w` radians.
fn turned([x, y, z]: [f64; 3], w: [f64; 3]) -> [f64; 3] {
    let n = [x + y * w[2] - z * w[1], y + z * w[0] - x * w[2], z + x * w[1] - y * w[0]];
    let size = (n[0] * n[0] + n[1] * n[1] + n[2] * n[2]).sqrt();
    n.map(|c| c / size)
}

impl Walk {
    pub fn begin(rate: f64, convention: u32) -> Walk {
        let flip = if convention == 2 { -1.0 } else { 1.0 };
        let (up, north) = ([0.0, 0.0, 1.0], [1.0, 0.0, 0.0]);
        Walk { rate, flip, up, north, turn: [0.0; 3], disturbed: 0, knocked: 0, lost: 0, deaf: (3, 9) }
    }

    pub fn step(&mut self, r: &mut Random) {
        if r.one_in(80) {
            self.turn = [r.within(120.0), r.within(120.0), r.within(120.0)];
        }
        for (trouble, seldom, most) in [(&mut self.disturbed, 150, 300), (&mut self.knocked, 120, 60), (&mut self.lost, 200, 30)]
        {
            *trouble = if r.one_in(seldom) { r.below(most) } else { trouble.saturating_sub(1) };
        }
        if self.lost == 0 {
            self.deaf = r.pick(&[(3, 6), (6, 9), (3, 9)]);
        }
        let w = self.turn.map(|t| (t / self.rate).to_radians());
        self.up = turned(self.up, w);
        self.north = turned(self.north, w);
    }

    /// What the three sensors say.
    pub fn readings(&self, r: &mut Random) -> [u32; 9] {
        let knock = if self.knocked > 0 { 1.5 } else { 0.01 };
        let pull = if self.disturbed > 0 { 60.0 } else { 0.5 };
        let mut args = [0; 9];
        for i in 0..3 {
            let blow = if self.knocked > 50 { r.pick(&[700.0, -700.0, 0.0, 0.0]) } else { 0.0 };
            let up = self.flip * self.up[i];
            args[i] = bits(self.turn[i] + r.within(0.2) + blow);
            args[3 + i] = bits(up + r.within(knock));
            args[6 + i] = bits(25.0 * self.north[i] - 40.0 * up + r.within(pull));
        }
        if self.lost > 0 {
            args[self.deaf.0..self.deaf.1].fill(0);
        }
        args
    }
}

impl Script<'_> {
    pub fn pole(&mut self) {
        let mut s = self.ahrs_settings();
        let r = &mut self.random;
        s[0] = bits(r.pick(&[100.0, 50.0, 400.0]));
        s[2] = bits(r.pick(&[0.5, 1.0, 0.1]));
        s[6] = bits(r.pick(&[5.0, 1.0, 0.2]));
        let mut walk = Walk::begin(f64::from(f32::from_bits(s[0])), s[1]);
        self.put(0x80, &s);
        // Some walks begin at an orientation that is given, be its length 1 or not.
        if self.random.one_in(4) {
            self.fit_quaternion();
        }
        for step in 0..50 + self.random.below(600) {
            walk.step(&mut self.random);
            let args = walk.readings(&mut self.random);
            self.put(0x86, &args);
            if self.random.one_in(12) {
                self.readings();
            }
            if self.random.one_in(90) {
                let period = bits((1.0 + self.random.within(0.05)) / walk.rate);
                self.put(0x82, &[period]);
            }
            if step == 5 && self.random.one_in(2) {
                self.put(0x84, &[]);
            }
        }
    }
}
