//! Knocks: rates about the overrange product on each axis by itself, and what leaves, replaces or takes away the axes that went
//! over.

use crate::generate::{Script, bits};
use crate::random::Random;
use crate::state::{self, PRODUCT};
use crate::words::MINUS_ZERO;

/// How many things may follow a knock.
const FOLLOWS: u64 = 12;

/// A gyroscope that is above the product about these axes alone; about the others it is at it, a step below it or anywhere
/// below. Each rate has either sign.
pub fn gyroscope(r: &mut Random, product: u32, set: u32) -> [u32; 3] {
    [1, 2, 4].map(|axis| {
        let below = (r.common() & !MINUS_ZERO).min(product);
        let size = if set & axis == 0 {
            r.pick(&[product, product.saturating_sub(1), below, 0])
        } else {
            r.pick(&[product + 1, product + 1, bits(5000.0).max(product + 1)])
        };
        size.min(f32::MAX.to_bits()) | (r.any() & MINUS_ZERO)
    })
}

impl Script<'_> {
    /// The overrange product; where overrange is off, the size of what would be it.
    fn product(&self) -> u32 {
        self.machine.ahrs.as_ref().map_or(0, |ahrs| state::of_ahrs(ahrs)[PRODUCT] & !MINUS_ZERO)
    }

    /// Rates that are over about some axes, where overrange is on.
    pub fn rates_over(&mut self) -> [u32; 3] {
        let (product, set) = (self.product(), 1 + self.random.below(7) as u32);
        gyroscope(&mut self.random, product, set)
    }

    /// An update that is over about these axes, where overrange is on.
    fn strike(&mut self, set: u32) {
        let mut u = self.common_update();
        let product = self.product();
        u[..3].copy_from_slice(&gyroscope(&mut self.random, product, set));
        self.put(0x86, &u);
    }

    fn strike_any(&mut self) {
        let set = 1 + self.random.below(7) as u32;
        self.strike(set);
    }

    fn look(&mut self) {
        self.put(0x8F, &[]);
    }

    /// Rates at the overrange product or a step beside it, half of them with none over it.
    pub fn overrange(&mut self) {
        let set = if self.random.one_in(2) { 0 } else { 1 + self.random.below(7) as u32 };
        self.strike(set);
        let code = self.random.pick(&[0x8B, 0x8F]);
        self.put(code, &[]);
    }

    /// Every set of axes in turn, and then everything that may follow one.
    pub fn knocks(&mut self) {
        self.ranged(0x81, 1.0, bits(300.0));
        for set in 1..8 {
            self.strike(set);
            self.look();
        }
        (0..FOLLOWS).for_each(|n| self.knocked(1.0, n));
    }

    /// A knock, and something that may follow it.
    pub fn knock(&mut self) {
        let rate = self.random.pick(&[1.0, 2.0, 100.0]);
        let n = self.random.below(FOLLOWS);
        self.knocked(rate, n);
    }

    /// A knock, something that may follow it, and another knock, with a look at the axes after both.
    fn knocked(&mut self, rate: f64, n: u64) {
        let range = bits(self.random.pick(&[2000.0, 500.0, 300.0, 100.0]));
        self.ranged(0x81, rate, range);
        self.strike_any();
        self.follow(n);
        self.look();
        self.strike_any();
        self.look();
    }

    fn follow(&mut self, n: u64) {
        let r = &mut self.random;
        let (off, on) = (r.pick(&[0, MINUS_ZERO, bits(-500.0)]), bits(r.pick(&[2000.0, 500.0, 300.0, 100.0])));
        let period = bits(r.pick(&[0.01, 0.25, 1.0]));
        match n {
            0 => self.strike_any(),
            1 => self.strike_refused(),
            2 => self.strike_at_zero(),
            3 => self.calm(),
            4 => drop(self.put(0x82, &[period])),
            5 => drop(self.put(0x83, &[])),
            6 => drop(self.put(0x84, &[])),
            7 => self.fit_quaternion(),
            8 => self.ranged(0x80, 1.0, on),
            9 => self.ranged(0x81, 2.0, on),
            // Startup then ends with the update that begins it.
            10 => self.ranged(0x81, 0.25, on),
            _ => self.ranged(0x81, 1.0, off),
        }
    }

    /// Settings of a rate and a range. At a rate of 1 or 2 startup ends after a few updates, at a gain equal to the settings'.
    fn ranged(&mut self, code: u32, rate: f64, range: u32) {
        let mut s = self.ahrs_settings();
        (s[0], s[2], s[3]) = (bits(rate), bits(1.0), range);
        self.put(code, &s);
    }

    /// Updates at rest until startup ends, if it does soon.
    fn calm(&mut self) {
        for _ in 0..8 {
            if !self.machine.ahrs.as_ref().is_some_and(|ahrs| ahrs.flags().startup) {
                return;
            }
            let mut u = self.common_update();
            u[..3].fill(0);
            self.put(0x86, &u);
        }
    }

    /// An update that is over, and refused for a float that is not finite.
    fn strike_refused(&mut self) {
        let mut u = self.common_update();
        u[..3].copy_from_slice(&self.rates_over());
        let r = &mut self.random;
        u[3 + r.below(6) as usize] = r.not_finite();
        self.put(0x86, &u);
    }

    /// One that is refused on a quaternion of zero, which such rates leave.
    fn strike_at_zero(&mut self) {
        let most = f32::MAX.to_bits();
        let axis = self.random.below(3) as usize;
        let mut u = [0; 9];
        u[axis] = most;
        self.put(0x86, &u);
        self.strike_any();
        self.look();
        self.fit_quaternion();
    }
}
