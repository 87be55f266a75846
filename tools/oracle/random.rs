//! Random numbers, and floats of the kinds that a script wants.

use crate::state;
use crate::words::MINUS_ZERO;

/// splitmix64.
pub struct Random(pub u64);

impl Random {
    pub fn next(&mut self) -> u64 {
        self.0 = self.0.wrapping_add(0x9E37_79B9_7F4A_7C15);
        let mut z = self.0;
        z = (z ^ (z >> 30)).wrapping_mul(0xBF58_476D_1CE4_E5B9);
        z = (z ^ (z >> 27)).wrapping_mul(0x94D0_49BB_1331_11EB);
        z ^ (z >> 31)
    }

    pub fn below(&mut self, n: u64) -> u64 {
        self.next() % n
    }

    pub fn one_in(&mut self, n: u64) -> bool {
        self.below(n) == 0
    }

    pub fn unit(&mut self) -> f64 {
        (self.next() >> 11) as f64 / (1u64 << 53) as f64
    }

    pub fn within(&mut self, size: f64) -> f64 {
        (2.0 * self.unit() - 1.0) * size
    }

    pub fn pick<T: Copy>(&mut self, from: &[T]) -> T {
        from[self.below(from.len() as u64) as usize]
    }

    /// Any bits at all.
    pub fn any(&mut self) -> u32 {
        self.next() as u32
    }

    /// A float from the places where arithmetic changes its manner, or a few steps beside one.
    pub fn edge(&mut self) -> u32 {
        const AT: [u32; 30] = [
            0x0000_0000,
            0x0000_0001,
            0x0000_0002,
            0x007F_FFFF,
            0x0080_0000,
            0x0080_0001,
            0x0100_0000,
            0x1A00_0000,
            0x1F80_0000,
            0x2000_0000,
            0x2040_0000,
            0x3300_0000,
            0x3380_0000,
            0x3C8E_FA35,
            0x3DCC_CCCD,
            0x3F00_0000,
            0x3F7F_FFFF,
            0x3F80_0000,
            0x3F80_0001,
            0x4000_0000,
            0x4120_0000,
            0x4B00_0000,
            0x4B80_0001,
            0x4EFF_FFFF,
            0x4F00_0000,
            0x4F7F_FFFF,
            0x4F80_0000,
            0x5F7F_FFFF,
            0x5F80_0000,
            0x7F7F_FFFF,
        ];
        let near = self.pick(&AT);
        let step = if self.one_in(3) { self.below(5) as u32 } else { 0 };
        let size = if self.one_in(2) { near.saturating_add(step) } else { near.saturating_sub(step) };
        size.min(0x7F7F_FFFF) | (self.any() & 0x8000_0000)
    }

    /// A finite float of any size, each binade alike.
    pub fn finite(&mut self) -> u32 {
        loop {
            let w = self.any();
            if state::finite(w) {
                return w;
            }
        }
    }

    /// A float of common size: a whole or short number, or a uniform one.
    pub fn common(&mut self) -> u32 {
        let x = match self.below(4) {
            0 => self.below(21) as f64 - 10.0,
            1 => (self.below(2001) as f64 - 1000.0) / 64.0,
            2 => self.within(1.0),
            _ => self.within(100.0),
        };
        (x as f32).to_bits()
    }

    /// A finite float of some kind.
    pub fn float(&mut self) -> u32 {
        match self.below(8) {
            0 => self.finite(),
            1 | 2 => self.edge(),
            3 => self.pick(&[0, 0x8000_0000]),
            _ => self.common(),
        }
    }

    /// A float, now and then not finite.
    pub fn loose(&mut self) -> u32 {
        match self.below(12) {
            0 => self.any(),
            1 if self.one_in(4) => self.not_finite(),
            _ => self.float(),
        }
    }

    /// An infinity or a NaN.
    pub fn not_finite(&mut self) -> u32 {
        self.pick(&[0x7F80_0000, 0xFF80_0000, 0x7FC0_0000, 0xFFFF_FFFF, 0x7F80_0001])
    }

    pub fn positive(&mut self) -> u32 {
        (self.float() & 0x7FFF_FFFF).max(1)
    }

    pub fn vector(&mut self) -> [u32; 3] {
        [self.float(), self.float(), self.float()]
    }

    /// An offset, often with zeros of either sign.
    pub fn offset(&mut self) -> [u32; 3] {
        let zeros = self.one_in(3);
        self.vector().map(|w| if zeros && self.one_in(2) { self.pick(&[0, MINUS_ZERO]) } else { w })
    }
}
