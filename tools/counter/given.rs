//! What the drivers give both sides: a log in memory, and behind it what the port starts with.

use fusion_ahrs::Vector;

/// SplitMix64.
struct Random(u64);

impl Random {
    fn next(&mut self) -> u64 {
        self.0 = self.0.wrapping_add(0x9E37_79B9_7F4A_7C15);
        let mut z = self.0;
        z = (z ^ (z >> 30)).wrapping_mul(0xBF58_476D_1CE4_E5B9);
        z = (z ^ (z >> 27)).wrapping_mul(0x94D0_49BB_1331_11EB);
        z ^ (z >> 31)
    }
}

/// 1000 readings of nine floats, level with noise; then what the port starts with, out of its compiler's sight: the filter's
/// rate, gain, range, two squared limits (10 degrees) and timeout, and the bias estimator's four settings.
pub fn log() -> Vec<f32> {
    let mut r = Random(7);
    let mut noise = |scale: f32| ((r.next() % 2001) as f32 - 1000.0) / 1024.0 * scale;
    let mut out = Vec::new();
    for _ in 0..1000 {
        out.extend([noise(4.0), noise(4.0), noise(4.0)]);
        out.extend([noise(0.25), noise(0.25), 1.0 + noise(0.25)]);
        out.extend([0.5 + noise(0.5), noise(0.25), -0.75 + noise(0.5)]);
    }
    let limit = f32::from_bits(0x3BF7_04DF);
    out.extend([100.0, 0.5, 2000.0, limit, limit, 5.0]);
    out.extend([100.0, 3.0, 3.0, 0.02]);
    out
}

/// The vector that begins at column k of reading i.
pub fn vector(log: &[f32], i: u32, k: usize) -> Vector {
    let at = 9 * (i % 1000) as usize + k;
    Vector::new(log[at], log[at + 1], log[at + 2])
}
