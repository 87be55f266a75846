//! Words of 32 bits to the Rust's types and back.

use crate::state;
use fusion_ahrs::{Matrix, Quaternion, Vector};

/// The bits of -0.0, which no offset record has.
pub const MINUS_ZERO: u32 = 0x8000_0000;

/// The bits of a float, those of a minus zero with a plus sign.
pub fn plus_zero(w: u32) -> u32 {
    if w == MINUS_ZERO { 0 } else { w }
}

/// A float's bits, with one pattern for every NaN.
pub fn bits(x: f32) -> u32 {
    if x.is_nan() { 0x7FC0_0000 } else { x.to_bits() }
}

pub fn f(w: u32) -> f32 {
    f32::from_bits(w)
}

pub fn v(w: &[u32]) -> Vector {
    Vector::new(f(w[0]), f(w[1]), f(w[2]))
}

pub fn q(w: &[u32]) -> Quaternion {
    Quaternion::new(f(w[0]), f(w[1]), f(w[2]), f(w[3]))
}

pub fn m(w: &[u32]) -> Matrix {
    Matrix::from_rows([[f(w[0]), f(w[1]), f(w[2])], [f(w[3]), f(w[4]), f(w[5])], [f(w[6]), f(w[7]), f(w[8])]])
}

pub fn of_v(v: Vector) -> [u32; 3] {
    [bits(v.x), bits(v.y), bits(v.z)]
}

pub fn of_q(q: Quaternion) -> [u32; 4] {
    [bits(q.w), bits(q.x), bits(q.y), bits(q.z)]
}

pub fn of_m(m: Matrix) -> [u32; 9] {
    let mut out = [0; 9];
    for (o, x) in out.iter_mut().zip(m.to_rows().as_flattened()) {
        *o = bits(*x);
    }
    out
}

pub fn all_finite(words: &[u32]) -> bool {
    words.iter().all(|w| state::finite(*w))
}

pub fn packed(bytes: &[u8]) -> Vec<u32> {
    let word = |c: &[u8]| c.iter().rev().fold(0, |w, b| w << 8 | u32::from(*b));
    bytes.chunks(4).map(word).collect()
}

/// A length that the port has room for; no script should have another.
pub fn length(n: u32, most: u32) -> usize {
    assert!(n <= most, "the script has a length of {n}, and {most} is the most");
    n as usize
}

pub fn unpacked(words: &[u32], len: u32) -> Vec<u8> {
    let all: Vec<u8> = words.iter().flat_map(|w| w.to_le_bytes()).collect();
    all[..length(len, all.len() as u32)].to_vec()
}
