//! Every pattern of 32 bits: the root and the conversions beside the Rust's, what is said of a pattern, sine and cosine beside 02's
//! reference, and the limit of an angle beside the Rust's. And every tangent in steps of 2^-24: the angle of its points beside what 02 asks.

use crate::angles;
use crate::differ::differs;
use crate::filter::RIGHT_ANGLE;
use crate::rust;
use crate::sines::{is_near, refusal};
use crate::words::bits;
use gateweave::answer::Refusal;
use gateweave::{number, root, text, trig, wire};

/// The functions that are tried, in the order of their words.
pub const TRIED: &str =
    "sqrtf fabsf is_finite to_i32 to_u32 from_i32 is_finite_bits float_of bits_of word sin cos rejection_threshold";

/// What the Rust, and for the last four the pattern itself, says.
fn theirs(n: u32) -> [u32; 10] {
    let x = f32::from_bits(n);
    [
        bits(libm::sqrtf(x)),
        bits(libm::fabsf(x)),
        x.is_finite() as u32,
        x as i32 as u32,
        x as u32,
        bits(n as i32 as f32),
        x.is_finite() as u32,
        bits(x),
        bits(x),
        n,
    ]
}

fn ours(n: u32) -> [u32; 10] {
    let x = f32::from_bits(n);
    [
        bits(root::sqrtf(x)),
        bits(number::fabsf(x)),
        number::is_finite(x) as u32,
        number::to_i32(x) as u32,
        number::to_u32(x),
        bits(number::from_i32(n as i32)),
        wire::is_finite_bits(n) as u32,
        bits(wire::float_of(n)),
        wire::bits_of(x),
        text::word(n).iter().fold(0, |m, d| m << 4 | (*d as char).to_digit(16).expect("a digit")),
    ]
}

/// Whether an answer to call 47 or 48 is the refusal of an angle, or as near to its reference as it has to be.
fn is_right(code: u32, x: f32, answer: Result<f32, Refusal>) -> bool {
    match answer {
        Ok(y) => refusal(x) == 0 && is_near(code, x, y),
        Err(refused) => refusal(x) == u32::from(refused.number()),
    }
}

/// Sine and cosine of a pattern, and the limit where it is an angle of rejection.
fn degrees(n: u32) {
    let (x, pattern) = (f32::from_bits(n), || format!("the pattern {n:08X}"));
    if !is_right(0x47, x, trig::sin_degrees(x)) || !is_right(0x48, x, trig::cos_degrees(x)) {
        let [theirs, ours] = [[libm::sinf(x), libm::cosf(x)], [trig::sin(x), trig::cos(x)]].map(|both| both.map(bits));
        differs("sine or cosine, its refusal, or its reference", &pattern(), &theirs, &ours);
    }
    if (0.0..=RIGHT_ANGLE).contains(&x) {
        let (theirs, ours) = (bits(rust::limit_of(x)), bits(trig::rejection_threshold(x)));
        if theirs != ours {
            differs("the limit of an angle", &pattern(), &[theirs], &[ours]);
        }
    }
}

/// The tangent 1 in steps.
const LEVEL: u64 = 1 << 24;

/// The tangents of one part in so many, from 0 to 1, in each octant: how many points they are.
pub fn tangents(part: u64, parts: u64) -> u64 {
    let (from, to) = ((LEVEL + 1) * part / parts, (LEVEL + 1) * (part + 1) / parts);
    for n in from..to {
        let small = n as f32 / LEVEL as f32;
        for (y, x) in [(small, 1.0), (1.0, small)] {
            [(y, x), (y, -x), (-y, x), (-y, -x)].map(point);
        }
    }
    8 * (to - from)
}

fn point((y, x): (f32, f32)) {
    let ours = trig::angle(y, x);
    if !angles::is_right(y, x, ours) {
        differs("the angle of a point, and what 02 asks of it", &format!("{y:?} {x:?}"), &[], &[bits(ours)]);
    }
}

/// The patterns of one part in so many.
pub fn run(part: u64, parts: u64) -> u64 {
    let (from, to) = ((part << 32) / parts, ((part + 1) << 32) / parts);
    for n in from..to {
        let (theirs, ours) = (theirs(n as u32), ours(n as u32));
        if theirs != ours {
            differs(TRIED, &format!("the pattern {n:08X}"), &theirs, &ours);
        }
        // The Rust's root on this machine may be software; the processor's own has to agree.
        let processor = bits(f32::from_bits(n as u32).sqrt());
        if processor != ours[0] {
            differs("sqrtf and the processor's root", &format!("the pattern {n:08X}"), &[processor], &ours[..1]);
        }
        degrees(n as u32);
    }
    to - from
}
