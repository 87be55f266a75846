//! The Rust as it is published. Its fields are private, so a whole state is read from what `{:?}` prints: the derived Debug names
//! every field, and prints each f32 in the shortest decimal that reads back to the same bits (a minus zero as -0.0). A NaN
//! reads back as some NaN, and no kept state has one. A limit is given by its angle alone.

use crate::state::Kind::*;
use crate::state::{AHRS, BIAS, Kind, LIMITS_USED};
use fusion_ahrs::{Ahrs, AhrsSettings, Bias};
use std::fmt::Write;

fn words<const N: usize>(text: &str, fields: &[(&str, Kind); N]) -> [u32; N] {
    let mut out = [0; N];
    let mut n = 0;
    // "Name { field: value, field: Name { .. } }": a leaf is a field whose value opens no brace.
    let mut rest = text;
    while let Some(colon) = rest.find(": ") {
        let name = rest[..colon].rsplit([' ', '{', ',']).next().unwrap();
        rest = &rest[colon + 2..];
        let end = rest.find([',', ' ', '}']).unwrap_or(rest.len());
        if rest[end..].starts_with(" {") {
            continue;
        }
        let value = &rest[..end];
        assert!(n < N && fields[n].0 == name, "field {n} is {name}: {text}");
        out[n] = match fields[n].1 {
            Float => value.parse::<f32>().unwrap().to_bits(),
            Signed => value.parse::<i32>().unwrap() as u32,
            Unsigned => value.parse::<u32>().unwrap(),
            Bool => value.parse::<bool>().unwrap() as u32,
            Convention => ["Nwu", "Enu", "Ned"].iter().position(|c| *c == value).unwrap() as u32,
        };
        n += 1;
        rest = &rest[end..];
    }
    assert!(n == N, "{n} fields: {text}");
    out
}

pub fn of_ahrs(ahrs: &Ahrs) -> [u32; 37] {
    let mut text = String::with_capacity(1024);
    write!(text, "{ahrs:?}").unwrap();
    words(&text, &AHRS)
}

pub fn of_bias(bias: &Bias) -> [u32; 10] {
    let mut text = String::with_capacity(256);
    write!(text, "{bias:?}").unwrap();
    words(&text, &BIAS)
}

/// What the Rust's `rejection_threshold` gives for an angle: the limit in use of a filter whose rejection is on.
pub fn limit_of(degrees: f32) -> f32 {
    let probe = Ahrs::with_settings(AhrsSettings {
        sample_rate: 1.0,
        gain: 1.0,
        rejection_timeout: 1.0,
        acceleration_rejection: degrees,
        ..Default::default()
    });
    f32::from_bits(of_ahrs(&probe)[LIMITS_USED])
}

/// The smallest angle up to 90 degrees whose limit has exactly these bits, or 0 for the largest f32. The limit never falls as
/// the angle's bits grow from 1, so halving finds it.
pub fn angle_of(limit: f32) -> Option<f32> {
    if limit == f32::MAX {
        return Some(0.0);
    }
    let (mut low, mut high) = (1, 90f32.to_bits());
    while low < high {
        let middle = (low + high) / 2;
        if limit_of(f32::from_bits(middle)) < limit {
            low = middle + 1;
        } else {
            high = middle;
        }
    }
    let angle = f32::from_bits(low);
    (limit_of(angle).to_bits() == limit.to_bits()).then_some(angle)
}

/// An angle whose limit has exactly these bits, if one is near the arc sine, beyond 90 degrees too.
pub fn angle_for(limit: f32) -> Option<f32> {
    if limit == f32::MAX {
        return Some(0.0);
    }
    let first = ((2.0 * f64::from(limit).sqrt()).asin().to_degrees()) as f32;
    for turned in [first, 180.0 - first] {
        for step in 0..400u32 {
            for bits in [turned.to_bits().wrapping_add(step), turned.to_bits().wrapping_sub(step)] {
                let angle = f32::from_bits(bits);
                if angle.is_finite() && limit_of(angle).to_bits() == limit.to_bits() {
                    return Some(angle);
                }
            }
        }
    }
    None
}

/// Settings hold angles in the Rust: the limits of a script have to be the ones that the Rust derives from its angles.
pub fn hold_limits(_: &mut Ahrs, given: [(u32, u32); 2]) {
    for (limit, angle) in given {
        let derived = limit_of(f32::from_bits(angle)).to_bits();
        assert!(derived == limit, "the script gives limit {limit:08X} for angle {angle:08X}, whose limit is {derived:08X}");
    }
}
