//! The call script: records of 64 bytes, sixteen little-endian words. docs/FORMATS.md describes it.

use std::io::{self, Read};

pub const WORDS: usize = 16;
pub const BYTES: usize = 4 * WORDS;
/// Set in word 0: the state is not printed after the call.
pub const QUIET: u32 = 0x100;

pub type Record = [u32; WORDS];

/// What one argument word holds; it only matters for the text form.
#[derive(Clone, Copy, PartialEq)]
pub enum Kind {
    Float,
    Whole,
    Bytes,
}
use Kind::{Bytes as B, Float as F, Whole as W};

/// Every call: its number, its name in the text form, and the kinds of its argument words.
pub const CALLS: &[(u32, &str, &[Kind])] = &[
    (0x10, "vector.is_zero", &[F; 3]),
    (0x11, "vector.sum", &[F; 3]),
    (0x12, "vector.hadamard", &[F; 6]),
    (0x13, "vector.dot", &[F; 6]),
    (0x14, "vector.cross", &[F; 6]),
    (0x15, "vector.norm_squared", &[F; 3]),
    (0x16, "vector.norm", &[F; 3]),
    (0x17, "vector.normalize", &[F; 3]),
    (0x18, "vector.add", &[F; 6]),
    (0x19, "vector.sub", &[F; 6]),
    (0x1A, "vector.neg", &[F; 3]),
    (0x1B, "vector.mul", &[F; 4]),
    (0x20, "matrix.transpose", &[F; 9]),
    (0x21, "matrix.mul", &[F; 10]),
    (0x22, "matrix.mul_vector", &[F; 12]),
    (0x30, "quaternion.sum", &[F; 4]),
    (0x31, "quaternion.hadamard", &[F; 8]),
    (0x32, "quaternion.vector_product", &[F; 7]),
    (0x33, "quaternion.conjugate", &[F; 4]),
    (0x34, "quaternion.norm_squared", &[F; 4]),
    (0x35, "quaternion.norm", &[F; 4]),
    (0x36, "quaternion.normalize", &[F; 4]),
    (0x37, "quaternion.to_matrix", &[F; 4]),
    (0x38, "quaternion.rotate", &[F; 7]),
    (0x39, "quaternion.add", &[F; 8]),
    (0x3A, "quaternion.mul", &[F; 5]),
    (0x3B, "quaternion.product", &[F; 8]),
    (0x40, "sqrtf", &[F]),
    (0x41, "fabsf", &[F]),
    (0x42, "f32_as_i32", &[F]),
    (0x43, "f32_as_u32", &[F]),
    (0x44, "i32_as_f32", &[W]),
    (0x45, "i32_saturating_add", &[W; 2]),
    (0x46, "i32_saturating_sub", &[W; 2]),
    (0x47, "sin_degrees", &[F]),
    (0x48, "cos_degrees", &[F]),
    (0x49, "angle_degrees", &[F; 2]),
    (0x50, "mounting.turn", &[W, F, F, F]),
    (0x51, "mounting.then", &[W; 2]),
    (0x52, "mounting.inverse", &[W]),
    (0x53, "mounting.name", &[W; 2]),
    (0x54, "mounting.named", &[W, B, B, B, B, B, B, B, B, B, B, B, B, B, B]),
    (0x55, "mounting.turn_run", &[W, W, W, F, F, F, F, F, F, F, F, F, F, F, F]),
    (0x56, "mounting.to_matrix", &[W]),
    (0x57, "mounting.rotate", &[W, F, F, F]),
    (0x60, "bias.with_settings", &[F; 4]),
    (0x61, "bias.set_settings", &[F; 4]),
    (0x62, "bias.update", &[F; 3]),
    (0x63, "bias.offset", &[]),
    (0x64, "bias.set_offset", &[F; 3]),
    (0x65, "bias.restart", &[]),
    (0x66, "bias.is_active", &[]),
    (0x67, "bias.settings", &[]),
    (0x68, "bias.record", &[W; 2]),
    (0x69, "bias.restore", &[W, W, B, B, B, B, B, B, B, B, B, B, B, B, B]),
    (0x6A, "bias.move_up", &[W, W, B, B, B, B, B, B, B, B, B, F, F, F, F]),
    (0x6B, "bias.move_down", &[W, W, B, B, B, B, B, B, B, B, B, B, B, B]),
    (0x6C, "bias.read_record", &[W, B, B, B, B, B, B, B, B, B, B, B, B, B, B]),
    (0x80, "ahrs.with_settings", &[F, W, F, F, F, F, F, F, F]),
    (0x81, "ahrs.set_settings", &[F, W, F, F, F, F, F, F, F]),
    (0x82, "ahrs.set_sample_period", &[F]),
    (0x83, "ahrs.restart", &[]),
    (0x84, "ahrs.skip_startup", &[]),
    (0x85, "ahrs.set_quaternion", &[F; 4]),
    (0x86, "ahrs.update", &[F; 9]),
    (0x87, "ahrs.quaternion", &[]),
    (0x88, "ahrs.gravity", &[]),
    (0x89, "ahrs.linear_acceleration", &[]),
    (0x8A, "ahrs.earth_acceleration", &[]),
    (0x8B, "ahrs.flags", &[]),
    (0x8C, "ahrs.trigger_ratios", &[]),
    (0x8D, "ahrs.ignored", &[]),
    (0x8E, "ahrs.settings", &[]),
    (0x8F, "ahrs.axes", &[]),
    (0x90, "ahrs.with_angles", &[F, W, F, F, F, F, F]),
    (0x91, "ahrs.set_angles", &[F, W, F, F, F, F, F]),
    (0x92, "ahrs.ignored_counts", &[]),
    (0x93, "ahrs.set_heading", &[F]),
    (0x94, "ahrs.update_external_heading", &[F; 7]),
    (0x95, "ahrs.update_no_magnetometer", &[F; 6]),
    (0xA0, "table.fill", &[W, F, W, F, F, F, F, F]),
    (0xA1, "party.start", &[W, F, W, F, F, F, F, F]),
    (0xA2, "party.choose", &[W; 2]),
    (0xA3, "party.rewrite", &[W, F, W, F, F, F, F, F]),
    (0xA4, "party.update", &[W, F, F, F, F, F, F, F, F, F]),
];

/// The calls that update the filter.
pub const UPDATES: [u32; 3] = [0x86, 0x94, 0x95];

/// The calls that only read the filter.
pub const READS: [u32; 10] = [0x87, 0x88, 0x89, 0x8A, 0x8B, 0x8C, 0x8D, 0x8E, 0x8F, 0x92];

pub fn call(code: u32) -> Option<&'static (u32, &'static str, &'static [Kind])> {
    CALLS.iter().find(|c| c.0 == code)
}

/// Whether a call is for the Rust with the port's sine, cosine and angle in place.
pub fn is_of_degrees(code: u32) -> bool {
    matches!(code, 0x47..=0x49 | 0x90 | 0x91 | 0x93..=0x95)
}

pub fn record(code: u32, args: &[u32]) -> Record {
    let mut r = [0; WORDS];
    r[0] = code;
    r[1..=args.len()].copy_from_slice(args);
    r
}

pub fn to_bytes(r: &Record) -> [u8; BYTES] {
    let mut out = [0; BYTES];
    for (i, w) in r.iter().enumerate() {
        out[4 * i..4 * i + 4].copy_from_slice(&w.to_le_bytes());
    }
    out
}

/// The next record, or nothing at the end. A cut record is an error.
pub fn read(input: &mut impl Read) -> io::Result<Option<Record>> {
    let mut bytes = [0; BYTES];
    let mut have = 0;
    while have < BYTES {
        match input.read(&mut bytes[have..])? {
            0 if have == 0 => return Ok(None),
            0 => return Err(io::Error::other("the script ends inside a record")),
            n => have += n,
        }
    }
    let mut r = [0; WORDS];
    for (i, w) in r.iter_mut().enumerate() {
        *w = u32::from_le_bytes(bytes[4 * i..4 * i + 4].try_into().unwrap());
    }
    Ok(Some(r))
}

/// One record as a line: the name, `quiet` where set, its words in hex, and after `#` the floats in decimal.
pub fn to_text(r: &Record) -> String {
    let Some((_, name, kinds)) = call(r[0] & !QUIET) else { return format!("?{:08X}", r[0]) };
    let mut line = String::from(*name);
    if r[0] & QUIET != 0 {
        line += " quiet";
    }
    for w in &r[1..=kinds.len()] {
        line += &format!(" {w:08X}");
    }
    if kinds.contains(&Kind::Float) {
        line += " #";
        for (w, k) in r[1..].iter().zip(*kinds) {
            match k {
                Kind::Float => line += &format!(" {:?}", f32::from_bits(*w)),
                Kind::Whole => line += &format!(" {}", *w as i32),
                Kind::Bytes => (),
            }
        }
    }
    line
}

/// A line back into a record: an argument is 8 hex digits, or a decimal float with a point in it.
pub fn from_text(line: &str) -> Result<Option<Record>, String> {
    let line = line.split('#').next().unwrap();
    let mut tokens = line.split_whitespace().peekable();
    let Some(name) = tokens.next() else { return Ok(None) };
    let Some((code, _, kinds)) = CALLS.iter().find(|c| c.1 == name) else { return Err(format!("no call {name}")) };
    let mut r = [0; WORDS];
    r[0] = *code;
    if tokens.peek() == Some(&"quiet") {
        tokens.next();
        r[0] |= QUIET;
    }
    for (i, t) in tokens.enumerate() {
        if i >= kinds.len() {
            return Err(format!("too many arguments: {line}"));
        }
        r[i + 1] = if t.contains('.') {
            t.parse::<f32>().map_err(|e| format!("{t}: {e}"))?.to_bits()
        } else {
            u32::from_str_radix(t, 16).map_err(|e| format!("{t}: {e}"))?
        };
    }
    Ok(Some(r))
}
