//! One call after another on the Rust, with the refusal table laid over it: a call is tried on a copy of the state, and the
//! copy is kept only where nothing refuses it.

use crate::angles;
use crate::foot::Foot;
use crate::ignored;
use crate::plain::{arithmetic, mountings};
use crate::record::{QUIET, Record, is_of_degrees};
use crate::sines;
use crate::state;
use crate::words::of_q;
use fusion_ahrs::{Ahrs, Bias};

/// The answer to a call: the words that it carries, or a refusal's number with the words of the buffer that was lent.
pub struct Answer {
    pub number: u32,
    pub words: Vec<u32>,
}

pub fn gives(words: impl Into<Vec<u32>>) -> Answer {
    Answer { number: 0, words: words.into() }
}

pub fn refused(number: u32) -> Answer {
    Answer { number, words: Vec::new() }
}

/// Which state a call works on, and so which one is printed after it.
#[derive(PartialEq)]
pub enum Side {
    None,
    Bias,
    Ahrs,
    Foot,
}

#[derive(Clone, Default)]
pub struct Machine {
    pub ahrs: Option<Ahrs>,
    /// The two limits as given, and whether each is an angle; the Rust keeps angles alone.
    pub limits: [u32; 2],
    pub in_degrees: [bool; 2],
    /// The axes that went over; the Rust keeps whether some did.
    pub axes: u32,
    /// For how many updates in a row each sensor was ignored; the Rust keeps whether the last one ignored it.
    pub ignored: [u32; 2],
    pub bias: Option<Bias>,
    pub foot: Foot,
}

/// Holds what was read from the Debug text to what the public functions say.
fn agrees(ahrs: &Ahrs, w: &[u32; 37]) {
    let flags = ahrs.flags();
    let recovers = |s: usize| w[s + 3] as i32 > w[s + 4] as i32;
    assert_eq!(w[state::QUATERNION..state::QUATERNION + 4], of_q(ahrs.quaternion()));
    assert_eq!([w[22], w[24]], [flags.startup, flags.overrange_recovery].map(u32::from));
    assert_eq!(
        [recovers(state::ACCELERATION), recovers(state::MAGNETIC)],
        [flags.acceleration_recovery, flags.magnetic_recovery]
    );
    assert_eq!([w[30], w[36]], ignored::marks(ahrs).map(u32::from));
}

pub fn side(code: u32) -> Side {
    match code {
        0x60..=0x6F => Side::Bias,
        0x80..=0x95 => Side::Ahrs,
        0xA0..=0xA4 => Side::Foot,
        _ => Side::None,
    }
}

impl Machine {
    /// The filter's state, with the two limits as given in place of the angles.
    pub fn ahrs_words(&self) -> [u32; 37] {
        let ahrs = self.ahrs.as_ref().unwrap();
        let mut w = state::of_ahrs(ahrs);
        agrees(ahrs, &w);
        w[state::LIMITS_GIVEN..state::LIMITS_GIVEN + 2].copy_from_slice(&self.limits);
        w
    }

    /// The line that a call prints.
    pub fn line(&mut self, r: &Record) -> String {
        use std::fmt::Write;
        let answer = self.call(r);
        let mut out = String::with_capacity(400);
        match answer.number {
            0 => out.push('0'),
            n => write!(out, "refused {n}").unwrap(),
        }
        for w in &answer.words {
            write!(out, " {w:08X}").unwrap();
        }
        let shown = if r[0] & QUIET == 0 { self.shown(r) } else { Vec::new() };
        if !shown.is_empty() {
            out.push_str(" /");
        }
        for w in shown {
            write!(out, " {w:08X}").unwrap();
        }
        out
    }

    /// The state that is printed after a call.
    fn shown(&self, r: &Record) -> Vec<u32> {
        let code = r[0] & !QUIET;
        match (side(code), &self.bias) {
            (Side::Ahrs, _) if self.ahrs.is_some() => self.ahrs_words().to_vec(),
            (Side::Bias, Some(bias)) => state::of_bias(bias).to_vec(),
            (Side::Foot, _) => self.foot.words(code, r[1]),
            _ => Vec::new(),
        }
    }

    pub fn call(&mut self, r: &Record) -> Answer {
        let (code, a) = (r[0] & !QUIET, &r[1..]);
        match code {
            _ if is_of_degrees(code) && !sines::in_place() => {
                panic!("call {code:02X} is for the oracle with the port's sine in place")
            }
            0x47 | 0x48 => sines::answer(code, a[0]),
            0x49 => angles::answer(a),
            0x10..=0x4F => gives(arithmetic(code, a)),
            0x50..=0x5F => mountings(code, a),
            0x60..=0x6F => self.bias(code, a),
            0x80..=0x95 => self.ahrs(code, a),
            0xA0..=0xA4 => self.foot.call(code, a),
            _ => panic!("the script has a call {code:02X}"),
        }
    }
}
