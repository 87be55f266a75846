//! Calls about offset records of both editions, good or with something wrong of each kind.

use crate::generate::{Script, bits};
use crate::offsets::Stored;
use crate::random::Random;
use crate::state;
use crate::words::{MINUS_ZERO, packed, plus_zero};

/// What can be wrong about a record.
#[derive(Clone, Copy, PartialEq)]
enum Wrong {
    Nothing,
    Length,
    Mark,
    Version,
    Mounting,
    NotFinite,
    /// In the settings it is nothing wrong, unless it is the rate.
    MinusZero,
    Rate,
    Coefficient,
    /// The mounting that a restore is given, or the buffer that a move is lent.
    Beside,
    Bit,
}
use Wrong::*;

const EACH: [Wrong; 11] = [Nothing, Length, Mark, Version, Mounting, NotFinite, MinusZero, Rate, Coefficient, Beside, Bit];
/// The least cutoff that has a finite coefficient at no rate, and the greatest rate that has one at no cutoff.
const HIGH: u32 = 0x7E22_F983;
const SLOW: u32 = 0x0020_0000;

/// Another length: at or beside an edition's, or any up to the most.
fn other(r: &mut Random, right: usize, most: u64) -> usize {
    let any = r.below(most + 1) as usize;
    let len = r.pick(&[0, 17, 18, 19, 33, 34, 35, any]);
    if len == right { right + 1 } else { len }
}

/// Puts something wrong among the floats: the offset's, and behind them the settings' where the call has some.
fn spoil(r: &mut Random, floats: &mut [u32], wrong: Wrong) {
    let any = r.below(floats.len() as u64) as usize;
    match (wrong, floats.len()) {
        (NotFinite, _) => floats[any] = r.not_finite(),
        (MinusZero, _) => floats[any] = MINUS_ZERO,
        (Rate, 7) => floats[3] = r.pick(&[0, MINUS_ZERO, bits(-100.0)]),
        (Coefficient, 7) if r.one_in(3) => floats[3] = r.pick(&[1, SLOW, SLOW + 1]),
        (Coefficient, 7) => floats[6] = r.pick(&[HIGH - 1, HIGH, f32::MAX.to_bits()]),
        _ => (),
    }
}

/// The same of a record's other bytes, or of any bit.
fn damage(r: &mut Random, bytes: &mut [u8], wrong: Wrong) {
    match wrong {
        Mark => bytes[r.below(3) as usize] ^= 1 << r.below(8),
        Version => {
            let of_other = if bytes.len() == 18 { 2 } else { 1 };
            bytes[3..5].copy_from_slice(&r.pick(&[0, of_other, of_other, 3, 257, 258u16]).to_le_bytes());
        }
        Mounting => bytes[5] = r.pick(&[24, 25, 255]),
        Bit => {
            let any = r.below(bytes.len() as u64) as usize;
            bytes[any] ^= 1 << r.below(8);
        }
        _ => (),
    }
}

/// The bytes of a record of either edition, or of something near one.
fn record(r: &mut Random, floats: [u32; 7], second: bool, wrong: &[Wrong], most: u64) -> Vec<u8> {
    let [x, y, z, settings @ ..] = floats;
    let stored = Stored { mounting: r.below(24) as u8, offset: [x, y, z], settings: second.then_some(settings) };
    let mut bytes = stored.bytes();
    wrong.iter().for_each(|w| damage(r, &mut bytes, *w));
    if wrong.contains(&Length) {
        bytes.resize(other(r, bytes.len(), most), 0);
    }
    bytes
}

/// What a move or a restore has beside the record.
fn beside(r: &mut Random, code: u32, wrong: bool) -> u32 {
    match code {
        0x69 if wrong => r.pick(&[24, 25, 255, 256, 1 << 31]),
        0x69 => r.below(24) as u32,
        _ => {
            let (room, most) = (if code == 0x6A { 34 } else { 18 }, r.pick(&[64, 64, 64, 256]));
            if wrong { other(r, room, most) as u32 } else { room as u32 }
        }
    }
}

impl Script<'_> {
    /// Each call about a record that is given, with each thing wrong in turn.
    pub fn records(&mut self) {
        for wrong in EACH {
            for (code, second) in [(0x69, false), (0x69, true), (0x6A, false), (0x6B, true), (0x6C, false)] {
                self.about_record(code, second, &[wrong]);
            }
        }
    }

    /// One of them, mostly with nothing wrong, now and then with more than one thing or of the other edition.
    pub fn any_record(&mut self, code: u32) {
        let r = &mut self.random;
        let second = match code {
            0x69 => r.one_in(2),
            0x6B => !r.one_in(16),
            _ => r.one_in(16),
        };
        let mut wrong = Vec::new();
        while r.one_in(3) {
            wrong.push(r.pick(&EACH));
        }
        self.about_record(code, second, &wrong);
    }

    fn about_record(&mut self, code: u32, second: bool, wrong: &[Wrong]) {
        let mut floats = self.floats();
        let r = &mut self.random;
        let used = if second || code == 0x6A { 7 } else { 3 };
        wrong.iter().for_each(|w| spoil(r, &mut floats[..used], *w));
        let most = match code {
            0x69 => 52,
            0x6A => 36,
            0x6B => 48,
            _ => 56,
        };
        let bytes = record(r, floats, second, wrong, most);
        let (len, beside) = (bytes.len() as u32, beside(r, code, wrong.contains(&Beside)));
        let mut args = match code {
            0x69 => vec![beside, len],
            0x6C => vec![len],
            _ => vec![len, beside],
        };
        args.extend(packed(&bytes));
        if code == 0x6A {
            args.resize(11, 0);
            args.extend(&floats[3..]);
        }
        self.put(code, &args);
    }

    /// An offset without a minus zero, and settings: the estimator's own, or others.
    fn floats(&mut self) -> [u32; 7] {
        let [rate, threshold, period, cutoff, .., x, y, z] = state::of_bias(self.machine.bias.as_ref().unwrap());
        let others = self.random.one_in(4);
        let [rate, threshold, period, cutoff] = if others { self.bias_settings() } else { [rate, threshold, period, cutoff] };
        let r = &mut self.random;
        let [x, y, z] = if r.one_in(3) { [x, y, z] } else { r.offset() }.map(plus_zero);
        [x, y, z, rate, threshold, period, cutoff]
    }
}
