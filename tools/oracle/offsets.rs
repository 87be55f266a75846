//! The offset record in both editions. It is not the Rust's: it is made, read, moved and restored here by its description.

use crate::estimator::settings;
use crate::machine::{Answer, gives, refused};
use crate::plain::{inverse, mounting};
use crate::words::{MINUS_ZERO, all_finite, length, of_v, packed, plus_zero, unpacked, v};
use fusion_ahrs::{Bias, RemapAlignment, Vector, remap};

/// The length of a record, and the version in it.
type Edition = (usize, u16);
const FIRST: Edition = (18, 1);
/// Settings stand behind the offset.
const SECOND: Edition = (34, 2);

/// The places of x, y, z, and of the settings in the order of the calls: rate, threshold, period, cutoff.
const OFFSET: [usize; 3] = [6, 10, 14];
const SETTINGS: [usize; 4] = [18, 26, 30, 22];

/// What a record holds, each float by its bits; settings in the second edition alone.
pub struct Stored {
    pub mounting: u8,
    pub offset: [u32; 3],
    pub settings: Option<[u32; 4]>,
}

fn words_at<const N: usize>(bytes: &[u8], places: [usize; N]) -> [u32; N] {
    places.map(|at| u32::from_le_bytes(bytes[at..at + 4].try_into().unwrap()))
}

fn put_words(bytes: &mut [u8], places: &[usize], words: &[u32]) {
    for (at, w) in places.iter().zip(words) {
        bytes[*at..at + 4].copy_from_slice(&w.to_le_bytes());
    }
}

impl Stored {
    /// A record of one of some editions, or the number that refuses it, be it for a mounting beside its own.
    fn read(bytes: &[u8], editions: &[Edition], beside: u32) -> Result<Self, u32> {
        let Some((_, version)) = editions.iter().find(|e| e.0 == bytes.len()) else { return Err(1) };
        if bytes[..3] != *b"GOF" {
            return Err(2);
        }
        if bytes[3..5] != version.to_le_bytes() {
            return Err(3);
        }
        if mounting(bytes[5].into()).is_none() || mounting(beside).is_none() {
            return Err(4);
        }
        let offset = words_at(bytes, OFFSET);
        if !all_finite(&offset) || offset.contains(&MINUS_ZERO) {
            return Err(5);
        }
        let behind = settings_at(bytes);
        if let Some(words) = behind {
            settings(&words)?;
        }
        Ok(Self { mounting: bytes[5], offset, settings: behind })
    }

    pub fn bytes(&self) -> Vec<u8> {
        let (length, version) = if self.settings.is_some() { SECOND } else { FIRST };
        let mut bytes = vec![0; length];
        bytes[..3].copy_from_slice(b"GOF");
        bytes[3..5].copy_from_slice(&version.to_le_bytes());
        bytes[5] = self.mounting;
        put_words(&mut bytes, &OFFSET, &self.offset);
        put_words(&mut bytes, &SETTINGS, self.settings.as_ref().map_or(&[], |s| s));
        bytes
    }
}

fn settings_at(bytes: &[u8]) -> Option<[u32; 4]> {
    (bytes.len() == SECOND.0).then(|| words_at(bytes, SETTINGS))
}

/// The bytes of the record that a call gives.
pub fn given(code: u32, a: &[u32]) -> Vec<u8> {
    match code {
        0x69 => unpacked(&a[2..], a[1]),
        0x6A => unpacked(&a[2..11], a[0]),
        0x6B => unpacked(&a[2..14], a[0]),
        _ => unpacked(&a[1..], a[0]),
    }
}

/// The settings that a call gives: beside the record, or in it.
pub fn given_settings(code: u32, a: &[u32]) -> Option<[u32; 4]> {
    match code {
        0x6A => Some([a[11], a[12], a[13], a[14]]),
        0x69 | 0x6B => settings_at(&given(code, a)),
        _ => None,
    }
}

/// Whether the offset in the record that a restore is given has a minus zero.
pub fn has_minus_zero(a: &[u32]) -> bool {
    let bytes = given(0x69, a);
    bytes.len() >= FIRST.0 && words_at(&bytes, OFFSET).contains(&MINUS_ZERO)
}

/// The calls that leave the estimator as it is.
pub fn call(bias: Bias, code: u32, a: &[u32]) -> Answer {
    match code {
        0x68 => written(a[1], FIRST, recorded(bias, a[0])),
        0x6A => written(a[1], SECOND, moved_up(a)),
        0x6B => written(a[1], FIRST, moved_down(a)),
        0x6C => match Stored::read(&given(code, a), &[FIRST], 0) {
            Ok(stored) => gives([&[stored.mounting.into()], &stored.offset[..]].concat()),
            Err(number) => refused(number),
        },
        _ => panic!("the script has a call {code:02X}"),
    }
}

/// The offset in a record of either edition, turned out of its mounting and into another.
pub fn restored(a: &[u32]) -> Result<Vector, u32> {
    let stored = Stored::read(&given(0x69, a), &[FIRST, SECOND], a[0])?;
    let known = |n: u32| RemapAlignment::ALL[n as usize];
    let undoing = known(inverse(known(stored.mounting.into())));
    Ok(remap(remap(v(&stored.offset), undoing), known(a[0])))
}

/// The estimator's offset, with plus zeros.
fn recorded(bias: Bias, number: u32) -> Result<Stored, u32> {
    if mounting(number).is_none() {
        return Err(4);
    }
    Ok(Stored { mounting: number as u8, offset: of_v(bias.offset()).map(plus_zero), settings: None })
}

fn moved_up(a: &[u32]) -> Result<Stored, u32> {
    let stored = Stored::read(&given(0x6A, a), &[FIRST], 0)?;
    settings(&a[11..])?;
    Ok(Stored { settings: given_settings(0x6A, a), ..stored })
}

fn moved_down(a: &[u32]) -> Result<Stored, u32> {
    let stored = Stored::read(&given(0x6B, a), &[SECOND], 0)?;
    Ok(Stored { settings: None, ..stored })
}

/// A record in a lent buffer that has just the room for one of its edition.
fn written(lent: u32, (room, _): Edition, record: Result<Stored, u32>) -> Answer {
    let before = vec![0x2A; length(lent, 256)];
    match record {
        _ if before.len() != room => Answer { number: 1, words: packed(&before) },
        Ok(stored) => gives(packed(&stored.bytes())),
        Err(number) => Answer { number, words: packed(&before) },
    }
}
