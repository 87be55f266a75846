//! Logs from a seed. The generator runs the records that it makes, so that a good log is good to its end; some logs are then
//! damaged in one place.

use crate::generate::{Script, bits};
use crate::knock::gyroscope;
use crate::log::{HEADER, MARK, RECORD};
use crate::machine::{Answer, Machine};
use crate::random::Random;
use crate::record::{Record, record};
use crate::state;
use crate::walk::Walk;
use crate::words::f;

#[derive(Clone, Copy, PartialEq)]
enum Damage {
    Whole,
    Cut,
    Mark,
    Version,
    Convention,
    HeaderFloat,
    Rate,
    Negative,
    Derived,
    Float,
    Overflow,
    Sequence,
    SequenceAndFloat,
}
use Damage::*;

const DAMAGES: [Damage; 12] =
    [Cut, Mark, Version, Convention, HeaderFloat, Rate, Negative, Derived, Float, Overflow, Sequence, SequenceAndFloat];
const NOT_FINITE: [u32; 6] = [0x7FC0_0000, 0x7F80_0000, 0xFF80_0000, 0xFFC0_0000, 0x7F80_0001, 0xFFFF_FFFF];

pub fn make(seed: u64, count: u64) -> Vec<u8> {
    let out = &mut |_: &Record, _: &Answer, _: &Machine| ();
    let mut script = Script {
        random: Random(seed),
        machine: Machine::default(),
        out,
        quiet: 1,
        left: 0,
        stuck: 0,
        patience: 4,
        haste: 0,
        by_angles: 0,
        by_headings: 0,
    };
    let settings = accepted_settings(&mut script);
    let Script { mut random, mut machine, .. } = script;
    let r = &mut random;
    let damage = if r.one_in(3) { r.pick(&DAMAGES) } else { Whole };
    let count = match r.below(4) {
        0 => r.below(count.min(40) + 1),
        1 => r.below(count + 1),
        _ => count,
    };
    let overflow = if damage == Overflow { r.below(count.max(1)) } else { count };
    let records = readings(r, &mut machine, &settings, count, overflow);
    // Half of the logs wrap.
    let first = if r.one_in(2) { r.any() as u16 } else { (r.below(count + 1) as u16).wrapping_neg() };
    let mut log = header(&settings);
    for (i, nine) in records.iter().enumerate() {
        log.extend(first.wrapping_add(i as u16).to_le_bytes());
        log.extend(nine.iter().flat_map(|w| w.to_le_bytes()));
    }
    harm(r, damage, &mut log);
    log
}

/// Settings that start a filter, with limits from which `oracle log` finds an angle.
fn accepted_settings(script: &mut Script) -> [u32; 9] {
    loop {
        let settings = script.ahrs_settings();
        let has_angle = |i: usize| state::angle_of(f(settings[i])).is_some();
        if has_angle(4) && has_angle(5) && script.machine.call(&record(0x80, &settings)).number == 0 {
            return settings;
        }
    }
}

fn header(settings: &[u32; 9]) -> Vec<u8> {
    let [rate, convention, gain, range, acceleration, magnetic, timeout, ..] = *settings;
    let mut bytes = MARK.to_vec();
    bytes.extend([1, 0, convention as u8]);
    bytes.extend([rate, gain, range, acceleration, magnetic, timeout].iter().flat_map(|w| w.to_le_bytes()));
    bytes
}

/// A walk with strange readings now and then, each accepted but from record `overflow` on.
fn readings(r: &mut Random, machine: &mut Machine, settings: &[u32; 9], count: u64, overflow: u64) -> Vec<[u32; 9]> {
    let mut walk = Walk::begin(f64::from(f(settings[0])).clamp(1.0, 1e4), settings[1]);
    let seldom = r.pick(&[2, 20, 1000]);
    let mut records = Vec::new();
    for i in 0..count {
        walk.step(r);
        let plain = walk.readings(r);
        let tried = match i {
            _ if i > overflow => vec![plain],
            _ if i == overflow => vec![[0; 9].map(|_: u32| bits(r.pick(&[3.4e38, -3.4e38, 2e38])))],
            _ if r.one_in(seldom) => vec![strange(r, plain, settings[3]), plain, [0; 9]],
            _ => vec![plain, [0; 9]],
        };
        let Some(nine) = tried.into_iter().find(|nine| i >= overflow || accepted(machine, nine)) else { break };
        records.push(nine);
    }
    records
}

/// Whether the filter takes the readings and goes on: after a quaternion of zero, it would refuse whatever follows.
fn accepted(machine: &mut Machine, nine: &[u32; 9]) -> bool {
    let before = machine.clone();
    let answer = machine.call(&record(0x86, nine));
    let goes_on = answer.number == 0 && answer.words.iter().any(|w| f(*w) != 0.0);
    if !goes_on {
        *machine = before;
    }
    goes_on
}

/// Sensors of zero, rates about the overrange product, readings of any finite size.
fn strange(r: &mut Random, mut nine: [u32; 9], range: u32) -> [u32; 9] {
    match r.below(6) {
        0 => nine[3..6].fill(r.pick(&[0, 0x8000_0000])),
        1 => nine[6..9].fill(r.pick(&[0, 0x8000_0000])),
        2 => {
            let (product, set) = ((0.98f32 * f(range)).abs().to_bits(), r.below(8) as u32);
            nine[..3].copy_from_slice(&gyroscope(r, product, set));
        }
        3 => nine[r.below(9) as usize] = r.finite(),
        4 => nine[r.below(9) as usize] = r.edge(),
        _ => nine = [0; 9].map(|_: u32| r.float()),
    }
    nine
}

/// Damages a log in one place. A record's damage needs a record, and a break in the sequence one before it.
fn harm(r: &mut Random, damage: Damage, log: &mut Vec<u8>) {
    let records = (log.len() - HEADER) / RECORD;
    let broken = matches!(damage, Sequence | SequenceAndFloat);
    let first = usize::from(broken);
    if records <= first && (broken || damage == Float) {
        return;
    }
    let at = HEADER + RECORD * (first + r.below((records - first).max(1) as u64) as usize);
    if broken {
        let step = if r.one_in(4) { 1 + r.below(65535) as u16 } else { r.pick(&[1, !0]) };
        let sequence = u16::from_le_bytes([log[at], log[at + 1]]).wrapping_add(step);
        log[at..at + 2].copy_from_slice(&sequence.to_le_bytes());
    }
    match damage {
        Whole | Overflow | Sequence => (),
        Cut => log.truncate(r.below(log.len() as u64) as usize),
        Mark => log[r.below(3) as usize] ^= 1 << r.below(8),
        Version => log[3 + r.below(2) as usize] ^= 1 << r.below(8),
        Convention => log[5] = 3 + r.below(253) as u8,
        HeaderFloat => put(log, 6 + 4 * r.below(6) as usize, r.pick(&NOT_FINITE)),
        Rate => put(log, 6, r.pick(&[0, 0x8000_0000, 0x8000_0001, bits(-100.0), 0xFF7F_FFFF])),
        Negative => put(log, r.pick(&[18, 22, 26]), r.pick(&[0x8000_0001, bits(-1.0), 0xFF7F_FFFF])),
        // The period of a rate as small as this is infinite.
        Derived => put(log, 6, 1 + r.below(0x20_0000) as u32),
        Float | SequenceAndFloat => put(log, at + 2 + 4 * r.below(9) as usize, r.pick(&NOT_FINITE)),
    }
}

fn put(log: &mut [u8], place: usize, word: u32) {
    log[place..place + 4].copy_from_slice(&word.to_le_bytes());
}
