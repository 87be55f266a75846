//! The reports of a log, fed in parts that are cut at random: of all its records, and of the first 0 to 6, where the one past them is cut
//! or broken now and then. And of states of any flags and triggers, set by hand, since no run of calls makes most of them.

use crate::differ::differs;
use crate::log::{HEADER, RECORD};
use crate::logs::in_parts;
use crate::random::Random;
use crate::report::{self, Seen};
use gateweave::ahrs::{Ahrs, Axes, Limit, Settings};
use gateweave::course::{self, Phase};
use gateweave::tally::{self, Tally};

/// Holds the reports of the log of a seed to the Rust's, of which that of all records is given; whether the one of a few ends with 11.
pub fn compare(seed: u64, log: &[u8], all: &str) -> bool {
    let random = &mut Random(seed);
    assert_eq!(u64::from(tally::MOST), report::MOST, "as many records are counted");
    held(seed, "all records", all, &reported(random, log, tally::MOST, 0));
    let few = random.below(7) as u32;
    let near = about(random, log, few);
    let lines = report::of(&near, few.into()).expect("a log that the oracle can ask the Rust for");
    held(seed, &format!("at most {few} records"), &lines, &reported(random, &near, few, 0));
    // The same at the real limit: all but the last few are counted already.
    let earlier = tally::MOST - few;
    held(seed, &format!("the last {few} records"), &later(&lines, earlier), &reported(random, &near, tally::MOST, earlier));
    by_hand(random, seed);
    lines.ends_with("refused 11\n")
}

/// A log that may end about the last record that is counted, or be all wrong behind it.
fn about(random: &mut Random, log: &[u8], few: u32) -> Vec<u8> {
    let past = HEADER + RECORD * few as usize;
    let mut near = log.to_vec();
    if random.one_in(2) {
        near.truncate(past + random.pick(&[0, 1, 37, 38, 39]));
    }
    if random.one_in(2) {
        near.iter_mut().skip(past).take(RECORD).for_each(|byte| *byte = 255);
    }
    near
}

/// A report as it is where so many records were counted before.
fn later(lines: &str, earlier: u32) -> String {
    let Some((count, rest)) = lines.strip_prefix("records ").and_then(|rest| rest.split_once('\n')) else { return lines.into() };
    format!("records {}\n{rest}", count.parse::<u64>().expect("a count") + u64::from(earlier))
}

fn held(seed: u64, of: &str, lines: &str, printed: &[u8]) {
    if printed != lines.as_bytes() {
        let line = lines.bytes().zip(printed).take_while(|(a, b)| a == *b).filter(|(a, _)| *a == b'\n').count() + 1;
        differs("a line", &format!("line {line} of the report of the log of seed {seed}, {of}"), &[], &[]);
    }
}

/// What the port prints of a log, where so many records were counted before.
fn reported(random: &mut Random, log: &[u8], most: u32, earlier: u32) -> Vec<u8> {
    let mut counted = tally::fresh();
    counted.totals.records = earlier;
    let left = in_parts(random, log, &mut 0, |buffer, n| {
        let fed = tally::feed(most, counted, buffer, n);
        assert!(fed.result.is_ok(), "a part is refused: {:?}", fed.result);
        counted = fed.tally;
        (fed.left, course::is_ended(counted.phase))
    });
    let number = tally::number_at(most, counted, left);
    let printed = last(most, counted, left);
    assert!(number == 0 || printed.ends_with(format!("refused {number}\n").as_bytes()), "another number than the one printed");
    printed
}

fn last(most: u32, counted: Tally, left: usize) -> Vec<u8> {
    let mut out = [0; 382];
    let last = tally::last(most, counted, left, &mut out);
    assert!(last.result.is_ok(), "the end is refused: {:?}", last.result);
    out[..last.n].to_vec()
}

/// A few states, any of whose flags may be up, also the first one's, and whose triggers are up to the largest.
fn by_hand(random: &mut Random, seed: u64) {
    let (mut filter, mut counted, mut states) = (fresh(), tally::fresh(), vec![Seen::default()]);
    for _ in 0..random.below(20) {
        let trigger = |r: &mut Random| r.pick(&[0, 1, 9, 500, i32::MAX - 1, i32::MAX]);
        let up = |r: &mut Random| !r.one_in(3);
        filter.startup = up(random);
        filter.overrange_recovery = Axes { x: random.one_in(4), y: random.one_in(4), z: random.one_in(4) };
        for sensor in [&mut filter.acceleration, &mut filter.magnetic] {
            (sensor.recovery_trigger, sensor.recovery_threshold, sensor.ignored) = (trigger(random), trigger(random), up(random));
        }
        let (axes, sensors) = (filter.overrange_recovery, [filter.acceleration, filter.magnetic]);
        counted.totals = counted.totals.add(filter);
        states.push(Seen {
            startup: filter.startup,
            overrange: axes.x || axes.y || axes.z,
            ignored: sensors.map(|s| s.ignored),
            recovers: sensors.map(|s| s.recovery_trigger > s.recovery_threshold),
            magnetic_trigger: sensors[1].recovery_trigger,
        });
    }
    // The header was accepted, and the number 0 is no refusal.
    counted.phase = Phase::Ended { begun: true, number: 0 };
    held(seed, "states set by hand", &report::lines(&states, 0), &last(tally::MOST, counted, 0));
}

fn fresh() -> Ahrs {
    let settings = Settings {
        sample_rate: 100.0,
        convention: 0,
        gain: 0.5,
        gyroscope_range: 2000.0,
        acceleration_rejection: Limit::Squared(0.25),
        magnetic_rejection: Limit::Squared(0.25),
        rejection_timeout: 5.0,
    };
    Ahrs::with_settings(settings).expect("settings that are accepted")
}
