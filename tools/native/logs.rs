//! Whole logs, good and damaged, fed in parts that are cut at random: every line, the state at the end, and the reports.

use crate::differ::{differs, same_filter};
use crate::log;
use crate::machine::Machine;
use crate::random::Random;
use crate::recording;
use crate::report::{self, Seen};
use crate::reports;
use crate::tally::Tally;
use gateweave::course::Phase;
use gateweave::playback;

/// The most records of a log.
const MOST: u64 = 4000;
/// The bytes that are fed at once, at most.
const ROOM: usize = 65536;

/// Logs until so many records are accepted.
pub fn run(seed: u64, count: u64) -> Tally {
    let (mut random, mut tally) = (Random(seed), Tally::default());
    while tally.records < count {
        let from = random.next();
        let bytes = recording::make(from, MOST);
        let (mut machine, mut lines, mut states) = (Machine::default(), Vec::new(), Vec::new());
        let number = log::run(&mut machine, &bytes, u64::MAX, |machine, answer| {
            states.push(Seen::of(machine));
            log::line(answer, &mut lines)
        });
        let number = number.expect("a log that the oracle can ask the Rust for");
        tally.log(number);
        tally.records += lines.len() as u64 / 36;
        if number != 0 {
            lines.extend(format!("refused {number}\n").bytes());
        }
        let (phase, printed) = replayed(&mut random, &bytes, &mut tally.parts);
        if printed != lines {
            let line = printed.iter().zip(&lines).take_while(|(a, b)| a == b).filter(|(a, _)| **a == b'\n').count() + 1;
            differs("a line", &format!("line {line} of the log of seed {from}, up to {MOST} records"), &[], &[]);
        }
        if let Phase::Records(run) = phase {
            let log = || format!("the log of seed {from}, up to {MOST} records");
            same_filter("the state at the end", log, &machine, &run.filter);
        }
        tally.reports += 4;
        tally.reports11 += u64::from(reports::compare(from, &bytes, &report::lines(&states, number)));
    }
    tally
}

/// The phase before the end, and all that is printed.
fn replayed(random: &mut Random, bytes: &[u8], parts: &mut u64) -> (Phase, Vec<u8>) {
    let (mut phase, mut printed, mut out) = (Phase::Header, Vec::new(), vec![0; 2 * ROOM]);
    let left = in_parts(random, bytes, parts, |buffer, n| {
        let fed = playback::feed(phase, buffer, n, &mut out);
        assert!(fed.result.is_ok(), "a part is refused: {:?}", fed.result);
        printed.extend_from_slice(&out[..fed.n]);
        phase = fed.phase;
        (fed.left, matches!(phase, Phase::Ended { .. }))
    });
    let last = playback::last(phase, left, &mut out);
    printed.extend_from_slice(&out[..last.n]);
    (phase, printed)
}

/// Feeds a log in parts that are cut at random, each behind what is left of those before: a feed says how many bytes are left, and whether
/// a refusal has ended the log. How many are left at the end.
pub fn in_parts(
    random: &mut Random,
    bytes: &[u8],
    parts: &mut u64,
    mut feed: impl FnMut(&mut [u8], usize) -> (usize, bool),
) -> usize {
    let (mut left, mut ended, mut buffer) = (0, false, vec![0; 2 * ROOM]);
    let size = random.pick(&[1, 7, 38, 40, 300, 4096, ROOM]);
    let mut rest = bytes;
    while !rest.is_empty() {
        let (part, after) = rest.split_at(rest.len().min(1 + random.below(size as u64) as usize));
        // After a refusal nothing is looked at, so the bytes that are left need not be kept.
        let at = if ended { 0 } else { left };
        buffer[at..at + part.len()].copy_from_slice(part);
        (left, ended) = feed(&mut buffer, at + part.len());
        rest = after;
        *parts += 1;
    }
    left
}
