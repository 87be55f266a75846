//! One driver for both sides of the exported text: the Rust and the crate `gateweave` in one process, over the records of one log.
//!
//! usage: native LOG ROUNDS BENCH..
//!
//! A bench is a side and a call, as `rust-update`. In each round every bench goes over the log once, one after the other. A line for
//! each says how many calls a round makes, the sum of what came out, and the median of a round's nanoseconds.

use std::hint::black_box;
use std::time::Instant;

/// The bytes of a log's header, of a record, and of a printed line.
const HEADER: usize = 30;
const RECORD: usize = 38;
const LINE: usize = 36;

/// What the benches are given; `timed` keeps it out of the compilers' sight.
struct Given {
    log: Vec<u8>,
    records: Vec<[f32; 9]>,
    /// The squared lengths of what was measured, whose roots an update takes.
    squares: Vec<f32>,
    /// As many angles as records, evenly from -360 degrees on to 360.
    angles: Vec<f32>,
    /// Room for what `playback` prints.
    lines: Vec<u8>,
    filter: fusion_ahrs::AhrsSettings,
    estimator: fusion_ahrs::BiasSettings,
}

type Bench = fn(&mut Given) -> u32;

impl Given {
    fn read(path: &str) -> Given {
        let log = std::fs::read(path).expect("a log");
        let records: Vec<[f32; 9]> =
            log[HEADER..].chunks_exact(RECORD).map(|record| std::array::from_fn(|i| float(record, 2 + 4 * i))).collect();
        let squares = records.iter().flat_map(|r| [square(&r[3..6]), square(&r[6..9])]).collect();
        let angles = (0..records.len()).map(|i| i as f32 * 720.0 / records.len() as f32 - 360.0).collect();
        // The log has the squared limits of 10 degrees, which the Rust takes as an angle.
        let filter = fusion_ahrs::AhrsSettings {
            sample_rate: float(&log, 6),
            convention: fusion_ahrs::Convention::ALL[log[5] as usize],
            gain: float(&log, 10),
            gyroscope_range: float(&log, 14),
            acceleration_rejection: 10.0,
            magnetic_rejection: 10.0,
            rejection_timeout: float(&log, 26),
        };
        let estimator = fusion_ahrs::BiasSettings { sample_rate: float(&log, 6), ..Default::default() };
        Given { lines: vec![0; log.len()], log, records, squares, angles, filter, estimator }
    }

    /// The sum of the lines that were printed: it is that of the updates, since a line begins with the bits of w.
    fn printed(&self) -> u32 {
        self.lines[..LINE * self.records.len()].chunks_exact(LINE).fold(0, |sum, line| {
            let word = std::str::from_utf8(&line[..8]).expect("digits");
            and(sum, f32::from_bits(u32::from_str_radix(word, 16).expect("a word")))
        })
    }
}

/// The float at a place of some bytes.
fn float(bytes: &[u8], at: usize) -> f32 {
    f32::from_le_bytes(bytes[at..at + 4].try_into().expect("four bytes"))
}

fn square(v: &[f32]) -> f32 {
    v[0] * v[0] + v[1] * v[1] + v[2] * v[2]
}

/// A sum with one result more, in which their order counts.
fn and(sum: u32, x: f32) -> u32 {
    sum.wrapping_mul(31).wrapping_add(x.to_bits())
}

mod rust {
    use super::{Given, and};
    use fusion_ahrs::{Ahrs, AhrsSettings, Bias, DEG_TO_RAD, Vector};
    use std::hint::black_box;

    pub fn update(given: &mut Given) -> u32 {
        let mut filter = Ahrs::with_settings(given.filter);
        given.records.iter().fold(0, |sum, r| {
            filter.update(Vector::new(r[0], r[1], r[2]), Vector::new(r[3], r[4], r[5]), Vector::new(r[6], r[7], r[8]));
            and(sum, filter.quaternion().w)
        })
    }

    pub fn reading(given: &mut Given) -> u32 {
        let mut estimator = Bias::with_settings(given.estimator);
        given.records.iter().fold(0, |sum, r| and(sum, estimator.update(Vector::new(r[0], r[1], r[2])).x))
    }

    pub fn root(given: &mut Given) -> u32 {
        given.squares.iter().fold(0, |sum, x| and(sum, libm::sqrtf(*x)))
    }

    pub fn sine(given: &mut Given) -> u32 {
        given.angles.iter().fold(0, |sum, x| and(sum, libm::sinf(*x * DEG_TO_RAD)))
    }

    pub fn cosine(given: &mut Given) -> u32 {
        given.angles.iter().fold(0, |sum, x| and(sum, libm::cosf(*x * DEG_TO_RAD)))
    }

    /// The Rust has no table: eight settings stand beside the filter. An angle of 0 is no limit, so that no sine is worked out. What a
    /// call leaves is seen from outside, so that no compiler drops it.
    fn set(given: &Given, call: impl Fn(&mut Ahrs, &mut [AhrsSettings; 8], AhrsSettings)) -> u32 {
        let mut filter = Ahrs::with_settings(given.filter);
        let row =
            |i| AhrsSettings { gain: given.squares[i], acceleration_rejection: 0.0, magnetic_rejection: 0.0, ..given.filter };
        let rows: [AhrsSettings; 8] = std::array::from_fn(row);
        let mut table = rows;
        (0..given.records.len()).fold(0, |sum, i| {
            call(&mut filter, &mut table, rows[i % 8]);
            and(sum, black_box(&filter).settings().gain)
        })
    }

    pub fn settings(given: &mut Given) -> u32 {
        set(given, |filter, _, row| filter.set_settings(row))
    }

    pub fn rewrite(given: &mut Given) -> u32 {
        set(given, |filter, table, row| {
            black_box(table)[0] = row;
            filter.set_settings(row);
        })
    }
}

mod port {
    use super::{Given, HEADER, and};
    use gateweave::ahrs::{Ahrs, Limit, Settings, update_lent};
    use gateweave::answer::Answer;
    use gateweave::bias::{Bias, BiasSettings};
    use gateweave::course::{Phase, begin};
    use gateweave::table::{self, Foot, Party, Side, Table};
    use gateweave::tally;
    use gateweave::vector::Vector;
    use std::hint::black_box;

    fn filter(given: &Given) -> Ahrs {
        match begin(&given.log[..HEADER]) {
            Phase::Records(run) => run.filter,
            _ => panic!("the log's header is refused"),
        }
    }

    fn estimator(given: &Given) -> Bias {
        let fusion_ahrs::BiasSettings { sample_rate, stationary_threshold, stationary_period, cutoff_frequency } =
            given.estimator;
        Bias::with_settings(BiasSettings { sample_rate, stationary_threshold, stationary_period, cutoff_frequency })
            .expect("settings that are accepted")
    }

    pub fn update(given: &mut Given) -> u32 {
        let mut filter = filter(given);
        given.records.iter().fold(0, |sum, r| {
            let read = filter.update(Vector::new(r[0], r[1], r[2]), Vector::new(r[3], r[4], r[5]), Vector::new(r[6], r[7], r[8]));
            filter = read.state;
            and(sum, filter.quaternion.w)
        })
    }

    pub fn lent(given: &mut Given) -> u32 {
        let mut filter = filter(given);
        given.records.iter().fold(0, |sum, r| {
            let (a, b, c) = (Vector::new(r[0], r[1], r[2]), Vector::new(r[3], r[4], r[5]), Vector::new(r[6], r[7], r[8]));
            update_lent(&mut filter, a, b, c);
            and(sum, filter.quaternion.w)
        })
    }

    pub fn reading(given: &mut Given) -> u32 {
        let mut estimator = estimator(given);
        given.records.iter().fold(0, |sum, r| {
            let read = estimator.update(Vector::new(r[0], r[1], r[2]));
            estimator = read.state;
            and(sum, if let Answer::Rates(x, _, _) = read.answer { x } else { f32::NAN })
        })
    }

    pub fn root(given: &mut Given) -> u32 {
        given.squares.iter().fold(0, |sum, x| and(sum, gateweave::root::sqrtf(*x)))
    }

    pub fn sine(given: &mut Given) -> u32 {
        given.angles.iter().fold(0, |sum, x| and(sum, gateweave::trig::sin(*x)))
    }

    pub fn cosine(given: &mut Given) -> u32 {
        given.angles.iter().fold(0, |sum, x| and(sum, gateweave::trig::cos(*x)))
    }

    /// Both parties, and the table that is lent to a call; a call is given the row's number too, and what it holds.
    fn set(given: &Given, call: impl Fn(&mut Foot, &mut Table, u8, Settings)) -> u32 {
        let (filter, limit) = (filter(given), Limit::Squared(f32::MAX));
        let row =
            |i| Settings { gain: given.squares[i], acceleration_rejection: limit, magnetic_rejection: limit, ..filter.settings };
        let rows: [Settings; 8] = std::array::from_fn(row);
        let mut foot = Foot { first: Party { filter, row: 0 }, second: Party { filter, row: 1 } };
        let mut table = Table { rows };
        (0..given.records.len()).fold(0, |sum, i| {
            call(&mut foot, black_box(&mut table), (i % 8) as u8, rows[i % 8]);
            and(sum, black_box(&foot).first.filter.settings.gain)
        })
    }

    pub fn settings(given: &mut Given) -> u32 {
        set(given, |foot, _, _, settings| foot.first.filter = foot.first.filter.set_settings(settings).state)
    }

    pub fn choose_lent(given: &mut Given) -> u32 {
        set(given, |foot, table, row, _| foot.first = table::choose_lent(table, foot.first, row).state)
    }

    pub fn rewrite_lent(given: &mut Given) -> u32 {
        set(given, |foot, table, _, settings| {
            foot.first = table::rewrite_lent(table, foot.first, foot.second.row, settings).state;
        })
    }

    pub fn choose(given: &mut Given) -> u32 {
        set(given, |foot, table, row, _| *foot = foot.choose(table, Side::First, row).state)
    }

    pub fn rewrite(given: &mut Given) -> u32 {
        set(given, |foot, table, _, settings| *foot = foot.rewrite(table, Side::First, settings).state)
    }

    /// The whole log at once, of which nothing is left, so that the buffer is as it was.
    pub fn playback(given: &mut Given) -> u32 {
        let n = given.log.len();
        gateweave::playback::feed(Phase::Header, &mut given.log, n, &mut given.lines).n as u32
    }

    /// The sum is after how many records startup is on.
    pub fn tally(given: &mut Given) -> u32 {
        let n = given.log.len();
        tally::feed(tally::MOST, tally::fresh(), &mut given.log, n).tally.totals.startup
    }
}

fn bench(name: &str) -> Bench {
    match name {
        "rust-update" => rust::update,
        "rust-reading" => rust::reading,
        "rust-root" => rust::root,
        "rust-sine" => rust::sine,
        "rust-cosine" => rust::cosine,
        "rust-settings" => rust::settings,
        "rust-rewrite" => rust::rewrite,
        "port-update" => port::update,
        "port-lent" => port::lent,
        "port-reading" => port::reading,
        "port-root" => port::root,
        "port-sine" => port::sine,
        "port-cosine" => port::cosine,
        "port-settings" => port::settings,
        "port-choose-lent" => port::choose_lent,
        "port-rewrite-lent" => port::rewrite_lent,
        "port-choose" => port::choose,
        "port-rewrite" => port::rewrite,
        "port-playback" => port::playback,
        "port-tally" => port::tally,
        other => panic!("no bench {other}"),
    }
}

/// The nanoseconds of a round.
fn timed(bench: Bench, given: &mut Given) -> u64 {
    let began = Instant::now();
    black_box(bench(black_box(given)));
    began.elapsed().as_nanos() as u64
}

fn median(mut times: Vec<u64>) -> u64 {
    times.sort_unstable();
    times[times.len() / 2]
}

fn main() {
    let arguments: Vec<String> = std::env::args().collect();
    let rounds: usize = arguments[2].parse().expect("how many rounds");
    let names = &arguments[3..];
    let mut given = Given::read(&arguments[1]);
    let mut times = vec![Vec::new(); names.len()];
    for _ in 0..rounds {
        for (name, taken) in names.iter().zip(&mut times) {
            taken.push(timed(bench(name), &mut given));
        }
    }
    for (name, taken) in names.iter().zip(times) {
        let calls = if name.ends_with("-root") { given.squares.len() } else { given.records.len() };
        // A round more, as many whatever the rounds are, so that reading the lines back is no part of a count.
        let came = bench(name)(&mut given);
        let sum = if name == "port-playback" { given.printed() } else { came };
        println!("{name} {calls} {sum:08X} {}", median(taken));
    }
}
