//! The exported text beside the Rust, in one process. `native` with no argument says what it can do.

mod aim;
#[path = "../oracle/angles.rs"]
mod angles;
#[path = "../oracle/axes.rs"]
mod axes;
#[path = "../oracle/boards.rs"]
mod boards;
#[path = "../oracle/closed.rs"]
#[allow(dead_code)]
mod closed;
#[path = "../oracle/damage.rs"]
mod damage;
#[path = "../oracle/degrees.rs"]
mod degrees;
mod differ;
#[path = "../oracle/edge.rs"]
mod edge;
#[path = "../oracle/estimator.rs"]
mod estimator;
#[path = "../oracle/filter.rs"]
mod filter;
#[path = "../oracle/foot.rs"]
mod foot;
mod foot_port;
mod foot_tally;
#[path = "../oracle/generate.rs"]
mod generate;
#[path = "../oracle/geometry.rs"]
mod geometry;
mod heading_tally;
#[path = "../oracle/headings.rs"]
mod headings;
#[path = "../oracle/ignored.rs"]
mod ignored;
#[path = "../oracle/knock.rs"]
mod knock;
#[path = "../oracle/locked.rs"]
mod locked;
#[path = "../oracle/log.rs"]
mod log;
mod logs;
#[path = "../oracle/machine.rs"]
mod machine;
mod offset_port;
#[path = "../oracle/offsets.rs"]
mod offsets;
#[path = "../oracle/orientation.rs"]
mod orientation;
mod patterns;
#[path = "../oracle/plain.rs"]
mod plain;
mod plain_port;
mod port;
#[path = "../oracle/random.rs"]
mod random;
#[path = "../oracle/record.rs"]
mod record;
#[path = "../oracle/recording.rs"]
mod recording;
#[path = "../oracle/reference.rs"]
mod reference;
#[path = "../oracle/report.rs"]
mod report;
mod reports;
#[path = "opened.rs"]
mod rust;
#[path = "../oracle/sines.rs"]
mod sines;
#[path = "../oracle/spell.rs"]
mod spell;
#[path = "../oracle/state.rs"]
mod state;
mod tally;
#[path = "../oracle/walk.rs"]
mod walk;
#[path = "../oracle/words.rs"]
mod words;

use std::cell::RefCell;
use std::sync::Mutex;
use std::sync::atomic::{AtomicU64, Ordering};
use tally::Tally;

const HELP: &str = "native run KIND SEED COUNT   calls on both sides, until there are COUNT of the kind
native patterns              every pattern of 32 bits, by the root, the conversions, and sine and cosine
native tangents              the points of every tangent in steps of 2^-24, by the angle

KIND is updates, headings (without a compass), feet (two filters and their table), readings, records (of whole logs), or others (calls
without a state, and calls of any kind).
";

/// A run is made in as many parts, each from a seed of its own, so that what it does is the same however many run at once.
const PARTS: u64 = 16;

type Step = fn(&mut generate::Script);
type Count = fn(&Tally) -> u64;

/// Calls from a seed, until there are so many of a kind; one update in `by_headings` is without a magnetometer.
fn calls(seed: u64, count: u64, by_headings: u64, step: Step, done: Count) -> Tally {
    let differ = RefCell::new(differ::Differ::default());
    let mut script = generate::Script {
        random: random::Random(seed),
        machine: machine::Machine::default(),
        out: &mut |r, answer, machine| differ.borrow_mut().call(r, answer, machine),
        quiet: 1,
        left: u64::MAX,
        stuck: 0,
        patience: 1,
        haste: 40,
        by_angles: 4,
        by_headings,
    };
    script.begin();
    while done(&differ.borrow().tally) < count {
        step(&mut script);
    }
    differ.into_inner().tally
}

fn part(kind: &str, seed: u64, count: u64) -> Tally {
    match kind {
        "updates" => calls(seed, count, 0, |s| s.updates(), |t| t.updates),
        "headings" => calls(seed, count, 2, |s| s.without_compass(), |t| t.headings),
        "feet" => calls(seed, count, 0, |s| s.feet(), |t| t.feet),
        "readings" => calls(seed, count, 0, |s| s.bias(), |t| t.readings),
        "others" => calls(seed, count, 0, |s| s.others(), |t| t.plain),
        "records" => logs::run(seed, count),
        _ => panic!("no kind {kind}"),
    }
}

/// Does every part once, on as many threads as there are processors.
fn in_parts(each: impl Fn(u64) + Sync) {
    let next = AtomicU64::new(0);
    std::thread::scope(|scope| {
        for _ in 0..std::thread::available_parallelism().map_or(1, usize::from) {
            scope.spawn(|| {
                while let n @ 0..PARTS = next.fetch_add(1, Ordering::Relaxed) {
                    each(n);
                }
            });
        }
    });
}

fn run(kind: &str, seed: u64, count: u64) {
    let sum = Mutex::new(Tally::default());
    in_parts(|n| {
        // The parts' seeds are far from those of the next run.
        let own = random::Random(seed.wrapping_mul(0x1_0000_0001).wrapping_add(n)).next();
        let tally = part(kind, own, count.div_ceil(PARTS));
        sum.lock().expect("no other part has failed").add(&tally);
    });
    for (count, text) in sum.into_inner().expect("no part has failed").lines() {
        println!("{count} {text}");
    }
}

/// Tries every part of a whole; of how much it was made.
fn every(part: fn(u64, u64) -> u64) -> u64 {
    let done = AtomicU64::new(0);
    in_parts(|n| drop(done.fetch_add(part(n, PARTS), Ordering::Relaxed)));
    done.into_inner()
}

fn main() {
    let args: Vec<String> = std::env::args().skip(1).collect();
    let number = |i: usize| args.get(i).and_then(|s| s.parse().ok()).expect("a whole number");
    match args.first().map(String::as_str) {
        Some("run") => run(&args[1], number(2), number(3)),
        Some("patterns") => println!("{} patterns of {}", every(patterns::run), patterns::TRIED),
        Some("tangents") => println!("{} points of every tangent in steps of 2^-24", every(patterns::tangents)),
        _ => print!("{HELP}"),
    }
}
