//! How far the port's numbers lie from the Rust's, at every f32 of some ranges: a program of its own, which tools/spread builds over the
//! exported text, over libm and over a copy of the Rust whose private names are public.
//!
//! usage: spread limit|sine|cosine|angle|turned THREADS RANGE..
//!
//! A range is FROM-TO, two bit patterns of which the second is left out. Each range is gone through in pieces, and a line for each piece
//! says the range's place in the list, how many numbers the piece has, and for each distance that is taken: at how many it is 0, the most,
//! the bits of the number where that is, and the sum.

mod bearings;
mod reference;

use bearings::{angles, turned};
use fusion_ahrs::{DEG_TO_RAD, ahrs};
use gateweave::trig;
use reference::reference;
use std::fmt::Write;
use std::ops::Range;
use std::sync::atomic::{AtomicUsize, Ordering};
use std::thread;

/// How many numbers a piece has at most.
const PIECE: u32 = 1 << 20;
/// What the distances of sines are counted in.
const UNIT: f64 = 1.0 / (1 << 24) as f64;

/// A distance over many numbers.
#[derive(Clone, Copy)]
struct Seen {
    same: u64,
    most: f64,
    at: u32,
    sum: f64,
}

impl Seen {
    const NOTHING: Seen = Seen { same: 0, most: -1.0, at: 0, sum: 0.0 };

    fn add(&mut self, distance: f64, at: u32) {
        self.same += u64::from(distance == 0.0);
        self.sum += distance;
        if distance > self.most {
            (self.most, self.at) = (distance, at);
        }
    }
}

/// The squared limit of an angle, in units in the last place.
fn limits(degrees: f32) -> [f64; 1] {
    [f64::from(trig::rejection_threshold(degrees).to_bits().abs_diff(ahrs::rejection_threshold(degrees).to_bits()))]
}

/// How far two numbers are apart; a NaN is apart from everything.
fn apart(a: f64, b: f64) -> f64 {
    if a.is_nan() || b.is_nan() { f64::INFINITY } else { (a - b).abs() / UNIT }
}

/// The port's from the reference, libm's from the reference, and the two from each other.
fn three(port: f32, libm: f32, reference: f64) -> [f64; 3] {
    let (port, libm) = (f64::from(port), f64::from(libm));
    [apart(port, reference), apart(libm, reference), apart(port, libm)]
}

fn sines(degrees: f32) -> [f64; 3] {
    three(trig::sin(degrees), libm::sinf(degrees * DEG_TO_RAD), reference(degrees, 0))
}

fn cosines(degrees: f32) -> [f64; 3] {
    three(trig::cos(degrees), libm::cosf(degrees * DEG_TO_RAD), reference(degrees, 1))
}

fn line<const N: usize>(range: usize, piece: Range<u32>, distances: impl Fn(f32) -> [f64; N]) -> String {
    let (mut seen, numbers) = ([Seen::NOTHING; N], piece.len());
    for bits in piece {
        for (seen, distance) in seen.iter_mut().zip(distances(f32::from_bits(bits))) {
            seen.add(distance, bits);
        }
    }
    let mut line = format!("{range} {numbers}");
    for Seen { same, most, at, sum } in seen {
        write!(line, " {same} {most} {at} {sum}").expect("room in a string");
    }
    line
}

fn read(range: &str) -> Range<u32> {
    let (from, to) = range.split_once('-').expect("FROM-TO");
    from.parse().expect("a bit pattern")..to.parse().expect("a bit pattern")
}

/// The pieces of a range, each with the range's place.
fn pieces((place, range): (usize, Range<u32>)) -> impl Iterator<Item = (usize, Range<u32>)> {
    let end = range.end;
    range.step_by(PIECE as usize).map(move |from| (place, from..end.min(from + PIECE)))
}

fn main() {
    let arguments: Vec<String> = std::env::args().collect();
    let all: Vec<_> = arguments[3..].iter().map(|range| read(range)).enumerate().flat_map(pieces).collect();
    let next = AtomicUsize::new(0);
    let work = || {
        while let Some((place, piece)) = all.get(next.fetch_add(1, Ordering::Relaxed)).cloned() {
            let line = match arguments[1].as_str() {
                "limit" => line(place, piece, limits),
                "sine" => line(place, piece, sines),
                "cosine" => line(place, piece, cosines),
                "angle" => line(place, piece, angles),
                "turned" => line(place, piece, turned),
                other => panic!("no distance of {other}"),
            };
            println!("{line}");
        }
    };
    thread::scope(|scope| {
        for _ in 0..arguments[2].parse().expect("how many threads") {
            scope.spawn(work);
        }
    });
}
