//! The calls about the offset record on the exported text, and what has to hold of one after another.

use crate::machine::Answer;
use crate::offsets::{given, given_settings};
use crate::port::{bias_settings, choice, of_bias, of_vector, told};
use crate::words::{length, packed, plus_zero};
use gateweave::answer::{Change, Refusal, number_in};
use gateweave::bias::Bias;
use gateweave::editions;
use gateweave::offset::{self, Offset};

/// The calls that leave the estimator as it is.
pub fn call(state: Bias, code: u32, a: &[u32]) -> Answer {
    match code {
        0x68 => record(state, choice(a[0]), length(a[1], 256)),
        0x6C => told(offset::read_offset(&given(code, a)), |read| {
            [&[read.mounting.into()], &of_vector(read.vector)[..]].concat()
        }),
        _ => moved(state, code, a),
    }
}

/// The offset's record, in a buffer of some length. What was written has to read back with plus zeros, and to be written as it was.
fn record(state: Bias, mounting: u8, length: usize) -> Answer {
    let (mut buffer, vector) = (vec![0x2A; length], state.offset);
    let written = offset::write_offset(Offset { mounting, vector }, &mut buffer);
    if let Ok(back) = offset::read_offset(&buffer) {
        let plain = of_vector(vector).map(plus_zero);
        assert!(written.is_ok() && back.mounting == mounting && of_vector(back.vector) == plain, "a record reads back as another");
        let mut again = vec![0x2A; length];
        assert!(offset::write_offset(back, &mut again).is_ok() && again == buffer, "what was read is written as another record");
    } else {
        assert!(written.is_err(), "a record that was written does not read back");
    }
    Answer { number: number_in(written).into(), words: packed(&buffer) }
}

/// A record of either edition restored. What knows the first alone has to do the same with it, and to refuse the second for its length.
pub fn restore(state: Bias, a: &[u32]) -> Change<Bias> {
    let (bytes, mounting) = (given(0x69, a), choice(a[0]));
    let change = editions::restore(state, &bytes, mounting);
    let first = offset::restore(state, &bytes, mounting);
    let length = (Err(Refusal::Length), of_bias(&state));
    let right = if bytes.len() == 34 { length } else { (change.result, of_bias(&change.state)) };
    assert!((first.result, of_bias(&first.state)) == right, "the first edition's own restore does otherwise");
    change
}

type Move<'a> = &'a dyn Fn(&[u8], &mut [u8]) -> Result<(), Refusal>;

/// A record moved. It has to move back to its own bytes, with its own settings, and both to be restored alike.
fn moved(state: Bias, code: u32, a: &[u32]) -> Answer {
    let settings = || bias_settings(&given_settings(code, a).expect("a record that has settings"));
    let up = |record: &[u8], out: &mut [u8]| editions::move_up(record, settings(), out);
    let (there, back): (Move, Move) = if code == 0x6A { (&up, &editions::move_down) } else { (&editions::move_down, &up) };
    let (bytes, mut out) = (given(code, a), vec![0x2A; length(a[1], 256)]);
    let result = there(&bytes, &mut out);
    if result.is_ok() {
        let mut again = vec![0x2A; bytes.len()];
        assert!(back(&out, &mut again).is_ok() && again == bytes, "a record moves back to another");
        assert!(restored(state, &out) == restored(state, &bytes), "a record that was moved is restored as another");
    } else {
        assert!(out.iter().all(|b| *b == 0x2A), "a move that is refused writes");
    }
    Answer { number: number_in(result).into(), words: packed(&out) }
}

/// The state after a record that has to be restored, under a mounting that its offset picks.
fn restored(state: Bias, bytes: &[u8]) -> [u32; 10] {
    let change = editions::restore(state, bytes, bytes[17] % 24);
    assert!(change.result.is_ok(), "a record that was moved is not restored");
    of_bias(&change.state)
}
