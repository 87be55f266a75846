//! Every call on both sides: the answers, the whole states after it, and one call that reads them, must be the same words.

use crate::aim::{SET_COUNTS, SET_FLOATS, SET_FOOT, SET_KINDS};
use crate::axes::over;
use crate::closed;
use crate::machine::{Answer, Machine, Side, side};
use crate::port::{self, Port};
use crate::record::{QUIET, READS, Record, UPDATES, to_text};
use crate::rust;
use crate::state::ahrs_finite;
use crate::tally::Tally;
use crate::words::of_v;
use gateweave::ahrs::Ahrs;

/// The first call that differs ends the run.
pub fn differs(what: &str, call: &str, theirs: &[u32], ours: &[u32]) -> ! {
    let words = |w: &[u32]| w.iter().map(|w| format!(" {w:08X}")).collect::<String>();
    println!("{what} differs\n  call    {call}\n  Rust   {}\n  port   {}", words(theirs), words(ours));
    std::process::exit(1)
}

#[derive(Default)]
pub struct Differ {
    port: Port,
    pub tally: Tally,
    /// The states before the next call.
    ahrs: Option<[u32; 37]>,
    axes: u32,
    ignored: [u32; 2],
    in_degrees: [bool; 2],
    bias: [u32; 10],
}

impl Differ {
    pub fn call(&mut self, r: &Record, answer: &Answer, machine: &Machine) {
        if r[0] == SET_COUNTS {
            self.port.set_counts(machine.ignored);
            self.ignored = machine.ignored;
            return;
        }
        if r[0] == SET_FLOATS {
            self.port.set_floats(&machine.ahrs_words());
            self.ahrs = self.port.ahrs.map(|ours| same_filter("the state that is set", || to_text(r), machine, &ours));
            return;
        }
        if r[0] == SET_FOOT {
            return self.port.foot.set(&machine.foot);
        }
        if r[0] == SET_KINDS {
            same_answer("the answer", r, answer, &self.port.set_limits(machine.limits, machine.in_degrees));
            return self.filter(r, answer.number, machine);
        }
        let ours = self.port.call(r);
        same_answer("the answer", r, answer, &ours);
        match side(r[0] & !QUIET) {
            Side::None => self.tally.plain(r, answer),
            Side::Bias => self.estimator(r, answer.number, machine),
            Side::Ahrs => self.filter(r, answer.number, machine),
            Side::Foot => self.foot(r, answer.number, machine),
        }
    }

    fn foot(&mut self, r: &Record, number: u32, machine: &Machine) {
        let (theirs, ours) = (&machine.foot, &self.port.foot);
        if theirs.rows != ours.rows() {
            differs("the table after a call", &to_text(r), theirs.rows.as_flattened(), ours.rows().as_flattened());
        }
        assert!(!ours.has_angles(), "a row has got an angle: {}", to_text(r));
        for (me, party) in theirs.parties.iter().enumerate() {
            let unknown = party.as_ref().filter(|party| party.unknown).map(|party| party.filter.ahrs_words()[1]);
            let (Some(party), Some((row, filter))) = (party, ours.filter(me, unknown)) else {
                assert!(party.is_none() && ours.filter(me, None).is_none(), "one side's party {me} alone has started");
                continue;
            };
            if party.row != row {
                differs("a party's row", &to_text(r), &[party.row], &[row]);
            }
            same_filter("the state of a party", || to_text(r), &party.filter, &filter);
        }
        self.tally.foot(r, number, theirs);
    }

    fn filter(&mut self, r: &Record, number: u32, machine: &Machine) {
        let (Some(theirs), Some(ours)) = (&machine.ahrs, self.port.ahrs) else {
            assert!(machine.ahrs.is_none() && self.port.ahrs.is_none(), "one side alone has started");
            return;
        };
        let after = same_filter("the state after a call", || to_text(r), machine, &ours);
        let before = self.ahrs.unwrap_or(after);
        match r[0] {
            0x86 => self.update(r, number, machine, &before, &after),
            0x93..=0x95 => self.tally.heading(r, number, &before, &after),
            _ => self.tally.change(r, number, &before),
        }
        if matches!(r[0], 0x80 | 0x81 | 0x90 | 0x91) {
            self.tally.settings_by(r[0] >= 0x90, number, self.in_degrees[0]);
        }
        // What is not finite, which no call leaves, has no answer to be read.
        if UPDATES.contains(&r[0]) && ahrs_finite(&after) {
            let made = self.tally.updates + self.tally.headings;
            let code = READS[made as usize % READS.len()];
            same_answer("what is read after it", r, &machine.read(theirs, code), &port::read(ours, code));
            self.tally.reads += 1;
            if made % 5003 == 0 {
                assert!(closed::of_ahrs(theirs) == rust::of_ahrs(theirs), "the Rust's fields and its Debug text differ");
                self.tally.texts += 1;
            }
        }
        self.ahrs = Some(after);
        (self.axes, self.ignored, self.in_degrees) = (machine.axes, machine.ignored, machine.in_degrees);
    }

    fn update(&mut self, r: &Record, number: u32, machine: &Machine, before: &[u32; 37], after: &[u32; 37]) {
        self.tally.update(r, number, self.in_degrees, before, after);
        self.tally.axes(self.axes, machine.axes);
        if number == 0 {
            self.tally.counts(over(&r[1..4], before), self.ignored, machine.ignored);
        }
    }

    fn estimator(&mut self, r: &Record, number: u32, machine: &Machine) {
        let (Some(theirs), Some(ours)) = (&machine.bias, self.port.bias) else {
            assert!(machine.bias.is_none() && self.port.bias.is_none(), "one side alone has started");
            return;
        };
        let (after, words) = (rust::of_bias(theirs), port::of_bias(&ours));
        if after != words {
            differs("the state after a call", &to_text(r), &after, &words);
        }
        if r[0] == 0x62 {
            self.tally.reading(r, number, &self.bias, &after);
            let (code, read) = match self.tally.readings % 2 {
                0 => (0x63, of_v(theirs.offset()).to_vec()),
                _ => (0x66, vec![theirs.is_active() as u32]),
            };
            same_answer("what is read after it", r, &Answer { number: 0, words: read }, &port::read_bias(ours, code, &[]));
            self.tally.reads += 1;
            if self.tally.readings % 5003 == 0 {
                assert!(closed::of_bias(theirs) == after, "the Rust's fields and its Debug text differ");
                self.tally.texts += 1;
            }
        } else {
            self.tally.bias_changes += 1;
            self.tally.record(r, number, &after);
        }
        self.bias = after;
    }
}

/// Holds the whole state of the filter to the port's, with the axes that went over, the counts of ignored updates and the kinds of the
/// limits behind it; the words of the state.
pub fn same_filter(what: &str, call: impl Fn() -> String, machine: &Machine, filter: &Ahrs) -> [u32; 37] {
    let (theirs, ours) = (machine.ahrs_words(), port::of_ahrs(filter));
    let ([acceleration, magnetic], [one, two]) = (machine.ignored, machine.in_degrees.map(u32::from));
    let (beside, beyond) = ([machine.axes, acceleration, magnetic, one, two], port::beyond(filter));
    if theirs != ours || beside != beyond {
        differs(what, &call(), &[&theirs[..], &beside].concat(), &[&ours[..], &beyond].concat());
    }
    theirs
}

fn same_answer(what: &str, r: &Record, theirs: &Answer, ours: &Answer) {
    let numbered = |a: &Answer| [&[a.number], &a.words[..]].concat();
    if theirs.number != ours.number || theirs.words != ours.words {
        differs(what, &to_text(r), &numbered(theirs), &numbered(ours));
    }
}
