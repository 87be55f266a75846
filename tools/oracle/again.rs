//! One party's calls of a script among other calls of the other. Of the two runs 02's P12 says: where each row holds the same at the moment
//! the party chooses it, and the other uses its row or not at each of its rewrites as before, its answers and its state are the same.

use crate::foot::{Foot, ROWS};
use crate::generate::Script;
use crate::machine::{Answer, Machine};
use crate::record::{QUIET, Record, to_text};

/// What the sentence says of a party: its answer, its row and its filter, and not what the table has in that row by now.
fn seen(answer: &Answer, foot: &Foot, me: u32) -> Vec<u32> {
    let state = foot.words(0xA4, me);
    [&[answer.number], &answer.words[..], &state[..state.len().saturating_sub(7)]].concat()
}

/// Whether the other party uses the row of a party.
fn is_shared(foot: &Foot, me: usize) -> bool {
    foot.parties[me].as_ref().is_some_and(|party| foot.row_of_other(me) == Some(party.row))
}

impl Script<'_> {
    /// The calls of a party in a script, and in place of the other's whatever it may do.
    pub fn again(&mut self, me: u32, calls: &[Record]) {
        let mut was = Machine::default();
        for r in calls {
            let (code, mine) = (r[0] & !QUIET, r[1] == me && matches!(r[0] & !QUIET, 0xA1..=0xA4));
            if mine {
                self.prepare(code, r, &was.foot);
            } else if !self.random.one_in(3) {
                self.act(1 - me);
            }
            let theirs = was.call(r);
            if mine {
                let ours = self.put_record(*r);
                assert_eq!(seen(&ours, &self.machine.foot, me), seen(&theirs, &was.foot, me), "call {:?}", to_text(r));
            }
        }
    }

    /// Before a choice the row holds what it held, and before a rewrite the other uses its row or not, as it did.
    fn prepare(&mut self, code: u32, r: &Record, was: &Foot) {
        let (me, row) = (r[1] as usize, r[2]);
        if code == 0xA2 && row < ROWS && self.machine.foot.rows[row as usize] != was.rows[row as usize] {
            self.put_settled(0xA0, row, &was.rows[row as usize]);
        }
        if code == 0xA3 && is_shared(was, me) != is_shared(&self.machine.foot, me) {
            let own = self.machine.foot.parties[me].as_ref().unwrap().row;
            let step = 1 + self.random.below(u64::from(ROWS) - 1) as u32;
            self.put_other(1 - r[1], if is_shared(was, me) { own } else { (own + step) % ROWS });
        }
    }

    /// The other on a row, started if it was not.
    fn put_other(&mut self, other: u32, row: u32) {
        if self.machine.foot.parties[other as usize].is_none() {
            let settings = self.quick();
            self.put_settled(0xA1, other, &settings);
        }
        self.put_on(other, row);
    }
}
