//! What a run reaches of two filters and their table.

use crate::filter::{ANY_SIZE, unfit};
use crate::foot::{Foot, ROWS, row_of};
use crate::record::Record;
use crate::tally::Tally;

impl Tally {
    /// Calls A0 to A4, by the foot after it: what refuses a call changes no row.
    pub fn foot(&mut self, r: &Record, number: u32, after: &Foot) {
        self.feet += 1;
        let me = r[1] as usize;
        let (Some(Some(party)), true) = (after.parties.get(me), r[0] != 0xA0) else {
            self.filled += u64::from(r[0] == 0xA0 && number == 0);
            self.unstarted += u64::from(r[0] != 0xA0);
            return;
        };
        let shared = after.row_of_other(me) == Some(party.row);
        self.foot4 += u64::from(number == 4);
        self.foot5 += u64::from(number == 5);
        self.foot6 += u64::from(number == 6);
        self.foot7 += u64::from(number == 7);
        self.no_row += u64::from(party.row >= ROWS && matches!(r[0], 0xA2 | 0xA3));
        self.unknown += u64::from(party.unknown && number == 4);
        match r[0] {
            0xA1 => self.party_started += u64::from(number == 0),
            0xA2 => {
                self.chosen += u64::from(number == 0);
                self.chosen_shared += u64::from(number == 0 && shared);
                self.chosen_none += u64::from(number == 4 && r[2] >= ROWS);
            }
            0xA3 => {
                self.rewritten += u64::from(number == 0);
                self.foot10 += u64::from(number == 10);
                self.foot10_before += u64::from(number == 10 && unfit(&row_of(&r[2..]), ANY_SIZE) > 4);
                self.foot4_before += u64::from(number == 4 && shared);
            }
            _ => {
                self.stepped += u64::from(number == 0);
                self.stepped_shared += u64::from(number == 0 && shared);
            }
        }
    }
}
