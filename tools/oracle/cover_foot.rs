//! What a script reaches of two filters and their table.

use crate::cover::{Cover, SENSORS};
use crate::filter::{ANY_SIZE, unfit};
use crate::foot::{Foot, Party, ROWS, row_of};
use crate::record::{QUIET, Record};
use crate::state::TIMEOUT;
use crate::words::all_finite;

impl Cover {
    /// By the foot before the call.
    pub fn foot(&mut self, r: &Record, number: u32, before: &Foot) {
        let (code, me) = (r[0] & !QUIET, r[1] as usize);
        match (code, before.parties.get(me)) {
            (0xA0, _) => self.filled(r, number, before),
            (0xA1..=0xA4, None) => self.count(&format!("> call {code:02X} of a party above 1"), true),
            (0xA1, Some(None)) => self.count("> first start refused", number != 0),
            (0xA2..=0xA4, Some(None)) => self.count(&format!("> call {code:02X} of a party that has not started"), true),
            (0xA1, Some(Some(party))) => self.started_again(number, party, me, before),
            (0xA2, Some(Some(party))) => self.chosen(r, number, party, before),
            (0xA3, Some(Some(party))) => self.rewritten(r, number, party, before),
            (0xA4, Some(Some(party))) => self.stepped(number, party, before),
            _ => (),
        }
    }

    fn filled(&mut self, r: &Record, number: u32, before: &Foot) {
        let used = before.parties.iter().flatten().any(|party| party.row == r[1]);
        self.count("> row filled that a party uses", number == 0 && used);
        self.count("> row filled with what is refused as settings", number == 0 && unfit(&row_of(&r[2..]), ANY_SIZE) != 0);
        self.count("> row 8 filled, refused", number == 1 && r[1] == ROWS);
        self.count("> row filled that no byte holds, refused", number == 1 && r[1] > 255 && r[1] % 256 < ROWS);
    }

    fn started_again(&mut self, number: u32, party: &Party, me: usize, before: &Foot) {
        let shared = before.row_of_other(me) == Some(me as u32);
        self.count("> start again from another row", number == 0 && party.row != me as u32);
        self.count("> start again on the row that the other uses", number == 0 && shared);
        self.count("> start again refused", number != 0);
    }

    fn chosen(&mut self, r: &Record, number: u32, party: &Party, before: &Foot) {
        let (me, row) = (r[1] as usize, r[2]);
        let (taken, there, others) = (number == 0, row < ROWS, before.row_of_other(me) == Some(row));
        let [was, is] = [before, &self.machine.foot].map(|foot| foot.parties[me].as_ref().unwrap().filter.ahrs_words());
        let moved = SENSORS.map(|(_, s, ..)| [was[s + 3], was[s + 4]].map(|w| w as i32));
        let mut at = |what: &str, here: bool| self.count(&format!("> choice {what}"), here);
        at("of the row in use", taken && row == party.row);
        at("of the other's row", taken && row != party.row && others);
        at("of a row that nobody uses", taken && row != party.row && !others);
        at("refused, with another row in use", !taken && there && row != party.row);
        at("of a row with an unknown convention", number == 4 && there);
        at("of a row that nobody filled", number == 6 && before.rows.get(row as usize) == Some(&[0; 7]));
        at("of row 8", number == 4 && row == ROWS);
        at("of a row that no byte holds", number == 4 && row > 255 && row % 256 < ROWS);
        at("in recovery", taken && moved.iter().any(|[trigger, threshold]| trigger > threshold));
        at("with a trigger above the new T", taken && moved.iter().any(|[trigger, _]| *trigger > is[TIMEOUT] as i32));
    }

    fn rewritten(&mut self, r: &Record, number: u32, party: &Party, before: &Foot) {
        let (me, row) = (r[1] as usize, row_of(&r[2..]));
        let (other, finite) = (before.row_of_other(me), all_finite(&[row[0], row[2], row[3], row[4], row[5], row[6]]));
        let mut at = |what: &str, here: bool| self.count(&format!("> rewrite {what}"), here);
        at("beside a party that has not started", number == 0 && other.is_none());
        at("of the row on which the other has yet to start", number == 0 && other.is_none() && party.row as usize == 1 - me);
        at("beside a party on another row", number == 0 && other.is_some());
        at("of a row that was the other's first", number == 0 && party.row as usize == 1 - me);
        at("of a shared row, refused 4 before 10", number == 4 && other == Some(party.row));
        at("refused 10 before 5", number == 10 && !finite);
        at("refused 10 before 6", number == 10 && unfit(&row, ANY_SIZE) == 6);
        at("refused 10 for the row alone", number == 10 && unfit(&row, ANY_SIZE) == 0);
    }

    fn stepped(&mut self, number: u32, party: &Party, before: &Foot) {
        let (taken, was) = (number == 0, party.filter.ahrs_words());
        let shared = before.parties.iter().flatten().filter(|other| other.row == party.row).count() > 1;
        let mut at = |what: &str, here: bool| self.count(&format!("> party's update {what}"), here);
        at("on a shared row", taken && shared);
        at("on a row that holds others than its settings", taken && before.rows[party.row as usize] != was[..7]);
        at("in startup", taken && was[22] == 1);
        at("out of startup", taken && was[22] == 0);
        at("in recovery", taken && SENSORS.iter().any(|(_, s, ..)| was[s + 3] as i32 > was[s + 4] as i32));
    }
}
