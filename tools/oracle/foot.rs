//! Two filters and a table of eight rows of settings, each filter on a row: the calls A0 to A4. The Rust has the filters alone; whose row is
//! which, and what is refused for a row, is laid over them.

use crate::filter::{ANY_SIZE, unfit};
use crate::machine::{Answer, Machine, gives, refused};
use crate::record::record;
use crate::state;
use crate::words::{bits, f};

pub const ROWS: u32 = 8;

/// Rate, convention, gain, range, the two squared limits, timeout.
pub type Row = [u32; 7];

#[derive(Clone)]
pub struct Party {
    pub filter: Box<Machine>,
    pub row: u32,
    /// Whether the filter's convention is unknown, which no call leaves and the Rust cannot hold.
    pub unknown: bool,
}

#[derive(Clone, Default)]
pub struct Foot {
    pub rows: [Row; ROWS as usize],
    /// Each once a start was accepted.
    pub parties: [Option<Party>; 2],
}

/// A number that no byte holds counts as 255.
pub fn byte(word: u32) -> u32 {
    word.min(255)
}

/// Settings as a row holds them: every NaN is one.
pub fn row_of(a: &[u32]) -> Row {
    let mut row = a.first_chunk::<7>().unwrap().map(|w| bits(f(w)));
    row[1] = byte(a[1]);
    row
}

/// The words of calls 80 and 81: behind the settings the angles of which the Rust derives the two limits. Where the settings are refused
/// for themselves, it does not come to that.
fn with_angles(row: &Row) -> [u32; 9] {
    let angle = |limit: u32| state::angle_of(f(limit)).unwrap_or_else(|| panic!("no angle gives the limit {limit:08X}"));
    let given = if unfit(row, ANY_SIZE) == 0 { [row[4], row[5]].map(|limit| angle(limit).to_bits()) } else { [0; 2] };
    let [rate, convention, gain, range, acceleration, magnetic, timeout] = *row;
    [rate, convention, gain, range, acceleration, magnetic, timeout, given[0], given[1]]
}

impl Foot {
    pub fn call(&mut self, code: u32, a: &[u32]) -> Answer {
        if code == 0xA0 {
            return self.fill(a[0], row_of(&a[1..]));
        }
        let me = a[0] as usize;
        if me > 1 {
            return refused(1);
        }
        if code == 0xA1 {
            return self.start(me, &row_of(&a[1..]));
        }
        match (code, &self.parties[me]) {
            (_, None) => refused(1),
            (0xA2, _) => self.choose(me, byte(a[1])),
            (0xA3, _) => self.rewrite(me, &row_of(&a[1..])),
            (0xA4, _) => self.update(me, &a[1..10]),
            _ => panic!("the script has a call {code:02X}"),
        }
    }

    fn fill(&mut self, row: u32, settings: Row) -> Answer {
        if row >= ROWS {
            return refused(1);
        }
        self.rows[row as usize] = settings;
        gives([])
    }

    /// The first uses row 0, and the second row 1.
    fn start(&mut self, me: usize, settings: &Row) -> Answer {
        let mut filter = Box::<Machine>::default();
        let answer = filter.call(&record(0x80, &with_angles(settings)));
        if answer.number == 0 {
            self.parties[me] = Some(Party { filter, row: me as u32, unknown: false });
        }
        answer
    }

    fn choose(&mut self, me: usize, row: u32) -> Answer {
        let party = self.parties[me].as_mut().unwrap();
        if row >= ROWS || party.row >= ROWS || party.unknown {
            return refused(4);
        }
        let answer = party.filter.call(&record(0x81, &with_angles(&self.rows[row as usize])));
        if answer.number == 0 {
            party.row = row;
        }
        answer
    }

    fn rewrite(&mut self, me: usize, settings: &Row) -> Answer {
        let shared = self.row_of_other(me);
        let party = self.parties[me].as_mut().unwrap();
        if party.row >= ROWS || party.unknown || settings[1] > 2 {
            return refused(4);
        }
        if shared == Some(party.row) {
            return refused(10);
        }
        let answer = party.filter.call(&record(0x81, &with_angles(settings)));
        if answer.number == 0 {
            self.rows[party.row as usize] = *settings;
        }
        answer
    }

    fn update(&mut self, me: usize, readings: &[u32]) -> Answer {
        let party = self.parties[me].as_mut().unwrap();
        if party.unknown { refused(4) } else { party.filter.call(&record(0x86, readings)) }
    }

    /// The row that the other party uses; one that has not started uses none.
    pub fn row_of_other(&self, me: usize) -> Option<u32> {
        self.parties[1 - me].as_ref().map(|other| other.row)
    }

    /// What a line shows of the party that called: its row, its filter, and what the table has in that row.
    pub fn words(&self, code: u32, me: u32) -> Vec<u32> {
        match self.parties.get(me as usize) {
            Some(Some(party)) if code != 0xA0 => {
                [&[party.row], &party.filter.ahrs_words()[..], &self.rows[party.row as usize]].concat()
            }
            _ => Vec::new(),
        }
    }
}
