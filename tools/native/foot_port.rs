//! Two filters of the exported text and the table that is lent to both, called as a script says.

use crate::foot;
use crate::machine::{Answer, gives, refused};
use crate::port::{choice, done, of_settings, said, settings, told, vector};
use gateweave::ahrs::{Ahrs, Limit, Settings};
use gateweave::answer::Change;
use gateweave::table::{Foot, Party, Side, Table, choose_owned, rewrite_owned};

/// Settings that a filter starts with.
const PLAIN: Settings = Settings {
    sample_rate: 100.0,
    convention: 0,
    gain: 0.5,
    gyroscope_range: 0.0,
    acceleration_rejection: Limit::Squared(1.0),
    magnetic_rejection: Limit::Squared(1.0),
    rejection_timeout: 0.0,
};
const SIDES: [Side; 2] = [Side::First, Side::Second];

pub struct Port {
    table: Table,
    foot: Foot,
    started: [bool; 2],
    /// Choices and rewrites so far: every other one is by an owner of the table.
    calls: u64,
}

impl Default for Port {
    fn default() -> Port {
        let zeros = Settings { acceleration_rejection: Limit::Squared(0.0), magnetic_rejection: Limit::Squared(0.0), ..PLAIN };
        let zeros = Settings { sample_rate: 0.0, gain: 0.0, ..zeros };
        // Who has not started uses no row, and nothing asks its filter.
        let party = Party::first(PLAIN).expect("settings that are accepted");
        let absent = Party { row: 255, ..party };
        Port { table: Table { rows: [zeros; 8] }, foot: Foot { first: absent, second: absent }, started: [false; 2], calls: 0 }
    }
}

impl Port {
    pub fn call(&mut self, code: u32, a: &[u32]) -> Answer {
        if code == 0xA0 {
            return self.fill(choice(a[0]), settings(0x80, &a[1..]));
        }
        let Some(side) = SIDES.get(a[0] as usize) else { return refused(1) };
        if code == 0xA1 {
            return self.start(*side, settings(0x80, &a[1..]));
        }
        if !self.started[a[0] as usize] {
            return refused(1);
        }
        match code {
            0xA2 => self.choose(*side, choice(a[1])),
            0xA3 => self.rewrite(*side, settings(0x80, &a[1..])),
            _ => self.update(*side, &a[1..]),
        }
    }

    fn fill(&mut self, row: u8, settings: Settings) -> Answer {
        let Some(place) = self.table.rows.get_mut(usize::from(row)) else { return refused(1) };
        *place = settings;
        gives([])
    }

    fn start(&mut self, side: Side, settings: Settings) -> Answer {
        let started = match side {
            Side::First => Party::first(settings),
            Side::Second => Party::second(settings),
        };
        told(started, |party| {
            *self.party(side) = party;
            self.started[side as usize] = true;
            []
        })
    }

    fn is_owned(&mut self) -> bool {
        self.calls += 1;
        self.calls.is_multiple_of(2)
    }

    fn choose(&mut self, side: Side, row: u8) -> Answer {
        let stood = if self.is_owned() {
            choose_owned(self.table, self.foot, side, row)
        } else {
            self.foot.choose(&self.table, side, row)
        };
        self.stood(stood)
    }

    fn rewrite(&mut self, side: Side, settings: Settings) -> Answer {
        let stood = if self.is_owned() {
            let owned = rewrite_owned(self.table, self.foot, side, settings);
            self.table = owned.table;
            owned.stood
        } else {
            self.foot.rewrite(&mut self.table, side, settings)
        };
        self.stood(stood)
    }

    fn stood(&mut self, stood: Change<Foot>) -> Answer {
        self.foot = stood.state;
        done(stood.result)
    }

    fn update(&mut self, side: Side, a: &[u32]) -> Answer {
        let reading = self.foot.party(side).filter.update(vector(a), vector(&a[3..]), vector(&a[6..]));
        self.foot = self.foot.with_filter(side, reading.state);
        said(reading.answer)
    }

    fn party(&mut self, side: Side) -> &mut Party {
        match side {
            Side::First => &mut self.foot.first,
            Side::Second => &mut self.foot.second,
        }
    }

    /// Sets rows and conventions as no call leaves them.
    pub fn set(&mut self, theirs: &foot::Foot) {
        for (me, party) in theirs.parties.iter().enumerate().filter_map(|(me, party)| Some((me, party.as_ref()?))) {
            let ours = self.party(SIDES[me]);
            ours.row = choice(party.row);
            ours.filter.settings.convention = if party.unknown { 3 } else { choice(party.filter.ahrs_words()[1]) };
        }
    }

    pub fn rows(&self) -> [[u32; 7]; 8] {
        self.table.rows.map(|row| of_settings(&row))
    }

    /// The row and the filter of a party that has started; its convention, where that is unknown, is the one that the Rust has.
    pub fn filter(&self, me: usize, unknown: Option<u32>) -> Option<(u32, Ahrs)> {
        let Party { mut filter, row } = self.foot.party(SIDES[me]);
        if let Some(convention) = unknown {
            filter.settings.convention = choice(convention);
        }
        self.started[me].then_some((row.into(), filter))
    }

    /// Whether a limit of a row is not squared.
    pub fn has_angles(&self) -> bool {
        let squared = |limit: Limit| matches!(limit, Limit::Squared(_));
        !self.table.rows.iter().all(|row| squared(row.acceleration_rejection) && squared(row.magnetic_rejection))
    }
}
