//! Two boards in the foot, in turns on few rows, so that rows are shared, rewritten and left often; settings that are soon out of startup
//! and have a small T, so that a choice finds triggers and thresholds that moved; and rows and settings of every kind that is refused.

use crate::foot::{ROWS, Row};
use crate::generate::{Script, bits};
use crate::state;
use crate::words::{MINUS_ZERO, f, of_v};

/// Rows that are none; cut to a byte some would be.
const NO_ROWS: [u32; 7] = [8, 9, 255, 256, 257, 263, 1 << 31];

impl Script<'_> {
    /// What comes before and at the first starts; rows that may be chosen.
    pub fn begin_foot(&mut self) {
        let me = self.random.below(2) as u32;
        self.unstarted(me);
        self.unstarted(1 - me);
        let settings = self.quick();
        for code in [0xA1, 0xA2, 0xA3, 0xA4] {
            self.put_settled(code, 2, &settings);
        }
        for row in 0..4 {
            let settings = self.settled();
            self.put_settled(0xA0, row, &settings);
        }
    }

    /// Some turns of both.
    pub fn foot(&mut self) {
        for _ in 0..20 {
            let me = self.random.below(2) as u32;
            for _ in 0..1 + self.random.below(3) {
                self.act(me);
            }
        }
    }

    /// Every refusal of every call, and what is easily missed, for a short script.
    pub fn some_foot(&mut self) {
        self.begin_foot();
        self.every_refusal();
        self.every_sharing();
        self.moved_counts();
    }

    /// A call that gives a number and settings.
    pub fn put_settled(&mut self, code: u32, number: u32, settings: &Row) -> u32 {
        self.put(code, &[&[number], &settings[..]].concat())
    }

    /// Calls of a party before it has started, a start that is refused, and one that is not.
    fn unstarted(&mut self, me: u32) {
        let good = self.quick();
        self.put(0xA2, &[me, 0]);
        self.put_settled(0xA3, me, &good);
        self.put(0xA4, &[me, 0, 0, 0, 0, 0, 0, 0, 0, 0]);
        let bad = self.refused_for(5);
        self.put_settled(0xA1, me, &bad);
        self.put_settled(0xA1, me, &good);
        // The other may not have started, and may have; its start would be on the second of these rows.
        self.put_settled(0xA3, me, &good);
        self.put_on(me, 1 - me);
        self.put_settled(0xA3, me, &good);
    }

    /// Settings under which startup is over after a few updates, T is small, and nearly every reading may be over its limit.
    pub fn quick(&mut self) -> Row {
        let limits = [0, 1].map(|_| state::limit_of(self.random.pick(&[2.0, 5.0, 10.0, 30.0])).to_bits());
        let r = &mut self.random;
        let (rate, gain) = r.pick(&[(1.0, 0.5), (2.0, 1.0), (100.0, 11.0), (0.333, 0.5), (100.0, 0.5)]);
        let timeout = bits((r.below(12) as f64 + 0.5) / rate);
        let (convention, range) = (r.below(3) as u32, bits(r.pick(&[0.0, 300.0, 2000.0])));
        self.found([bits(rate), convention, bits(gain), range, limits[0], limits[1], timeout])
    }

    /// The same settings, with limits that an angle gives.
    fn found(&self, mut row: Row) -> Row {
        for limit in &mut row[4..6] {
            if state::angle_of(f(*limit)).is_none() {
                *limit = f32::MAX.to_bits();
            }
        }
        row
    }

    /// Settings of any kind that may be accepted.
    fn settled(&mut self) -> Row {
        if self.random.one_in(2) {
            return self.quick();
        }
        let settings = self.ahrs_settings();
        self.found(*settings.first_chunk().unwrap())
    }

    /// Settings that are refused with a number, 4 to 7.
    fn refused_for(&mut self, number: u32) -> Row {
        let mut row = self.quick();
        let r = &mut self.random;
        let (at, word) = match number {
            4 => (1, r.pick(&[3, 255, 256, 258, 1 << 31])),
            5 => (r.pick(&[0, 2, 3, 4, 5, 6]), r.not_finite()),
            6 => r.pick(&[(0, 0), (0, MINUS_ZERO), (0, bits(-100.0)), (4, bits(-1.0)), (5, MINUS_ZERO | 1), (6, bits(-1.0))]),
            // The period of a rate as small as 1 step is infinite.
            _ => (0, 1),
        };
        row[at] = word;
        row
    }

    /// Settings with one or two words that may be refused.
    fn any_settled(&mut self) -> Row {
        if !self.random.one_in(3) {
            return self.settled();
        }
        let number = 4 + self.random.below(4) as u32;
        let mut row = self.refused_for(number);
        if self.random.one_in(3) {
            row[1] = self.random.pick(&[3, 255, 256]);
        }
        if self.random.one_in(6) {
            row[self.random.pick(&[0, 2, 3, 6])] = self.random.loose();
        }
        row
    }

    /// A row: that of either party, one of a few, any, or none.
    fn any_row(&mut self) -> u32 {
        let used = [0, 1].map(|me| self.machine.foot.row_of_other(me).unwrap_or(2));
        let r = &mut self.random;
        match r.below(12) {
            0 => r.pick(&NO_ROWS),
            1 => r.below(ROWS.into()) as u32,
            2..=4 => r.pick(&used),
            _ => r.below(3) as u32,
        }
    }

    /// One thing that a party may do, or that is done to the table.
    pub fn act(&mut self, me: u32) {
        match self.random.below(16) {
            0 | 1 => {
                let (row, settings) = (self.any_row(), self.any_settled());
                self.put_settled(0xA0, row, &settings);
            }
            2 => {
                let settings = self.any_settled();
                self.put_settled(0xA1, me, &settings);
            }
            3..=6 => {
                let row = self.any_row();
                self.put(0xA2, &[me, row]);
            }
            7..=10 => {
                let settings = self.any_settled();
                self.put_settled(0xA3, me, &settings);
            }
            _ => self.step(me),
        }
    }

    /// Some updates, agreeing with what the filter expects or not.
    pub fn step(&mut self, me: u32) {
        let (updates, bad) = (1 + self.random.below(6), self.random.one_in(2));
        for _ in 0..updates {
            let mut u = self.common_update();
            let party = self.machine.foot.parties[me as usize].as_ref();
            if let (false, Some(party)) = (bad, party) {
                u[3..6].copy_from_slice(&of_v(party.filter.ahrs.as_ref().unwrap().gravity()));
            }
            let r = &mut self.random;
            match r.below(12) {
                0 => u[r.below(9) as usize] = r.loose(),
                1 => u[6..9].copy_from_slice(&[0, MINUS_ZERO, 0]),
                2 => u[r.below(3) as usize] = bits(r.pick(&[400.0, -2500.0, 1e22])),
                _ => (),
            }
            if self.put(0xA4, &[&[me], &u[..]].concat()) == 7 {
                // On a quaternion of zero every update is refused.
                let settings = self.quick();
                self.put_settled(0xA1, me, &settings);
            }
        }
    }

    /// A party on this row, whatever was there.
    pub fn put_on(&mut self, me: u32, row: u32) {
        let settings = self.quick();
        self.put_settled(0xA0, row, &settings);
        self.put(0xA2, &[me, row]);
    }

    /// Each call refused with each number that it has, with the row shared and not.
    fn every_refusal(&mut self) {
        for row in NO_ROWS {
            let settings = self.quick();
            self.put_settled(0xA0, row, &settings);
            self.put(0xA2, &[0, row]);
        }
        // A row that nobody has filled.
        self.put(0xA2, &[1, 7]);
        self.put_on(0, 2);
        for shared in [false, true] {
            self.put_on(1, if shared { 2 } else { 5 });
            for number in 4..8 {
                let settings = self.refused_for(number);
                self.put_settled(0xA3, 0, &settings);
                self.put_settled(0xA0, 6, &settings);
                self.put(0xA2, &[0, 6]);
                self.put_settled(0xA1, 1, &settings);
            }
        }
        let nan = f32::NAN.to_bits();
        self.put(0xA4, &[0, nan, 0, 0, 0, 0, 0, 0, 0, 0]);
        let fast = bits(3.4e38);
        self.put(0xA4, &[0, fast, fast, fast, 0, 0, 0, 0, 0, 0]);
        self.put(0xA4, &[0, fast, fast, fast, 0, 0, 0, 0, 0, 0]);
    }

    /// A row shared and left again, chosen while the other uses it, and rewritten before it is chosen; starts from elsewhere.
    fn every_sharing(&mut self) {
        for me in [0, 1] {
            let (settings, others) = (self.quick(), self.quick());
            self.put_settled(0xA1, me, &settings);
            self.put_settled(0xA1, 1 - me, &others);
            self.put_on(me, 3);
            self.put_settled(0xA3, me, &others);
            self.put(0xA2, &[1 - me, 3]);
            self.put_settled(0xA3, me, &settings);
            self.put(0xA4, &[me, 0, 0, 0, 0, 0, bits(1.0), bits(20.0), 0, bits(-40.0)]);
            self.put_settled(0xA0, 3, &settings);
            self.put(0xA4, &[1 - me, 0, 0, 0, 0, 0, bits(1.0), bits(20.0), 0, bits(-40.0)]);
            self.put(0xA2, &[1 - me, 3]);
            self.put_on(1 - me, me);
            self.put_settled(0xA3, 1 - me, &others);
            self.put_settled(0xA1, me, &settings);
            self.put_settled(0xA3, 1 - me, &others);
        }
    }

    /// Out of startup, readings over their limits until recovery begins, and then choices of rows with a larger T and a smaller one.
    fn moved_counts(&mut self) {
        let limit = state::limit_of(5.0).to_bits();
        let of = |timeout: f64| [bits(1.0), 0, bits(11.0), 0, limit, limit, bits(timeout)];
        for (row, timeout) in [(0, 4.5), (1, 9.5), (2, 1.5)] {
            self.put_settled(0xA0, row, &of(timeout));
        }
        for (row, updates) in [(1, 6), (2, 5)] {
            self.put_settled(0xA1, 0, &of(4.5));
            for _ in 0..updates {
                self.put(0xA4, &[0, 0, 0, 0, bits(1.0), 0, bits(0.1), 0, bits(1.0), bits(0.2)]);
            }
            self.put(0xA2, &[0, row]);
            self.put(0xA4, &[0, 0, 0, 0, 0, 0, bits(1.0), bits(20.0), 0, bits(-40.0)]);
        }
    }
}
