//! What the calls of a native run are: the scripts' own modes, the hardest cases more often, and limits that no angle gives.

use crate::generate::{Script, bits};
use crate::machine::gives;
use crate::random::Random;
use crate::record::record;
use crate::rust::floats;
use crate::state::{self, ACCELERATION, MAGNETIC};
use crate::words::f;

/// No call of a script: the counts of ignored updates are set on both sides.
pub const SET_COUNTS: u32 = 0x200;
/// Nor is this: the settings are given anew, one limit squared and the other in degrees.
pub const SET_KINDS: u32 = 0x201;
/// Nor this: floats of the state are set on both sides.
pub const SET_FLOATS: u32 = 0x202;
/// Nor this: the rows of both parties, and whether their conventions are known.
pub const SET_FOOT: u32 = 0x203;

/// A part of an orientation that is none: of any size, or so large that its square nearly overflows, or does.
fn any_part(r: &mut Random) -> u32 {
    match r.below(4) {
        0 => r.finite(),
        1 => bits(r.pick(&[1.0, -1.0]) * 10f64.powf(18.0 + 2.0 * r.unit())),
        _ => r.common(),
    }
}

/// A limit of any size, about the largest that a residual can have, or zero.
fn any_limit(r: &mut Random) -> u32 {
    match r.below(4) {
        0 => r.pick(&[0, 0x8000_0000, 1, bits(0.25), bits(0.5), bits(1.0), f32::MAX.to_bits()]),
        1 => r.float() & 0x7FFF_FFFF,
        _ => bits(0.3 * r.unit()),
    }
}

impl Script<'_> {
    /// Some hundred updates under settings of their own.
    pub fn updates(&mut self) {
        match self.random.below(8) {
            0..=3 => self.pole(),
            4 => self.any_limits(),
            5 => self.any_readings(),
            6 => self.edge(),
            _ => (0..50).for_each(|_| self.hard()),
        }
    }

    /// At a limit, at the overrange product, at a right angle, T below a trigger, at an end of what may be set or of what an update
    /// leaves, and one step beside each; a knock or a spell and what follows; limits of angles, and both kinds of them in turn.
    fn hard(&mut self) {
        match self.random.below(18) {
            0 | 1 => self.equal_limit(ACCELERATION),
            2 | 3 => self.equal_limit(MAGNETIC),
            4 => self.dot_zero(),
            5 => self.lower_timeout(),
            6 => self.faint(),
            7 => self.strange_quaternion(),
            8 => self.vanish(),
            9 => self.knock(),
            10 => self.spell(),
            11 => self.endless(),
            12 => self.near_limit(ACCELERATION),
            13 => self.near_limit(MAGNETIC),
            14 => self.both_kinds(),
            15 => self.strange_angles(),
            16 => self.unlike_limits(),
            _ => self.over(),
        }
    }

    /// Rates about the overrange product, under settings that have one.
    fn over(&mut self) {
        let mut s = self.ahrs_settings();
        s[3] = bits(self.random.pick(&[2000.0, 500.0, 300.0, 100.0]));
        self.put(0x81, &s);
        for _ in 0..8 {
            self.overrange();
        }
    }

    /// A spell whose counts are so long as no calls make them, about the largest and about the ends of smaller types.
    fn endless(&mut self) {
        self.fall_deaf(1, 1);
        for _ in 0..4 {
            let r = &mut self.random;
            let end = r.pick(&[u32::MAX, u32::MAX, u32::MAX, 0x8000_0000, 0x100_0000, 0x1_0000, 0x100]);
            // A count of 0 stays, for then the Rust has no mark.
            self.machine.ignored = self.machine.ignored.map(|count| if count == 0 { 0 } else { end - r.below(5) as u32 });
            (self.out)(&record(SET_COUNTS, &[]), &gives([]), &self.machine);
            self.go_on_any();
        }
    }

    /// Settings by angles, and then with one of these as its squared limit: of the Rust the settings are the same.
    fn unlike_limits(&mut self) {
        let s = self.angle_settings();
        if self.put(0x91, &s) != 0 {
            return;
        }
        let (answer, at) = (self.machine.call(&record(0x91, &s)), self.random.below(2) as usize);
        self.machine.limits[at] = state::limit_of(f32::from_bits(s[4 + at])).to_bits();
        self.machine.in_degrees[at] = false;
        (self.out)(&record(SET_KINDS, &[]), &answer, &self.machine);
        self.put(0x8E, &[]);
        self.put(0x84, &[]);
        self.row();
    }

    /// Some hundred calls, the three without a compass among them.
    pub fn without_compass(&mut self) {
        match self.random.below(12) {
            0 => (0..50).for_each(|_| self.hard()),
            1 => (0..50).for_each(|_| self.on_any_state()),
            _ => self.headings(),
        }
    }

    /// One of these on a state as no call leaves it: with floats that are not finite, or an orientation of any size.
    fn on_any_state(&mut self) {
        let (haste, was) = (std::mem::take(&mut self.haste), self.machine.ahrs.clone());
        let ahrs = self.machine.ahrs.as_mut().unwrap();
        let r = &mut self.random;
        if r.one_in(4) {
            *floats(ahrs)[r.below(14) as usize] = f(r.not_finite());
        } else {
            let parts = if r.one_in(4) { 0..14 } else { 0..4 };
            floats(ahrs)[parts].iter_mut().for_each(|part| **part = f(any_part(r)));
        }
        self.set_floats();
        if self.random.one_in(4) {
            self.strange_heading()
        } else {
            self.one_heading()
        }
        let (ahrs, mut was) = (self.machine.ahrs.as_mut().unwrap(), was.unwrap());
        floats(ahrs).into_iter().zip(floats(&mut was)).for_each(|(is, was)| *is = *was);
        self.set_floats();
        self.haste = haste;
    }

    fn set_floats(&mut self) {
        (self.out)(&record(SET_FLOATS, &[]), &gives([]), &self.machine);
    }

    /// Turns of two parties, on rows with limits that no angle gives too, and on states as no call leaves them.
    pub fn feet(&mut self) {
        match self.random.below(8) {
            0 => self.strange_feet(),
            1 | 2 => (0..10).for_each(|_| self.any_row_limits()),
            _ => self.foot(),
        }
    }

    fn any_row_limits(&mut self) {
        let (mut settings, me) = (self.quick(), self.random.below(2) as u32);
        let r = &mut self.random;
        settings[4..6].fill_with(|| any_limit(r));
        let row = r.below(3) as u32;
        match r.below(3) {
            0 => drop(self.put_settled(0xA1, me, &settings)),
            1 => drop(self.put_settled(0xA3, me, &settings)),
            _ => {
                self.put_settled(0xA0, row, &settings);
                self.put(0xA2, &[me, row]);
            }
        }
        self.step(me);
    }

    /// Some turns with a row above 7 in use, or a convention that is unknown, and then as before.
    fn strange_feet(&mut self) {
        for _ in 0..4 {
            let (kind, shared) = (self.random.below(3), self.random.one_in(2));
            let no_row = [0; 2].map(|_: u32| self.random.pick(&[8, 9, 15, 255]));
            for (me, party) in self.machine.foot.parties.iter_mut().enumerate() {
                let Some(party) = party else { continue };
                party.row = if shared { 2 } else { me as u32 };
                if kind == me as u64 || kind == 2 {
                    party.unknown = self.random.one_in(2);
                    party.row = if self.random.one_in(2) { no_row[if shared { 0 } else { me }] } else { party.row };
                }
            }
            self.set_foot();
            for _ in 0..4 {
                let me = self.random.below(2) as u32;
                self.act(me);
            }
            for (me, party) in self.machine.foot.parties.iter_mut().enumerate() {
                let Some(party) = party else { continue };
                (party.row, party.unknown) = (me as u32, false);
            }
            self.set_foot();
        }
    }

    fn set_foot(&mut self) {
        (self.out)(&record(SET_FOOT, &[]), &gives([]), &self.machine);
    }

    /// Calls of every other kind.
    pub fn others(&mut self) {
        match self.random.below(5) {
            0 => self.mounting(),
            1 => self.fuzz(),
            2 => self.sine(),
            3 => self.point(),
            _ => self.math(),
        }
    }

    /// Limits of any size, about the largest that a residual can have, and zeros; good and bad readings come in rows under them.
    fn any_limits(&mut self) {
        let mut s = self.ahrs_settings();
        let r = &mut self.random;
        s[4..6].fill_with(|| any_limit(r));
        s[0] = bits(100.0);
        self.put(0x81, &s);
        for _ in 0..20 {
            self.row();
        }
    }

    /// Readings of any size, each finite.
    fn any_readings(&mut self) {
        for _ in 0..self.random.below(40) {
            let u = [0; 9].map(|_: u32| self.random.float());
            self.put(0x86, &u);
        }
    }
}
