//! What a script reaches: a count for each answer of each call, and for each case that is easily missed.

use crate::axes::over;
use crate::estimator::settings;
use crate::machine::{Answer, Machine, Side, side};
use crate::offsets::{given, given_settings, has_minus_zero};
use crate::orientation::{hangs_on_order, is_far, is_zero, steps_beyond};
use crate::plain::other_zero;
use crate::record::{QUIET, Record, call};
use crate::state::{self, ACCELERATION, LIMITS_USED, MAGNETIC, OVERRANGE, PRODUCT, QUATERNION, TIMEOUT};
use crate::words::{MINUS_ZERO, f};
use fusion_ahrs::Vector;
use std::collections::BTreeMap;
use std::io::{self, Write};

/// The sensors: what is said of each, the places of its words in a state and of its limit, and that of its reading in an update.
pub const SENSORS: [(&str, usize, usize, usize); 2] =
    [("acceleration", ACCELERATION, LIMITS_USED, 4), ("magnetic", MAGNETIC, LIMITS_USED + 1, 7)];

/// The sets of axes by their words.
const SETS: [&str; 8] = ["none", "x", "y", "x y", "z", "x z", "y z", "x y z"];

/// Whether a sensor recovers in a state.
fn recovers(w: &[u32; 37], sensor: usize) -> bool {
    w[sensor + 3] as i32 > w[sensor + 4] as i32
}

#[derive(Default)]
pub struct Cover {
    pub machine: Machine,
    counts: BTreeMap<String, u64>,
}

impl Cover {
    pub fn count(&mut self, name: &str, here: bool) {
        *self.counts.entry(name.into()).or_default() += u64::from(here);
    }

    pub fn call(&mut self, r: &Record) {
        let code = r[0] & !QUIET;
        let before = self.machine.ahrs.is_some().then(|| self.machine.ahrs_words());
        let bias = self.machine.bias.map(|b| state::of_bias(&b));
        let (axes, ignored, were_angles) = (self.machine.axes, self.machine.ignored, self.machine.in_degrees[0]);
        let foot = (side(code) == Side::Foot).then(|| self.machine.foot.clone());
        let answer = self.machine.call(r);
        let number = answer.number;
        self.count(&format!("{} {number}", call(code).unwrap().1), true);
        self.matrices(r, &answer);
        self.zeros(r, number);
        self.records(r, number);
        self.degrees(r, number, were_angles);
        self.headings(r, number, before.as_ref());
        if let Some(foot) = &foot {
            self.foot(r, number, foot);
        }
        if let Some(before) = &before {
            self.orientations(r, number, before);
            self.axes(r, number, before, axes);
            self.ignored(r, number, ignored);
        }
        if number != 0 {
            return;
        }
        match (code, before, bias) {
            (0x86, Some(before), _) => {
                self.update(r, &before);
                self.counted(r, &before, ignored);
            }
            (0x62, _, Some(before)) => {
                let after = state::of_bias(self.machine.bias.as_ref().unwrap());
                self.count("> bias timer cleared", before[6] > 0 && after[6] == 0);
                self.count("> bias timer up", after[6] > before[6]);
                self.count("> bias offset moved", after[7..] != before[7..]);
            }
            _ => (),
        }
    }

    /// Turns by a matrix: zeros whose sign is another than by `remap`, floats that a product might round, and which refusal wins.
    fn matrices(&mut self, r: &Record, answer: &Answer) {
        if r[0] & !QUIET != 0x57 {
            return;
        }
        let (taken, other) = (answer.number == 0, other_zero(&r[1..], answer));
        let any = |holds: fn(f32) -> bool| r[2..5].iter().any(|w| holds(f(*w)));
        self.count("> rotated to a zero of another sign", other);
        self.count("> rotated to the same zeros", taken && !other && answer.words.iter().any(|w| f(*w) == 0.0));
        self.count("> rotated with a subnormal part", taken && any(f32::is_subnormal));
        self.count("> rotated with the largest part", taken && any(|x| x.abs() == f32::MAX));
        self.count("> rotation refused 4 before 5", answer.number == 4 && any(|x| !x.is_finite()));
    }

    /// The signs of zeros about the offset record.
    fn zeros(&mut self, r: &Record, number: u32) {
        let Some(bias) = self.machine.bias else { return };
        let minus = state::of_bias(&bias)[7..].contains(&MINUS_ZERO);
        match r[0] & !QUIET {
            0x68 => self.count("> minus zero recorded as zero", number == 0 && minus),
            0x69 => {
                self.count("> minus zero in a record, refused", number == 5 && has_minus_zero(&r[1..]));
                self.count("> zero restored with a minus sign", number == 0 && minus);
            }
            _ => (),
        }
    }

    /// Records with settings, and versions of the other edition.
    fn records(&mut self, r: &Record, number: u32) {
        let (code, a) = (r[0] & !QUIET, &r[1..]);
        if matches!(code, 0x69..=0x6C) {
            let bytes = given(code, a);
            let other = matches!((bytes.len(), bytes.get(3..5)), (18, Some([2, 0])) | (34, Some([1, 0])));
            self.count("> version of the other edition, refused", number == 3 && other);
        }
        let Some(words) = given_settings(code, a) else { return };
        for n in 5..=7 {
            self.count(&format!("> settings of a record refused {n}"), number == n && settings(&words).err() == Some(n));
        }
        self.count("> minus zero in settings of a record, taken", number == 0 && words.contains(&MINUS_ZERO));
        self.count("> offset restored from a record with settings", number == 0 && code == 0x69);
    }

    /// Orientations about the ends of what may be set, and a quaternion of zero: how it comes to be and how it is left.
    fn orientations(&mut self, r: &Record, number: u32, before: &[u32; 37]) {
        let after = self.machine.ahrs_words();
        let [was, is] = [before, &after].map(|w| &w[QUATERNION..QUATERNION + 4]);
        match r[0] & !QUIET {
            0x83 => self.count("> quaternion of zero left by a restart", is_zero(was)),
            0x85 => {
                let steps = steps_beyond(&r[1..5]);
                self.count("> orientation at an end", steps == 0);
                self.count("> orientation one step beyond an end", steps == 1);
                self.count("> orientation one step within an end", steps == -1);
                self.count("> orientation that another order of the sum decides otherwise", hangs_on_order(&r[1..5]));
                self.count("> quaternion of zero left by an orientation", number == 0 && is_zero(was));
            }
            0x86 => {
                self.count("> update on an orientation far from length 1", number == 0 && is_far(was));
                self.count("> update on a quaternion of zero", is_zero(was));
                self.count("> update to a quaternion of zero", number == 0 && is_zero(is));
                self.count("> update to a subnormal part", number == 0 && is.iter().any(|w| f32::from_bits(*w).is_subnormal()));
            }
            _ => (),
        }
    }

    /// The axes that went over: which are shown, what leaves them, and with what they are gone.
    fn axes(&mut self, r: &Record, number: u32, before: &[u32; 37], was: u32) {
        let up = number == 0 && was != 0;
        match r[0] & !QUIET {
            0x80 | 0x90 => self.count("> axes gone with a start", up),
            0x81 | 0x91 => self.count("> axes left by new settings", up),
            0x82 => self.count("> axes left by a new period", up),
            0x83 => self.count("> axes gone with a restart", up),
            0x84 => self.count("> axes gone with a skipped startup", up),
            0x85 => self.count("> axes left by an orientation", up),
            0x86 if number == 0 => self.knock(r, before, was),
            0x86 => self.count("> axes left by a refused update over others", was != 0 && over(&r[1..4], before) & !was != 0),
            0x8F => self.count(&format!("> axes shown: {}", SETS[was as usize]), true),
            _ => (),
        }
    }

    /// An accepted update, by its rates.
    fn knock(&mut self, r: &Record, before: &[u32; 37], was: u32) {
        let (is, over) = (self.machine.axes, over(&r[1..4], before));
        let (on, product) = (before[OVERRANGE] == 1, f(before[PRODUCT]).abs());
        let sizes = [r[1], r[2], r[3]].map(|w| f(w).abs());
        let (at, above) = (sizes.contains(&product), sizes.iter().any(|size| *size > product));
        self.count("> overrange fired", over != 0);
        self.count("> overrange at exactly the threshold", on && at);
        self.count("> axis at the threshold beside one over it", over != 0 && at);
        self.count("> axis over the threshold with overrange off", !on && above);
        self.count("> axes replaced by others", is & !was != 0 && was & !is != 0);
        self.count("> axes gone with the end of startup", was != 0 && is == 0);
        self.count("> axes over where startup ends at once", over != 0 && is == 0);
    }

    /// The counts of ignored updates: which are shown, what leaves them, and with what they are gone.
    fn ignored(&mut self, r: &Record, number: u32, was: [u32; 2]) {
        let code = r[0] & !QUIET;
        for ((name, _, _, place), was) in SENSORS.into_iter().zip(was) {
            let (up, zero) = (was != 0, is_zero(&r[place..place + 3]));
            let (what, here) = match (code, number) {
                (0x80 | 0x90, 0) => ("gone with a start", up),
                (0x81 | 0x91, 0) => ("left by new settings", up),
                (0x82, 0) => ("left by a new period", up),
                (0x83, 0) => ("gone with a restart", up),
                (0x84, 0) => ("left by a skipped startup", up),
                (0x85, 0) => ("left by an orientation", up),
                (0x86, 5) => ("left by a skipped reading, refused 5", up && zero),
                (0x86, 7) => ("left by a skipped reading, refused 7", up && zero),
                (0x92, _) => (["shown: 0", "shown: 1", "shown: more"][was.min(2) as usize], true),
                _ => continue,
            };
            self.count(&format!("> {name} count {what}"), here);
        }
        if code == 0x92 {
            self.count("> acceleration count shown above the other", was[0] > was[1] && was[1] > 0);
            self.count("> magnetic count shown above the other", was[1] > was[0] && was[0] > 0);
        }
    }

    /// An accepted update, by what it makes of the counts.
    fn counted(&mut self, r: &Record, before: &[u32; 37], was: [u32; 2]) {
        let (after, over) = (self.machine.ahrs_words(), over(&r[1..4], before) != 0);
        for (i, (name, s, _, place)) in SENSORS.into_iter().enumerate() {
            let (was, is, zero) = (was[i], self.machine.ignored[i], is_zero(&r[place..place + 3]));
            let (begun, anew, gone) = (was == 0 && is == 1, over && was > 0 && is == 1, was > 0 && is == 0);
            let begins = !recovers(before, s) && recovers(&after, s);
            let mut at = |what: &str, here: bool| self.count(&format!("> {name} count {what}"), here);
            at("begun by a skipped reading", begun && zero);
            at("begun by one over its limit", begun && !zero);
            at("above 10 by a skipped reading", is > 10 && zero);
            at("above 10 by one over its limit", is > 10 && !zero);
            at("gone with a used reading", gone && !over && !begins);
            at("gone as recovery begins", gone && begins);
            at("gone with an overrange", gone && over);
            at("begun anew by an overrange, skipped", anew && zero);
            at("begun anew by an overrange, over its limit", anew && !zero);
        }
    }

    fn update(&mut self, r: &Record, before: &[u32; 37]) {
        let (after, angles) = (self.machine.ahrs_words(), self.machine.in_degrees[0]);
        let startup = after[22] == 1;
        self.count("> startup ended", before[22] == 1 && !startup);
        self.count("> in startup", startup);
        self.count("> T = 0", after[TIMEOUT] == 0);
        self.count("> T = 2^31 - 1", after[TIMEOUT] == 0x7FFF_FFFF);
        for (name, s, limit, place) in SENSORS {
            if is_zero(&r[place..place + 3]) {
                self.count(&format!("> {name} skipped"), true);
                continue;
            }
            let residual = Vector::new(f(after[s]), f(after[s + 1]), f(after[s + 2]));
            let square = residual.norm_squared();
            let trigger = |w: &[u32; 37]| w[s + 3] as i32;
            let mut at = |what: &str, here: bool| self.count(&format!("> {name} {what}"), here);
            at("equal to its limit", !startup && square == f(after[limit]));
            at("over its limit, ignored", after[s + 5] == 1);
            at("equal to the limit of its angle", angles && !startup && square == f(after[limit]));
            at("over the limit of its angle, ignored", angles && after[s + 5] == 1);
            at("over its limit, used in recovery", !startup && square > f(after[limit]) && after[s + 5] == 0);
            at("recovery begins", !recovers(before, s) && recovers(&after, s));
            at("recovery ends", recovers(before, s) && !recovers(&after, s));
            at("trigger above T before", trigger(before) > before[TIMEOUT] as i32);
            at("trigger moved", trigger(before) != trigger(&after));
            at("residual zero", residual.is_zero());
            // The cross product of a unit vector with half a unit one is at most half: a longer residual was normalized.
            at("residual normalized", square > 0.5);
        }
    }

    pub fn print(&self, out: &mut impl Write) -> io::Result<()> {
        for (name, n) in &self.counts {
            writeln!(out, "{n:9} {name}")?;
        }
        Ok(())
    }
}
