//! What a run reaches: how many calls of each kind, their answers, and the cases that are easily missed.

use crate::axes::over;
use crate::estimator::settings;
use crate::machine::Answer;
use crate::offsets::{given_settings, has_minus_zero};
use crate::orientation::{hangs_on_order, is_far, is_zero, steps_beyond};
use crate::plain::other_zero;
use crate::record::Record;
use crate::state::{ACCELERATION, LIMITS_USED, MAGNETIC, OVERRANGE, PRODUCT, QUATERNION, TIMEOUT};
use crate::words::{MINUS_ZERO, f};
use fusion_ahrs::Vector;

/// A number for each line that is printed.
macro_rules! tally {
    ($($field:ident $text:literal,)*) => {
        #[derive(Default)]
        pub struct Tally {
            $(pub $field: u64,)*
        }

        impl Tally {
            pub fn add(&mut self, other: &Tally) {
                $(self.$field += other.$field;)*
            }

            pub fn lines(&self) -> Vec<(u64, &'static str)> {
                vec![$((self.$field, $text)),*]
            }
        }
    };
}

tally! {
    updates "updates",
    accepted "updates accepted",
    refused5 "updates refused 5",
    refused7 "updates refused 7",
    on_zero "updates on a quaternion of zero",
    to_zero "updates to a quaternion of zero",
    on_far "updates on an orientation far from length 1",
    in_startup "updates in startup",
    product "updates with a rate at the overrange product",
    beside_product "updates with a rate one step beside it",
    overrange "updates over range",
    several "updates over range about more than one axis",
    replaced "updates that replace the axes of an earlier one by others",
    ended "updates with which such axes are gone",
    limit "updates with a squared residual at its limit",
    beside_limit "updates with one a step beside it",
    angles "updates under a limit of an angle",
    angle_limit "updates with a squared residual at such a limit",
    unlike "updates under a limit of an angle beside a squared one",
    ignored "updates that ignore a sensor",
    longer "updates that make a count of ignored ones longer",
    hundred "updates that make one longer than 100",
    most "updates at the largest count",
    used "updates with which a count is gone, by a used reading",
    used_over "updates with which a count is gone, over range",
    anew "updates with which a count begins anew at 1, over range",
    recovering "updates in recovery",
    above "updates with a trigger above T",
    zero_timeout "updates with T = 0",
    most_timeout "updates with T = 2^31 - 1",
    subnormal "updates to a quaternion with a subnormal part",
    set "orientations set",
    set5 "orientations refused 5",
    set9 "orientations refused 9",
    end "orientations with a squared norm at an end",
    beside_end "orientations with one a step beside it",
    order "orientations that another order of the sum decides otherwise",
    left "quaternions of zero left by an orientation",
    restarted "quaternions of zero left by a restart",
    by_angles "settings by angles",
    by_angles_refused "settings by angles refused",
    other_kind "settings by angles after squared limits, or the other way round",
    headings "calls without a compass",
    set_heading "set_heading",
    set_heading5 "set_heading refused 5",
    set_heading6 "set_heading refused 6",
    set_heading7 "set_heading refused 7",
    external "update_external_heading",
    external5 "update_external_heading refused 5",
    external6 "update_external_heading refused 6",
    external7 "update_external_heading refused 7",
    alone "update_no_magnetometer",
    alone5 "update_no_magnetometer refused 5",
    alone7 "update_no_magnetometer refused 7",
    zeroed "update_no_magnetometer in startup, which sets heading 0",
    yaw7 "set_heading refused 7 for yaw's point",
    roll7 "update_external_heading refused 7 for roll's point",
    state5 "calls without a compass refused for the state",
    heading_end "headings of 360 degrees either way",
    beside_heading_end "headings one step beside that",
    steep "calls without a compass where yaw's point or roll's is nearly zero",
    heading_on_zero "calls without a compass on a quaternion of zero",
    heading_on_far "calls without a compass on an orientation far from length 1",
    external_used "external headings used out of startup",
    external_ignored "external headings over their limit and ignored",
    feet "calls of two filters",
    filled "rows filled",
    party_started "parties started",
    chosen "choices",
    chosen_shared "choices of the row that the other uses",
    chosen_none "choices of a row above 7, refused",
    rewritten "rewrites",
    foot10 "rewrites refused 10",
    foot10_before "rewrites refused 10 before 5 or 6",
    foot4_before "rewrites of a shared row refused 4",
    stepped "updates of a party",
    stepped_shared "updates of a party on a shared row",
    foot4 "calls of two filters refused 4",
    foot5 "calls of two filters refused 5",
    foot6 "calls of two filters refused 6",
    foot7 "calls of two filters refused 7",
    no_row "choices and rewrites with a row above 7 in use",
    unknown "calls of two filters refused for a convention in use",
    unstarted "calls of a party that has not started, or of none",
    readings "readings",
    readings_accepted "readings accepted",
    readings_refused5 "readings refused 5",
    readings_refused7 "readings refused 7",
    still "readings with an axis at the threshold",
    beside_still "readings with one a step beside it",
    grown "readings that move the offset",
    cleared "readings that clear the timer",
    written "offset records written",
    restored "offset records restored",
    plain_written "offset records written of a minus zero",
    minus_refused "offset records refused for one",
    minus_restored "offset records restored to one",
    moved_up "offset records moved up",
    moved_down "offset records moved down",
    second_restored "offset records restored from one with settings",
    settings5 "offset records refused 5 for settings",
    settings6 "offset records refused 6 for settings",
    settings7 "offset records refused 7 for settings",
    minus_settings "offset records taken with a minus zero in settings",
    changes "other calls of the filter",
    bias_changes "other calls of the estimator",
    plain "calls without a state",
    rotated "of these, vectors turned by a matrix",
    other_zero "to a zero of another sign than by remap",
    sines "of these, sines and cosines",
    sines_small "sines and cosines below a degree",
    sines5 "sines and cosines refused 5",
    sines6 "sines and cosines refused 6",
    points "of these, angles of points",
    points5 "angles of points refused 5",
    points_even "angles of points about a diagonal, within two steps",
    points_zero "angles of points with a zero part",
    reads "reads beside an update or a reading",
    texts "states held to their text too",
    logs "logs",
    whole_logs "logs accepted to their end",
    logs1 "logs refused 1",
    logs2 "logs refused 2",
    logs3 "logs refused 3",
    logs4 "logs refused 4",
    logs5 "logs refused 5",
    logs6 "logs refused 6",
    logs7 "logs refused 7",
    logs8 "logs refused 8",
    records "records accepted",
    parts "parts in which they were fed",
    reports "reports of logs",
    reports11 "reports of at most 0 to 6 records refused 11",
}

/// Neighbours among the floats, or the same.
pub fn steps(a: u32, b: u32) -> u32 {
    (a & 0x7FFF_FFFF).abs_diff(b & 0x7FFF_FFFF)
}

impl Tally {
    pub fn update(&mut self, r: &Record, number: u32, in_degrees: [bool; 2], before: &[u32; 37], after: &[u32; 37]) {
        self.updates += 1;
        self.angles += u64::from(in_degrees[0] || in_degrees[1]);
        self.unlike += u64::from(in_degrees[0] != in_degrees[1]);
        self.accepted += u64::from(number == 0);
        self.refused5 += u64::from(number == 5);
        self.refused7 += u64::from(number == 7);
        let [was, is] = [before, after].map(|w| &w[QUATERNION..QUATERNION + 4]);
        self.on_zero += u64::from(is_zero(was));
        self.in_startup += u64::from(before[22] == 1);
        self.zero_timeout += u64::from(before[TIMEOUT] == 0);
        self.most_timeout += u64::from(before[TIMEOUT] == i32::MAX as u32);
        if number == 0 {
            self.rates(&r[1..4], before);
            self.sensors(in_degrees, before, after);
            self.to_zero += u64::from(is_zero(is));
            self.on_far += u64::from(is_far(was));
            self.subnormal += u64::from(is.iter().any(|w| f(*w).is_subnormal()));
        }
    }

    /// A call that changes the filter otherwise: orientations about the ends of what may be set, and how one of zero is left.
    pub fn change(&mut self, r: &Record, number: u32, before: &[u32; 37]) {
        self.changes += 1;
        let zero = u64::from(number == 0 && is_zero(&before[QUATERNION..QUATERNION + 4]));
        if r[0] == 0x83 {
            self.restarted += zero;
        }
        if r[0] == 0x85 {
            self.set += u64::from(number == 0);
            self.set5 += u64::from(number == 5);
            self.set9 += u64::from(number == 9);
            self.left += zero;
            let beyond = steps_beyond(&r[1..5]);
            self.end += u64::from(beyond == 0);
            self.beside_end += u64::from(beyond.abs() == 1);
            self.order += u64::from(hangs_on_order(&r[1..5]));
        }
    }

    /// Settings, by angles or not, after others.
    pub fn settings_by(&mut self, by_angles: bool, number: u32, were_angles: bool) {
        self.by_angles += u64::from(by_angles);
        self.by_angles_refused += u64::from(by_angles && number != 0);
        self.other_kind += u64::from(number == 0 && by_angles != were_angles);
    }

    /// A call without a state.
    pub fn plain(&mut self, r: &Record, answer: &Answer) {
        self.plain += 1;
        if r[0] == 0x57 && answer.number == 0 {
            self.rotated += 1;
            self.other_zero += u64::from(other_zero(&r[1..], answer));
        }
        if matches!(r[0], 0x47 | 0x48) {
            self.sines += 1;
            self.sines_small += u64::from(f(r[1]).abs() < 1.0);
            self.sines5 += u64::from(answer.number == 5);
            self.sines6 += u64::from(answer.number == 6);
        }
        if r[0] == 0x49 {
            self.points += 1;
            self.points5 += u64::from(answer.number == 5);
            self.points_even += u64::from(answer.number == 0 && steps(r[1], r[2]) <= 2);
            self.points_zero += u64::from(answer.number == 0 && (f(r[1]) == 0.0 || f(r[2]) == 0.0));
        }
    }

    fn rates(&mut self, gyroscope: &[u32], before: &[u32; 37]) {
        let beside = |n: u32| u64::from(before[OVERRANGE] == 1 && gyroscope.iter().any(|w| steps(*w, before[PRODUCT]) == n));
        let axes = over(gyroscope, before).count_ones();
        self.product += beside(0);
        self.beside_product += beside(1);
        self.overrange += u64::from(axes > 0);
        self.several += u64::from(axes > 1);
    }

    /// The axes that went over, before an update and after it.
    pub fn axes(&mut self, was: u32, is: u32) {
        self.replaced += u64::from(was != 0 && is != 0 && is != was);
        self.ended += u64::from(was != 0 && is == 0);
    }

    /// The counts of ignored updates, before an accepted one and after it.
    pub fn counts(&mut self, over: u32, was: [u32; 2], is: [u32; 2]) {
        let any = |holds: fn(u32, u32) -> bool| u64::from(holds(was[0], is[0]) || holds(was[1], is[1]));
        let gone = any(|was, is| was > 0 && is == 0);
        self.longer += any(|was, is| is > was);
        self.hundred += any(|was, is| is > was && is > 100);
        self.most += any(|was, is| was == u32::MAX && is == u32::MAX);
        if over == 0 {
            self.used += gone;
        } else {
            self.used_over += gone;
            self.anew += any(|was, is| was > 0 && is == 1);
        }
    }

    fn sensors(&mut self, in_degrees: [bool; 2], before: &[u32; 37], after: &[u32; 37]) {
        let (mut ignored, mut recovering, mut above, mut nearest, mut at_angle) = (false, false, false, u32::MAX, false);
        for (sensor, limit, angle) in [(ACCELERATION, LIMITS_USED, in_degrees[0]), (MAGNETIC, LIMITS_USED + 1, in_degrees[1])] {
            let trigger = |w: &[u32; 37]| w[sensor + 3] as i32;
            let square = Vector::new(f(after[sensor]), f(after[sensor + 1]), f(after[sensor + 2])).norm_squared();
            ignored |= after[sensor + 5] == 1;
            recovering |= trigger(after) > after[sensor + 4] as i32;
            above |= trigger(before) > before[TIMEOUT] as i32;
            let beside = steps(square.to_bits(), after[limit]);
            nearest = nearest.min(beside);
            at_angle |= angle && beside == 0;
        }
        self.ignored += u64::from(ignored);
        self.recovering += u64::from(recovering);
        self.above += u64::from(above);
        self.limit += u64::from(nearest == 0);
        self.angle_limit += u64::from(at_angle);
        self.beside_limit += u64::from(nearest == 1);
    }

    pub fn log(&mut self, number: u32) {
        self.logs += 1;
        let ends = [
            &mut self.whole_logs,
            &mut self.logs1,
            &mut self.logs2,
            &mut self.logs3,
            &mut self.logs4,
            &mut self.logs5,
            &mut self.logs6,
            &mut self.logs7,
            &mut self.logs8,
        ];
        *ends.into_iter().nth(number as usize).expect("a refusal's number") += 1;
    }

    /// Offset records: the signs of zeros, and settings.
    pub fn record(&mut self, r: &Record, number: u32, after: &[u32; 10]) {
        let minus = after[7..].contains(&MINUS_ZERO);
        if r[0] == 0x68 && number == 0 {
            self.written += 1;
            self.plain_written += u64::from(minus);
        }
        if r[0] == 0x69 {
            self.restored += u64::from(number == 0);
            self.minus_refused += u64::from(number == 5 && has_minus_zero(&r[1..]));
            self.minus_restored += u64::from(number == 0 && minus);
        }
        if let Some(words) = given_settings(r[0], &r[1..]) {
            self.settings(r[0], number, &words);
        }
    }

    /// A record with settings, in it or beside it.
    fn settings(&mut self, code: u32, number: u32, words: &[u32]) {
        let taken = |call: u32| u64::from(number == 0 && code == call);
        self.moved_up += taken(0x6A);
        self.moved_down += taken(0x6B);
        self.second_restored += taken(0x69);
        self.minus_settings += u64::from(number == 0 && words.contains(&MINUS_ZERO));
        let refused = |n: u32| u64::from(number == n && settings(words).err() == Some(n));
        self.settings5 += refused(5);
        self.settings6 += refused(6);
        self.settings7 += refused(7);
    }

    pub fn reading(&mut self, r: &Record, number: u32, before: &[u32; 10], after: &[u32; 10]) {
        self.readings += 1;
        self.readings_accepted += u64::from(number == 0);
        self.readings_refused5 += u64::from(number == 5);
        self.readings_refused7 += u64::from(number == 7);
        if number == 0 {
            let corrected = |i: usize| (f(r[1 + i]) - f(before[7 + i])).to_bits();
            let nearest = (0..3).map(|i| steps(corrected(i), before[1])).min().unwrap();
            self.still += u64::from(nearest == 0);
            self.beside_still += u64::from(nearest == 1);
            self.grown += u64::from(before[7..] != after[7..]);
            self.cleared += u64::from(before[6] > 0 && after[6] == 0);
        }
    }
}
