//! The calls of the filter. The Rust's settings hold angles: where a script gives squared limits it gives the angles beside them.

use crate::axes;
use crate::ignored;
use crate::machine::{Answer, Machine, gives, refused};
use crate::sines::refusal;
use crate::state;
use crate::words::{all_finite, bits, f, of_q, of_v, q, v};
use fusion_ahrs::{Ahrs, AhrsSettings, Convention, Quaternion};

/// The most that a limit may be: squared, or in degrees.
pub const ANY_SIZE: f32 = f32::MAX;
pub const RIGHT_ANGLE: f32 = 90.0;

/// The refusal that settings get before anything is derived from them, or 0. Angles beside squared limits are not looked at.
pub fn unfit(a: &[u32], most: f32) -> u32 {
    let [rate, convention, gain, range, acceleration, magnetic, timeout] = *a.first_chunk::<7>().unwrap();
    if convention > 2 {
        4
    } else if !all_finite(&[rate, gain, range, acceleration, magnetic, timeout]) {
        5
    } else if !(f(rate) > 0.0) || [acceleration, magnetic].iter().any(|w| !(0.0..=most).contains(&f(*w))) || f(timeout) < 0.0 {
        6
    } else {
        0
    }
}

/// The squared norm of an orientation that may be set, both ends included.
pub const ENDS: [f32; 2] = [0.25, 4.0];

/// Whether an orientation may be set, by its squared norm as the Rust sums it.
pub fn settable(q: Quaternion) -> bool {
    let [least, most] = ENDS;
    (least..=most).contains(&q.norm_squared())
}

impl Machine {
    pub fn ahrs(&mut self, code: u32, a: &[u32]) -> Answer {
        if matches!(code, 0x80 | 0x81 | 0x90 | 0x91) {
            return self.ahrs_settings(code, a);
        }
        let next = self.ahrs.clone().expect("the script starts no filter");
        match code {
            0x82..=0x86 => self.change(next, code, a),
            0x93..=0x95 => self.heading(next, code, a),
            _ => self.read(&next, code),
        }
    }

    fn change(&mut self, mut next: Ahrs, code: u32, a: &[u32]) -> Answer {
        match code {
            0x82 if !state::finite(a[0]) => return refused(5),
            0x82 if !(f(a[0]) > 0.0) => return refused(6),
            0x82 => next.set_sample_period(f(a[0])),
            0x83 => next.restart(),
            0x84 => next.skip_startup(),
            0x85 if !all_finite(&a[..4]) => return refused(5),
            0x85 if !settable(q(a)) => return refused(9),
            0x85 => next.set_quaternion(q(a)),
            0x86 if !all_finite(&a[..9]) => return refused(5),
            0x86 => {
                let over = axes::over(a, &state::of_ahrs(&next));
                next.update(v(a), v(&a[3..]), v(&a[6..]));
                let orientation = of_q(next.quaternion());
                return self.keep_ahrs(code, next, over, orientation);
            }
            _ => panic!("the script has a call {code:02X}"),
        }
        self.keep_ahrs(code, next, 0, [])
    }

    /// Calls 93 to 95. The angle of a point that is not finite is a NaN, which shows in the new state; and where the first half of 95 leaves
    /// something that is not finite, the second leaves it too.
    fn heading(&mut self, mut next: Ahrs, code: u32, a: &[u32]) -> Answer {
        let before = state::of_ahrs(&next);
        let (readings, heading) = match code {
            0x93 => (&a[..0], f(a[0])),
            0x94 => (&a[..6], f(a[6])),
            _ => (&a[..6], 0.0),
        };
        let given = state::ahrs_finite(&before) && all_finite(readings);
        let number = if given { refusal(heading) } else { 5 };
        if number != 0 {
            return refused(number);
        }
        match code {
            0x93 => {
                next.set_heading(heading);
                return self.keep_ahrs(code, next, 0, []);
            }
            0x94 => next.update_external_heading(v(a), v(&a[3..]), heading),
            _ => next.update_no_magnetometer(v(a), v(&a[3..])),
        }
        let orientation = of_q(next.quaternion());
        self.keep_ahrs(code, next, axes::over(a, &before), orientation)
    }

    pub fn read(&self, ahrs: &Ahrs, code: u32) -> Answer {
        let reads = |words: &[u32]| if all_finite(words) { gives(words) } else { refused(7) };
        match code {
            0x87 => reads(&of_q(ahrs.quaternion())),
            0x88 => reads(&of_v(ahrs.gravity())),
            0x89 => reads(&of_v(ahrs.linear_acceleration())),
            0x8A => reads(&of_v(ahrs.earth_acceleration())),
            0x8B => {
                let s = ahrs.flags();
                let flags = [s.startup, s.overrange_recovery, s.acceleration_recovery, s.magnetic_recovery];
                gives(flags.map(u32::from))
            }
            0x8C => {
                let s = ahrs.internal_states();
                reads(&[s.acceleration_recovery_trigger, s.magnetic_recovery_trigger].map(bits))
            }
            0x8D => gives(ignored::marks(ahrs).map(u32::from)),
            0x8E => {
                let s = ahrs.settings();
                let [w0, w2, w3, w6] = [s.sample_rate, s.gain, s.gyroscope_range, s.rejection_timeout].map(bits);
                gives([w0, s.convention as u32, w2, w3, self.limits[0], self.limits[1], w6])
            }
            0x8F => gives([self.axes]),
            0x92 => gives(self.ignored),
            _ => panic!("the script has a call {code:02X}"),
        }
    }

    /// Of calls 80 and 81 the limits are squared, and the angles stand behind them; of 90 and 91 the limits are angles.
    fn ahrs_settings(&mut self, code: u32, a: &[u32]) -> Answer {
        let [rate, convention, gain, range, acceleration, magnetic, timeout, ..] = *a.first_chunk::<9>().unwrap();
        let (squared, limits) = (code < 0x90, [acceleration, magnetic]);
        let number = unfit(a, if squared { ANY_SIZE } else { RIGHT_ANGLE });
        if number != 0 {
            return refused(number);
        }
        let angles = if squared { [a[7], a[8]] } else { limits };
        let settings = AhrsSettings {
            sample_rate: f(rate),
            convention: Convention::ALL[convention as usize],
            gain: f(gain),
            gyroscope_range: f(range),
            acceleration_rejection: f(angles[0]),
            magnetic_rejection: f(angles[1]),
            rejection_timeout: f(timeout),
        };
        let mut next = if matches!(code, 0x80 | 0x90) {
            Ahrs::with_settings(settings)
        } else {
            let mut next = self.ahrs.clone().expect("the script starts no filter");
            next.set_settings(settings);
            next
        };
        if squared {
            state::hold_limits(&mut next, [(acceleration, angles[0]), (magnetic, angles[1])]);
        }
        let answer = self.keep_ahrs(code, next, 0, []);
        if answer.number == 0 {
            (self.limits, self.in_degrees) = (limits, [!squared; 2]);
        }
        answer
    }

    /// Keeps the state after a call, where nothing refuses it, with the axes that went over and the counts of ignored updates: their
    /// yes or no has to be the flag and the marks.
    fn keep_ahrs(&mut self, code: u32, next: Ahrs, over: u32, answer: impl Into<Vec<u32>>) -> Answer {
        let answer = answer.into();
        if !state::ahrs_finite(&state::of_ahrs(&next)) || !all_finite(&answer) {
            return refused(7);
        }
        let (flags, marks) = (next.flags(), ignored::marks(&next));
        self.axes = axes::after(code, self.axes, over, flags.startup);
        assert_eq!(self.axes != 0, flags.overrange_recovery, "the axes that went over after a call {code:02X}");
        self.ignored = ignored::after(code, self.ignored, over, marks);
        assert_eq!(self.ignored.map(|count| count != 0), marks, "the counts of ignored updates after a call {code:02X}");
        self.ahrs = Some(next);
        gives(answer)
    }
}
