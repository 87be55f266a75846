//! The exported text, called as a script says: what it answers, and the words of its states.

use crate::foot_port;
use crate::machine::{Answer, gives, refused};
use crate::offset_port;
use crate::plain_port::{arithmetic, mountings};
use crate::record::{QUIET, Record};
use crate::words::{bits, f};
use gateweave::ahrs::read::{Flags, InternalStates};
use gateweave::ahrs::{self, Ahrs, Axes, Limit, Settings};
use gateweave::answer::{Answer as Said, Reading, Refusal};
use gateweave::bias::{self, Bias, BiasSettings};
use gateweave::math::{Quaternion, Vector};
use gateweave::{heading, trig};

#[derive(Default)]
pub struct Port {
    pub ahrs: Option<Ahrs>,
    pub bias: Option<Bias>,
    pub foot: foot_port::Port,
    /// Updates and readings so far: one in eight is of a state that is lent.
    calls: u64,
}

pub fn vector(a: &[u32]) -> Vector {
    Vector::new(f(a[0]), f(a[1]), f(a[2]))
}

pub fn quaternion(a: &[u32]) -> Quaternion {
    Quaternion::new(f(a[0]), f(a[1]), f(a[2]), f(a[3]))
}

pub fn of_vector(v: Vector) -> [u32; 3] {
    <[f32; 3]>::from(v).map(bits)
}

pub fn of_quaternion(q: Quaternion) -> [u32; 4] {
    <[f32; 4]>::from(q).map(bits)
}

/// A number that no byte holds is refused like 255.
pub fn choice(word: u32) -> u8 {
    word.min(255) as u8
}

fn numbered(refusal: Refusal) -> Answer {
    refused(refusal.number().into())
}

/// The words of what is given, or the refusal's number.
pub fn told<T, W: Into<Vec<u32>>>(result: Result<T, Refusal>, words: impl FnOnce(T) -> W) -> Answer {
    match result {
        Ok(given) => gives(words(given)),
        Err(refusal) => numbered(refusal),
    }
}

/// A call that gives nothing.
pub fn done(result: Result<(), Refusal>) -> Answer {
    told(result, |()| [])
}

fn number(result: Result<f32, Refusal>) -> Answer {
    told(result, |x| [bits(x)])
}

pub fn said(answer: Said) -> Answer {
    match answer {
        Said::Rates(x, y, z) | Said::Turned(x, y, z) => gives([x, y, z].map(bits)),
        Said::Oriented(w, x, y, z) => gives([w, x, y, z].map(bits)),
        Said::Refused(refusal) => numbered(refusal),
    }
}

/// A limit, squared or in degrees.
fn limit(word: u32, in_degrees: bool) -> Limit {
    if in_degrees { Limit::Degrees(f(word)) } else { Limit::Squared(f(word)) }
}

/// The limits of calls 90 and 91 are angles.
pub fn settings(code: u32, a: &[u32]) -> Settings {
    let in_degrees = code >= 0x90;
    Settings {
        sample_rate: f(a[0]),
        convention: choice(a[1]),
        gain: f(a[2]),
        gyroscope_range: f(a[3]),
        acceleration_rejection: limit(a[4], in_degrees),
        magnetic_rejection: limit(a[5], in_degrees),
        rejection_timeout: f(a[6]),
    }
}

pub fn bias_settings(a: &[u32]) -> BiasSettings {
    BiasSettings { sample_rate: f(a[0]), stationary_threshold: f(a[1]), stationary_period: f(a[2]), cutoff_frequency: f(a[3]) }
}

pub fn of_settings(s: &Settings) -> [u32; 7] {
    let [rate, gain, range, timeout] = [s.sample_rate, s.gain, s.gyroscope_range, s.rejection_timeout].map(bits);
    let [acceleration, magnetic] = [s.acceleration_rejection, s.magnetic_rejection].map(|limit| bits(limit.given()));
    [rate, s.convention.into(), gain, range, acceleration, magnetic, timeout]
}

/// A set of axes: 1 for x, 2 for y and 4 for z.
fn of_axes(a: Axes) -> u32 {
    u32::from(a.x) + 2 * u32::from(a.y) + 4 * u32::from(a.z)
}

/// What a state has beyond the Rust's: the axes that went over, how often in a row each sensor was ignored, and whether each limit is an
/// angle.
pub fn beyond(t: &Ahrs) -> [u32; 5] {
    let kind = |limit: Limit| matches!(limit, Limit::Degrees(_)).into();
    [
        of_axes(t.overrange_recovery),
        t.acceleration.ignored_count,
        t.magnetic.ignored_count,
        kind(t.settings.acceleration_rejection),
        kind(t.settings.magnetic_rejection),
    ]
}

pub fn of_ahrs(t: &Ahrs) -> [u32; 37] {
    let c = &t.config;
    let mut words = [0; 37];
    words[..7].copy_from_slice(&of_settings(&t.settings));
    words[7..10].copy_from_slice(&[c.sample_period, c.gain, c.startup_gain_rate].map(bits));
    words[10] = c.overrange_enabled.into();
    words[11..14].copy_from_slice(&[c.overrange_threshold, c.acceleration_rejection, c.magnetic_rejection].map(bits));
    words[14] = c.rejection_timeout as u32;
    words[15..19].copy_from_slice(&of_quaternion(t.quaternion));
    words[19..22].copy_from_slice(&of_vector(t.accelerometer));
    words[22..25].copy_from_slice(&[t.startup.into(), bits(t.startup_gain), t.overrange_recovery.any().into()]);
    for (at, sensor) in [(25, &t.acceleration), (31, &t.magnetic)] {
        words[at..at + 3].copy_from_slice(&of_vector(sensor.half_residual));
        words[at + 3] = sensor.recovery_trigger as u32;
        words[at + 4] = sensor.recovery_threshold as u32;
        words[at + 5] = sensor.ignored.into();
    }
    words
}

pub fn of_bias(t: &Bias) -> [u32; 10] {
    let s = &t.settings;
    let [rate, threshold, period, cutoff] =
        [s.sample_rate, s.stationary_threshold, s.stationary_period, s.cutoff_frequency].map(bits);
    let [x, y, z] = of_vector(t.offset);
    [rate, threshold, period, cutoff, bits(t.filter_coefficient), t.timeout, t.timer, x, y, z]
}

impl Port {
    pub fn call(&mut self, r: &Record) -> Answer {
        let (code, a) = (r[0] & !QUIET, &r[1..]);
        match code {
            0x47 => number(trig::sin_degrees(f(a[0]))),
            0x48 => number(trig::cos_degrees(f(a[0]))),
            0x49 => number(trig::angle_degrees(f(a[0]), f(a[1]))),
            0x10..=0x4F => gives(arithmetic(code, a)),
            0x50..=0x5F => mountings(code, a),
            0x60..=0x6F => self.bias(code, a),
            0xA0..=0xA4 => self.foot.call(code, a),
            _ => self.ahrs(code, a),
        }
    }

    /// Sets the counts of ignored updates, which no call does.
    pub fn set_counts(&mut self, [acceleration, magnetic]: [u32; 2]) {
        let state = self.ahrs.as_mut().expect("the script starts no filter");
        (state.acceleration.ignored_count, state.magnetic.ignored_count) = (acceleration, magnetic);
    }

    /// Sets the floats that are no settings to the words of a state.
    pub fn set_floats(&mut self, w: &[u32; 37]) {
        let state = self.ahrs.as_mut().expect("the script starts no filter");
        (state.quaternion, state.accelerometer, state.startup_gain) = (quaternion(&w[15..]), vector(&w[19..]), f(w[23]));
        (state.acceleration.half_residual, state.magnetic.half_residual) = (vector(&w[25..]), vector(&w[31..]));
    }

    /// Settings with these limits of these kinds, which no call gives unlike, and else the ones in use.
    pub fn set_limits(&mut self, words: [u32; 2], in_degrees: [bool; 2]) -> Answer {
        let state = self.ahrs.expect("the script starts no filter");
        let [acceleration_rejection, magnetic_rejection] = [0, 1].map(|i| limit(words[i], in_degrees[i]));
        let change = state.set_settings(Settings { acceleration_rejection, magnetic_rejection, ..state.settings });
        self.ahrs = Some(change.state);
        done(change.result)
    }

    fn is_lent(&mut self) -> bool {
        self.calls += 1;
        self.calls.is_multiple_of(8)
    }

    fn ahrs(&mut self, code: u32, a: &[u32]) -> Answer {
        if matches!(code, 0x80 | 0x90) {
            return told(Ahrs::with_settings(settings(code, a)), |fresh| {
                self.ahrs = Some(fresh);
                []
            });
        }
        let state = self.ahrs.expect("the script starts no filter");
        let change = match code {
            0x81 | 0x91 => state.set_settings(settings(code, a)),
            0x82 => state.set_sample_period(f(a[0])),
            0x83 => state.restart(),
            0x84 => state.skip_startup(),
            0x85 => state.set_quaternion(quaternion(a)),
            0x86 => return self.update(state, a),
            0x93 => heading::set_heading(state, f(a[0])),
            0x94 => return self.kept(heading::update_external_heading(state, vector(a), vector(&a[3..]), f(a[6]))),
            0x95 => return self.kept(heading::update_no_magnetometer(state, vector(a), vector(&a[3..]))),
            _ => return read(state, code),
        };
        self.ahrs = Some(change.state);
        done(change.result)
    }

    fn kept(&mut self, reading: Reading<Ahrs>) -> Answer {
        self.ahrs = Some(reading.state);
        said(reading.answer)
    }

    fn update(&mut self, mut state: Ahrs, a: &[u32]) -> Answer {
        let (gyroscope, accelerometer, magnetometer) = (vector(a), vector(&a[3..]), vector(&a[6..]));
        let answer = if self.is_lent() {
            ahrs::update_lent(&mut state, gyroscope, accelerometer, magnetometer)
        } else {
            let reading = state.update(gyroscope, accelerometer, magnetometer);
            state = reading.state;
            reading.answer
        };
        self.ahrs = Some(state);
        said(answer)
    }

    fn bias(&mut self, code: u32, a: &[u32]) -> Answer {
        if code == 0x60 {
            return told(Bias::with_settings(bias_settings(a)), |fresh| {
                self.bias = Some(fresh);
                []
            });
        }
        let state = self.bias.expect("the script starts no estimator");
        let change = match code {
            0x61 => state.set_settings(bias_settings(a)),
            0x62 => return self.reading(state, vector(a)),
            0x64 => state.set_offset(vector(a)),
            0x65 => state.restart(),
            0x69 => offset_port::restore(state, a),
            _ => return read_bias(state, code, a),
        };
        self.bias = Some(change.state);
        done(change.result)
    }

    fn reading(&mut self, mut state: Bias, gyroscope: Vector) -> Answer {
        let answer = if self.is_lent() {
            bias::update_lent(&mut state, gyroscope)
        } else {
            let reading = state.update(gyroscope);
            state = reading.state;
            reading.answer
        };
        self.bias = Some(state);
        said(answer)
    }
}

/// What a call that only reads the filter says.
pub fn read(state: Ahrs, code: u32) -> Answer {
    let states = |words: fn(InternalStates) -> [u32; 2]| told(state.internal_states(), words);
    let flags = |words: fn(Flags) -> Vec<u32>| told(state.flags(), words);
    match code {
        0x87 => told(state.quaternion(), of_quaternion),
        0x88 => told(state.gravity(), of_vector),
        0x89 => told(state.linear_acceleration(), of_vector),
        0x8A => told(state.earth_acceleration(), of_vector),
        0x8B => flags(|s| {
            [s.startup, s.overrange_recovery.any(), s.acceleration_recovery, s.magnetic_recovery].map(u32::from).to_vec()
        }),
        0x8C => states(|s| [s.acceleration_recovery_trigger, s.magnetic_recovery_trigger].map(bits)),
        0x8D => states(|s| [s.accelerometer_ignored, s.magnetometer_ignored].map(u32::from)),
        0x8E => told(state.settings(), |s| of_settings(&s)),
        0x8F => flags(|s| vec![of_axes(s.overrange_recovery)]),
        0x92 => told(state.ignored_counts(), |s| [s.accelerometer, s.magnetometer]),
        _ => refused(1),
    }
}

/// The same of the estimator.
pub fn read_bias(state: Bias, code: u32, a: &[u32]) -> Answer {
    match code {
        0x63 => told(state.offset(), of_vector),
        0x66 => told(state.is_active(), |active| [u32::from(active)]),
        0x67 => told(state.settings(), |s| {
            [s.sample_rate, s.stationary_threshold, s.stationary_period, s.cutoff_frequency].map(bits)
        }),
        0x68 | 0x6A..=0x6C => offset_port::call(state, code, a),
        _ => refused(1),
    }
}
