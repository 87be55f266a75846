//! The calls of the bias estimator.

use crate::machine::{Answer, Machine, gives, refused};
use crate::offsets;
use crate::state;
use crate::words::{all_finite, bits, f, of_v, v};
use fusion_ahrs::{Bias, BiasSettings};

impl Machine {
    pub fn bias(&mut self, code: u32, a: &[u32]) -> Answer {
        if code == 0x60 || code == 0x61 {
            return self.bias_settings(code, a);
        }
        let mut next = self.bias.expect("the script starts no estimator");
        match code {
            0x62 if !all_finite(&a[..3]) => refused(5),
            0x62 => {
                let corrected = of_v(next.update(v(a)));
                self.keep_bias(next, corrected)
            }
            0x63 => gives(of_v(next.offset())),
            0x64 if !all_finite(&a[..3]) => refused(5),
            0x64 => {
                next.set_offset(v(a));
                self.keep_bias(next, [])
            }
            0x65 => {
                next.restart();
                self.keep_bias(next, [])
            }
            0x66 => gives([next.is_active() as u32]),
            0x67 => {
                let s = next.settings();
                gives([s.sample_rate, s.stationary_threshold, s.stationary_period, s.cutoff_frequency].map(bits))
            }
            0x69 => match offsets::restored(a) {
                Ok(offset) => {
                    next.set_offset(offset);
                    self.keep_bias(next, [])
                }
                Err(number) => refused(number),
            },
            _ => offsets::call(next, code, a),
        }
    }

    fn keep_bias(&mut self, next: Bias, answer: impl Into<Vec<u32>>) -> Answer {
        let answer = answer.into();
        if !state::bias_finite(&state::of_bias(&next)) || !all_finite(&answer) {
            return refused(7);
        }
        self.bias = Some(next);
        gives(answer)
    }

    fn bias_settings(&mut self, code: u32, a: &[u32]) -> Answer {
        let settings = match settings(a) {
            Ok(settings) => settings,
            Err(number) => return refused(number),
        };
        if code == 0x60 {
            return self.keep_bias(Bias::with_settings(settings), []);
        }
        let mut next = self.bias.expect("the script starts no estimator");
        next.set_settings(settings);
        self.keep_bias(next, [])
    }
}

/// Settings, or the number that refuses them, whatever gives them: rate, threshold, period, cutoff.
pub fn settings(a: &[u32]) -> Result<BiasSettings, u32> {
    if !all_finite(&a[..4]) {
        return Err(5);
    }
    let settings = BiasSettings {
        sample_rate: f(a[0]),
        stationary_threshold: f(a[1]),
        stationary_period: f(a[2]),
        cutoff_frequency: f(a[3]),
    };
    if !(settings.sample_rate > 0.0) {
        return Err(6);
    }
    let fresh = state::of_bias(&Bias::with_settings(settings));
    if state::bias_finite(&fresh) { Ok(settings) } else { Err(7) }
}
