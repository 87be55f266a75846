//! Orientations about the ends of what may be set, and updates that leave a quaternion of zero.

use crate::filter::{ENDS, settable};
use crate::generate::{Script, bits};
use crate::random::Random;
use crate::words::{MINUS_ZERO, all_finite, f, of_q, of_v, q, v};
use fusion_ahrs::Vector;

type Four = [u32; 4];

/// Of zero, tiny and huge length, at the ends, a step of a part or of the squared norm beside them, and of length 1. Of
/// (0.5, 0, 0, 0.5) gravity is zero.
const FIXED: [[f32; 4]; 35] = [
    [0.0, 0.0, 0.0, 0.0],
    [-0.0, 0.0, -0.0, 0.0],
    [1e-45, 1e-45, 1e-45, 1e-45],
    [2e-23, 0.0, 2e-23, 0.0],
    [0.0, 1e-15, 0.0, -1e-16],
    [1.8446e19, 1.0, 0.0, 0.0],
    [1.844_674_4e19, 0.0, 0.0, 0.0],
    [3.0e38, 3.0e38, 3.0e38, 3.0e38],
    [0.0, f32::MAX, 0.0, 0.0],
    [f32::NAN, 1.0, 0.0, 0.0],
    [0.0, 0.0, f32::INFINITY, f32::NEG_INFINITY],
    [1.0, 0.0, 0.0, 0.0],
    [-1.0, -0.0, 0.0, 0.0],
    [0.5, 0.5, -0.5, 0.5],
    [0.0, 1.0, 0.0, 0.0],
    [0.5, 0.0, 0.0, 0.5],
    [0.0, 0.5, 0.5, 0.0],
    [0.5, 0.0, 0.0, 0.0],
    [0.0, 0.0, -0.5, -0.0],
    [0.25, 0.25, -0.25, 0.25],
    [0.5, 1e-23, 1e-40, 0.0],
    [0.499_999_97, 0.0, 0.0, 0.0],
    [0.0, 0.500_000_06, 0.0, 0.0],
    [0.25, 0.25, 0.25, 0.249_999_99],
    [0.25, 0.25, 0.25, 0.249_999_97],
    [0.25, 0.25, 0.25, 0.250_000_06],
    [2.0, 0.0, 0.0, 0.0],
    [0.0, 0.0, 0.0, -2.0],
    [1.0, -1.0, 1.0, 1.0],
    [1e-40, 2.0, 0.0, 1e-23],
    [2.000_000_2, 0.0, 0.0, 0.0],
    [0.0, 1.999_999_9, 0.0, 0.0],
    [1.0, 1.0, 1.0, 1.000_000_1],
    [1.0, 1.0, 1.0, 1.000_000_2],
    [1.0, 1.0, 1.0, 0.999_999_9],
];

/// A quaternion of about this length: one part alone, equal parts, any, or any beside a faint one.
fn long(r: &mut Random, length: f64) -> Four {
    let mut parts = [0.0; 4].map(|_: f64| r.within(1.0));
    let at = r.below(4) as usize;
    match r.below(4) {
        0 => parts = [0.0; 4],
        1 => parts = parts.map(|_| r.pick(&[0.0, 1.0])),
        2 => parts[(at + 1) % 4] = 10f64.powf(-18.0 - 27.0 * r.unit()),
        _ => (),
    }
    if parts[at] == 0.0 {
        parts[at] = 1.0;
    }
    let norm = parts.iter().map(|p| p * p).sum::<f64>().sqrt();
    parts.map(|p| bits(p * length / norm) ^ (r.any() & MINUS_ZERO))
}

/// One that may be set, half of them far from length 1.
pub fn fit(r: &mut Random) -> Four {
    let length = if r.one_in(2) { 1.0 } else { 2f64.powf(r.within(1.0)) };
    long(r, length)
}

/// One whose squared norm is an end, or up to two steps beside it, for most; its parts go there by steps.
fn at_end(r: &mut Random) -> Four {
    let wanted = r.pick(&ENDS).to_bits() + r.below(5) as u32 - 2;
    let mut four = long(r, f64::from(f(wanted)).sqrt());
    for _ in 0..40 {
        let square = q(&four).norm_squared().to_bits();
        if square == wanted {
            break;
        }
        let part = &mut four[r.below(4) as usize];
        let (sign, size) = (*part & MINUS_ZERO, *part & !MINUS_ZERO);
        *part = sign | if square < wanted { size + 1 } else { size.saturating_sub(1) };
    }
    four
}

/// The squared norm in other orders, and nearly exactly.
fn sums(four: &[u32]) -> [f64; 4] {
    let square = |i: usize| f(four[i]) * f(four[i]);
    let (w, x, y, z) = (square(0), square(1), square(2), square(3));
    let exact = four.iter().map(|p| f64::from(f(*p)).powi(2)).sum();
    [f64::from(z + y + x + w), f64::from(x + y + z + w), f64::from((w + x) + (y + z)), exact]
}

/// Whether another sum than the Rust's would take what is refused, or refuse what is taken.
fn other(four: &[u32], sum: usize) -> bool {
    let [least, most] = ENDS.map(f64::from);
    settable(q(four)) != (least..=most).contains(&sums(four)[sum])
}

/// Whether any other sum would.
pub fn hangs_on_order(four: &[u32]) -> bool {
    (0..4).any(|sum| other(four, sum))
}

/// One at an end of which another sum answers otherwise.
fn by_order(r: &mut Random) -> Four {
    let sum = r.below(4) as usize;
    let mut four = at_end(r);
    for _ in 0..40 {
        if other(&four, sum) {
            break;
        }
        four = at_end(r);
    }
    four
}

/// One that is too short or too long, and whose norm in place of its square would do.
fn by_norm(r: &mut Random) -> Four {
    let length = match r.below(4) {
        0 => r.pick(&[0.25, 0.499_999, 2.000_001, 4.0]),
        1 => 0.25 * (1.0 + r.unit()),
        _ => 2.0 * (1.0 + r.unit()),
    };
    long(r, length)
}

pub fn is_zero(four: &[u32]) -> bool {
    four.iter().all(|part| f(*part) == 0.0)
}

/// Whether it is neither of zero nor of about length 1.
pub fn is_far(four: &[u32]) -> bool {
    !is_zero(four) && !(0.9..=1.1).contains(&q(four).norm())
}

/// By how many steps of f32 the squared norm is beyond an end; below 0 for within.
pub fn steps_beyond(four: &[u32]) -> i64 {
    let square = i64::from(q(four).norm_squared().to_bits());
    let [least, most] = ENDS.map(|end| i64::from(end.to_bits()));
    (least - square).max(square - most)
}

/// A direction of the gyroscope: an axis, all three alike, or any.
fn direction(r: &mut Random) -> Vector {
    let sign = |r: &mut Random| r.pick(&[1.0, -1.0]);
    match r.below(4) {
        0 | 1 => r.pick(&[Vector::new(1.0, 0.0, 0.0), Vector::new(0.0, 1.0, 0.0), Vector::new(0.0, 0.0, 1.0)]) * sign(r),
        2 => Vector::new(sign(r), sign(r), sign(r)),
        _ => Vector::new(r.within(1.0) as f32, r.within(1.0) as f32, r.within(1.0) as f32),
    }
}

/// Readings with a rate of this size.
fn rated(along: Vector, size: u32, sensors: &[u32; 6]) -> [u32; 9] {
    let rate = along * f(size);
    let mut nine = [0; 9];
    nine[..3].copy_from_slice(&of_v(rate));
    nine[3..].copy_from_slice(sensors);
    nine
}

impl Script<'_> {
    fn orientation(&self) -> Four {
        of_q(self.machine.ahrs.as_ref().unwrap().quaternion())
    }

    /// Every fixed one in turn.
    pub fn orientations(&mut self) {
        for four in FIXED {
            self.put(0x85, &four.map(f32::to_bits));
        }
    }

    /// One that is easily taken for another, set or refused.
    pub fn strange_quaternion(&mut self) {
        let r = &mut self.random;
        let four = match r.below(6) {
            0 | 1 => r.pick(&FIXED).map(f32::to_bits),
            2 | 3 => at_end(r),
            4 => by_order(r),
            _ => by_norm(r),
        };
        self.put(0x85, &four);
        if self.random.one_in(2) {
            self.single();
        }
    }

    /// One that may be set.
    pub fn fit_quaternion(&mut self) {
        let four = fit(&mut self.random);
        self.put(0x85, &four);
    }

    /// An update on one that may be far from length 1: after it the length is 1 again.
    pub fn set_and_turned(&mut self) {
        self.fit_quaternion();
        if self.random.one_in(4) {
            self.readings();
        }
        self.single();
    }

    /// One update, with gravity or not.
    fn single(&mut self) {
        let mut u = self.common_update();
        if self.random.one_in(2) {
            u[3..6].copy_from_slice(&of_v(self.machine.ahrs.as_ref().unwrap().gravity()));
        }
        self.put(0x86, &u);
    }

    /// Whether an update leaves a quaternion on which another may follow.
    fn goes_on(&self, u: &[u32; 9]) -> bool {
        let mut tried = self.machine.ahrs.clone().unwrap();
        tried.update(v(u), v(&u[3..]), v(&u[6..]));
        let four = of_q(tried.quaternion());
        all_finite(&four) && !is_zero(&four)
    }

    /// The smallest rate along a direction of which the squares of the turned quaternion overflow, if there is one.
    fn least_rate(&self, along: Vector, sensors: &[u32; 6]) -> Option<u32> {
        let (mut low, mut high) = (1, f32::MAX.to_bits());
        if self.goes_on(&rated(along, high, sensors)) {
            return None;
        }
        while low < high {
            let middle = (low + high) / 2;
            if self.goes_on(&rated(along, middle, sensors)) {
                low = middle + 1;
            } else {
                high = middle;
            }
        }
        Some(low)
    }

    /// Rates nearly as large as can be, about one axis after another, of which parts of the quaternion become subnormal.
    fn spin(&mut self) {
        for _ in 0..1 + self.random.below(3) {
            let along = direction(&mut self.random);
            let Some(least) = self.least_rate(along, &[0; 6]) else { return };
            let beside = self.random.pick(&[1, 1, 0x1000, 0x80_0000, 0x400_0000]);
            self.put(0x86, &rated(along, least.saturating_sub(beside).max(1), &[0; 6]));
        }
    }

    /// A rate one step below that of which the quaternion becomes zero, and then that rate, on the same orientation.
    pub fn vanish(&mut self) {
        match self.random.below(3) {
            0 => self.fit_quaternion(),
            1 => self.spin(),
            _ => (),
        }
        let r = &mut self.random;
        let sensors = if r.one_in(2) { [0; 6] } else { [0; 6].map(|_: u32| r.common()) };
        let along = direction(r);
        let Some(least) = self.least_rate(along, &sensors) else { return };
        let four = self.orientation();
        // Far above it parts overflow before they are squared, and the update is refused.
        let above = self.random.pick(&[0, 0, 1, 0x40_0000, 0x400_0000, 0x2000_0000]);
        for size in [least.saturating_sub(1), least.saturating_add(above).min(f32::MAX.to_bits())] {
            self.put(0x85, &four);
            self.put(0x86, &rated(along, size, &sensors));
        }
        if is_zero(&self.orientation()) {
            self.at_zero();
        }
    }

    /// What may follow a quaternion of zero: updates, of which each is refused, reads, other calls, and a way out.
    fn at_zero(&mut self) {
        for _ in 0..self.random.below(6) {
            match self.random.below(6) {
                0 | 1 => self.single(),
                2 => drop(self.put(0x86, &[0; 9])),
                3 => drop(self.put(0x84, &[])),
                4 => self.strange_quaternion(),
                _ => self.readings(),
            }
        }
        match self.random.below(3) {
            0 => drop(self.put(0x83, &[])),
            1 => self.fit_quaternion(),
            _ => (),
        }
        self.single();
    }
}
