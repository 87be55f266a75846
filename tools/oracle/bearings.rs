//! How far the port's angles and headings lie from libm's and from the Rust's own, which keeps radians.

use fusion_ahrs::{Ahrs, Quaternion};
use gateweave::ahrs::Limit;
use gateweave::{ahrs, heading, math, trig};

/// 180 degrees, behind which the angle next above -180 comes.
const HALF_TURN: f32 = 180.0;

/// How many steps of f32 lie between two angles, the way that does not go by 0 where both are nearer to 180.
fn steps(a: f32, b: f32) -> f64 {
    let [a_size, b_size, half] = [a.abs(), b.abs(), HALF_TURN].map(|x| f64::from(x.to_bits()));
    match (a.is_sign_negative() == b.is_sign_negative(), a.abs() > 90.0) {
        (true, _) => (a_size - b_size).abs(),
        (_, true) => 2.0 * half - a_size - b_size,
        _ => a_size + b_size,
    }
}

/// How far two angles are apart, the short way round.
fn apart(a: f64, b: f64) -> f64 {
    let d = (a - b).rem_euclid(360.0);
    d.min(360.0 - d)
}

/// SplitMix64's number for a seed, from 0 to 1.
fn drawn(seed: u64) -> f64 {
    let mut z = seed.wrapping_mul(0x9E37_79B9_7F4A_7C15);
    z = (z ^ (z >> 30)).wrapping_mul(0xBF58_476D_1CE4_E5B9);
    z = (z ^ (z >> 27)).wrapping_mul(0x94D0_49BB_1331_11EB);
    (z ^ (z >> 31)) as f64 / u64::MAX as f64
}

/// Of a point that is drawn at an angle or less than a step of f32 beyond it, and rounded: the port's angle from the true one of that point,
/// libm's from it, the two from each other, all in degrees; and these two in units in the last place.
pub fn angles(degrees: f32) -> [f64; 4] {
    let beyond = f64::from(f32::from_bits(degrees.to_bits() + 1)) - f64::from(degrees);
    let (y, x) = (f64::from(degrees) + beyond * drawn(u64::from(degrees.to_bits()))).to_radians().sin_cos();
    let (y, x) = (y as f32, x as f32);
    let exact = f64::from(y).atan2(f64::from(x)).to_degrees();
    let (port, libm) = (trig::angle(y, x), libm::atan2f(y, x));
    let (ours, theirs) = (f64::from(port), f64::from(libm).to_degrees());
    [apart(ours, exact), apart(theirs, exact), apart(ours, theirs), steps(port, theirs as f32)]
}

/// The orientation of three angles in degrees.
fn orientation(yaw: f64, pitch: f64, roll: f64) -> [f32; 4] {
    let [(sy, cy), (sp, cp), (sr, cr)] = [yaw, pitch, roll].map(|angle| (angle / 2.0).to_radians().sin_cos());
    [cr * cp * cy + sr * sp * sy, sr * cp * cy - cr * sp * sy, cr * sp * cy + sr * cp * sy, cr * cp * sy - sr * sp * cy]
        .map(|part| part as f32)
}

/// The heading of an orientation.
fn yaw(q: [f32; 4]) -> f64 {
    let [w, x, y, z] = q.map(f64::from);
    (w * z + x * y).atan2(0.5 - y * y - z * z).to_degrees()
}

/// The Rust's own call.
fn rusts([w, x, y, z]: [f32; 4], heading: f32) -> [f32; 4] {
    let mut filter = Ahrs::new();
    filter.set_quaternion(Quaternion::new(w, x, y, z));
    filter.set_heading(heading);
    let q = filter.quaternion();
    [q.w, q.x, q.y, q.z]
}

fn fresh() -> ahrs::Ahrs {
    ahrs::Ahrs::with_settings(ahrs::Settings {
        sample_rate: 100.0,
        convention: 0,
        gain: 0.5,
        gyroscope_range: 0.0,
        acceleration_rejection: Limit::Degrees(0.0),
        magnetic_rejection: Limit::Degrees(0.0),
        rejection_timeout: 0.0,
    })
    .expect("settings that are accepted")
}

fn ports([w, x, y, z]: [f32; 4], to: f32) -> [f32; 4] {
    let mut filter = fresh();
    filter.quaternion = math::Quaternion { w, x, y, z };
    let set = heading::set_heading(filter, to);
    assert!(set.result.is_ok(), "a heading is refused");
    let q = set.state.quaternion;
    [q.w, q.x, q.y, q.z]
}

/// Of an orientation with a pitch and of a heading, both drawn but for the pitch's size: the largest difference of a part of the two sides'
/// quaternions in units of 2^-24, where q and -q are one orientation; whether they are of other signs; how far the heading that stands then
/// is from the one that was set, the port's and the Rust's; and how far the two are apart.
pub fn turned(pitch: f32) -> [f64; 5] {
    let draw = |k: u64, most: f64| most * (2.0 * drawn(u64::from(pitch.to_bits()) * 4 + k) - 1.0);
    let to = draw(0, 360.0) as f32;
    let q = orientation(draw(1, 180.0), f64::from(pitch).copysign(draw(2, 1.0)), draw(3, 180.0));
    let (ours, theirs) = (ports(q, to), rusts(q, to));
    let most = |sign: f32| ours.iter().zip(theirs).map(|(a, b)| (f64::from(*a) - f64::from(sign * b)).abs()).fold(0.0, f64::max);
    let (same, other) = (most(1.0), most(-1.0));
    let asked = f64::from(to);
    [
        same.min(other) * 16_777_216.0,
        f64::from(other < same),
        apart(yaw(ours), asked),
        apart(yaw(theirs), asked),
        apart(yaw(ours), yaw(theirs)),
    ]
}
