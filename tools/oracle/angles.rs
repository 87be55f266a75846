//! The angle of a point in degrees: the port's own, which stands in the place of libm's in the second oracle, with the refusal laid over
//! it. As it is our own text, each answer is held to what 02 asks of it.

use crate::machine::{Answer, gives, refused};
use crate::reference::reference;
use crate::words::{all_finite, bits, f};

/// How far a point may be beside its angle's direction, by the larger of the sizes of its parts.
const BOUND: f64 = 1.0 / 1_048_576.0;

/// Whether an answer to call 49 is one that 02 takes, of parts that are finite.
pub fn is_right(y: f32, x: f32, answer: f32) -> bool {
    if y == 0.0 && x == 0.0 {
        return answer == 0.0;
    }
    let (sine, cosine, y, x) = (reference(answer, 0), reference(answer, 1), f64::from(y), f64::from(x));
    let (along, aside) = (x * cosine + y * sine, y * cosine - x * sine);
    answer > -180.0 && answer <= 180.0 && along > 0.0 && aside.abs() <= BOUND * y.abs().max(x.abs())
}

/// Call 49.
pub fn answer(a: &[u32]) -> Answer {
    if !all_finite(&a[..2]) {
        return refused(5);
    }
    let (y, x) = (f(a[0]), f(a[1]));
    let answer = libm::atan2f(y, x);
    assert!(is_right(y, x, answer), "the angle of {y:?} and {x:?} is {answer:?}, which is too far from them");
    gives([bits(answer)])
}
