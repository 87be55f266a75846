//! Sine and cosine of degrees: the port's own, which stand in libm's place in the second oracle, with the refusals laid over them. As
//! they are our own text, each answer is held to 02's reference.

use crate::machine::{Answer, gives, refused};
use crate::reference::reference;
use crate::words::{bits, f};

/// The angles from minus this to this have a sine.
const MOST: f32 = 360.0;
/// How far an answer may be from the reference.
const BOUND: f64 = 1.0 / 8_388_608.0;

/// Whether libm's sine takes degrees, and so is the port's.
pub fn in_place() -> bool {
    libm::sinf(90.0) == 1.0
}

/// The refusal of an angle, or 0.
pub fn refusal(x: f32) -> u32 {
    if !x.is_finite() {
        5
    } else if x.abs() > MOST {
        6
    } else {
        0
    }
}

/// Whether an answer to call 47 or 48 is as near to the reference as 02 asks.
pub fn is_near(code: u32, x: f32, answer: f32) -> bool {
    (f64::from(answer) - reference(x, i32::from(code == 0x48))).abs() <= BOUND
}

/// Calls 47 and 48.
pub fn answer(code: u32, word: u32) -> Answer {
    let x = f(word);
    let number = refusal(x);
    if number != 0 {
        return refused(number);
    }
    let answer = if code == 0x47 { libm::sinf(x) } else { libm::cosf(x) };
    assert!(is_near(code, x, answer), "call {code:02X} of {x:?} gives {answer:?}, which is too far from the reference");
    gives([bits(answer)])
}
