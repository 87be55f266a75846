//! libm with the port's sine, cosine and angle in the place of its own, in degrees: the second oracle and the native run have the Rust
//! over it. The crate `port` is the exported text (tools/export). Of the Rust only the limit of a rejection angle and the three calls of
//! headings ask for one of them in any call of a script.

pub use real_libm::*;

pub fn sinf(degrees: f32) -> f32 {
    port::trig::sin(degrees)
}

pub fn cosf(degrees: f32) -> f32 {
    port::trig::cos(degrees)
}

pub fn atan2f(y: f32, x: f32) -> f32 {
    port::trig::angle(y, x)
}
