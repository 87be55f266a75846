//! libm with the processor's root in the place of its own: the Rust is timed over it beside itself, and nothing else uses it.

pub use real_libm::*;

#[inline]
pub fn sqrtf(x: f32) -> f32 {
    x.sqrt()
}
