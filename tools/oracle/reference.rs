//! 02's exact sine and cosine of degrees, worked out in f64, whose error here is below 2^-50.

const PI: f64 = 3.14159265358979323846;

/// 02's power series for the sine, through the eleventh power.
fn sine(t: f64) -> f64 {
    let u = t * t;
    let terms = 1.0 / 120.0 + u * (-1.0 / 5_040.0 + u * (1.0 / 362_880.0 + u * (-1.0 / 39_916_800.0)));
    t * (1.0 + u * (-1.0 / 6.0 + u * terms))
}

/// And for the cosine, through the tenth.
fn cosine(t: f64) -> f64 {
    let u = t * t;
    let terms = 1.0 / 24.0 + u * (-1.0 / 720.0 + u * (1.0 / 40_320.0 + u * (-1.0 / 3_628_800.0)));
    1.0 + u * (-0.5 + u * terms)
}

/// 02's reference for the sine of an angle and so many quarter turns. What is left of the angle beside the nearest multiple of 90, the
/// lower one at a tie, is exact, and no angle but a tie is so near to one that its quotient is taken for it.
pub fn reference(x: f32, quarters: i32) -> f64 {
    let x = f64::from(x);
    let nearest = (x / 90.0 - 0.5).ceil();
    let t = (x - 90.0 * nearest) * PI / 180.0;
    match (nearest as i32 + quarters) & 3 {
        0 => sine(t),
        1 => cosine(t),
        2 => -sine(t),
        _ => -cosine(t),
    }
}
