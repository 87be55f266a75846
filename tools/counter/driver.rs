//! One driver for both sides: a bench is a function of a log in memory and a count, which makes `count` calls and answers a sum.
//! The port's are the loops of crates/cost; the Rust's do the same work, so both give the same sum, but of sines and cosines.

mod given;

use fusion_ahrs::{Ahrs, AhrsSettings, Bias, DEG_TO_RAD, RemapAlignment, Vector, remap};
use given::{log, vector};
use std::time::Instant;

fn update(log: &[f32], count: u32) -> u32 {
    let mut ahrs = Ahrs::with_settings(AhrsSettings {
        gyroscope_range: 2000.0,
        acceleration_rejection: 10.0,
        magnetic_rejection: 10.0,
        rejection_timeout: 5.0,
        ..Default::default()
    });
    for i in 0..count {
        ahrs.update(vector(log, i, 0), vector(log, i, 3), vector(log, i, 6));
    }
    ahrs.quaternion().w.to_bits()
}

/// A quarter of the rates: still, so that the offset is followed.
fn reading(log: &[f32], count: u32) -> u32 {
    let mut bias = Bias::new();
    (0..count).fold(0u32, |sum, i| sum.wrapping_add(bias.update(vector(log, i, 0) * 0.25).x.to_bits()))
}

fn root(log: &[f32], count: u32) -> u32 {
    (0..count).fold(0u32, |sum, i| sum.wrapping_add(libm::sqrtf(vector(log, i, 3).z + 8.0).to_bits()))
}

/// Of angles from -360 to 360 degrees, made of the rates about x.
fn sine(log: &[f32], count: u32) -> u32 {
    (0..count).fold(0u32, |sum, i| sum.wrapping_add(libm::sinf(vector(log, i, 0).x * 92.0 * DEG_TO_RAD).to_bits()))
}

fn cosine(log: &[f32], count: u32) -> u32 {
    (0..count).fold(0u32, |sum, i| sum.wrapping_add(libm::cosf(vector(log, i, 0).x * 92.0 * DEG_TO_RAD).to_bits()))
}

/// A run of 1000 vectors.
fn turn_run(source: &[f32], turned: &mut [f32], alignment: RemapAlignment) {
    for (from, to) in source.chunks_exact(3).zip(turned.chunks_exact_mut(3)) {
        let v = remap(Vector::new(from[0], from[1], from[2]), alignment);
        to.copy_from_slice(&[v.x, v.y, v.z]);
    }
}

fn turn(log: &[f32], count: u32) -> u32 {
    let mut turned = [0f32; 3000];
    (0..count).fold(0u32, |sum, i| {
        turn_run(log, &mut turned, RemapAlignment::ALL[(i % 24) as usize]);
        sum.wrapping_add(turned[(i % 3000) as usize].to_bits())
    })
}

mod port {
    #[link(name = "cost", kind = "static")]
    unsafe extern "C" {
        pub fn port_update(log: *const f32, len: usize, count: u32) -> u32;
        pub fn port_reading(log: *const f32, len: usize, count: u32) -> u32;
        pub fn port_root(log: *const f32, len: usize, count: u32) -> u32;
        pub fn port_sine(log: *const f32, len: usize, count: u32) -> u32;
        pub fn port_cosine(log: *const f32, len: usize, count: u32) -> u32;
        pub fn port_turn(log: *const f32, len: usize, count: u32) -> u32;
    }
}

/// The port checks every index itself, and keeps nothing of the slice.
fn port(f: unsafe extern "C" fn(*const f32, usize, u32) -> u32, log: &[f32], count: u32) -> u32 {
    unsafe { f(log.as_ptr(), log.len(), count) }
}

fn main() {
    let arguments: Vec<String> = std::env::args().collect();
    let count: u32 = arguments[2].parse().expect("a count");
    let log = std::hint::black_box(log());
    let began = Instant::now();
    let sum = match arguments[1].as_str() {
        "rust-update" => update(&log, count),
        "rust-reading" => reading(&log, count),
        "rust-root" => root(&log, count),
        "rust-sine" => sine(&log, count),
        "rust-cosine" => cosine(&log, count),
        "rust-turn" => turn(&log[..3000], count),
        "port-update" => port(port::port_update, &log, count),
        "port-reading" => port(port::port_reading, &log, count),
        "port-root" => port(port::port_root, &log, count),
        "port-sine" => port(port::port_sine, &log, count),
        "port-cosine" => port(port::port_cosine, &log, count),
        "port-turn" => port(port::port_turn, &log[..3000], count),
        other => panic!("no bench {other}"),
    };
    // A whole number of one length: what it takes to print is the same in every run that is counted.
    let nanoseconds = began.elapsed().as_nanos() as u64;
    println!("{} {count} {sum:08X} {nanoseconds:020}", arguments[1]);
}
