//! The driver of angles and headings, over an archive of the port's loops that has them: as driver.rs, whose counts it leaves alone. The
//! Rust's are over libm and in radians, so the sums of the two sides are not the same.

mod given;

use fusion_ahrs::{Ahrs, AhrsSettings};
use given::{log, vector};
use std::time::Instant;

fn angle(log: &[f32], count: u32) -> u32 {
    (0..count).fold(0u32, |sum, i| sum.wrapping_add(libm::atan2f(vector(log, i, 0).y, vector(log, i, 0).x).to_bits()))
}

/// The filter after so many calls.
fn after(count: u32, mut call: impl FnMut(&mut Ahrs, u32)) -> u32 {
    let mut ahrs = Ahrs::with_settings(AhrsSettings {
        gyroscope_range: 2000.0,
        acceleration_rejection: 10.0,
        magnetic_rejection: 10.0,
        rejection_timeout: 5.0,
        ..Default::default()
    });
    for i in 0..count {
        call(&mut ahrs, i);
    }
    ahrs.quaternion().w.to_bits()
}

/// Headings from -360 to 360 degrees, made of the rates about x.
fn set_heading(log: &[f32], count: u32) -> u32 {
    after(count, |ahrs, i| ahrs.set_heading(vector(log, i, 0).x * 92.0))
}

/// Headings of some 5 degrees either way, made of the field along y.
fn external_heading(log: &[f32], count: u32) -> u32 {
    after(count, |ahrs, i| ahrs.update_external_heading(vector(log, i, 0), vector(log, i, 3), vector(log, i, 6).y * 20.0))
}

fn no_magnetometer(log: &[f32], count: u32) -> u32 {
    after(count, |ahrs, i| ahrs.update_no_magnetometer(vector(log, i, 0), vector(log, i, 3)))
}

mod port {
    #[link(name = "cost", kind = "static")]
    unsafe extern "C" {
        pub fn port_angle(log: *const f32, len: usize, count: u32) -> u32;
        pub fn port_set_heading(log: *const f32, len: usize, count: u32) -> u32;
        pub fn port_external_heading(log: *const f32, len: usize, count: u32) -> u32;
        pub fn port_no_magnetometer(log: *const f32, len: usize, count: u32) -> u32;
    }
}

/// The port checks every index itself, and keeps nothing of the slice.
fn port(f: unsafe extern "C" fn(*const f32, usize, u32) -> u32, log: &[f32], count: u32) -> u32 {
    unsafe { f(log.as_ptr(), log.len(), count) }
}

fn main() {
    let arguments: Vec<String> = std::env::args().collect();
    let count: u32 = arguments[2].parse().expect("a count");
    let log = std::hint::black_box(log());
    let began = Instant::now();
    let sum = match arguments[1].as_str() {
        "rust-angle" => angle(&log, count),
        "rust-set-heading" => set_heading(&log, count),
        "rust-external-heading" => external_heading(&log, count),
        "rust-no-magnetometer" => no_magnetometer(&log, count),
        "port-angle" => port(port::port_angle, &log, count),
        "port-set-heading" => port(port::port_set_heading, &log, count),
        "port-external-heading" => port(port::port_external_heading, &log, count),
        "port-no-magnetometer" => port(port::port_no_magnetometer, &log, count),
        other => panic!("no bench {other}"),
    };
    // A whole number of one length: what it takes to print is the same in every run that is counted.
    let nanoseconds = began.elapsed().as_nanos() as u64;
    println!("{} {count} {sum:08X} {nanoseconds:020}", arguments[1]);
}
