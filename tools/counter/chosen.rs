//! The driver of choices and rewrites, over an archive of the port's loops that has them: as driver.rs, whose counts it leaves alone. The
//! Rust has no table: two filters stand beside eight settings, and one of them is set anew.

mod given;

use fusion_ahrs::{Ahrs, AhrsSettings};
use given::{log, vector};
use std::time::Instant;

/// Settings with a gain of the log's. An angle of 0 is no limit, so that no sine is worked out.
fn row(log: &[f32], i: u32) -> AhrsSettings {
    AhrsSettings { gain: log[i as usize % 8], acceleration_rejection: 0.0, magnetic_rejection: 0.0, ..start() }
}

fn start() -> AhrsSettings {
    AhrsSettings {
        gyroscope_range: 2000.0,
        acceleration_rejection: 10.0,
        magnetic_rejection: 10.0,
        rejection_timeout: 5.0,
        ..Default::default()
    }
}

/// So many calls on the first filter and the table, each of which gives the settings that were set; and an update at the end.
fn after(log: &[f32], count: u32, call: impl Fn(&mut Ahrs, &mut [AhrsSettings; 8], u32) -> AhrsSettings) -> u32 {
    let mut filters = [Ahrs::with_settings(start()), Ahrs::with_settings(start())];
    let mut table = std::array::from_fn(|i| row(log, i as u32));
    let sum = (0..count).fold(0u32, |sum, i| sum.wrapping_add(call(&mut filters[0], &mut table, i).gain.to_bits()));
    filters[0].update(vector(log, 0, 0), vector(log, 0, 3), vector(log, 0, 6));
    sum.wrapping_add(std::hint::black_box(&filters)[0].quaternion().w.to_bits())
}

fn choice(log: &[f32], count: u32) -> u32 {
    after(log, count, |filter, table, i| {
        filter.set_settings(table[i as usize % 8]);
        filter.settings()
    })
}

fn rewrite(log: &[f32], count: u32) -> u32 {
    after(log, count, |filter, table, i| {
        table[0] = row(log, i);
        filter.set_settings(table[0]);
        table[0]
    })
}

mod port {
    #[link(name = "cost", kind = "static")]
    unsafe extern "C" {
        pub fn port_choice(log: *const f32, len: usize, count: u32) -> u32;
        pub fn port_rewrite(log: *const f32, len: usize, count: u32) -> u32;
    }
}

/// The port checks every index itself, and keeps nothing of the slice.
fn port(f: unsafe extern "C" fn(*const f32, usize, u32) -> u32, log: &[f32], count: u32) -> u32 {
    unsafe { f(log.as_ptr(), log.len(), count) }
}

fn main() {
    let arguments: Vec<String> = std::env::args().collect();
    let count: u32 = arguments[2].parse().expect("a count");
    let log = std::hint::black_box(log());
    let began = Instant::now();
    let sum = match arguments[1].as_str() {
        "rust-choice" => choice(&log, count),
        "rust-rewrite" => rewrite(&log, count),
        "port-choice" => port(port::port_choice, &log, count),
        "port-rewrite" => port(port::port_rewrite, &log, count),
        other => panic!("no bench {other}"),
    };
    // A whole number of one length: what it takes to print is the same in every run that is counted.
    let nanoseconds = began.elapsed().as_nanos() as u64;
    println!("{} {count} {sum:08X} {nanoseconds:020}", arguments[1]);
}
