//! Reads and writes by Rust's own library.

use std::io::{Read, Write};

pub use std::process::ExitCode;

pub const STDIN_FILENO: i32 = 0;
pub const STDOUT_FILENO: i32 = 1;
pub const STDERR_FILENO: i32 = 2;

pub fn read(_: i32, buf: &mut [u8]) -> isize {
    std::io::stdin().read(buf).map_or(-1, |n| n as isize)
}

pub fn write(fd: i32, buf: &[u8]) -> isize {
    let done = if fd == STDOUT_FILENO { std::io::stdout().write(buf) } else { std::io::stderr().write(buf) };
    done.map_or(-1, |n| n as isize)
}
