//! What the programs use of the toolchain's `std` and `io`, over `libc`, which is this machine's or a device's: only to run them on their
//! stored inputs.

use crate::libc::{STDERR_FILENO, STDIN_FILENO, STDOUT_FILENO};

pub struct HostRuntime;

pub struct Stdin;

impl HostRuntime {
    pub fn stdin(&self) -> Stdin {
        Stdin
    }

    pub fn reader(&self) -> Stdin {
        Stdin
    }

    pub fn write_all(&self, buf: &[u8]) -> io::Result<()> {
        if kit::io::write_all(STDOUT_FILENO, buf) { Ok(()) } else { Err(io::Error) }
    }
}

impl env::Env for HostRuntime {
    fn arg(&self, _: usize, _: &mut [u8]) -> Result<usize, env::FillError> {
        Err(env::FillError::NotPresent)
    }
}

impl io::Read for Stdin {
    fn read(&mut self, buf: &mut [u8]) -> io::Result<usize> {
        usize::try_from(crate::libc::read(STDIN_FILENO, buf)).map_err(|_| io::Error)
    }
}

pub fn tell_failed(what: &[u8], _: io::Error) -> u8 {
    kit::io::write_all(STDERR_FILENO, what);
    kit::io::write_all(STDERR_FILENO, b" failed\n");
    0
}

pub mod io {
    pub struct Error;

    impl Error {
        pub fn from_raw_os_error(_: i32) -> Error {
            Error
        }
    }

    pub type Result<T> = core::result::Result<T, Error>;

    pub trait Read {
        fn read(&mut self, buf: &mut [u8]) -> Result<usize>;

        fn read_exact(&mut self, buf: &mut [u8]) -> Result<()> {
            let mut n = 0;
            while n < buf.len() {
                let got = self.read(&mut buf[n..])?;
                if got == 0 {
                    return Err(Error);
                }
                n += got;
            }
            Ok(())
        }
    }
}

pub mod env {
    pub enum FillError {
        NotPresent,
        TooLong,
    }

    pub trait Env {
        fn arg(&self, n: usize, buf: &mut [u8]) -> Result<usize, FillError>;
    }
}

pub mod process {
    pub use crate::libc::ExitCode;
}

pub mod kit {
    pub mod io {
        use crate::libc;
        use core::fmt::Write;

        struct Out(i32);

        impl Write for Out {
            fn write_str(&mut self, text: &str) -> core::fmt::Result {
                if write_all(self.0, text.as_bytes()) { Ok(()) } else { Err(core::fmt::Error) }
            }
        }

        pub fn buffer() -> [u8; 4096] {
            [0; 4096]
        }

        pub fn large_buffer() -> [u8; 65536] {
            [0; 65536]
        }

        pub fn write_all(fd: i32, buf: &[u8]) -> bool {
            let mut n = 0;
            while n < buf.len() {
                let put = libc::write(fd, &buf[n..]);
                if put <= 0 {
                    return false;
                }
                n += put as usize;
            }
            true
        }

        pub fn read_full(fd: i32, buf: &mut [u8]) -> usize {
            let mut n = 0;
            while n < buf.len() {
                let got = libc::read(fd, &mut buf[n..]);
                if got <= 0 {
                    break;
                }
                n += got as usize;
            }
            n
        }

        pub fn put(fd: i32, what: core::fmt::Arguments<'_>) -> bool {
            Out(fd).write_fmt(what).is_ok()
        }

        pub fn print_decimal(fd: i32, n: u64) -> bool {
            put(fd, format_args!("{n}"))
        }

        pub fn print_hex(fd: i32, n: u64, width: usize) -> bool {
            put(fd, format_args!("{n:0width$x}"))
        }
    }
}
