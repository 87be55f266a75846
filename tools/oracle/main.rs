//! Answers call scripts by the Rust crate, and makes them. `oracle` with no argument says what it can do.

mod again;
mod angles;
mod axes;
mod boards;
mod cover;
mod cover_degrees;
mod cover_foot;
mod cover_headings;
mod damage;
mod degrees;
mod edge;
mod estimator;
mod filter;
mod foot;
mod generate;
mod geometry;
mod headings;
mod ignored;
mod knock;
mod locked;
mod log;
mod machine;
mod offsets;
mod orientation;
mod plain;
mod random;
mod record;
mod recording;
mod reference;
mod report;
mod rows;
#[path = "closed.rs"]
mod rust;
mod sines;
mod spell;
mod state;
mod walk;
mod words;

use machine::{Answer, Machine};
use record::Record;
use std::io::{self, BufRead, BufReader, BufWriter, Read, Write};

const HELP: &str = "oracle run                            answer the script on standard input, a line for each call
oracle make MODE SEED COUNT [QUIET]   a script of COUNT calls, one in QUIET (1) printing its state
oracle again PARTY SEED               the calls of a party in the script on standard input, with others of the other between them
oracle text                           a script as text, a line for each call
oracle binary                         text back to a script
oracle cover                          what the calls of a script reach, counted
oracle calls                          the number and the name of every call
oracle log                            replay the log on standard input, a line for each record
oracle report [MOST]                  the week's report of the log on standard input, of MOST (4294967295) records at most
oracle make-log SEED COUNT            a log of up to COUNT records, some damaged in one place
oracle rows                           the rows of the bench table of a sensor that is locked out

MODE is math, mounting, bias, pole, locked, edge, fuzz, mix (of all these but locked), foot, degrees, heading, or sample (some of each but
locked). Calls 47 to 49, 90, 91 and 93 to 95, which degrees, heading and sample have, are for the oracle over the Rust with the port's
sine, cosine and angle in place.
";

/// Each record of the script on standard input.
fn each(mut call: impl FnMut(&Record) -> io::Result<()>) -> io::Result<()> {
    let mut input = BufReader::with_capacity(1 << 16, io::stdin().lock());
    while let Some(r) = record::read(&mut input)? {
        call(&r)?;
    }
    Ok(())
}

/// All of standard input.
fn input() -> io::Result<Vec<u8>> {
    let mut bytes = Vec::new();
    io::stdin().lock().read_to_end(&mut bytes)?;
    Ok(bytes)
}

fn number(args: &[String], i: usize) -> Option<u64> {
    args.get(i).map(|s| s.parse().expect("a whole number"))
}

/// Writes each call of a script.
fn into(out: &mut impl Write) -> impl FnMut(&Record, &Answer, &Machine) {
    move |r, _, _| out.write_all(&record::to_bytes(r)).expect("written")
}

/// A script of so many calls from a seed, one in `quiet` printing its state.
fn script<'a>(seed: u64, count: u64, quiet: u64, out: &'a mut generate::Out<'a>) -> generate::Script<'a> {
    generate::Script {
        random: random::Random(seed),
        machine: Machine::default(),
        out,
        quiet,
        left: count,
        stuck: 0,
        patience: 4,
        haste: 0,
        by_angles: 0,
        by_headings: 0,
    }
}

fn make(args: &[String], out: &mut impl Write) {
    let (seed, count) = (number(args, 2).expect("SEED"), number(args, 3).expect("COUNT"));
    script(seed, count, number(args, 4).unwrap_or(1), &mut into(out)).make(&args[1]);
}

/// What a party calls in the script on standard input, among other calls of the other.
fn again(args: &[String], out: &mut impl Write) -> io::Result<()> {
    let (me, seed) = (number(args, 1).expect("PARTY") as u32, number(args, 2).expect("SEED"));
    let mut calls = Vec::new();
    each(|r| Ok(calls.push(*r)))?;
    script(seed, u64::MAX, 1, &mut into(out)).again(me, &calls);
    Ok(())
}

fn run() -> io::Result<()> {
    let args: Vec<String> = std::env::args().skip(1).collect();
    let mut out = BufWriter::with_capacity(1 << 16, io::stdout().lock());
    match args.first().map(String::as_str) {
        Some("run") => {
            let mut machine = Machine::default();
            each(|r| writeln!(out, "{}", machine.line(r)))?;
        }
        Some("make") => make(&args, &mut out),
        Some("again") => again(&args, &mut out)?,
        Some("cover") => {
            let mut cover = cover::Cover::default();
            each(|r| Ok(cover.call(r)))?;
            cover.print(&mut out)?;
        }
        Some("text") => each(|r| writeln!(out, "{}", record::to_text(r)))?,
        Some("binary") => {
            for line in io::stdin().lock().lines() {
                if let Some(r) = record::from_text(&line?).map_err(io::Error::other)? {
                    out.write_all(&record::to_bytes(&r))?;
                }
            }
        }
        Some("calls") => {
            for (code, name, _) in record::CALLS {
                writeln!(out, "{code:02X} {name}")?;
            }
        }
        Some("log") => log::replay(&input()?, &mut out)?,
        Some("report") => {
            let most = number(&args, 1).unwrap_or(report::MOST);
            out.write_all(report::of(&input()?, most)?.as_bytes())?;
        }
        Some("make-log") => {
            let (seed, count) = (number(&args, 1).expect("SEED"), number(&args, 2).expect("COUNT"));
            out.write_all(&recording::make(seed, count))?;
        }
        Some("rows") => rows::print(&mut out)?,
        _ => out.write_all(HELP.as_bytes())?,
    }
    out.flush()
}

fn main() -> std::process::ExitCode {
    match run() {
        Ok(()) => std::process::ExitCode::SUCCESS,
        Err(e) => {
            eprintln!("oracle: {e}");
            std::process::ExitCode::FAILURE
        }
    }
}
