"""`tools/size`: the calls of the mountings, each by itself in a library, proved and compiled; their bytes, and the instructions of a call."""
import pathlib
import shutil
import subprocess
import tempfile

import build
import command
import counting
import loops
import objects
import packages

SIZE = build.TOP / "target/size"
# Each call in an exported function of its own.
TEXT = """\
// The calls, each by itself.
#![tactic(auto)]

use answer::{Answer, Refusal, number_in};
use vector::Vector;

fn put_turned(turned: Answer, v: &mut [f32; 3]) -> u8 {
    match turned {
        Answer::Turned(x, y, z) => {
            *v = [x, y, z];
            0
        }
        Answer::Refused(refusal) => refusal.number(),
        _ => 255,
    }
}

#[unsafe(no_mangle)]
pub extern "C" fn call_turn(mounting: u8, v: &mut [f32; 3]) -> u8 {
    put_turned(Vector::new(v[0], v[1], v[2]).turned(mounting), v)
}

#[unsafe(no_mangle)]
pub extern "C" fn call_rotate(mounting: u8, v: &mut [f32; 3]) -> u8 {
    put_turned(alignment::rotate(Vector::new(v[0], v[1], v[2]), mounting), v)
}

#[unsafe(no_mangle)]
pub extern "C" fn call_to_matrix(mounting: u8, m: &mut [[f32; 3]; 3]) -> u8 {
    match alignment::to_matrix(mounting) {
        Ok(matrix) => {
            *m = matrix.into();
            0
        }
        Err(refusal) => refusal.number(),
    }
}

fn number_of(read: Result<u8, Refusal>) -> u8 {
    match read {
        Ok(mounting) => mounting,
        Err(refusal) => refusal.number(),
    }
}

#[unsafe(no_mangle)]
pub extern "C" fn call_compose(first: u8, second: u8) -> u8 {
    number_of(remap::compose(first, second))
}

#[unsafe(no_mangle)]
pub extern "C" fn call_inverse(mounting: u8) -> u8 {
    number_of(remap::inverse(mounting))
}

#[unsafe(no_mangle)]
pub extern "C" fn call_write_name(mounting: u8, name: &mut [u8]) -> u8 {
    number_in(remap::write_name(mounting, name))
}

#[unsafe(no_mangle)]
pub extern "C" fn call_read_name(name: &[u8]) -> u8 {
    number_of(remap::read_name(name))
}

#[unsafe(no_mangle)]
pub extern "C" fn call_turn_run(mounting: u8, source: &[f32], turned: &mut [f32]) -> u8 {
    number_in(turning::turn_run(mounting, source, turned))
}
"""
# What each row has of the library's functions, and how many calls are counted.
ROWS = (("turn", ("turn",), 4800), ("compose", ("compose",), 4800), ("inverse", ("inverse",), 4800), ("write_name", ("write_name",), 4800),
        ("read_name, name written", ("read_name",), 480), ("these five together", ("turn", "compose", "inverse", "write_name", "read_name"), None),
        ("turn_run, 1000 vectors", ("turn_run",), 48), ("to_matrix", ("to_matrix",), 4800), ("rotate", ("rotate",), 4800))


def needed(crates, name):
    """A crate and all that it stands on."""
    return {name}.union(*(needed(crates, below) for below in crates[name]))


def library():
    """The folder of the library, proved and compiled, where no gate looks for crates; those that were proved before are not proved again."""
    if not shutil.which("rt"):
        command.stop("the Rattle toolchain is missing: no command rt on the path")
    lines = [line.split("#")[0] for line in (build.TOP / "crates.txt").read_text().splitlines()]
    crates = {name.strip(): below.split() for name, _, below in (line.partition(":") for line in lines) if name.strip()}
    crates["calls"] = ["turning", "alignment", "remap", "math", "vector", "answer"]
    taken = needed(crates, "calls")
    shutil.rmtree(SIZE, ignore_errors=True)
    SIZE.mkdir(parents=True)
    command.say("proving and compiling the calls ..")
    with tempfile.TemporaryDirectory() as folder:
        top = pathlib.Path(folder)
        (top / "crates/calls/src").mkdir(parents=True)
        (top / "crates/calls/src/lib.rt").write_text(TEXT)
        rows = ((f"{name} staticlib:" if name == "calls" else f"{name}:", *below) for name, below in crates.items() if name in taken)
        (top / "crates.txt").write_text("".join(" ".join(row) + "\n" for row in rows))
        for name in taken - {"calls"}:
            shutil.copytree(build.TOP / "crates" / name, top / "crates" / name, ignore=shutil.ignore_patterns("incremental"))
        build.quietly("rt", "lib", why="the calls are not proved", cwd=top / "crates/calls")
        shutil.copy(top / "crates/calls/out/libcalls.a", SIZE)
    return SIZE


def driver(archive):
    """The program that makes so many of one call."""
    rustc, link = loops.compiler()
    build.quietly(*rustc, "-O", "--cap-lints", "allow", "-L", archive, *link, "--edition", "2024", "-o", SIZE / "calls", loops.COUNTER / "calls.rs",
                  why="the driver does not compile")
    return SIZE / "calls"


def instructions(words, call, count):
    """Instructions a call, by a run of 2n and a run of n."""
    def taken(calls):
        done = subprocess.run([*map(str, words), call, str(calls)], capture_output=True, text=True)
        if done.returncode:
            command.stop(f"the driver ended with status {done.returncode}: {done.stderr.strip()}")
        return counting.counted(done.stderr)

    return (taken(2 * count) - taken(count)) / count


def main():
    loops.commands()
    packages.BENCH.mkdir(parents=True, exist_ok=True)
    with build.alone():
        archive = library()
        counter, program = counting.emulator("x86_64"), driver(archive)
    held = objects.Object(archive / "libcalls.a")
    print(f"{'':24}{'code':>8}{'constants':>11}{'both':>8}{'instructions':>14}")
    for label, calls, count in ROWS:
        code, constants = held.bytes_of([f"call_{call}" for call in calls])
        each = f"{instructions([*counter, program], calls[0], count):14,.1f}" if count else ""
        print(f"{label:24}{code:8,}{constants:11,}{code + constants:8,}{each}", flush=True)
    return 0
