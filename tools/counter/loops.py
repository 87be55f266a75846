"""`tools/bench` without options: x86-64 instructions a call of the Rust and of the proved loops of crates/cost, and a record of `replay` and
of `report`."""
import collections
import pathlib
import platform
import re
import shutil
import subprocess
import sys
import tempfile
import time

import build
import command
import counting
import packages

COUNTER = pathlib.Path(__file__).resolve().parent
BENCH = packages.BENCH
NATIVE = platform.machine() == "x86_64"
# What a row counts, under which name the driver has it, how many calls, and whether both sides have one sum: their sines are not one, nor
# what an angle goes into.
Row = collections.namedtuple("Row", "label bench count same", defaults=(True,))
ROWS = (Row("update", "update", 10000), Row("bias reading", "reading", 10000), Row("root", "root", 10000),
        Row("sine", "sine", 10000, False), Row("cosine", "cosine", 10000, False), Row("run of 1000 vectors", "turn", 120))
HEADED = (Row("angle", "angle", 10000, False), Row("set_heading", "set-heading", 10000, False),
          Row("update_external_heading", "external-heading", 10000, False), Row("update_no_magnetometer", "no-magnetometer", 10000, False))
CHOSEN = (Row("choice, by the owner", "choice", 10000), Row("rewrite, by the owner", "rewrite", 10000))
# Each driver, and the files of crates/cost that its archive is without: `choices` and `headings` have other callers of the update, which
# keep it from being drawn into its own loop, and `once` one of update and reading, which keeps them functions. The first is of the whole
# crate, and proves what the others stand on.
DRIVERS = {"chosen": ("chosen.rs", ()), "headed": ("headed.rs", ("choices",)), "called": ("driver.rs", ("choices", "headings")),
           "inlined": ("driver.rs", ("choices", "headings", "once"))}


def compiler():
    """A rustc for x86-64, with what its programs are linked by: the machine's own, or Debian's with the library of x86-64."""
    return (["rustc"], []) if NATIVE else packages.compiler("x86_64")


def without_files(top, files):
    """A copy of the crates, in which crates/cost is a static library without some of its files; what is proved already is not proved again."""
    shutil.copytree(build.TOP / "crates", top / "crates", ignore=shutil.ignore_patterns("incremental"))
    rows = (build.TOP / "crates.txt").read_text("utf-8")
    (top / "crates.txt").write_text(re.sub("(?m)^cost:", "cost staticlib:", rows), "utf-8")
    lib = top / "crates/cost/src/lib.rt"
    for file in files:
        lib.with_name(f"{file}.rt").unlink()
        shutil.rmtree(top / "crates/cost/proofs" / file, ignore_errors=True)
        lib.write_text("".join(line for line in lib.read_text().splitlines(True) if not line.startswith(f"mod {file};")))
    return top


def archive(name, without):
    """The folder of the port's loops for a driver, proved and compiled. They are copied to where no gate looks for crates."""
    if not shutil.which("rt"):
        command.stop("the Rattle toolchain is missing: no command rt on the path")
    command.say(f"proving and compiling the port's loops, {name} ..")
    into = BENCH / "loops" / name
    into.mkdir(parents=True, exist_ok=True)
    with tempfile.TemporaryDirectory() as folder:
        top = without_files(pathlib.Path(folder), without)
        build.quietly("rt", "lib", why="the port's loops are not proved", cwd=top / "crates/cost")
        shutil.copy(top / "crates/cost/out/libcost.a", into)
    return into


def driver(rustc, link, rust, libm, port, name, file):
    """A driver over the Rust crate and one archive of the port's."""
    def compiled(*args, why):
        build.quietly(*rustc, "-O", "--cap-lints", "allow", "-L", BENCH, *args, why=why)

    compiled("--edition", "2018", "--crate-type", "rlib", "--crate-name", "libm", "-o", BENCH / "liblibm.rlib", libm, why="libm does not compile")
    compiled("--edition", "2024", "--crate-type", "rlib", "--crate-name", "fusion_ahrs", "--extern", f"libm={BENCH}/liblibm.rlib", "-o",
             BENCH / "libfusion_ahrs.rlib", rust / "src/lib.rs", why="the Rust crate does not compile")
    compiled(*link, "-L", port, "--edition", "2024", "--extern", f"libm={BENCH}/liblibm.rlib", "--extern",
             f"fusion_ahrs={BENCH}/libfusion_ahrs.rlib", "-o", BENCH / name, COUNTER / file, why="the driver does not compile")
    return BENCH / name


def run(words, bench, count):
    """One run of the driver: its sum, its nanoseconds, and what was said beside it."""
    done = subprocess.run([*map(str, words), bench, str(count)], capture_output=True, text=True)
    if done.returncode:
        command.stop(f"the driver ended with status {done.returncode}: {done.stderr.strip()}")
    _, calls, total, nanoseconds = done.stdout.split()
    return total, int(nanoseconds) / int(calls), done.stderr


def measured(counter, program, bench, count):
    """Instructions a call, nanoseconds a call on x86-64, and the sum."""
    total, _, twice = run([*counter, program], bench, 2 * count)
    _, _, once = run([*counter, program], bench, count)
    each = run([program], bench, 100 * count)[1] if NATIVE else None
    return (counting.counted(twice) - counting.counted(once)) / count, each, total


def counted(counter, program, row, how=""):
    """Prints a row, and answers the port's count."""
    rust, port = (measured(counter, program, f"{side}-{row.bench}", row.count) for side in ("rust", "port"))
    times = f" {rust[1]:9.1f} {port[1]:9.1f}" if NATIVE else ""
    sums = rust[2] if row.same else f"{rust[2]}, {port[2]}"
    print(f"{row.label + how:28}{rust[0]:10.1f}{port[0]:10.1f}{port[0] / rust[0]:7.2f}{times}  {sums}", flush=True)
    if row.same and rust[2] != port[2]:
        print(f"the sums differ: the Rust's {rust[2]}, the port's {port[2]}")
        sys.exit(1)
    return port[0]


def recorded(counter, name, update):
    """Counts a record of a program that reads a log, and on x86-64 times a million."""
    words = build.program(name)
    each = counting.record([*counter, *words])
    print(f"{name}, a record: {each:.1f} instructions, {each / update:.2f} times an update that is called", flush=True)
    if NATIVE:
        with open(counting.log(1000000), "rb") as file:
            began = time.monotonic()
            subprocess.run(words, stdin=file, stdout=subprocess.DEVNULL, check=True)
        print(f"{name}: {1e6 / (time.monotonic() - began):,.0f} records a second")


def built(args):
    """The counter, and the drivers by their names."""
    BENCH.mkdir(parents=True, exist_ok=True)
    rust = BENCH / "fusion-ahrs"
    with build.alone():
        build.laid_out(args.rust, rust)
        libm = build.libm(args.libm)
        (rustc, link), counter = compiler(), counting.emulator("x86_64")
        programs = {name: driver(rustc, link, rust, libm, archive(name, without), name, file) for name, (file, without) in DRIVERS.items()}
    return counter, programs


def commands():
    """Stops where a command is missing that a program for x86-64 is compiled by."""
    for needed in ("gcc", "clang") if not NATIVE else ("gcc", "rustc"):
        if not shutil.which(needed):
            command.stop(f"the command {needed} is missing")


def main(args):
    commands()
    counter, programs = built(args)
    print(f"{'':28}{'Rust':>10}{'port':>10}{'ratio':>7}{'   Rust ns   port ns' if NATIVE else ''}  sum")
    counts = {}
    for row in ROWS:
        if row.bench in ("update", "reading"):
            counts[row.bench] = counted(counter, programs["called"], row, ", called")
            counted(counter, programs["inlined"], row, ", inlined")
        else:
            counted(counter, programs["called"], row)
    for row in HEADED:
        counted(counter, programs["headed"], row)
    for row in CHOSEN:
        counted(counter, programs["chosen"], row)
    for name in ("replay", "report"):
        recorded(counter, name, counts["update"])
