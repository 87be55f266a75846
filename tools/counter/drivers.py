"""The driver native.rs over the exported text and the Rust, compiled for a processor, and the table of what is measured by it."""
import collections
import pathlib
import subprocess
import sys

import build
import command
import native
import packages

COUNTER = pathlib.Path(__file__).resolve().parent
LOG = packages.BENCH / "sample.imu"
# A row: the driver that it is measured by, and the benches of the two sides. Where the port is alone, of the Rust's only the sum is taken.
# The two sides have the same sum, but of sines, which are not the same, and of a report, which the Rust does not have: a second caller of
# its update, to count by, would keep the update out of the first.
Row = collections.namedtuple("Row", "label driver rust port alone same", defaults=(False, True))
ROWS = (Row("update, called", "called", "update", "update"),
        Row("update, LTO", "lto", "update", "update"),
        Row("update, called, processor's root", "called-processor", "update", "update"),
        Row("update, LTO, processor's root", "lto-processor", "update", "update"),
        Row("update_lent, called", "called", "update", "lent"),
        Row("update_lent, LTO", "lto", "update", "lent"),
        Row("bias reading, called", "called", "reading", "reading"),
        Row("bias reading, LTO", "lto", "reading", "reading"),
        Row("root, called", "called", "root", "root"),
        Row("root, called, processor's root", "called-processor", "root", "root"),
        Row("sine, called", "called", "sine", "sine", same=False),
        Row("cosine, called", "called", "cosine", "cosine", same=False),
        Row("set_settings, called", "called", "settings", "settings"),
        Row("choose_lent, called", "called", "settings", "choose-lent"),
        Row("rewrite_lent, called", "called", "rewrite", "rewrite-lent"),
        Row("Foot::choose, called", "called", "settings", "choose"),
        Row("Foot::rewrite, called", "called", "rewrite", "rewrite"),
        Row("record of playback, called", "called", "update", "playback", True),
        Row("record of playback, LTO", "lto", "update", "playback", True),
        Row("record of tally, called", "called", "update", "tally", True, False),
        Row("record of tally, LTO", "lto", "update", "tally", True, False))


def sources(args):
    """The project, and the root files of the Rust, of libm and of the export, which is written here, as is the sample's log."""
    packages.BENCH.mkdir(parents=True, exist_ok=True)
    rust, export = packages.BENCH / "fusion-ahrs", packages.BENCH / "gateweave"
    build.laid_out(args.rust, rust)
    libm = build.libm(args.libm)
    project = native.exported(export)
    LOG.write_bytes(build.output(sys.executable, COUNTER.parent / "sample", why="tools/sample made nothing"))
    return project, (rust / "src/lib.rs", libm, export / "src/lib.rs")


def compiled(rustc, link, files, into):
    """The four drivers: as cargo's release has it and with fat LTO, each over libm as it stands and with the processor's root in it."""
    rust, libm, export = files
    into.mkdir(parents=True, exist_ok=True)
    command.say("compiling the exported text, the Rust and the driver ..")
    port = build.library(rustc, "gateweave", "2024", export, into)
    for root in ("", "-processor"):
        folder = into / f"libm{root}"
        folder.mkdir(exist_ok=True)
        if root:
            real = build.library(rustc, "real_libm", "2018", libm, folder)
            given = build.library(rustc, "libm", "2024", COUNTER / "libm.rs", folder, *real)
        else:
            given = build.library(rustc, "libm", "2018", libm, folder)
        theirs = build.library(rustc, "fusion_ahrs", "2024", rust, folder, *given)
        for name, options in (("called", ()), ("lto", ("-Clto=fat", "-Ccodegen-units=1"))):
            build.quietly(*rustc, *link, *options, "--cap-lints", "allow", "-Copt-level=3", "--edition", "2024", "-L", folder, *given, *theirs,
                          *port, "-o", into / f"{name}{root}", COUNTER / "native.rs", why="the driver does not compile")
    return into


def benches():
    """The benches of each driver, the two sides in turn."""
    found = collections.defaultdict(dict)
    for row in ROWS:
        found[row.driver] |= {f"rust-{row.rust}": None, f"port-{row.port}": None}
    return {driver: list(names) for driver, names in found.items()}


def run(words, rounds, names):
    """One run of a driver: by each bench's name its calls a round, their sum and a round's nanoseconds; and what was said beside."""
    done = subprocess.run([*map(str, words), LOG, str(rounds), *names], capture_output=True, text=True)
    if done.returncode:
        command.stop(f"the driver ended with status {done.returncode}: {done.stderr.strip()}")
    lines = (line.split() for line in done.stdout.splitlines())
    return {name: (int(calls), total, int(taken)) for name, calls, total, taken in lines}, done.stderr


def table(seen):
    """Prints each row of what was seen: by a driver and a bench what a call took, and the sum. The status is 1 where two sums differ."""
    print(f"{'':34}{'Rust':>10}{'port':>10}{'ratio':>7}  sum")
    for row in ROWS:
        (rust, theirs), (port, ours) = seen[row.driver][f"rust-{row.rust}"], seen[row.driver][f"port-{row.port}"]
        beside = f"{'-':>10}{port:10.1f}{'-':>7}" if row.alone else f"{rust:10.1f}{port:10.1f}{port / rust:7.2f}"
        print(f"{row.label:34}{beside}  {ours if row.same or row.alone else f'{theirs}, {ours}'}", flush=True)
        if row.same and theirs != ours:
            print(f"the sums differ: the Rust's {theirs}, the port's {ours}")
            return 1
    return 0
