"""Builds the exported text, and the program that holds it beside the Rust, for the machine at hand."""
import collections
import re
import subprocess
import sys

import build
import command
import inplace
import packages
import rules

NATIVE = build.TOP / "tools/native"
BUILD = build.TOP / "target/native"
# The Rust's files whose types have private fields.
PRIVATE = ("ahrs.rs", "bias.rs")
# What a run makes: its kind, the line that counts it, and of how many one.
KINDS = (
    ("updates", "updates", 1),
    ("headings", "calls without a compass", 1),
    ("feet", "calls of two filters", 1),
    ("readings", "readings", 1),
    ("others", "calls without a state", 10),
    ("records", "records accepted", 10),
)
# The lines that count the other calls.
OTHERS = ("other calls of the filter", "other calls of the estimator", "calls without a state", "reads beside an update or a reading")
# With these an overflow or a shift by too much stops the program, as an index beyond the end does without them.
CHECKED = ("-Coverflow-checks=on", "-Cdebug-assertions=on")


def exported(folder):
    """Writes the export into a folder; the project that it was written from."""
    try:
        project = rules.Project(build.TOP, build.toolchain())
        project.write(folder)
    except rules.Unknown as unknown:
        command.stop(f"the rules of the export do not cover {unknown}")
    return project


def change(path, old, new):
    """Changes the one place of a file."""
    text = path.read_text("utf-8")
    if text.count(old) != 1:
        command.stop(f"a place stands {text.count(old)} times in the exported {path.name}: {old.strip()}")
    path.write_text(text.replace(old, new), "utf-8")


def opened(text):
    """A file of the Rust with its types and their fields public: `pub ` is added, and nothing else."""
    lines, inside = [], False
    for line in text.splitlines(True):
        if re.match(r"(pub )?struct \w+ \{", line):
            inside = True
            line = "pub " + line.removeprefix("pub ")
        elif line == "}\n":
            inside = False
        elif inside and re.match(r"    [a-z_]+: ", line):
            line = "    pub " + line[4:]
        lines.append(line)
    made = "".join(lines)
    if made == text or made.replace("pub ", "") != text.replace("pub ", ""):
        command.stop("the Rust's fields were not made public by `pub ` alone")
    return made


def rust(sources, into):
    """The Rust's files with the port's sine, cosine and angle in place, opened."""
    inplace.rust(sources, into)
    for name in PRIVATE:
        path = into / "src" / name
        path.write_text(opened(path.read_text("utf-8")), "utf-8")
    return into


def compiled(crate, into, over, rustc=("rustc",), link=(), options=()):
    """The exported crate in a folder, and the program over it and over the two libraries of another folder; the program's path."""
    port = build.library(rustc, "gateweave", "2024", crate / "src/lib.rs", into, *options)
    theirs = (part for name in ("fusion_ahrs", "libm") for part in ("--extern", f"{name}={over}/lib{name}.rlib"))
    build.quietly(*rustc, *link, "--cap-lints", "allow", "-Copt-level=3", "--edition", "2024", *options, "-L", over, *theirs, *port, "-o",
                  into / "native", NATIVE / "main.rs", why="the program over the export does not compile")
    return into / "native"


def differ(sources, libm, checked=False, processor=None):
    """The command that holds the export beside the Rust, on this machine or by an emulator of another; what is not built yet is built."""
    build.needs_rustc()
    with build.alone():
        crate, theirs, into = BUILD / "gateweave", BUILD / "fusion-ahrs", BUILD / ((processor or "here") + "-checked" * checked)
        into.mkdir(parents=True, exist_ok=True)
        exported(crate)
        rust(sources, theirs)
        root = build.libm(libm)
        rustc, link = packages.compiler(processor) if processor else (["rustc"], ())
        runs = packages.emulator(processor) if processor else []
        stamp, now = into / "stamp", build.print_of(crate, theirs, NATIVE, build.ORACLE, root.parent)
        if not (stamp.is_file() and stamp.read_text() == now and (into / "native").is_file()):
            command.say("building the export beside the Rust ..")
            stamp.unlink(missing_ok=True)
            build.library(rustc, "fusion_ahrs", "2024", theirs / "src/lib.rs", into, *inplace.libm(rustc, root, crate, into))
            compiled(crate, into, into, rustc, link, CHECKED * checked)
            stamp.write_text(now)
        return [*runs, into / "native"]


def counts(program, *words):
    """A run of the program: what it counted. Where the two sides differ, or a check stops it, that is shown and the tool ends."""
    done = subprocess.run([*map(str, (*program, *words))], stdout=subprocess.PIPE, stderr=subprocess.PIPE)
    if done.returncode:
        print(done.stdout.decode(errors="replace").strip() or f"{' '.join(map(str, words))} stopped: {build.last_words(done.stderr)}")
        sys.exit(1)
    lines = (line.partition(" ") for line in done.stdout.decode().splitlines())
    return collections.Counter({name: int(count) for count, _, name in lines})
