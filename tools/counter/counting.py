"""Counts instructions exactly: Debian's qemu-user, with the plugin insn.c."""
import pathlib
import subprocess
import sys

import build
import command
import packages

COUNTER = pathlib.Path(__file__).resolve().parent
# The bytes of a log's header and of a record.
HEADER, RECORD = 30, 38


def emulator(processor):
    """A qemu-user for the programs of a processor, with the plugin that counts."""
    plugin = packages.BENCH / "libinsn.so"
    build.quietly("gcc", "-O2", "-shared", "-fPIC", "-o", plugin, COUNTER / "insn.c", why="the counter does not compile")
    return [*packages.emulator(processor), "-plugin", plugin]


def counted(said):
    """The instructions that the counter tells of."""
    found = [int(line.split()[1]) for line in said.splitlines() if line.startswith("instructions ")]
    return found[0] if found else command.stop("the counter of instructions said nothing")


def log(records):
    """A log of so many records: the sample's, over and over, numbered on."""
    path = packages.BENCH / f"{records}.imu"
    sample = build.output(sys.executable, COUNTER.parent / "sample", why="tools/sample made nothing")
    bodies = [sample[i + 2:i + RECORD] for i in range(HEADER, len(sample), RECORD)]
    with open(path, "wb") as file:
        file.write(sample[:HEADER])
        for i in range(records):
            file.write((i % 65536).to_bytes(2, "little") + bodies[i % len(bodies)])
    return path


def record(words):
    """The instructions that a program which reads a log takes for a record, reads and writes included; it is run by the counter."""
    def taken(records):
        with open(log(records), "rb") as file:
            done = subprocess.run([*map(str, words)], stdin=file, stdout=subprocess.DEVNULL, stderr=subprocess.PIPE, text=True)
        return counted(done.stderr)

    return (taken(12000) - taken(6000)) / 6000
