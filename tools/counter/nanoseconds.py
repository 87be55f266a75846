"""`tools/bench --native`: nanoseconds a call of the exported text and of the Rust, in one process, on the machine at hand."""
import platform
import shutil
import subprocess

import build
import command
import drivers
import packages

ROUNDS = 400


def processor():
    """What this machine's processor is called, as far as it says."""
    if not shutil.which("lscpu"):
        return platform.machine()
    said = subprocess.run(["env", "LC_ALL=C", "lscpu"], capture_output=True, text=True).stdout.splitlines()
    named = [line.partition(":")[2].strip() for line in said if line.startswith("Model name:")]
    return ", ".join([platform.machine(), *named[:1]])


def measured(program, names):
    """By each bench's name the median of its nanoseconds a call, and its sum."""
    seen, _ = drivers.run([program], ROUNDS, names)
    return {name: (taken / calls, total) for name, (calls, total, taken) in seen.items()}


def main(args):
    if not shutil.which("rustc"):
        command.stop("the command rustc is missing")
    with build.alone():
        folder = drivers.compiled(["rustc"], (), drivers.sources(args)[1], packages.BENCH / "native")
        seen = {driver: measured(folder / driver, names) for driver, names in drivers.benches().items()}
    version = " ".join(build.quietly("rustc", "--version", why="rustc does not answer").split()[:2])
    print(f"nanoseconds a call on {processor()}, by {version}: medians of {ROUNDS} rounds over the sample's records")
    return drivers.table(seen)
