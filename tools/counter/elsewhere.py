"""`tools/bench --elsewhere`: what the exported text costs on processors that this machine need not be."""
import shutil

import build
import command
import counting
import drivers
import firmware
import packages


def measured(counter, program, name):
    """A bench's instructions a call, by a run of two rounds and a run of one, and its sum."""
    twice, said = drivers.run([*counter, program], 2, [name])
    _, once = drivers.run([*counter, program], 1, [name])
    calls, total, _ = twice[name]
    return (counting.counted(said) - counting.counted(once)) / calls, total


def main(args):
    for needed in ("gcc", "clang", "ld.lld"):
        if not shutil.which(needed):
            command.stop(f"the command {needed} is missing")
    with build.alone():
        project, sources = drivers.sources(args)
        export = sources[2]
        rustc, link = packages.compiler("aarch64")
        counter = counting.emulator("aarch64")
        folder = drivers.compiled(rustc, link, sources, packages.BENCH / "aarch64")
        seen = {driver: {name: measured(counter, folder / driver, name) for name in names} for driver, names in drivers.benches().items()}
        version = " ".join(build.quietly(*packages.rustc(), "--version", why="Debian's rustc does not answer").split()[:2])
        print(f"aarch64 instructions a call, by Debian's {version}")
        status = drivers.table(seen)
        return status or firmware.table(project, export)
