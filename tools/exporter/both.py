"""A program over the exported text and over the Rust, whose private names it may use, compiled for the machine at hand."""
import shutil

import build
import command
import native


def program(args, into, private, main):
    """The program of a file, compiled in a folder over `gateweave`, `libm` and `fusion_ahrs`, of which the names given are public. Nobody
    else may build meanwhile."""
    if not shutil.which("rustc"):
        command.stop("the Rust compiler is missing: no command rustc on the path")
    rust = build.published(args.rust, into / "fusion-ahrs", private)
    root, export, made = build.libm(args.libm), into / "gateweave", into / main.stem
    native.exported(export)
    command.say("compiling the exported text, the Rust and the program over them ..")
    libm = build.library(["rustc"], "libm", "2018", root, into)
    theirs = build.library(["rustc"], "fusion_ahrs", "2024", rust / "src/lib.rs", into, *libm)
    ours = build.library(["rustc"], "gateweave", "2024", export / "src/lib.rs", into)
    build.rustc("-Copt-level=3", "--edition", "2024", "-L", into, *libm, *theirs, *ours, "-o", made, main,
                why=f"{main.name} does not compile over both")
    return made
