"""The exported text on a Cortex-M4F: its bytes of code, and programs over it that an emulator runs."""
import re
import shutil
import struct

import build
import command
import counting
import packages
import programs

TARGET = "thumbv7em-none-eabihf"
FOLDER = packages.BENCH / "cortex-m4f"
LEVELS = ("s", "3")
# The functions that are named, and how their symbols end.
FUNCTIONS = {"Ahrs::update": r"Ahrs(\$GT\$)?6update(17h\w+)?$", "sqrtf": r"5sqrtf(17h\w+)?$", "Bias::update": r"4Bias6update(17h\w+)?$",
             "Vector::turned": r"Vector(\$GT\$)?6turned(17h\w+)?$"}
# The programs that read a log.
PROGRAMS = ("replay", "report")
# What the build of Rust's own library says of itself, without its build program.
BUILTINS = ("--cfg", 'feature="compiler-builtins"', "--cfg", 'feature="mem"', "--cfg", 'feature="unstable-intrinsics"', "--cfg", "intrinsics_enabled",
            "--cfg", "arch_enabled", "--cfg", "optimizations_enabled")


def compiled(rustc, name, root, *options):
    """A crate for the Cortex-M4F, over the libraries that are there."""
    build.quietly(*rustc, "--cap-lints", "allow", "--edition", "2024", "--target", TARGET, "-Cpanic=abort", "-L", FOLDER, "--crate-name", name,
                  *options, root, why=f"{name} does not compile for {TARGET}")


def libraries():
    """Rust's libraries `core` and `compiler_builtins`, which has this processor's f64, from Debian's source: there is no package of them."""
    version = build.quietly(*packages.rustc(), "--version", why="Debian's rustc does not answer")
    stamp = FOLDER / "stamp"
    if stamp.is_file() and stamp.read_text() == version:
        return
    command.say("compiling Rust's own library for a Cortex-M4F ..")
    shutil.rmtree(FOLDER, ignore_errors=True)
    FOLDER.mkdir(parents=True)
    packages.fetch(packages.host(), "core", "rust-web-src")
    found = sorted((packages.DEB / "core/usr/src").glob("rustc-*/library"))
    if not found:
        command.stop("Debian's rust-web-src has no library where it was")
    # A library of the compiler's own may use what is not stable.
    rustc = ["env", "RUSTC_BOOTSTRAP=1", "CFG_CARGO_FEATURES=[]", "CFG_OPT_LEVEL=3", "CFG_TARGET_FEATURES=[]", *packages.rustc()]
    for name, root, options in (("core", "core/src/lib.rs", ()), ("compiler_builtins", "compiler-builtins/compiler-builtins/src/lib.rs", BUILTINS)):
        compiled(rustc, name, found[-1] / root, "--crate-type", "rlib", "-Copt-level=3", *options, "-o", FOLDER / f"lib{name}.rlib")
    stamp.write_text(version)


def program(project, export, name, into, *options):
    """A program of the gate over the export, linked for the Cortex-M4F; what it uses of the system are Linux's calls, for the emulator."""
    if not shutil.which("ld.lld"):
        command.stop("the command ld.lld is missing")
    libraries()
    into.mkdir(parents=True, exist_ok=True)
    lib = into / "libgateweave.rlib"
    compiled(packages.rustc(), "gateweave", export, "--crate-type", "rlib", *options, "-o", lib)
    main = programs.write(project, name, into / name, device=True)
    compiled(packages.rustc(), name, main, *options, "--extern", f"gateweave={lib}", "-Clinker=ld.lld", "-o", into / f"run-{name}")
    return into / f"run-{name}"


def sizes(path):
    """The bytes of code and of constants of an object file, and of each function in it by its symbol: the file is an ELF of 32 bits."""
    data = path.read_bytes()
    (start,), (width, count) = struct.unpack_from("<I", data, 32), struct.unpack_from("<HH", data, 46)
    # Of each section its name, kind, flags, address, place, size, and the section that it belongs to.
    sections = [struct.unpack_from("<7I", data, start + width * i) for i in range(count)]
    whole = sum(size for _, _, flags, _, _, size, _ in sections if flags & 4)
    constants = sum(size for _, kind, flags, _, _, size, _ in sections if kind == 1 and flags & 7 == 2)
    _, _, _, _, at, size, link = next(s for s in sections if s[1] == 2)
    names, functions = sections[link][4], {}
    for name, _, length, kind in struct.iter_unpack("<IIIB3x", data[at:at + size]):
        if kind & 15 == 2:
            functions[data[names + name:data.index(b"\0", names + name)].decode()] = length
    return whole, constants, functions


def table(project, export):
    """Prints the bytes of the whole text and of the functions that are named, at each level, and what a record of each program takes."""
    libraries()
    counter = counting.emulator("arm")
    print(f"Cortex-M4F ({TARGET}), bytes of the whole text and of some functions, and instructions a record of {' and of '.join(PROGRAMS)}")
    print(f"{'':24}{'code':>10}{'constants':>10}" + "".join(f"{name:>16}" for name in FUNCTIONS) + "".join(f"{name:>10}" for name in PROGRAMS))
    for level in LEVELS:
        options, file = (f"-Copt-level={level}", "-Ccodegen-units=1"), FOLDER / f"gateweave-{level}.o"
        compiled(packages.rustc(), "gateweave", export, "--crate-type", "rlib", *options, "--emit", "obj", "-o", file)
        whole, constants, functions = sizes(file)
        named = [[size for name, size in functions.items() if re.search(ending, name)] for ending in FUNCTIONS.values()]
        parts = "".join(f"{found[0]:16,}" if found else f"{'-':>16}" for found in named)
        into = FOLDER / f"level-{level}"
        shutil.rmtree(into, ignore_errors=True)
        each = (counting.record([*counter, program(project, export, name, into, *options)]) for name in PROGRAMS)
        print(f"{f'opt-level {level}':24}{whole:10,}{constants:10,}{parts}" + "".join(f"{taken:10.1f}" for taken in each), flush=True)
    return 0
