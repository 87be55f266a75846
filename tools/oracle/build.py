"""Builds the Rust crate and the oracle over it under target/beside, and the proved programs that are run beside them. Nothing of the
Rust's sources is kept in the repository."""
import contextlib
import fcntl
import hashlib
import pathlib
import re
import shutil
import subprocess
import tempfile

from command import path, say, stop

TOP = pathlib.Path(__file__).resolve().parents[2]
ORACLE = TOP / "tools/oracle"
BUILD = TOP / "target/beside"
SOURCES = TOP.parent / "shared/docs/src"
PACKAGE = "librust-libm-dev"
MODES = ("math", "mounting", "bias", "pole", "locked", "edge", "fuzz", "mix", "foot", "degrees", "heading")
# The calls of degrees, and the modes that have them: for the second oracle (second.py).
DEGREES = (0x47, 0x48, 0x49, 0x90, 0x91, 0x93, 0x94, 0x95)
IN_DEGREES = ("degrees", "heading", "sample")


def takes_sources(arguments):
    """The two options of every tool that compiles the Rust."""
    arguments.add_argument("--rust", type=path, default=SOURCES)
    arguments.add_argument("--libm", type=path)


@contextlib.contextmanager
def alone():
    """Waits until nothing else builds in this repository, and keeps others waiting: one lock, of the file crates.txt, for all."""
    # What is opened here no command inherits, so the lock ends with this tool.
    with open(TOP / "crates.txt", "rb") as held:
        try:
            fcntl.flock(held, fcntl.LOCK_EX | fcntl.LOCK_NB)
        except BlockingIOError:
            say("waiting for another build of this repository ..")
            fcntl.flock(held, fcntl.LOCK_EX)
        yield


@contextlib.contextmanager
def room():
    """A folder below target/beside for this run alone."""
    BUILD.mkdir(parents=True, exist_ok=True)
    with tempfile.TemporaryDirectory(prefix="run-", dir=BUILD) as folder:
        yield pathlib.Path(folder)


def last_words(stderr):
    """What a command said, without the lines that Rust puts around a panic's."""
    lines = stderr.decode(errors="replace").splitlines()
    return " ".join(line.strip() for line in lines if line.strip() and not line.startswith(("thread '", "note: run with"))) or "it said nothing"


def output(*command, why, stdout=subprocess.PIPE, **options):
    """What a command writes, here or to a file; where it fails, what it said."""
    done = subprocess.run([str(c) for c in command], stdout=stdout, stderr=subprocess.PIPE, **options)
    return done.stdout if done.returncode == 0 else stop(f"{why}: {last_words(done.stderr)}")


def quietly(*command, why, **options):
    """Runs a command, and shows the end of all that it said only where it fails."""
    done = subprocess.run([str(c) for c in command], capture_output=True, text=True, errors="replace", **options)
    if done.returncode:
        say((done.stdout + done.stderr)[-2000:])
        stop(why)
    return done.stdout


def rustc(*args, why):
    return quietly("rustc", "--cap-lints", "allow", *args, why=why)


def library(rustc, name, edition, root, into, *options):
    """A crate as a library in a folder, over the libraries that are there; the option by which others are compiled over it."""
    file = into / f"lib{name}.rlib"
    quietly(*rustc, "--cap-lints", "allow", "-Copt-level=3", "--edition", edition, "--crate-type", "rlib", "--crate-name", name, "-L", into,
            *options, "-o", file, root, why=f"{name} does not compile")
    return "--extern", f"{name}={file}"


def files(sources):
    """The Rust's files by their paths: as they lie, or from flat copies (src--src--lib.rs.txt)."""
    if (sources / "src/lib.rs").is_file():
        return {file.relative_to(sources): file.read_bytes() for file in (sources / "src").rglob("*.rs")}
    named = lambda flat: pathlib.Path(flat.name.removesuffix(".txt").removeprefix("src--").replace("--", "/"))
    return {named(flat): flat.read_bytes() for flat in sources.glob("src--src--*.rs.txt")}


def laid_out(sources, into):
    """The Rust's files, beside the one empty file that lib.rs names."""
    found = files(sources)
    if pathlib.Path("src/lib.rs") not in found:
        stop(f"the Rust's sources are missing: no src/lib.rs in {sources} (--rust FOLDER)")
    shutil.rmtree(into, ignore_errors=True)
    # lib.rs says `pub mod interop;`, whose text is not published; nothing else of the crate uses it.
    for file, text in {**found, pathlib.Path("src/interop.rs"): b""}.items():
        (into / file).parent.mkdir(parents=True, exist_ok=True)
        (into / file).write_bytes(text)


def published(sources, into, private):
    """A copy of the Rust with names that it keeps to itself public. Of each is given the file, and how its line begins."""
    laid_out(sources, into)
    for file, name in private:
        path = into / "src" / file
        text, count = re.subn(f"(?m)^{re.escape(name)}", f"pub {name}", path.read_text("utf-8"))
        if count != 1:
            stop(f"the Rust's {file} has {count} lines that begin with {name}")
        path.write_text(text, "utf-8")
    return into


def lists(state, why, *options):
    """The options by which apt-get keeps lists of packages of its own in a folder, where they are fetched: the machine's may be none."""
    for folder in ("lists/partial", "archives/partial"):
        (state / folder).mkdir(parents=True, exist_ok=True)
    (state / "status").touch()
    apt = [*options, f"-oDir::State={state}", f"-oDir::State::status={state}/status", f"-oDir::Cache={state}", "-oAPT::Sandbox::User=root"]
    quietly("apt-get", *apt, "-qq", "update", why=why)
    return apt


def libm(given):
    """The root file of libm's source: from the folder given, or from Debian's package, unpacked here and not installed."""
    if given:
        root = given / "src/lib.rs"
        return root if root.is_file() else stop(f"libm's source is missing: no src/lib.rs in {given} (--libm FOLDER)")
    deb = BUILD / "deb"
    unpacked = "usr/share/cargo/registry/libm-*/src/lib.rs"
    found = sorted(deb.glob(unpacked))
    if not found:
        deb.mkdir(parents=True, exist_ok=True)
        if not shutil.which("apt-get") or not shutil.which("dpkg-deb"):
            stop(f"libm's source is missing: no apt-get to fetch Debian's {PACKAGE} (--libm FOLDER)")
        why = f"libm's source is missing: Debian's {PACKAGE} was not fetched (--libm FOLDER)"
        quietly("apt-get", *lists(deb / "apt", why), "-qq", "download", PACKAGE, why=why, cwd=deb)
        for package in deb.glob("*.deb"):
            quietly("dpkg-deb", "-x", package, deb, why=f"the package {package.name} was not unpacked")
        found = sorted(deb.glob(unpacked))
    return found[0] if found else stop(f"libm's source is missing: Debian's {PACKAGE} has none where it was")


def print_of(*folders):
    """A digest of all files: what was built from the same ones is not built again."""
    digest = hashlib.sha256(rustc("--version", why="rustc does not answer").encode())
    for folder in folders:
        for file in sorted(p for p in pathlib.Path(folder).rglob("*") if p.suffix == ".rs"):
            digest.update(str(file).encode() + b"\0" + file.read_bytes())
    return digest.hexdigest()


def needs_rustc():
    if not shutil.which("rustc"):
        stop("the Rust compiler is missing: no command rustc on the path")


def crate(rust, into, main=ORACLE / "main.rs", optimise="3", over=BUILD):
    """The Rust crate in `rust` over the libm of a folder, and the oracle or another program over both, as `into`/oracle."""
    options = ("-C", f"opt-level={optimise}", "--extern", f"libm={over}/liblibm.rlib", "-L", over)
    lib = into / "libfusion_ahrs.rlib"
    rustc("--edition", "2024", "--crate-type", "rlib", "--crate-name", "fusion_ahrs", *options, "-o", lib, rust / "src/lib.rs",
          why="the Rust crate does not compile")
    rustc("--edition", "2024", *options, "--extern", f"fusion_ahrs={lib}", "-o", into / "oracle", main,
          why=f"{main.name} does not compile over the Rust crate")
    return into / "oracle"


def oracle(sources, libm_folder=None):
    """Builds all that is not built yet, and answers the oracle's path."""
    needs_rustc()
    rust = BUILD / "fusion-ahrs"
    with alone():
        laid_out(sources, rust)
        root = libm(libm_folder)
        stamp, now = BUILD / "stamp", print_of(rust, ORACLE, root.parent)
        if stamp.is_file() and stamp.read_text() == now and (BUILD / "oracle").is_file():
            return BUILD / "oracle"
        say("building the Rust crate and the oracle ..")
        # Without it a build that is broken off is never taken for a whole one.
        stamp.unlink(missing_ok=True)
        rustc("--edition", "2018", "-C", "opt-level=3", "--crate-type", "rlib", "--crate-name", "libm", "-o", BUILD / "liblibm.rlib", root,
              why="libm does not compile")
        built = crate(rust, BUILD)
        stamp.write_text(now)
        return built


def proved(name):
    """The path of a proved program. rt proves it where it has changed, and runs it: on an empty input, of which none makes more than a
    refusal."""
    if not shutil.which("rt"):
        stop("the Rattle toolchain is missing: no command rt on the path")
    folder = TOP / "crates" / name
    built = folder / "out" / name
    with alone():
        if not built.is_file():
            say(f"proving and building {name} ..")
        quietly("rt", "run", why=f"{name} is not proved, so it is not run", cwd=folder, stdin=subprocess.DEVNULL)
    return built


def toolchain():
    """The Rattle toolchain's folder."""
    if not shutil.which("rt"):
        stop("the Rattle toolchain is missing: no command rt on the path")
    return pathlib.Path(quietly("rt", "doc", why="the Rattle toolchain does not answer: rt doc").strip()).parent


def program(name):
    """The command that runs a proved program."""
    return [proved(name)]
