"""Debian's packages, unpacked below target/bench and not installed: a compiler for other processors, and what its programs are linked and
run by."""
import platform
import shutil

import build
import command

BENCH = build.TOP / "target/bench"
DEB = BENCH / "deb"
# Debian's name of a processor that programs are compiled for.
PROCESSORS = {"x86_64": "amd64", "aarch64": "arm64"}


def fetch(architecture, into, *patterns):
    """Debian's packages for an architecture, unpacked into a folder; the lists they are chosen by are the bench's own."""
    if (DEB / into / f"done-{architecture}").exists():
        return
    if not shutil.which("apt-get") or not shutil.which("dpkg-deb"):
        command.stop("the packages are missing: no apt-get to fetch them from Debian")
    debs = DEB / "packages" / into / architecture
    for folder in (debs, DEB / into):
        folder.mkdir(parents=True, exist_ok=True)
    apt = build.lists(DEB / "apt" / architecture, "Debian's lists of packages were not fetched", f"-oAPT::Architecture={architecture}",
                      f"-oAPT::Architectures::={architecture}")
    for pattern in patterns:
        named = build.quietly("apt-cache", *apt, "pkgnames", pattern.rstrip("*"), why="apt-cache does not answer").split()
        fitting = [n for n in named if n == pattern or pattern.endswith("*")]
        name = max(fitting) if fitting else command.stop(f"Debian has no package {pattern}")
        build.quietly("apt-get", *apt, "-qq", "download", name, why=f"Debian's package {name} was not fetched", cwd=debs)
    for package in debs.glob("*.deb"):
        build.quietly("dpkg-deb", "-x", package, DEB / into, why=f"the package {package.name} was not unpacked")
    (DEB / into / f"done-{architecture}").touch()


def host():
    """Debian's name of this machine's processor."""
    return build.quietly("dpkg", "--print-architecture", why="dpkg does not answer").strip()


def libraries(unpacked):
    """The folder of a package's libraries for this machine."""
    found = sorted((DEB / unpacked / "usr/lib").glob(f"{platform.machine()}-*"))
    return found[0] if found else command.stop(f"Debian's packages have no libraries for {platform.machine()}")


def rustc():
    """Debian's rustc for this machine."""
    fetch(host(), "rust", "rustc-web", "libstd-rust-web-1.*", "libstd-rust-web-dev", "libllvm22")
    return ["env", f"LD_LIBRARY_PATH={libraries('rust')}", DEB / "rust/usr/bin/rustc"]


def compiler(processor):
    """Debian's rustc for programs of a processor, with what they are linked by."""
    words, name = rustc(), PROCESSORS[processor]
    fetch(name, "rust", "libstd-rust-web-1.*", "libstd-rust-web-dev")
    fetch(name, "sys", "libc6", "libc6-dev", "libgcc-12-dev", "libgcc-s1", "linux-libc-dev")
    link = ("-Crelocation-model=static", "-Ctarget-feature=+crt-static", "-Clinker=clang", f"-Clink-arg=--target={processor}-linux-gnu",
            f"-Clink-arg=--sysroot={DEB}/sys", "-Clink-arg=-fuse-ld=lld")
    return [*words, "--target", f"{processor}-unknown-linux-gnu"], link


def emulator(processor):
    """Debian's qemu-user for the programs of a processor."""
    fetch(host(), "qemu", "qemu-user", "libcapstone4", "liburing2")
    return ["env", f"LD_LIBRARY_PATH={libraries('qemu')}", DEB / f"qemu/usr/bin/qemu-{processor}"]
