"""The Rust with the port's own functions in the place of libm's: a crate `libm` that is Debian's but for them (tools/oracle/libm.rs), and a
copy of the Rust in which what goes to one of them stays in degrees."""
import build
import command

# Each place of the Rust where degrees become radians for one of them: the file, what stands there, and what does in the copy.
KEPT = (
    ("ahrs.rs", "libm::sinf(degrees * DEG_TO_RAD)", "libm::sinf(degrees)"),
    ("ahrs.rs", "0.5 * (yaw - heading * DEG_TO_RAD)", "0.5 * (yaw - heading)"),
    ("ahrs.rs", "let heading_radians = heading * DEG_TO_RAD;", "let heading_radians = heading;"),
)


def rust(sources, into):
    """The Rust's files, in which nothing else is changed."""
    build.laid_out(sources, into)
    for file, old, new in KEPT:
        path = into / "src" / file
        text = path.read_text("utf-8")
        if text.count(old) != 1:
            command.stop(f"a place stands {text.count(old)} times in the Rust's {file}: {old}")
        path.write_text(text.replace(old, new), "utf-8")
    return into


def libm(rustc, root, export, into):
    """Compiles libm over its own source and an export, into a folder; the option by which others are compiled over it."""
    real = build.library(rustc, "real_libm", "2018", root, into)
    # Under another name than its own, for beside it a program may have an export with a fault.
    port = build.library(rustc, "port", "2024", export / "src/lib.rs", into)
    return build.library(rustc, "libm", "2024", build.ORACLE / "libm.rs", into, *real, *port)
