"""Builds the second oracle under target/beside/degrees: the same program over the Rust with the port's sine, cosine and angle in
place."""
import build
import command
import inplace
import native

BUILD = build.BUILD / "degrees"


def oracle(sources, libm):
    """Builds all that is not built yet, and answers the oracle's path."""
    build.needs_rustc()
    rust, export = BUILD / "fusion-ahrs", BUILD / "gateweave"
    with build.alone():
        inplace.rust(sources, rust)
        native.exported(export)
        root = build.libm(libm)
        stamp, now = BUILD / "stamp", build.print_of(rust, export, build.ORACLE, root.parent)
        if not (stamp.is_file() and stamp.read_text() == now and (BUILD / "oracle").is_file()):
            command.say("building the Rust with the port's functions in place, and the oracle over it ..")
            stamp.unlink(missing_ok=True)
            inplace.libm(["rustc"], root, export, BUILD)
            build.crate(rust, BUILD, over=BUILD)
            stamp.write_text(now)
        return BUILD / "oracle"
