"""What the tools share as commands: their arguments, their last words, and an output that fails in words. No tool shows a traceback.

A tool's `main` is run by `run(main)`. Status 2 goes with one line on standard error, `NAME: words`; an interrupt is status 130; a
reader that has gone ends the tool as it ends any other, by SIGPIPE. Python alone is needed.
"""
import argparse
import io
import os
import pathlib
import select
import signal
import sys

# A seed is 64 bits.
SEEDS = (1 << 64) - 1


def say(message):
    """A line on standard error, which may be closed or full."""
    try:
        print(message, file=sys.stderr or io.StringIO(), flush=True)
    except OSError:
        pass


def stop(message):
    """One line, whatever the message has, and the status that says that what was asked for was not done."""
    line = "".join(c if c.isprintable() else ascii(c)[1:-1] for c in " ".join(message.split("\n")))
    say(f"{pathlib.Path(sys.argv[0]).name}: {line[:1000]}")
    sys.exit(2)


def told(error):
    """An error of the system in words, with the file where there is one."""
    words = error.strerror or str(error)
    return f"{error.filename}: {words}" if error.filename else words


class Output(io.FileIO):
    """Standard output. Where it cannot be written, the tool ends here."""

    def write(self, data):
        try:
            # None is an output that does not block, and has no room yet.
            while (count := super().write(data)) is None:
                select.select([], [self], [])
            return count
        except OSError as error:
            self.forget()
            if isinstance(error, BrokenPipeError):
                signal.signal(signal.SIGPIPE, signal.SIG_DFL)
                os.kill(os.getpid(), signal.SIGPIPE)
            stop(f"standard output was not written: {told(error)}")

    def forget(self):
        """From here on nothing is written, and nothing waits or fails for it."""
        os.dup2(os.open(os.devnull, os.O_WRONLY), self.fileno())


def run(main):
    """Runs a tool. What its `main` answers is the status; what it has printed is written before the tool ends."""
    if sys.stdout is None:
        stop("standard output is closed")
    output = Output(sys.stdout.fileno(), "w", closefd=False)
    sys.stdout = io.TextIOWrapper(io.BufferedWriter(output), sys.stdout.encoding, "backslashreplace", line_buffering=output.isatty())
    try:
        try:
            status = main()
        except SystemExit as end:
            status = end.code
        sys.stdout.flush()
    except KeyboardInterrupt:
        output.forget()
        status = 130
    except OSError as error:
        stop(told(error))
    sys.exit(status)


def whole(least, most):
    """An argument's type: a whole number in decimal digits, from `least` to `most`."""
    def read(text):
        # Twenty digits hold 64 bits; more are not worth reading.
        if text.isascii() and text.isdecimal() and len(text) <= 20 and least <= int(text) <= most:
            return int(text)
        raise argparse.ArgumentTypeError(f"takes a whole number from {least:,} to {most:,}, not {text[:40]!r}")
    return read


def path(text):
    if not text:
        raise argparse.ArgumentTypeError("takes a path, not nothing")
    return pathlib.Path(text)


class Once(argparse.Action):
    """An option that is given at most once. The parser notes which were."""

    def __call__(self, parser, namespace, value, option=None):
        if option in parser.seen:
            parser.error(f"{option} is given twice")
        parser.seen.append(option)
        setattr(namespace, self.dest, True if self.nargs == 0 else value)


class Arguments(argparse.ArgumentParser):
    """A tool's options. Its `--help` is the text at the tool's top; what it does not take is refused in one line."""

    def __init__(self, text):
        super().__init__(add_help=False, allow_abbrev=False)
        self.text, self.seen = text, []
        self.register("action", None, Once)

    def error(self, message):
        stop(f"{message}: see tools/{pathlib.Path(sys.argv[0]).name} --help")

    def read(self):
        if any(word in ("-h", "--help") for word in sys.argv[1:]):
            print(self.text.strip())
            sys.exit(0)
        return self.parse_args()

    def only(self, option, *with_it):
        """Refuses what is given beside the option and does not go with it."""
        others = [o for o in self.seen if o not in (option, *with_it, "--rust", "--libm")]
        if option in self.seen and others:
            self.error(f"{option} and {others[0]} exclude each other")

    def apart(self, *options):
        """Refuses the options given beside the first of these that is."""
        for option in options:
            others = [o for o in self.seen if o != option and o not in ("--rust", "--libm")]
            if option in self.seen and others:
                self.error(f"{option} and {others[0]} exclude each other")
