"""The two ends of `./gateweave limit`, which holds the proved program `beside` between them, and speaks as it does.

usage: tools/limit.py calls ANGLE..   writes a script: for each angle a call that starts the filter with it as its limits
       tools/limit.py lines ANGLE..   reads the lines of that script's answers, and prints for each angle the limit in use

docs/FORMATS.md has the script and the state's words.
"""
import struct
import sys

sys.dont_write_bytecode = True
import command  # noqa: E402
import f32  # noqa: E402

# The start by angles, and where in the state's words the acceleration's limit in use stands.
START, IN_USE = 0x90, 12


def call(text):
    """A start with an angle for both limits; with a gain or a timeout of 0 the limits in use would be off."""
    angle = f32.read(text)
    if angle is None:
        command.stop(f"limit takes angles in degrees, not {text[:40]!r}: see ./gateweave limit --help")
    rate, convention, gain, overrange, timeout = 100, 0, 0.5, 0, 5
    return struct.pack("<IfI2f2If", START, rate, convention, gain, overrange, angle, angle, timeout).ljust(64, b"\0")


def line(text, answer):
    """An angle's line: the bits of its limit and the number that they are, or the refusal."""
    said, _, state = answer.partition(" /")
    if said != "0":
        return f"{text} {said}"
    word = state.split()[IN_USE]
    return f"{text} {word} {f32.shown(int(word, 16))}"


def main():
    end, *angles = sys.argv[1:]
    if end == "calls":
        sys.stdout.buffer.write(b"".join(map(call, angles)))
        return 0
    answers = sys.stdin.buffer.read().decode("ascii", "replace").splitlines()
    if len(answers) != len(angles):
        command.stop(f"beside answered {len(answers)} of {len(angles)} calls")
    print("\n".join(map(line, angles, answers)))
    return 0


if __name__ == "__main__":
    # What is said is said as the verb's.
    sys.argv[0] = "gateweave"
    command.run(main)
