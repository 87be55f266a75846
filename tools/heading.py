"""`./gateweave heading`: replays a log by call 95 of the proved program `beside`, which looks at no magnetometer, and prints seconds and
headings, which are call 49 of yaw's point. Refusals are said as `replay` says them.

usage: tools/heading.py BESIDE.. 4< LOG   the words are those of the command that runs `beside`

docs/FORMATS.md has the log and the script. `beside` answers a block of 64 calls at once, so a block that is not full is filled up.
"""
import contextlib
import os
import struct
import subprocess
import sys

sys.dont_write_bytecode = True
import command  # noqa: E402
import f32  # noqa: E402

HEADER, RECORD = 30, 38
# Where the log comes from.
INPUT = 4
# How many calls `beside` reads before it answers, and the bytes of one. The answers of a block have room in any pipe.
BLOCK, CALL = 64, 64
# No answer that is asked for has a longer line.
LINE = 64
# The call for the size of a float, which fills a block, and the three that are asked; the state is not printed after them.
FILL, START, UPDATE, ANGLE = 0x41, 0x180, 0x195, 0x49
ACCEPTED = "0"


class Refused(Exception):
    """The number of a refusal, and what is refused."""


class Beside:
    """The proved program, asked block by block."""

    def __init__(self, words):
        # What it says of a refusal is of the script, and is said here of the log.
        self.process = subprocess.Popen(words, stdin=subprocess.PIPE, stdout=subprocess.PIPE, stderr=subprocess.DEVNULL)

    def answers(self, calls):
        """The words of each answer; of an accepted one the first is 0."""
        script = b"".join(call.ljust(CALL, b"\0") for call in calls) + struct.pack("<I60x", FILL) * (BLOCK - len(calls))
        with contextlib.suppress(BrokenPipeError):
            self.process.stdin.write(script)
            self.process.stdin.flush()
        return [self.words(k) for k in range(BLOCK)][:len(calls)]

    def words(self, before):
        """The words of the next line, so many of the block being read."""
        line = self.process.stdout.readline(LINE)
        if not line.endswith(b"\n"):
            command.stop(f"beside answered {before} of {BLOCK} calls")
        return line.decode("ascii", "replace").split()


class Log:
    """What is read, of which what has come is handed on at once."""

    def __init__(self):
        self.held = b""

    def more(self):
        """Whether more has come, and not the end."""
        came = os.read(INPUT, BLOCK * RECORD)
        self.held += came
        return came != b""

    def taken(self, size):
        part, self.held = self.held[:size], self.held[size:]
        return part

    def header(self):
        while len(self.held) < HEADER and self.more():
            pass
        return self.taken(HEADER)

    def records(self):
        """The whole records that have come, a block at most; what is left at the end is a short one, and nothing is none."""
        while len(self.held) < RECORD and self.more():
            pass
        whole = min(len(self.held) // RECORD, BLOCK)
        return [self.taken(RECORD) for _ in range(whole)] or [part for part in (self.taken(RECORD),) if part]


def started(beside, header):
    """Starts the filter with a header's settings; the records a second."""
    number = 1 if len(header) < HEADER else 2 if header[:3] != b"IMU" else 3 if header[3:5] != b"\1\0" else 0
    if number:
        raise Refused(number, "the header")
    convention, (rate, gain, overrange, acceleration, magnetic, timeout) = header[5], struct.unpack_from("<6I", header, 6)
    call = struct.pack("<8I", START, rate, convention, gain, overrange, acceleration, magnetic, timeout)
    answer, = beside.answers([call])
    if answer[0] != ACCEPTED:
        raise Refused(int(answer[1]), "the header")
    return f32.value(rate)


def rounded(x):
    """The f32 nearest to a float of Python; a sum, difference or product of two f32 is then as f32 arithmetic has it."""
    return f32.value(f32.bits(x))


def point(w, x, y, z):
    """The call for the angle of yaw's point, each operation rounded in the Rust's order."""
    across = rounded(rounded(w * z) + rounded(x * y))
    along = rounded(rounded(0.5 - rounded(y * y)) - rounded(z * z))
    return struct.pack("<I2f", ANGLE, across, along)


def shown(quaternion, angle):
    """A heading in degrees, above -180 and at most 180; a quaternion of zero, which readings of huge size can leave, points nowhere."""
    if not any(quaternion):
        return "none"
    text = f"{angle:.2f}"
    return {"-0.00": "0.00", "-180.00": "180.00"}.get(text, text)


def number_of(record, last):
    """The refusal of a record by its length and its sequence number, or 0."""
    if len(record) < RECORD:
        return 1
    return 8 if last is not None and int.from_bytes(record[:2], "little") != (last + 1) % 65536 else 0


def sound(records, last):
    """The records before the first that is refused by its length or its sequence number, and that refusal's number or 0."""
    for k, record in enumerate(records):
        if number := number_of(record, last):
            return records[:k], number
        last = int.from_bytes(record[:2], "little")
    return records, 0


def headings(beside, records):
    """The heading after each record, and the number of the first refusal among them or 0."""
    answers = beside.answers([struct.pack("<I", UPDATE) + record[2:26] for record in records])
    accepted = next((k for k, answer in enumerate(answers) if answer[0] != ACCEPTED), len(answers))
    quaternions = [[f32.value(int(word, 16)) for word in answer[1:]] for answer in answers[:accepted]]
    angles = [f32.value(int(word, 16)) for _, word in beside.answers([point(*q) for q in quaternions])]
    return list(map(shown, quaternions, angles)), int(answers[accepted][1]) if accepted < len(answers) else 0


def replayed(beside, log):
    """Prints a line for each record, as soon as it has come."""
    rate, done, last = started(beside, log.header()), 0, None
    while records := log.records():
        records, broken = sound(records, last)
        lines, refused = headings(beside, records)
        for k, line in enumerate(lines, done + 1):
            print(f"{k / rate:.3f} {line}")
        done += len(lines)
        if refused or broken:
            raise Refused(refused or broken, f"record {done + 1}")
        sys.stdout.flush()
        last = int.from_bytes(records[-1][:2], "little")


def main():
    beside = Beside(sys.argv[1:])
    try:
        replayed(beside, Log())
    except Refused as refusal:
        number, place = refusal.args
        print(f"refused {number}")
        sys.stdout.flush()
        command.say(f"heading: refused {number} in {place}")
    return 0


if __name__ == "__main__":
    # What is said is said as the verb's.
    sys.argv[0] = "gateweave"
    command.run(main)
