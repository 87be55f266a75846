"""f32 in Python: the bits that a decimal number has as one, and the decimal number that bits are shown as."""
import re
import struct
from fractions import Fraction

INFINITY = 0x7F80_0000
MINUS = 0x8000_0000
NUMBER = re.compile("[+-]?([0-9]{1,60}[.]?|[0-9]{0,60}[.][0-9]{1,60})(e[+-]?[0-9]{1,4})?", re.I | re.A)
OTHER = re.compile("[+-]?(nan|inf|infinity)", re.I)


def bits(value):
    """The bits of the f32 nearest to a float of Python; beyond the largest, an infinity's."""
    try:
        return int.from_bytes(struct.pack("<f", value), "little")
    except OverflowError:
        return INFINITY | (MINUS if value < 0 else 0)


def value(pattern):
    return struct.unpack("<f", pattern.to_bytes(4, "little"))[0]


def read(text):
    """The bits of the f32 nearest to a decimal number, the even one at a tie; none where the text is no number."""
    if OTHER.fullmatch(text):
        return bits(float(text))
    if not NUMBER.fullmatch(text):
        return None
    # A float of Python is already rounded, so the f32 beside its own may be nearer to the text.
    near, exact = bits(float(text)), abs(Fraction(text))
    size = near & ~MINUS
    if size == INFINITY:
        return near
    beside = (pattern for pattern in (size - 1, size, size + 1) if 0 <= pattern < INFINITY)
    return near & MINUS | min(beside, key=lambda pattern: (abs(Fraction(value(pattern)) - exact), pattern & 1))


def shown(pattern):
    """The shortest decimal number that is read as the f32 with these bits, which is finite; a power of ten as Rust writes it."""
    text = next(text for text in (f"{value(pattern):.{digits}g}" for digits in range(1, 10)) if bits(float(text)) == pattern)
    return re.sub("e[+]?(-?)0*", r"e\1", text)
