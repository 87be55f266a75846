"""What a function takes in an object for x86-64: its code and all that it calls, and the constants that this code reads, tables of tables
too."""
import struct

import command

CODE, MERGED = 4, 0x10


def member(archive):
    """The first member of an archive that is an object."""
    data, at = archive.read_bytes(), 8
    while at + 60 <= len(data):
        size = int(data[at + 48:at + 58])
        found = data[at + 60:at + 60 + size]
        if found[:4] == b"\x7fELF":
            return found
        at += 60 + size + size % 2
    return command.stop(f"{archive.name} has no object")


class Object:
    """An object whose functions lie in sections of their own."""

    def __init__(self, archive):
        self.data = member(archive)
        start, = struct.unpack_from("<Q", self.data, 40)
        width, count = struct.unpack_from("<HH", self.data, 58)
        # Of each section its name, kind, flags, address, place, size, two sections that it goes with, and the width of an entry last.
        self.sections = [struct.unpack_from("<IIQQQQIIQQ", self.data, start + width * i) for i in range(count)]
        table = next(s for s in self.sections if s[1] == 2)
        self.symbols = [struct.unpack_from("<IBBHQQ", self.data, at) for at in range(table[4], table[4] + table[5], 24)]
        names = self.sections[table[6]][4]
        self.named = {self.word(names + s[0]): s for s in self.symbols}

    def word(self, at):
        return self.data[at:self.data.index(b"\0", at)].decode()

    def reads(self, section):
        """The sections that a section's code or data names, and where."""
        for s in self.sections:
            if s[1] == 4 and s[7] == section:
                for at in range(s[4], s[4] + s[5], 24):
                    _, info, addend = struct.unpack_from("<QQq", self.data, at)
                    found, value = self.symbols[info >> 32][3:5]
                    # Code names what lies four bytes before the next instruction.
                    yield found, value + addend + 4 * (self.sections[section][2] & CODE == CODE)

    def bytes_of(self, functions):
        """The bytes of code and of constants that some functions take, shared ones once."""
        todo, code, constants = [self.named[f][3] for f in functions], {}, {}
        while todo:
            section = todo.pop()
            flags, size = self.sections[section][2], self.sections[section][5]
            held = code if flags & CODE else constants
            if section in held:
                continue
            held[section] = size
            for found, at in self.reads(section):
                if not 0 < found < len(self.sections):
                    command.stop("the calls name something that is not in their object")
                # Of the numbers that are merged only those that are named count.
                if self.sections[found][2] & MERGED:
                    entry = self.sections[found][9]
                    constants[found, at // entry] = entry
                else:
                    todo.append(found)
        return sum(code.values()), sum(constants.values())
