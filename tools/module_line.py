#!/usr/bin/env python3
"""Writes the line of `bench wasm` for valid WebAssembly modules of integers (Core 1.0, section 5).

Run: tools/module_line.py FILE... It looks for no faults and takes nothing from the crates: tools/modules.sh compares the two."""
import sys

# What follows an opcode: "u" an unsigned number, "s" a signed one, "t" a byte, "z" a byte 00.
FOLLOWS = {0x02: "t", 0x03: "t", 0x04: "t", 0x0C: "u", 0x0D: "u", 0x10: "u", 0x11: "uz", 0x3F: "z", 0x40: "z", 0x41: "s", 0x42: "s"}
FOLLOWS.update({opcode: "u" for opcode in range(0x20, 0x25)})  # locals and globals
FOLLOWS.update({opcode: "uu" for opcode in range(0x28, 0x3F)})  # loads and stores


def unsigned_len(number):
    """The bytes of the shortest spelling of an unsigned number."""
    return max(1, -(-number.bit_length() // 7))


def signed_len(number):
    """The bytes of the shortest spelling of a signed number: one bit is the sign's."""
    bits = (number if number >= 0 else ~number).bit_length() + 1
    return -(-bits // 7)


class Reader:
    """Reads items from left to right and sums up what their shortest spellings take."""

    def __init__(self, data):
        self.data, self.at, self.shortest = data, 0, 0

    def byte(self):
        self.at += 1
        self.shortest += 1
        return self.data[self.at - 1]

    def raw(self):
        """A number in 7-bit groups, the lowest first, and how many bits stand there."""
        number = bits = 0
        while True:
            byte = self.data[self.at]
            self.at += 1
            number |= (byte & 0x7F) << bits
            bits += 7
            if byte < 0x80:
                return number, bits

    def unsigned(self):
        number, _ = self.raw()
        self.shortest += unsigned_len(number)
        return number

    def signed(self):
        number, bits = self.raw()
        number -= (number >> (bits - 1)) << bits
        self.shortest += signed_len(number)
        return number

    def vector(self, item):
        count = self.unsigned()
        for _ in range(count):
            item()
        return count

    def bytes(self):
        count = self.unsigned()
        self.at += count
        self.shortest += count

    def limits(self):
        if self.byte() == 1:
            self.unsigned()
        self.unsigned()

    def constant(self):
        self.code()

    def code(self):
        """Instructions up to the end that closes them."""
        depth = 1
        while depth > 0:
            opcode = self.byte()
            if opcode in (0x02, 0x03, 0x04):
                depth += 1
            elif opcode == 0x0B:
                depth -= 1
            elif opcode == 0x0E:
                self.vector(self.unsigned)
                self.unsigned()
            for kind in FOLLOWS.get(opcode, ""):
                {"u": self.unsigned, "s": self.signed, "t": self.byte, "z": self.byte}[kind]()

    def locals(self):
        """Runs of locals; neighbours of one type are joined, and runs of none are left out."""
        runs = []
        for _ in range(self.raw()[0]):
            count, kind = self.raw()[0], self.data[self.at]
            self.at += 1
            if count > 0 and runs and runs[-1][1] == kind:
                runs[-1][0] += count
            elif count > 0:
                runs.append([count, kind])
        self.shortest += unsigned_len(len(runs)) + sum(unsigned_len(count) + 1 for count, _ in runs)

    def body(self):
        self.raw()
        before = self.shortest
        self.locals()
        self.code()
        self.shortest += unsigned_len(self.shortest - before)


def line(data):
    reader, counts, start = Reader(data), {}, "-"
    reader.at = reader.shortest = 8
    items = {
        1: lambda: (reader.byte(), reader.vector(reader.byte), reader.vector(reader.byte)),
        3: reader.unsigned,
        4: lambda: (reader.byte(), reader.limits()),
        5: reader.limits,
        6: lambda: (reader.byte(), reader.byte(), reader.constant()),
        7: lambda: (reader.bytes(), reader.byte(), reader.unsigned()),
        9: lambda: (reader.unsigned(), reader.constant(), reader.vector(reader.unsigned)),
        10: reader.body,
        11: lambda: (reader.unsigned(), reader.constant(), reader.bytes()),
    }
    while reader.at < len(data):
        section = data[reader.at]
        reader.at += 1
        size = reader.raw()[0]
        if section == 0:
            reader.at += size
            continue
        before = reader.shortest
        if section == 8:
            start = reader.unsigned()
        else:
            counts[section] = reader.vector(items.get(section))
        if counts.get(section) == 0:
            reader.shortest = before
        else:
            reader.shortest += 1 + unsigned_len(reader.shortest - before)
    names = {1: "types", 3: "funcs", 4: "tables", 5: "memories", 6: "globals", 7: "exports", 8: "start", 9: "elems", 11: "datas"}
    words = [f"{name} {start if section == 8 else counts.get(section, 0)}" for section, name in names.items()]
    return " ".join(words + [f"size {reader.shortest}"])


if __name__ == "__main__":
    for name in sys.argv[1:]:
        with open(name, "rb") as file:
            print(line(file.read()))
