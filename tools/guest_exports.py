#!/usr/bin/env python3
"""Whether modules export what a unit has: a second reading of docs/GUESTS.md, which takes nothing from the crates.

Run: tools/guest_exports.py FILE..   prints a line for each module: `bound`, or the first row that is missing or of
                                     another kind or type, as `Missing 3`. The modules are valid.
"""
import sys

I32, I64 = 0x7F, 0x7E
STATUS = (), (I32,)
REFERENCE = (I32,), (I32,)
PAIR = (I32, I32), (I32,)
ROWS = [
    ("memory", None),
    ("bench_area", REFERENCE),
    ("fmi3InstantiateCoSimulation", STATUS),
    ("fmi3EnterInitializationMode", STATUS),
    ("fmi3ExitInitializationMode", STATUS),
    ("fmi3EnterEventMode", STATUS),
    ("fmi3EnterStepMode", STATUS),
    ("fmi3SetClock", PAIR),
    ("fmi3SetBinary", PAIR),
    ("fmi3GetClock", REFERENCE),
    ("fmi3GetBinary", REFERENCE),
    ("fmi3UpdateDiscreteStates", STATUS),
    ("fmi3GetIntervalFraction", REFERENCE),
    ("fmi3DoStep", ((I64, I64), (I32,))),
    ("fmi3Terminate", STATUS),
    ("fmi3FreeInstance", ((), ())),
]


class Reader:
    def __init__(self, data):
        self.data, self.at = data, 0

    def byte(self):
        self.at += 1
        return self.data[self.at - 1]

    def number(self):
        """An unsigned number (WebAssembly Core 1.0, section 5.2.2)."""
        value, shift = 0, 0
        while True:
            group = self.byte()
            value |= (group & 0x7F) << shift
            shift += 7
            if group < 0x80:
                return value

    def take(self, count):
        self.at += count
        return self.data[self.at - count : self.at]

    def vector(self, item):
        return [item() for _ in range(self.number())]

    def sized(self):
        return self.take(self.number())

    def function_type(self):
        self.byte()
        return tuple(self.vector(self.byte)), tuple(self.vector(self.byte))

    def export(self):
        return self.sized().decode(), self.byte(), self.number()


def sections(data):
    reader = Reader(data[8:])
    found = {}
    while reader.at < len(reader.data):
        identifier = reader.byte()
        found[identifier] = reader.sized()
    return found


def first_fault(data):
    found = sections(data)
    none = b"\0"
    types = Reader(found.get(1, none))
    types = types.vector(types.function_type)
    functions = Reader(found.get(3, none))
    functions = functions.vector(functions.number)
    exports = Reader(found.get(7, none))
    exports = {name: (kind, index) for name, kind, index in exports.vector(exports.export)}
    for row, (name, asked) in enumerate(ROWS):
        if name not in exports:
            return f"Missing {row}"
        kind, index = exports[name]
        fits = kind == 2 if asked is None else kind == 0 and types[functions[index]] == asked
        if not fits:
            return f"Signature {row}"
    return "bound"


for name in sys.argv[1:]:
    with open(name, "rb") as file:
        print(first_fault(file.read()))
