"""What a module has to be behind its reading: valid, with segments that fit, and with what a unit exports.

Its validity is found by ../../vectors/bodies.py, after the algorithm of the standard's appendix.
"""
from module_code import bodies

PAGE = 65536
FUNCTION, MEMORY = 0, 2
I32, I64 = "i32", "i64"
STATUS = (), (I32,)
REFERENCE = (I32,), (I32,)
PAIR = (I32, I32), (I32,)
# The name of each row, and the type of its function, or None for the memory.
ROWS = [
    (b"memory", None),
    (b"bench_area", REFERENCE),
    (b"fmi3InstantiateCoSimulation", STATUS),
    (b"fmi3EnterInitializationMode", STATUS),
    (b"fmi3ExitInitializationMode", STATUS),
    (b"fmi3EnterEventMode", STATUS),
    (b"fmi3EnterStepMode", STATUS),
    (b"fmi3SetClock", PAIR),
    (b"fmi3SetBinary", PAIR),
    (b"fmi3GetClock", REFERENCE),
    (b"fmi3GetBinary", REFERENCE),
    (b"fmi3UpdateDiscreteStates", STATUS),
    (b"fmi3GetIntervalFraction", REFERENCE),
    (b"fmi3DoStep", ((I64, I64), (I32,))),
    (b"fmi3Terminate", STATUS),
    (b"fmi3FreeInstance", ((), ())),
]


class Fails(Exception):
    """The first check that fails: its name, its place and the place within that."""

    def __init__(self, why, place, at=0):
        super().__init__(why, place, at)
        self.why = why
        self.place = place
        self.at = at


def for_validity(module):
    """The module in the form of vectors/bodies.py."""
    return {
        "types": module.types,
        "funcs": module.funcs,
        "tables": module.tables,
        "memories": module.memories,
        "globals": [(one.type, one.mutable, one.init.type) for one in module.globals],
        "exports": [(one.name, one.kind, one.index) for one in module.exports],
        "start": module.start,
        "elements": [(one.offset.type, one.funcs) for one in module.elements],
        "datas": [(one.offset.type, one.bytes) for one in module.datas],
    }


def check_validity(module):
    found = bodies.first_failing(for_validity(module))
    if found:
        raise Fails(*found)


def check_segments(module):
    entries = module.tables[0][0] if module.tables else 0
    for place, element in enumerate(module.elements):
        if element.offset.value + len(element.funcs) > entries:
            raise Fails("Segment", place, 0)
    size = module.memories[0][0] * PAGE if module.memories else 0
    for place, data in enumerate(module.datas):
        if data.offset.value + len(data.bytes) > size:
            raise Fails("Segment", place, 1)


def check_exports(module):
    exports = {export.name: export for export in module.exports}
    for row, (name, asked) in enumerate(ROWS):
        if name not in exports:
            raise Fails("Missing", row)
        export = exports[name]
        if asked is None:
            fits = export.kind == MEMORY
        else:
            fits = export.kind == FUNCTION and module.types[module.type_indices[export.index]] == asked
        if not fits:
            raise Fails("Signature", row)


def check(module):
    """The checks in their order."""
    check_validity(module)
    check_segments(module)
    check_exports(module)
