"""Reading WebAssembly modules of the integer part of version 1.0: a module, or the first thing that can't be read.

The sections and their order, the limits and the places of faults are those of docs/MODULES.md.
"""
from collections import namedtuple

import module_code
from module_bytes import Bytes, Fault

SIZE_LIMIT = 2 ** 22
HEADER = b"\0asm\1\0\0\0"
MOST_PAGES = 256
MOST_ENTRIES = 65536
CUSTOM, TYPES, IMPORTS, FUNCS, TABLES, MEMORIES, GLOBALS, EXPORTS, START, ELEMENTS, CODE, DATAS = range(12)

Constant = namedtuple("Constant", "type value")
Global = namedtuple("Global", "type mutable init")
Export = namedtuple("Export", "name kind index")
Element = namedtuple("Element", "offset funcs")
Data = namedtuple("Data", "offset bytes")


class Module:
    """A module. A type is its parameters and its results; a function its type, runs of locals and code;
    a table and a memory are their least size and their greatest one, or None."""

    def __init__(self):
        self.types = []
        self.type_indices = []
        self.bodies = []
        self.tables = []
        self.memories = []
        self.globals = []
        self.exports = []
        self.start = None
        self.elements = []
        self.datas = []
        self.counted = False  # whether its number of bodies was compared with that of its functions

    @property
    def funcs(self):
        return [(index, *code) for index, code in zip(self.type_indices, self.bodies)]


def function_type(source):
    source.one_of("Form", [0x60])
    return tuple(source.vector(source.value_type)), tuple(source.vector(source.value_type))


def limits(source, most):
    """A least and a greatest size; the least isn't over a limit."""
    has_greatest = source.one_of("Form", [0, 1])
    place = source.at
    least = source.unsigned()
    if least > most:
        raise Fault("Limit", place)
    return least, source.unsigned() if has_greatest else None


def table(source):
    source.one_of("Form", [0x70])
    return limits(source, MOST_ENTRIES)


def constant(source):
    place = source.at
    opcode = source.byte()
    if opcode in (0x43, 0x44):
        raise Fault("Float", place)
    if opcode not in (0x41, 0x42):
        raise Fault("Form", place)
    bits = 32 if opcode == 0x41 else 64
    value = Constant(f"i{bits}", source.signed(bits))
    source.one_of("Form", [0x0B])
    return value


def global_variable(source):
    kind = source.value_type()
    return Global(kind, source.one_of("Form", [0, 1]), constant(source))


def export(source):
    return Export(source.name(), source.one_of("Form", [0, 1, 2, 3]), source.unsigned())


def first_index(source):
    """The index of the table or memory of a segment, which is 0."""
    place = source.at
    if source.unsigned() != 0:
        raise Fault("Form", place)


def element(source):
    first_index(source)
    return Element(constant(source), source.vector(source.unsigned))


def data(source):
    first_index(source)
    return Data(constant(source), source.take(source.unsigned()))


def read_imports(source, place):
    if source.unsigned() > 0:
        raise Fault("Import", place)


def read_code(module, source, place):
    count = source.unsigned()
    if count != len(module.type_indices):
        raise Fault("Count", place)
    module.counted = True
    module.bodies = [module_code.body(source) for _ in range(count)]


VECTORS = {
    TYPES: ("types", function_type), FUNCS: ("type_indices", Bytes.unsigned), TABLES: ("tables", table),
    MEMORIES: ("memories", lambda source: limits(source, MOST_PAGES)), GLOBALS: ("globals", global_variable),
    EXPORTS: ("exports", export), ELEMENTS: ("elements", element), DATAS: ("datas", data),
}


def read_section(module, number, source, place):
    """The content of a section; `place` is that of its number."""
    if number == CUSTOM:
        source.name()
        source.at = source.end
    elif number == IMPORTS:
        read_imports(source, place)
    elif number == START:
        module.start = source.unsigned()
    elif number == CODE:
        read_code(module, source, place)
    else:
        name, item = VECTORS[number]
        setattr(module, name, source.vector(lambda: item(source)))
    if not source.ends():
        raise Fault("Size", place)


def read_header(data):
    if data[:4] != HEADER[:4]:
        raise Fault("Magic", 0)
    if data[4:8] != HEADER[4:]:
        raise Fault("Version", 4)


def read(data):
    """The module of these bytes."""
    if len(data) > SIZE_LIMIT:
        raise Fault("Size", SIZE_LIMIT)
    read_header(data)
    module, source, last = Module(), Bytes(data, 8, len(data)), 0
    while not source.ends():
        place = source.at
        number = source.byte()
        if number > DATAS:
            raise Fault("Section", place)
        if number != CUSTOM and number <= last:
            raise Fault("Order", place)
        last = max(last, number)
        size = source.unsigned()
        end = source.at + size
        if end > len(data):
            raise Fault("Short", end)
        read_section(module, number, source.inner(end), place)
        source.at = end
    if not module.counted and module.type_indices:
        raise Fault("Count", len(data))
    return module
