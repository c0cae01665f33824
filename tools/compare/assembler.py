"""Writes WebAssembly modules from instructions as text, with the names and opcodes of ../../vectors/bodies.py.

The text of a function is words: an instruction and behind it its numbers. In place of an index stands the name of a
global or function; `block`, `loop` and `if` may have a type behind them, a load or store an offset as `+4`, and
`br_table` has its labels as `0,1,2`.
"""
from collections import namedtuple

from module_code import bodies

# A function: the name of its export or None, its parameters and results, its locals and its text.
Function = namedtuple("Function", "name params results locals text")

TYPES = {"i32": 0x7F, "i64": 0x7E}


def unsigned(value):
    return bodies.number(value)


def signed(value, bits):
    """An integer whose lowest bits are these."""
    value %= 1 << bits
    return bodies.signed(value - (1 << bits) if value >> (bits - 1) else value)


def sized(content):
    return unsigned(len(content)) + content


def section(number, items):
    return bytes([number]) + sized(bodies.vector(items)) if items else b""


def access(name, words):
    offset = int(words.pop(0)) if words and words[0].startswith("+") else 0
    opcode, _, exponent, _ = bodies.ACCESS[name]
    return bytes([opcode]) + unsigned(exponent) + unsigned(offset)


def numbers_of(name, words, names):
    """The bytes of an instruction, whose numbers are taken from the words."""
    if name in bodies.PLAIN:
        return bytes([bodies.PLAIN[name]])
    if name in bodies.NUMERIC:
        return bytes([bodies.NUMERIC[name][0]])
    if name in bodies.ACCESS:
        return access(name, words)
    if name in bodies.LISTS:
        return bytes([bodies.LISTS[name], TYPES[words.pop(0)] if words[0] in TYPES else 0x40])
    if name in bodies.INDEXED:
        word = words.pop(0)
        return bytes([bodies.INDEXED[name]]) + unsigned(names[word] if word in names else int(word))
    if name == "br_table":
        *labels, last = map(int, words.pop(0).split(","))
        return bytes([0x0E]) + bodies.vector([unsigned(label) for label in labels]) + unsigned(last)
    if name.endswith(".const"):
        bits = int(name[1:3])
        return bytes([0x41 if bits == 32 else 0x42]) + signed(int(words.pop(0)), bits)
    if name == "call_indirect":
        return b"\x11" + unsigned(int(words.pop(0))) + b"\0"
    if name in ("memory.size", "memory.grow"):
        return bytes([0x3F if name == "memory.size" else 0x40, 0])
    raise ValueError(name)


def code(function, names):
    words = function.text.split() + ["end"]
    out = bodies.vector([unsigned(1) + bytes([TYPES[one]]) for one in function.locals])
    while words:
        out += numbers_of(words.pop(0), words, names)
    return sized(out)


def signature(function):
    return tuple(function.params), tuple(function.results)


def table_sections(entries, names):
    """A table as large as a list of names of functions, and its segments; None where nothing is put."""
    if not entries:
        return b"", b""
    segments = [b"\0\x41" + signed(place, 32) + b"\x0b" + bodies.vector([unsigned(names[name])])
                for place, name in enumerate(entries) if name is not None]
    return section(4, [b"\x70\0" + unsigned(len(entries))]), section(9, segments)


def module(functions, variables, datas, pages=1, start=None, table=()):
    """The bytes of a module. A variable is a name, a type and a value; data are an offset and bytes; the
    memory has the name `memory`; a table has the names of functions."""
    types = list(dict.fromkeys(map(signature, functions)))
    names = {name: place for place, (name, _, _) in enumerate(variables)}
    names.update({one.name: place for place, one in enumerate(functions)})
    out = b"\0asm\1\0\0\0" + section(1, [bodies.func_type(*one) for one in types])
    out += section(3, [unsigned(types.index(signature(one))) for one in functions])
    tables, elements = table_sections(table, names)
    out += tables + section(5, [b"\0" + unsigned(pages)])
    out += section(6, [bytes([TYPES[kind], 1, 0x41 if kind == "i32" else 0x42])
                       + signed(value, int(kind[1:])) + b"\x0b" for _, kind, value in variables])
    exports = [sized(one.name.encode()) + b"\0" + unsigned(place) for place, one in enumerate(functions)]
    out += section(7, [sized(b"memory") + b"\2\0"] + exports)
    if start is not None:
        out += b"\x08" + sized(unsigned(names[start]))
    out += elements + section(10, [code(one, names) for one in functions])
    return out + section(11, [b"\0\x41" + signed(offset, 32) + b"\x0b" + sized(data) for offset, data in datas])
