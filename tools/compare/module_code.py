"""The bodies of functions, as bytes: their locals and their instructions, flat and each with its `end`.

An instruction is a name and its numbers, as ../../vectors/bodies.py has them; the numbers of an access are the
exponent of its alignment and its offset. The names and opcodes are those of that table.
"""
import os
import sys

from module_bytes import Fault

sys.path.append(os.path.join(os.path.dirname(os.path.realpath(__file__)), "../../vectors"))
import bodies  # noqa: E402

MOST_NESTED = 1024
MOST_LOCALS = 4096
FLOATS = {0x2A, 0x2B, 0x38, 0x39, 0x43, 0x44, *range(0x5B, 0x67), *range(0x8B, 0xA7), *range(0xA8, 0xAC),
          *range(0xAE, 0xC0)}
PLAIN = {code: name for name, code in bodies.PLAIN.items()}
PLAIN.update({row[0]: name for name, row in bodies.NUMERIC.items()})
INDEXED = {code: name for name, code in bodies.INDEXED.items()}
LISTS = {code: name for name, code in bodies.LISTS.items()}
ACCESS = {row[0]: name for name, row in bodies.ACCESS.items()}
SIZES = {0x3F: "memory.size", 0x40: "memory.grow"}
CONSTANTS = {0x41: ("i32.const", 32), 0x42: ("i64.const", 64)}


def block_type(source):
    """The results of a block: none, or one value type."""
    if source.at < source.end and source.data[source.at] == 0x40:
        source.at += 1
        return []
    return [source.value_type()]


def labels(source):
    return source.vector(source.unsigned) + [source.unsigned()]


def indirect(source):
    index = source.unsigned()
    source.one_of("Opcode", [0])
    return [index]


def opened(source, opcode, place, nested):
    """A block, loop or if: it is in one list more."""
    if len(nested) == MOST_NESTED:
        raise Fault("Limit", place)
    nested.append(LISTS[opcode])
    return block_type(source)


def closed(opcode, place, nested):
    """An else or an end."""
    if opcode == 0x0B:
        if nested:
            nested.pop()
    elif not nested or nested[-1] != "if":
        raise Fault("Nesting", place)
    else:
        nested[-1] = "else"


def instruction(source, nested):
    """One instruction; `nested` are the lists that are open, the innermost last."""
    place = source.at
    opcode = source.byte()
    if opcode in LISTS:
        return LISTS[opcode], opened(source, opcode, place, nested)
    if opcode in PLAIN:
        if opcode in (0x05, 0x0B):
            closed(opcode, place, nested)
        return PLAIN[opcode], []
    if opcode in INDEXED:
        return INDEXED[opcode], [source.unsigned()]
    if opcode in ACCESS:
        return ACCESS[opcode], [source.unsigned(), source.unsigned()]
    if opcode in CONSTANTS:
        name, bits = CONSTANTS[opcode]
        return name, [source.signed(bits)]
    if opcode in SIZES:
        source.one_of("Opcode", [0])
        return SIZES[opcode], []
    if opcode == 0x0E:
        return "br_table", labels(source)
    if opcode == 0x11:
        return "call_indirect", indirect(source)
    raise Fault("Float" if opcode in FLOATS else "Opcode", place)


def local_runs(source, size_place):
    """Runs of locals: how many, and their type."""
    runs, count = [], 0
    for _ in range(source.unsigned()):
        many = source.unsigned()
        count += many
        if count > MOST_LOCALS:
            raise Fault("Limit", size_place)
        runs.append((many, source.value_type()))
    return runs


def body(section):
    """The locals and the instructions of the next body of a code section."""
    size_place = section.at
    size = section.unsigned()
    if size > section.end - section.at:
        raise Fault("Short", section.end)
    source = section.inner(section.at + size)
    runs, code, nested = local_runs(source, size_place), [], []
    last = False
    while not last:
        outermost = not nested
        code.append(instruction(source, nested))
        last = outermost and code[-1][0] == "end"
    if not source.ends():
        raise Fault("Size", size_place)
    section.at = source.end
    return runs, code
