#!/usr/bin/env python3
"""Writes large WebAssembly modules, for tools/speed_modules.sh.

Run: tools/big_modules.py KIND BYTES FILE   a valid module of KIND with at most BYTES bytes, and almost as many
     tools/big_modules.py counts FOLDER     modules that state a count of 2^32 - 1 with few bytes behind it; prints
                                            for each its name, and the cause and the place of its refusal
KIND is one of: constants nops nested locals data segments functions exports
"""
import sys

HEADER = b"\0asm\1\0\0\0"
NO_TYPE = b"\x01\x60\0\0"  # the content of a type section: one type, without parameters or results
MOST = b"\xff\xff\xff\xff\x0f"  # 2^32 - 1


def number(value):
    """The shortest spelling of an unsigned number (WebAssembly Core 1.0, section 5.2.2)."""
    groups = []
    while value >= 0x80:
        groups.append(value & 0x7F | 0x80)
        value >>= 7
    return bytes(groups + [value])


def sized(content):
    return number(len(content)) + content


def section(identifier, content):
    return bytes([identifier]) + sized(content)


def vector(items):
    return number(len(items)) + b"".join(items)


def functions(body, count):
    """Functions of one type with one and the same body."""
    return section(3, vector([b"\0"] * count)) + section(10, vector([sized(body)] * count))


def one_body(code):
    return HEADER + section(1, NO_TYPE) + functions(b"\0" + code + b"\x0b", 1)


def many_bodies(body, count):
    return HEADER + section(1, NO_TYPE) + functions(body, count)


def with_memory(segments):
    return HEADER + section(5, b"\1\1\x80\2\x80\2") + section(11, vector(segments))


# Each is a function of how often its part stands in the module.
KINDS = {
    # an i64.const of seven bytes and a drop: four bytes for each instruction
    "constants": lambda count: one_body(b"\x42\xff\xff\xff\xff\xff\x07\x1a" * count),
    # an instruction of one byte
    "nops": lambda count: one_body(b"\x01" * count),
    # bodies whose lists nest as deep as they may
    "nested": lambda count: many_bodies(b"\0" + b"\x02\x40" * 1023 + b"\x0b" * 1024, count),
    # functions with 4,096 locals in one run: seven bytes for each
    "locals": lambda count: many_bodies(b"\1\x80\x20\x7f\x0b", count),
    # data segments of 65,000 bytes
    "data": lambda count: with_memory([b"\0\x41\0\x0b" + sized(bytes(range(250)) * 260)] * count),
    # data segments without bytes: five bytes for each
    "segments": lambda count: with_memory([b"\0\x41\0\x0b\0"] * count),
    # functions without code: four bytes for each
    "functions": lambda count: many_bodies(b"\0\x0b", count),
    # exports of one function, under names of five letters
    "exports": lambda count: HEADER + section(1, NO_TYPE) + section(3, b"\1\0")
    + section(7, vector([b"\5" + name_of(index) + b"\0\0" for index in range(count)])) + section(10, b"\1\2\0\x0b"),
}


def name_of(index):
    return bytes(97 + index // 26**place % 26 for place in range(5))


def largest(kind, limit):
    """The module with as many parts as fit into so many bytes."""
    part = (len(kind(20)) - len(kind(10))) // 10
    count = (limit - len(kind(0))) // part
    while len(kind(count)) > limit:
        count -= 1
    return kind(count)


def counts():
    """Modules that state a count of 2^32 - 1: the bytes, and the cause and the place of the refusal."""
    before = HEADER + section(1, NO_TYPE)
    body = before + section(3, b"\1\0")
    memory = HEADER + section(5, b"\1\0\1")
    few = b"\0\0\0\0"
    ends = {
        "types": HEADER + section(1, MOST + b"\x60\0\0"),
        "parameters": HEADER + section(1, b"\1\x60" + MOST + b"\x7f\x7f"),
        "results": HEADER + section(1, b"\1\x60\0" + MOST + b"\x7f\x7f"),
        "functions": before + section(3, MOST + few),
        "tables": HEADER + section(4, MOST + b"\x70\0\1"),
        "memories": HEADER + section(5, MOST + b"\0\1"),
        "globals": HEADER + section(6, MOST + b"\x7f\0\x41\0\x0b"),
        "exports": body + section(7, MOST + b"\1a\0\0"),
        "name": body + section(7, b"\1" + MOST + few),
        "elements": HEADER + section(4, b"\1\x70\0\1") + section(9, MOST + b"\0\x41\0\x0b\0"),
        "indices": HEADER + section(4, b"\1\x70\0\1") + section(9, b"\1\0\x41\0\x0b" + MOST + few),
        "runs": body + section(10, b"\1" + sized(MOST + b"\1\x7f")),
        "labels": body + section(10, b"\1" + sized(b"\0\x0e" + MOST + few)),
        "segments": memory + section(11, MOST + b"\0\x41\0\x0b\0"),
        "bytes": memory + section(11, b"\1\0\x41\0\x0b" + MOST + few),
    }
    for name, data in ends.items():
        yield name, data, "Short", len(data)
    # The number of bodies isn't that of the functions; a body has too many locals; there are imports.
    yield "bodies", body + section(10, MOST + b"\2\0\x0b"), "Count", len(body)
    yield "locals", body + section(10, b"\1" + sized(b"\1" + MOST + b"\x7f\x0b")), "Limit", len(body) + 3
    yield "imports", HEADER + section(2, MOST + few), "Import", len(HEADER)
    # The sizes of a section and of a body.
    yield "section", HEADER + b"\1" + MOST + NO_TYPE, "Short", len(HEADER) + 6 + 2**32 - 1
    yield "body", body + section(10, b"\1" + MOST + b"\0\x0b"), "Short", len(body) + 10


def main(words):
    if len(words) == 2 and words[0] == "counts":
        for name, data, cause, place in counts():
            with open(f"{words[1]}/{name}.wasm", "wb") as file:
                file.write(data)
            print(name, cause, place)
    elif len(words) == 3 and words[0] in KINDS and words[1].isdecimal():
        with open(words[2], "wb") as file:
            file.write(largest(KINDS[words[0]], int(words[1])))
    else:
        sys.exit(__doc__)


if __name__ == "__main__":
    main(sys.argv[1:])
