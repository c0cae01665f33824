#!/usr/bin/env python3
"""WebAssembly modules, and what reading each of them gives, after the binary format of version 1.0.

Each module is written out by hand, byte by byte, with the place of its first fault marked in it, or with its
parts. Nothing is taken from the Rattle crates. Run in this folder: it writes the cases cases/module_cases/modules.txt,
and write_cases.py what the program of cases then reads and must print.

A module is written as bytes in hexadecimal; `{ .. }` is a size, in as few bytes as it needs, and so many bytes;
`BYTES*N` is a run; `@` marks the place of the fault; round brackets only help the eye; `MODULE` is the header,
`BODY{ .. }` a function section of one function and a code section with its body.
"""
import re


def number(value):
    """A u32 in as few bytes as it needs."""
    out = []
    while value > 0x7F:
        out.append(value & 0x7F | 0x80)
        value >>= 7
    return out + [value]


def assembled(words):
    """The bytes up to the brace that closes them, and the mark among them."""
    out = []
    while words and (word := words.pop(0)) != "}":
        if word == "{":
            inner = assembled(words)
            out += number(len(inner) - inner.count("@")) + inner
        elif word == "@":
            out.append(word)
        elif word not in "()":
            unit, _, times = word.partition("*")
            out += list(bytes.fromhex(unit)) * int(times or 1)
    return out


def module(source):
    """The bytes, and the place that is marked in them, if there is one."""
    source = re.sub(r"BODY\{(.*)\}", r"03 { 01 00 } 0A { 01 { \1 } }", source.replace("MODULE", "0061736D 01000000"))
    out = assembled(re.findall(r"[{}()@]|[0-9A-F]+(?:\*\d+)?", source))
    return bytes(byte for byte in out if byte != "@"), out.index("@") if "@" in out else None


def in_runs(data):
    """The bytes in hexadecimal, and each 64 or more like ones or like pairs as a run."""
    run = re.compile(rb"(..??)\1{63,}", re.DOTALL)
    out, done = [], 0
    for found in run.finditer(data):
        unit = found.group(1)
        out += [data[done : found.start()].hex(), "%s*%d" % (unit.hex(), len(found.group()) // len(unit))]
        done = found.end()
    return " ".join(filter(None, out + [data[done:].hex()]))


# Rows by what they are about: name, module, and the first fault, with its place where that isn't marked; or the
# parts that are there, and of each body its locals and its instructions, with else and end.
ROWS = """
# headers
no bytes: @ = Magic
three bytes of the header: @ 00 61 73 = Magic
an archive: @ 50 4B 03 04 01 00 00 00 = Magic
no version: 00 61 73 6D @ = Version
three bytes of the version: 00 61 73 6D @ 01 00 00 = Version
version 2: 00 61 73 6D @ 02 00 00 00 = Version
version 1 and a high byte: 00 61 73 6D @ 01 00 00 01 = Version
# ids
section 12: MODULE @ 0C { 00 } = Section
section 12 without a size: MODULE 08 { 00 } @ 0C = Section
section 255, behind data, past the file: MODULE 0B { 00 } @ FF 7F = Section
types twice: MODULE 01 { 00 } @ 01 { 00 } = Order
functions behind code: MODULE 0A { 00 } @ 03 { 00 } = Order
memories twice, a custom section between: MODULE 05 { 00 } 00 { 00 } @ 05 { 00 } = Order
data twice, the second past the file: MODULE 0B { 00 } @ 0B 7F = Order
imports behind exports, with an import: MODULE 07 { 00 } @ 02 { 01 } = Order
an import: MODULE @ 02 { 01 01 61 01 62 00 00 } = Import
a number of imports and no import: MODULE 01 { 00 } @ 02 { 05 } = Import
as many imports as a u32 has: MODULE 00 { 00 } @ 02 { FF FF FF FF 0F } = Import
# short_sections
an id and nothing: MODULE 01 @ = Short
half a size: MODULE 01 80 80 80 80 @ = Short
a section past the file: MODULE 01 09 00 = Short 19
a section one byte past the file: MODULE 08 { 00 } 00 03 01 61 = Short 16
a section that ends with the last u32: MODULE 01 FF FF FF FF 0F 00 = Short 4294967309
no content: MODULE 01 { @ } 00 { 00 } = Short
a type that isn't there: MODULE 01 { 01 @ } 00 { 00 } = Short
results that aren't there: MODULE 01 { 01 60 01 7F @ } 00 { 00 } = Short
a type index past its section: MODULE 03 { 02 00 @ } 0A { 01 } = Short
a name past its section: MODULE 00 { 03 61 62 @ } 00 { 00 } = Short
a name of as many bytes as a u32 has: MODULE 00 { FF FF FF FF 0F 61 @ } = Short
a greatest size that isn't there: MODULE 05 { 01 01 01 @ } 00 { 00 } = Short
half a constant: MODULE 06 { 01 7F 00 41 @ } 00 { 00 } = Short
bytes of data past the section: MODULE 0B { 01 00 ( 41 00 0B ) 03 61 62 @ } = Short
# short_bodies
a body past its section: MODULE 03 { 01 00 } 0A { 01 7F 00 0B @ } 00 { 00 } = Short
a body past its section by one byte: MODULE 03 { 01 00 } 0A { 01 03 00 0B @ } 0B { 00 } = Short
the second of two bodies: MODULE 03 { 02 00 00 } 0A { 02 { 00 0B } @ } = Short
code without an end: MODULE BODY{ 00 01 01 @ } = Short
a block without an end: MODULE BODY{ 00 02 40 0B @ } = Short
an offset past the body: MODULE 03 { 02 00 00 } 0A { 02 { 00 28 02 @ } { 00 0B } } = Short
labels past the body: MODULE BODY{ 00 0E 03 00 00 @ } = Short
locals past the body: MODULE BODY{ 02 01 7F @ } = Short
a body of no bytes: MODULE BODY{ @ } = Short
# sizes
a section that ends early: MODULE @ 01 { 00 00 } = Size
exports that end early, behind a custom section: MODULE 00 { 01 61 FF } @ 07 { 00 00 } = Size
a start with a byte more: MODULE @ 08 { 05 05 } = Size
imports with a byte more: MODULE 01 { 00 } @ 02 { 00 00 } = Size
code with a body more than it says: MODULE 03 { 01 00 } @ 0A { 01 { 00 0B } { 00 0B } } = Size
a body with bytes behind its end: MODULE 03 { 01 00 } 0A { 01 @ { 00 0B 0B } } = Size
the second body, behind its end: MODULE 03 { 02 00 00 } 0A { 02 { 00 01 0B } @ { 00 0B 01 } } = Size
# numbers
a size in six bytes: MODULE 01 @ 81 80 80 80 80 00 00 = Number
a size in five bytes that go on, and no more: MODULE 01 @ 80 80 80 80 80 = Number
a size over 32 bits: MODULE 01 @ 80 80 80 80 10 = Number
a count over 32 bits: MODULE 01 { @ FF FF FF FF 1F } = Number
a start over 32 bits: MODULE 08 { @ 80 80 80 80 70 } = Number
a least size over 32 bits: MODULE 05 { 01 00 @ FF FF FF FF 7F } = Number
an i32 with an unused bit: MODULE 06 { 01 7F 00 41 @ FF FF FF FF 4F 0B } = Number
an i64 with an unused bit: MODULE 06 { 01 7E 00 42 @ FF FF FF FF FF FF FF FF FF 01 0B } = Number
an i64 in eleven bytes: MODULE BODY{ 00 42 @ 80 80 80 80 80 80 80 80 80 80 00 1A 0B } = Number
an i32 that goes on and has an unused bit: MODULE BODY{ 00 41 @ 80 80 80 80 C8 00 1A 0B } = Number
a size of a body over 32 bits: MODULE 03 { 01 00 } 0A { 01 @ 82 80 80 80 20 00 0B } = Number
a number of locals over 32 bits: MODULE BODY{ 01 @ FF FF FF FF 2F 7F 0B } = Number
# floats
a float as a parameter: MODULE 01 { 01 60 01 @ 7D 00 } = Float
a double as a result: MODULE 01 { 01 60 01 7F 02 7E @ 7C } = Float
a float as a global: MODULE 06 { 01 @ 7D 00 43 00 00 00 00 0B } = Float
a float as a constant of an i32: MODULE 06 { 01 7F 00 @ 43 00 00 00 00 0B } = Float
a double as an address: MODULE 0B { 01 00 @ 44 00 00 00 00 00 00 00 00 0B 00 } = Float
floats as locals: MODULE BODY{ 02 01 7F 01 @ 7D 0B } = Float
a float as a block's result: MODULE BODY{ 00 02 @ 7D 0B 0B } = Float
f32.load: MODULE BODY{ 00 41 00 @ 2A 02 00 1A 0B } = Float
f64.store: MODULE BODY{ 00 @ 39 03 00 0B } = Float
f64.const: MODULE BODY{ 00 @ 44 00 00 00 00 00 00 00 00 1A 0B } = Float
f64.copysign: MODULE BODY{ 00 @ A6 0B } = Float
i32.trunc_f32_s: MODULE BODY{ 00 @ A8 0B } = Float
f64.reinterpret_i64: MODULE BODY{ 00 01 01 @ BF 0B } = Float
# forms
no function type: MODULE 01 { 01 @ 5F 00 00 } = Form
funcref as a parameter: MODULE 01 { 01 60 02 7F @ 70 00 } = Form
a table of something else: MODULE 04 { 01 @ 6F 00 00 } = Form
limits with flag 2: MODULE 05 { 01 @ 02 01 } = Form
a table's limits with flag 3: MODULE 04 { 01 70 @ 03 01 01 } = Form
a global that is neither: MODULE 06 { 01 7F @ 02 41 00 0B } = Form
export of kind 4: MODULE 07 { 01 01 61 @ 04 00 } = Form
the value of another global: MODULE 06 { 01 7F 00 @ 23 00 0B } = Form
f64.abs as a constant: MODULE 06 { 01 7F 00 @ 99 0B } = Form
a constant and no end: MODULE 06 { 01 7F 00 41 00 @ 41 0B } = Form
an address that is a sum: MODULE 0B { 01 00 ( 41 00 @ 41 00 6A 0B ) 00 } = Form
elements of table 1: MODULE 09 { 01 @ 01 ( 41 00 0B ) 00 } = Form
data of memory 1: MODULE 0B { 01 @ 01 ( 41 00 0B ) 00 } = Form
data of memory 0 in six bits too many: MODULE 0B { 02 80 00 ( 41 00 0B ) 00 @ C0 00 } = Form
a block that leaves no value type: MODULE BODY{ 00 03 @ 41 0B 0B } = Form
vectors as locals: MODULE BODY{ 01 01 @ 7B 0B } = Form
# names
a custom name that isn't UTF-8: MODULE 00 { @ 01 FF 09 } = Utf8
a slash in two bytes: MODULE 07 { 01 @ 02 C0 AF 00 00 } = Utf8
a euro sign in four bytes: MODULE 07 { 02 01 61 00 00 @ 04 F0 82 82 AC 00 01 } = Utf8
a surrogate: MODULE 00 { @ 03 ED A0 80 } = Utf8
above the last code point: MODULE 00 { 00 } 00 { @ 04 F4 90 80 80 } = Utf8
a character that is cut: MODULE 07 { 01 @ 03 61 E2 82 00 00 } = Utf8
a byte that goes on, by itself: MODULE 00 { @ 01 80 82 AC } = Utf8
a name with a long length: MODULE 00 { @ 81 80 00 FE } = Utf8
# opcodes
opcode 06: MODULE BODY{ 00 @ 06 0B } = Opcode
opcode 12, a tail call: MODULE BODY{ 00 01 @ 12 00 0B } = Opcode
select with a type: MODULE BODY{ 00 01 01 @ 1C 01 7F 0B } = Opcode
opcode 27: MODULE BODY{ 00 02 40 @ 27 0B 0B } = Opcode
a sign extension: MODULE BODY{ 00 41 00 @ C0 1A 0B } = Opcode
a prefix of version 2: MODULE BODY{ 00 @ FC 0A 00 00 0B } = Opcode
the last byte there is: MODULE 03 { 02 00 00 } 0A { 02 { 00 0B } { 00 @ FF } } = Opcode
the size of memory 1: MODULE BODY{ 00 3F @ 01 1A 0B } = Opcode
memory 0 in two bytes: MODULE BODY{ 00 41 00 40 @ 80 00 1A 0B } = Opcode
a call through table 1: MODULE BODY{ 00 41 00 11 00 @ 01 0B } = Opcode
an else and no if: MODULE BODY{ 00 @ 05 0B } = Nesting
an else in a block: MODULE BODY{ 00 02 40 @ 05 0B 0B } = Nesting
an else in a loop in an if: MODULE BODY{ 00 41 00 04 40 03 40 @ 05 0B 0B 0B } = Nesting
a second else: MODULE BODY{ 00 41 00 04 40 05 01 @ 05 0B 0B } = Nesting
an else behind an if: MODULE BODY{ 00 41 00 04 40 0B @ 05 0B } = Nesting
# counts
a function and no code: MODULE 03 { 01 00 } @ = Count
functions and data, but no code: MODULE 03 { 02 00 00 } 0B { 00 } 00 { 00 } @ = Count
a body too many: MODULE 03 { 01 00 } @ 0A { 02 { 00 0B } { 00 0B } } = Count
a body too few: MODULE 03 { 02 00 00 } @ 0A { 01 { 00 0B } } = Count
bodies and no functions: MODULE @ 0A { 01 { 00 0B } } = Count
functions and an empty code section: MODULE 00 { 00 } 03 { 01 00 } @ 0A { 00 } = Count
no code, and a fault behind it: MODULE 03 { 01 00 } 0B { 01 @ 02 } = Form
# limits
257 pages: MODULE 05 { 01 00 @ 81 02 } = Limit
a second memory too large, its greatest size cut: MODULE 05 { 02 00 01 01 @ 81 02 } = Limit
65,537 entries: MODULE 04 { 01 70 01 @ 81 80 04 00 } = Limit
4,097 locals: MODULE 03 { 01 00 } 0A { 01 @ { 01 81 20 7F 0B } } = Limit
4,096 locals and one, before its type: MODULE 03 { 01 00 } 0A { 01 @ { 02 80 20 7F 01 7D 0B } } = Limit
locals whose count begins again at 0: MODULE 03 { 01 00 } 0A { 01 @ { 02 01 7F FF FF FF FF 0F 7E 0B } } = Limit
the second body's locals: MODULE 03 { 02 00 00 } 0A { 02 { 00 0B } @ { 01 FF FF FF FF 0F 7F 0B } } = Limit
# modules
the header: MODULE =
a start: MODULE 08 { 05 } = start 1
the last function as start: MODULE 08 { FF FF FF FF 0F } = start 1
sections with nothing in them: MODULE 01 { 00 } 02 { 00 } 03 { 00 } 04 { 00 } 05 { 00 } 06 { 00 } 07 { 00 } 09 { 00 } 0A { 00 } 0B { 00 } =
custom sections anywhere: MODULE 00 { 00 } 01 { 00 } 00 { 01 61 FF } 00 { 01 61 } 0B { 00 } 00 { 00 00 } =
two types: MODULE 01 { 02 ( 60 02 7F 7E 01 7F ) ( 60 00 00 ) } = types 2
a type with two results: MODULE 01 { 01 60 00 02 7E 7E } = types 1
numbers in five bytes: MODULE 01 85 80 80 80 00 81 00 60 00 00 08 85 80 80 80 00 85 80 80 80 00 = types 1 start 1
no imports, in three bytes: MODULE 02 { 80 80 00 } =
tables at their limits: MODULE 04 { 02 ( 70 00 80 80 04 ) ( 70 01 00 FF FF FF FF 0F ) } = tables 2
memories at their limits: MODULE 05 { 02 ( 00 80 02 ) ( 01 02 01 ) } = memories 2
globals: MODULE 06 { 03 ( 7F 00 41 7F 0B ) ( 7E 01 42 80 7F 0B ) ( 7F 01 42 00 0B ) } = globals 3
the least constants: MODULE 06 { 02 ( 7F 00 41 80 80 80 80 78 0B ) ( 7E 00 42 80 80 80 80 80 80 80 80 80 7F 0B ) } = globals 2
the greatest constants: MODULE 06 { 02 ( 7F 00 41 FF FF FF FF 07 0B ) ( 7E 00 42 FF FF FF FF FF FF FF FF FF 00 0B ) } = globals 2
names of one to four bytes a character: MODULE 07 { 04 ( 00 00 00 ) ( 02 C3 A9 01 01 ) ( 03 E2 82 AC 02 02 ) ( 04 F0 9F 9A 97 03 03 ) } = exports 4
elements: MODULE 09 { 02 ( 00 41 01 0B 02 00 01 ) ( 80 00 42 00 0B 00 ) } = elements 2
data: MODULE 0B { 02 ( 00 41 80 08 0B 02 68 69 ) ( 00 41 00 0B 00 ) } = segments 2
# bodies
a body of nothing: MODULE BODY{ 00 0B } = functions 1 bodies 0:1
sizes of a body and of its section in five bytes: MODULE 03 { 01 00 } 0A 8A 80 80 80 00 81 00 83 80 80 80 00 00 01 0B = functions 1 bodies 0:2
runs of locals: MODULE BODY{ 04 ( 01 7F ) ( 00 7E ) ( 02 7E ) ( 00 7F ) 0B } = functions 1 bodies 3:1
4,096 locals: MODULE BODY{ 03 ( FF 1F 7F ) ( 01 7E ) ( 00 7F ) 0B } = functions 1 bodies 4096:1
lists in lists: MODULE BODY{ 00 02 40 03 7F 41 00 04 7E 42 01 05 42 02 0B A7 0B 1A 0B 0B } = functions 1 bodies 0:13
ifs without else: MODULE BODY{ 00 41 00 04 40 0B 41 01 04 40 05 0B 0B } = functions 1 bodies 0:8
branches: MODULE BODY{ 00 0C 00 41 00 0D 01 41 00 0E 02 00 01 FF FF FF FF 0F 0F 00 0B } = functions 1 bodies 0:8
calls: MODULE BODY{ 00 10 07 41 00 11 83 00 00 1A 41 01 41 02 41 03 1B 1A 0B } = functions 1 bodies 0:10
variables: MODULE BODY{ 00 20 00 21 01 20 80 01 22 02 1A 23 00 24 FF FF FF FF 0F 0B } = functions 1 bodies 0:8
each access: MODULE BODY{ 00 280200 290300 2C0000 2D0000 2E0100 2F0100 300000 310000 320100 330100 340200 350200 360200 370300 3A0000 3B0100 3C0000 3D0100 3EFFFFFFFF0F80808000 3F00 4000 0B } = functions 1 bodies 0:22
each comparison: MODULE BODY{ 00 45 46 47 48 49 4A 4B 4C 4D 4E 4F 50 51 52 53 54 55 56 57 58 59 5A 0B } = functions 1 bodies 0:23
each operation on i32: MODULE BODY{ 00 67 68 69 6A 6B 6C 6D 6E 6F 70 71 72 73 74 75 76 77 78 0B } = functions 1 bodies 0:19
each operation on i64: MODULE BODY{ 00 79 7A 7B 7C 7D 7E 7F 80 81 82 83 84 85 86 87 88 89 8A A7 AC AD 0B } = functions 1 bodies 0:22
three functions: MODULE 03 { 03 00 01 00 } 0A { 03 { 00 0B } { 01 02 7F 01 0B } { 00 01 01 0B } } = functions 3 bodies 0:1 2:2 0:3
every section: MODULE 01 { 01 60 01 7F 01 7F } 02 { 00 } 03 { 01 00 } 04 { 01 70 00 01 } 05 { 01 01 01 02 } 06 { 01 7E 01 42 05 0B } 07 { 02 ( 01 66 00 00 ) ( 01 6D 02 00 ) } 08 { 00 } 09 { 01 00 41 00 0B 01 00 } 0A { 01 { 01 01 7F 20 00 0B } } 0B { 01 00 41 00 0B 03 61 62 63 } 00 { 04 6E 61 6D 65 01 02 } = types 1 functions 1 tables 1 memories 1 globals 1 exports 2 start 1 elements 1 segments 1 bodies 1:2
# long_modules
a block too deep: MODULE BODY{ 00 0240*1024 @ 02 40 0B*1026 } = Limit
an if too deep, before its type: MODULE BODY{ 00 0340*1024 @ 04 7D 0B*1026 } = Limit
code that is cut where it is deepest: MODULE BODY{ 00 0240*1024 @ } = Short
a file one byte too long: 00*4194305 = Size 4194304
a module one byte too long: MODULE 00 { 00*4194292 } = Size 4194304
1,024 blocks: MODULE BODY{ 00 0240*1024 0B*1025 } = functions 1 bodies 0:2049
a module of 4 MiB: MODULE 00 { 00*4194291 } =
"""


def tables():
    """The rows of each group: name, bytes in runs, and a fault with its place or the parts that are there."""
    out = {}
    for line in ROWS.strip().split("\n"):
        if line.startswith("# "):
            rows = out[line[2:]] = []
            continue
        name, source, read = re.fullmatch(r"(.*?): (.*?) = ?(.*)", line).groups()
        data, mark = module(source)
        if mark is not None:
            read = "%s %d" % (read, mark)
        rows.append((name, in_runs(data), read or "nothing"))
    return out


HEAD = """# Modules from vectors/modules.py: their bytes (UNIT*TIMES is a run), and the first fault with its place, or how many parts
# there are; of each body its locals and its instructions, with else and end.
"""


def main():
    groups = tables()
    with open("cases/module_cases/modules.txt", "w") as out:
        out.write(HEAD)
        for group, rows in groups.items():
            for name, data, read in rows:
                out.write("# %s: %s\n" % (group.replace("_", " "), name))
                out.write("%s = %s\n" % (("read " + data).rstrip(), read))
    print(sum(map(len, groups.values())), "modules")


main()
