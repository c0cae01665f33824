#!/usr/bin/env python3
"""Integer instructions of WebAssembly on telling operands, after WebAssembly Core 1.0, section 4.3.2.

Each operation is worked out on Python's integers from the standard's text: division and remainder by the
mathematical quotient, shifts, rotations and counts on the written-out bits. Nothing is taken from the Rattle crates.
Run in this folder: it writes the cases cases/module_cases/numbers.txt, and write_cases.py what the program of cases then
reads and must print.

A case is an opcode, its operands (the upper one last), and the result or the trap; numbers are hexadecimal.
"""
import random

from bodies import NUMERIC


def bits_of(number, width):
    return [int(digit) for digit in format(number, "0%db" % width)]


def number_of(bits):
    return int("".join(map(str, bits)), 2)


def with_sign(number, width):
    return number - 2**width if bits_of(number, width)[0] else number


def quotient(a, b):
    """Rounded toward zero."""
    size = abs(a) // abs(b)
    return size if (a < 0) == (b < 0) else -size


def leading(bits):
    return bits.index(1) if 1 in bits else len(bits)


def div_s(a, b, width):
    if b == 0:
        return "ZeroDivide"
    value = quotient(with_sign(a, width), with_sign(b, width))
    return "Overflow" if value == 2 ** (width - 1) else value % 2**width


def rem_s(a, b, width):
    if b == 0:
        return "ZeroDivide"
    first, second = with_sign(a, width), with_sign(b, width)
    return (first - second * quotient(first, second)) % 2**width


def turned(bits, count):
    """Rotated to the left."""
    return bits[count:] + bits[:count]


UNARY = [  # clz, ctz, popcnt
    lambda a, n: leading(bits_of(a, n)),
    lambda a, n: leading(bits_of(a, n)[::-1]),
    lambda a, n: bits_of(a, n).count(1),
]

COMPARED = [  # eq, ne, lt_s, lt_u, gt_s, gt_u, le_s, le_u, ge_s, ge_u
    lambda a, b, n: a == b,
    lambda a, b, n: a != b,
    lambda a, b, n: with_sign(a, n) < with_sign(b, n),
    lambda a, b, n: a < b,
    lambda a, b, n: with_sign(a, n) > with_sign(b, n),
    lambda a, b, n: a > b,
    lambda a, b, n: with_sign(a, n) <= with_sign(b, n),
    lambda a, b, n: a <= b,
    lambda a, b, n: with_sign(a, n) >= with_sign(b, n),
    lambda a, b, n: a >= b,
]

BINARY = [  # add, sub, mul, div_s, div_u, rem_s, rem_u, and, or, xor, shl, shr_s, shr_u, rotl, rotr
    lambda a, b, n: (a + b) % 2**n,
    lambda a, b, n: (a - b) % 2**n,
    lambda a, b, n: (a * b) % 2**n,
    div_s,
    lambda a, b, n: a // b if b else "ZeroDivide",
    rem_s,
    lambda a, b, n: a % b if b else "ZeroDivide",
    lambda a, b, n: number_of([x & y for x, y in zip(bits_of(a, n), bits_of(b, n))]),
    lambda a, b, n: number_of([x | y for x, y in zip(bits_of(a, n), bits_of(b, n))]),
    lambda a, b, n: number_of([x ^ y for x, y in zip(bits_of(a, n), bits_of(b, n))]),
    lambda a, b, n: number_of((bits_of(a, n) + [0] * (b % n))[b % n :]),
    lambda a, b, n: number_of((bits_of(a, n)[:1] * (b % n) + bits_of(a, n))[:n]),
    lambda a, b, n: number_of(([0] * (b % n) + bits_of(a, n))[:n]),
    lambda a, b, n: number_of(turned(bits_of(a, n), b % n)),
    lambda a, b, n: number_of(turned(bits_of(a, n), n - b % n)),
]

# Operands that are no number of the type: an i32 is held in the low 32 bits of a word, and the others are left unread.
HIGH = 0xABCD_0123 << 32


def operands(width, draw):
    """0, 1, -1, the least and the greatest, powers of two, and some at random."""
    powers = [2**k for k in (1, 5, width // 2, width - 2)]
    most = 2 ** (width - 1)
    plain = [0, 1, 2**width - 1, most, most - 1, most + 1, 2**width - 2] + powers
    return plain + [draw.getrandbits(width) for _ in range(4)]


def pairs(width, draw):
    """Each of the plain operands with each, and random ones with random counts and divisors."""
    plain = [0, 1, 2**width - 1, 2 ** (width - 1), 2 ** (width - 1) - 1]
    chosen = [(a, b) for a in plain for b in plain]
    chosen += [(draw.getrandbits(width), b) for b in (3, 2**width - 7, width - 1, width, width + 5)]
    chosen += [(draw.getrandbits(width), draw.getrandbits(width)) for _ in range(4)]
    return chosen


def rows():
    draw = random.Random(18)
    for width, test, count, compare, calculate in (32, 0x45, 0x67, 0x46, 0x6A), (64, 0x50, 0x79, 0x51, 0x7C):
        high = HIGH if width == 32 else 0
        for a in operands(width, draw):
            yield test, [a + high], int(a == 0)
            for place, operation in enumerate(UNARY):
                yield count + place, [a + high], operation(a, width)
        for first, operations in (compare, COMPARED), (calculate, BINARY):
            for place, operation in enumerate(operations):
                for a, b in pairs(width, draw):
                    result = operation(a, b, width)
                    yield first + place, [a + high, b + high], result if isinstance(result, str) else int(result)
    for a in operands(64, draw):
        yield 0xA7, [a], a % 2**32  # i32.wrap_i64
    for a in operands(32, draw):
        yield 0xAC, [a + HIGH], with_sign(a, 32) % 2**64  # i64.extend_i32_s
        yield 0xAD, [a + HIGH], a  # i64.extend_i32_u


# The name of each instruction, for its reader.
NAMES = {row[0]: name for name, row in NUMERIC.items()}

HEAD = """# Integer instructions from vectors/numerics.py: an opcode and its operands with the upper one last, and the result or the
# trap; numbers are hexadecimal.
"""

GROUPS = [
    ("tests, counts and conversions", lambda op, operands: len(operands) == 1),
    ("comparisons", lambda op, operands: len(operands) == 2 and op < 0x67),
    ("operations on i32", lambda op, operands: len(operands) == 2 and 0x67 < op < 0x79),
    ("operations on i64", lambda op, operands: len(operands) == 2 and op >= 0x79),
]


def case(op, operands, result):
    words = ["%02x" % op] + ["%x" % a for a in operands]
    return "number %s = %s\n" % (" ".join(words), result if isinstance(result, str) else "%x" % result)


def main():
    cases = {}
    for op, operands, result in rows():
        cases.setdefault(op, []).append((op, operands, result))
    with open("cases/module_cases/numbers.txt", "w") as out:
        out.write(HEAD)
        for name, belongs in GROUPS:
            for op, found in cases.items():
                if belongs(op, found[0][1]):
                    out.write("# %s: %s\n" % (name, NAMES[op]))
                    out.writelines(case(*row) for row in found)
    print(len(cases), "instructions,", sum(map(len, cases.values())), "cases")


main()
