#!/usr/bin/env python3
"""Lengths and times of frames on the wire, after the bit lists of ISO 11898-1.

Each frame's bits are written out one by one, stuffed, and their times are added up. Nothing is
taken from the Rattle crate. Run in this folder: it writes the cases cases/frame_cases/wire.txt, and
write_cases.py what the program of cases then reads and must print.
"""

NOMINAL, FAST = 2000, 500  # ticks of a nominal bit and of a data bit
LENGTHS = [0, 1, 2, 3, 4, 5, 6, 7, 8, 12, 16, 20, 24, 32, 48, 64]
KINDS = ["data", "remote", "fd", "fd brs", "fd esi", "fd brs esi"]


def bits_of(value, width):
    return [int(digit) for digit in format(value, "0%db" % width)]


def crc_of(bits):
    """The CRC sequence of a classical frame: 15 bits, polynomial 0x4599, start value 0."""
    register = 0
    for bit in bits:
        feedback = bit ^ (register >> 14)
        register = (register << 1) & 0x7FFF
        if feedback:
            register ^= 0x4599
    return register


def unstuffed(identifier, extended, kind, data):
    """The bits before the CRC field, and the place of BRS among them, if there is one."""
    fd, remote = kind >= 2, kind == 1
    brs, esi = "brs" in KINDS[kind], "esi" in KINDS[kind]
    bits = [0]  # SOF
    if extended:
        bits += bits_of(identifier >> 18, 11) + [1, 1] + bits_of(identifier & 0x3FFFF, 18)  # SRR, IDE
        bits += [int(remote)]  # RTR, or RRS
    else:
        bits += bits_of(identifier, 11) + [int(remote), 0]  # RTR or RRS, IDE
    brs_place = None
    if fd:
        bits += [1, 0, int(brs)]  # FDF, res, BRS
        brs_place = len(bits) - 1
        bits += [int(esi)]
    elif extended:
        bits += [0, 0]  # r1, r0
    else:
        bits += [0]  # r0
    bits += bits_of(LENGTHS.index(len(data)), 4)
    for byte in data:
        bits += bits_of(byte, 8)
    return bits, brs_place if brs else None


def stuffed(bits, due_at_the_end):
    """Each bit with its place before stuffing; a stuff bit has the place of the bit in front of it."""
    out, run = [], 0
    for place, bit in enumerate(bits):
        run = run + 1 if out and out[-1][0] == bit else 1
        out.append((bit, place, False))
        if run == 5 and (place + 1 < len(bits) or due_at_the_end):
            out.append((1 - bit, place, True))
            run = 1
    return out


def frame(identifier, extended, kind, data):
    """Stuffed bits, and the ticks of each wire bit."""
    fd = kind >= 2
    bits, brs_place = unstuffed(identifier, extended, kind, data)
    if not fd:
        bits = bits + bits_of(crc_of(bits), 15)
    on_wire = stuffed(bits, not fd)
    ticks = []
    for bit, place, is_stuff_bit in on_wire:
        behind_brs = brs_place is not None and (place > brs_place or place == brs_place and is_stuff_bit)
        ticks.append(FAST if behind_brs else NOMINAL)
    if fd:
        # a fixed stuff bit before each four of the 4 stuff count bits and 17 or 21 CRC bits
        numbers = 4 + (17 if len(data) <= 16 else 21)
        field = numbers + (numbers + 3) // 4
        ticks += [FAST if brs_place is not None else NOMINAL] * field
    ticks += [NOMINAL] * 10  # CRC delimiter, ACK slot, ACK delimiter, end of frame
    return [bit for bit, _, _ in on_wire], ticks


def text(identifier, extended, kind, data):
    name = format(identifier, "08x" if extended else "03x")
    if kind == 1:
        return name + "#R"
    flags = "#%d" % (("brs" in KINDS[kind]) + 2 * ("esi" in KINDS[kind])) if kind >= 2 else ""
    return name + "#" + flags + bytes(data).hex()


def cases():
    """Identifier, extended format, kind, number of bytes, first byte, and what each next byte is more."""
    base = [0x000, 0x001, 0x078, 0x0FF, 0x100, 0x123, 0x3E0, 0x555, 0x7C0, 0x7FF]
    long = [0x00000000, 0x03FC0000, 0x04000000, 0x07FFFFFF, 0x12345678, 0x1F07C1F0, 0x1FFFFFFF]
    fills = [(0x00, 0), (0xFF, 0), (0x55, 0), (0x0F, 0), (0x01, 1), (0xA7, 37), (0x83, 0), (0xF8, 3)]
    turn = 0
    for kind in range(6):
        if kind == 1:
            sizes = [0]
        elif kind == 0:
            sizes = list(range(9))
        else:
            sizes = LENGTHS
        for size in sizes:
            for extended in (False, True):
                identifiers = long if extended else base
                for _ in range(10 if kind == 1 else 2 if kind == 0 else 1):
                    first, more = fills[(turn * 5) % len(fills)] if size else (0, 0)
                    yield identifiers[turn % len(identifiers)], extended, kind, size, first, more
                    turn += 1
    # five equal bits at the end of the data, which bring a stuff bit in a classical frame alone
    for kind in (0, 2, 3, 5):
        for identifier in (0x000, 0x7FF, 0x01F, 0x020):
            for first in (0x00, 0x1F, 0xE0, 0xFF):
                yield identifier, False, kind, 1, first, 0
    # the two lengths of the FD CRC field
    for kind in (2, 3, 5):
        for size in (16, 20):
            yield 0x1FFFFFFF, True, kind, size, 0x1F, 0


HEAD = """# Frames from vectors/frames.py. `wire`: stuffed bits, wire bits, duration, end of the ACK slot, end of the bit in the
# middle (a nominal bit has %d ticks, a data bit %d). `bits`: from SOF to the last CRC bit, or of an FD frame to the last data
# bit, with their stuff bits; 1 is recessive.
# frame_bits: frames have the lengths, times and bits of the table
""" % (NOMINAL, FAST)


def main():
    frames = sorted(set(cases()))
    with open("cases/frame_cases/wire.txt", "w") as out:
        out.write(HEAD)
        for identifier, extended, kind, size, first, more in frames:
            data = [(first + more * place) % 256 for place in range(size)]
            bits, ticks = frame(identifier, extended, kind, data)
            wire, ack = len(ticks), len(ticks) - 9
            half = wire // 2
            numbers = [len(bits), wire, sum(ticks), sum(ticks[: ack + 1]), sum(ticks[: half + 1])]
            name = text(identifier, extended, kind, data)
            out.write("wire %s = %s\n" % (name, " ".join(map(str, numbers))))
            out.write("bits %s = %s\n" % (name, "".join(map(str, bits))))
    print(len(frames), "frames")


if __name__ == "__main__":
    main()
