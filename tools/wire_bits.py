"""The bits of a frame on the wire with their fields, by the tables of vectors/frames.py."""
import pathlib
import sys

sys.path.append(str(pathlib.Path(__file__).resolve().parent.parent / "vectors"))

import frames


def kind_of(frame):
    """The position of a frame's kind in the table."""
    if frame.kind != "fd":
        return int(frame.kind == "remote")
    return 2 + frames.KINDS[2:].index({0: "fd", 1: "fd brs", 2: "fd esi", 3: "fd brs esi"}[frame.flags])


def field_ends(frame):
    """Names of the fields with the number of bits before stuffing up to their end, to the end of the data."""
    fd = frame.kind == "fd"
    head = [("SOF", 1), ("identifier", 11)]
    head += [("SRR", 1), ("IDE", 1), ("identifier", 18)] if frame.extended else []
    head += [("RRS" if fd else "RTR", 1)] + ([] if frame.extended else [("IDE", 1)])
    control = [("FDF", 1), ("res", 1), ("BRS", 1), ("ESI", 1)] if fd else [("r1", 1)] * frame.extended + [("r0", 1)]
    return head + control + [("DLC", 4), ("data", 8 * len(frame.data))] + ([] if fd else [("CRC", 15)])


def wire(frame):
    """Fields of a frame, each a name and its bits, a stuff bit with a dot behind it; and how many bits follow in FD."""
    kind = kind_of(frame)
    bits, _ = frames.unstuffed(frame.identifier, frame.extended, kind, frame.data)
    fd = frame.kind == "fd"
    if not fd:
        bits = bits + frames.bits_of(frames.crc_of(bits), 15)
    names = [name for name, count in field_ends(frame) for _ in range(count)]
    fields = []
    for bit, place, is_stuff_bit in frames.stuffed(bits, not fd):
        if not fields or fields[-1][0] != names[place]:
            fields.append([names[place], ""])
        fields[-1][1] += str(bit) + ("." if is_stuff_bit else "")
    numbers = 4 + (17 if len(frame.data) <= 16 else 21)
    return fields, numbers + (numbers + 3) // 4 if fd else 0
