"""Parts of worlds as lines of world_text.py, and the bytes of some operations.

All terminals of a node have references from ten times their place: Rx_Clock, Rx_Data, Tx_Clock, Tx_Data.
"""

HEAD = ["world 1000000000 %d %d", "bus 500000 2000000"]


def terminals(*buses):
    return ["node"] + [f"terminal {bus} {10 * place} {10 * place + 1} {10 * place + 2} {10 * place + 3}"
                       for place, bus in enumerate(buses)]


def plain(count):
    return ["plain ok"] * count


def turn(*emitted, another=0, end=0):
    """The replies in one iteration: what each terminal emits, or None."""
    replies = []
    for text in emitted:
        replies += ["clocked ok 0"] if text is None else ["clocked ok 1", "data ok " + text]
    return replies + [f"updated ok {another} {end}"]


def opened(*emitted, intervals=()):
    return plain(3) + turn(*emitted) + list(intervals) + plain(1)


def stepped(inputs, *emitted, intervals=()):
    """A session with so many calls that give inputs: one for each tick, two for each delivery."""
    return plain(2 + inputs) + turn(*emitted) + list(intervals) + plain(1)


def ended(inputs, *emitted):
    return plain(2 + inputs) + turn(*emitted, end=1) + plain(2)


CLOSED = plain(2)
UNKNOWN = ["interval ok 0 0 unknown"]
AT_50000 = ["interval ok 50 1000000 changed"]
AT_100000 = ["interval ok 1 10000 changed"]

FRAME = "1000000010000000000000000000" "0000"  # 000#
ONE = "1000000010000000010000000000" "0000"  # 001#
FD_FRAME = "110000001100000000000000000000" "0000"  # 000##0
CONFIRMED = "200000000c00000000000000"
WAKEUP = "4200000008000000"
SLEEP = "f000000008000000"
DISCARD = "400000000a0000000402"
