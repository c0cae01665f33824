"""Play files that each break one rule of the format, and files at the edges that break none.

A refusal of a file is its kind and a number: that of the line, or the limit of the size.
"""
HEADER = b"play 1000000000 500000 2000000 2 1000000"
NO_FD = b"play 1000000000 500000 0 2 1000000"
ERROR = b"error 1 1 1 sender 0"
SEND = b"0 0 send 000#"

BAD_HEADERS = [
    b"", b"play", b"plays 1000000000 500000 2000000 2 1000000", b"PLAY 1000000000 500000 0 2 0",
    HEADER + b" 0", HEADER + b" ", b" " + HEADER, HEADER.replace(b" ", b"  ", 1), HEADER + b"\r",
    b"play 0 500000 0 2 0", b"play 1000000000001 1 0 2 0", b"play 01 1 0 2 0", b"play +1 1 0 2 0",
    b"play 1000000000 0 0 2 0", b"play 1000000000 300000 0 2 0", b"play 1 2 0 2 0",
    b"play 1000000000 1000000001 0 2 0", b"play 4294967296 4294967296 0 2 0",
    b"play 1000000000 500000 300000 2 0", b"play 4294967296 1 4294967296 2 0", b"play 1 1 - 2 0",
    b"play 1 1 0 0 0", b"play 1 1 0 33 0", b"play 1 1 0 4294967298 0", b"play 1 1 0 2 -1",
    b"play 1 1 0 2 4611686018427387905", b"play 1 1 0 2 18446744073709551616", b"play 1 1 0 2 0x0",
]
GOOD_HEADERS = [
    b"play 1 1 0 1 0", b"play 1000000000000 1 1 32 4611686018427387904",
    b"play 1000000000000 1000000000 1000000000 2 0", b"play 4294967295 4294967295 4294967295 2 9",
]
BAD_ERRORS = [
    b"error 0 1 1 sender 0", b"error 4294967297 1 1 sender 0", b"error 01 1 1 sender 0",
    b"error 1 0 1 sender 0", b"error 1 4294967297 1 sender 0", b"error 1 1 0 sender 0",
    b"error 1 1 5 sender 0", b"error 1 1 1 2 0", b"error 1 1 1 00 0", b"error 1 1 1 Sender 0",
    b"error 1 1 1 sender 1024", b"error 1 1 1 sender -1", b"error 1 1 1 sender", ERROR + b" 0",
    ERROR + b" ", b"error", b"Error 1 1 1 sender 0", b"error 1 1 bit sender 0",
]
GOOD_ERRORS = [b"error 4294967296 4294967296 4 1 1023", b"error 1 4294967296 2 0 0"]
BAD_ACTIONS = [
    b"", b"0", b"0 0", b"0 0 ", b" 0 0 wake", b"0 0 rest", b"0 0 Wake", b"0 0 wake ", b"0 0 wake 0",
    b"0 0 sleep 000#", b"0 0 keep keep", b"0 0 discard 1", b"0 2 wake", b"0 00 wake", b"0 x wake",
    b"4611686018427387905 0 wake", b"00 0 wake", b"-0 0 wake", b"0 0 send", b"0 0 send 000# ",
    b"0 0 send 000# 000#", b"0 0 send  000#", b"0 0 send 800#", b"0 0 send 7FF#", b"0 0 send 00#",
    b"0 0 send 0000#", b"0 0 send 20000000#", b"0 0 send 0000000#", b"0 0 send 000", b"0 0 send #",
    b"0 0 send 000#0", b"0 0 send 000#0A", b"0 0 send 000#0g", b"0 0 send 000#" + b"00" * 9,
    b"0 0 send 000#r", b"0 0 send 000#R0", b"0 0 send 000#R00", b"0 0 send 000##",
    b"0 0 send 000##4", b"0 0 send 000##R", b"0 0 send 000##0R", b"0 0 send 000##00",
    b"0 0 send 000##0" + b"00" * 9, b"0 0 send 000##0" + b"00" * 63, b"0 0 send 000##0" + b"00" * 65,
]
GOOD_ACTIONS = [
    b"4611686018427387904 1 wake", b"0 1 sleep", b"0 0 keep", b"0 1 discard", b"0 0 send 7ff#R",
    b"0 0 send 1fffffff#" + b"ff" * 8, b"0 0 send 000##3" + b"00" * 64, b"0 0 send 00000000##0",
]


def text(*lines):
    return b"".join(line + b"\n" for line in lines)


def refused():
    """Each file with its refusal."""
    for line in BAD_HEADERS:
        yield text(line, SEND), b"Line", 1
    for line in BAD_ERRORS:
        yield text(HEADER, ERROR, line, SEND), b"Line", 3
    for line in BAD_ACTIONS:
        yield text(HEADER, ERROR, SEND, line), b"Line", 4
    yield b"", b"Line", 1
    yield text(HEADER, SEND) + SEND, b"Line", 3
    yield HEADER, b"Line", 1
    yield text(HEADER, SEND, ERROR), b"Line", 3
    yield text(HEADER, HEADER), b"Line", 2
    yield text(HEADER, *[ERROR] * 1025), b"Line", 1026
    yield text(HEADER, b"1 0 wake", b"0 0 wake"), b"Line", 3
    yield text(NO_FD, b"0 0 send 000##0"), b"Line", 2
    yield text(HEADER, b"0 2 wake", b"0 0 wakes"), b"Line", 2
    yield text(HEADER, SEND).replace(b"\n", b"\r\n"), b"Line", 1
    yield text(HEADER) + b"\n" * (2 ** 24 - len(HEADER)), b"Size", 2 ** 24


def accepted():
    """Files at the edges of the format."""
    for line in GOOD_HEADERS:
        yield text(line)
    for line in GOOD_ERRORS:
        yield text(HEADER, line, SEND)
    for line in GOOD_ACTIONS:
        yield text(HEADER, line)
    yield text(HEADER, *[ERROR] * 1024)
    yield text(NO_FD, b"0 0 send 000#R", b"0 0 wake", b"7 1 wake")
