"""The operations that nodes and buses exchange, as bytes: their reading and their spelling.

Each is a code and its own length, four bytes each and little endian, and its fields.
"""
import struct
from collections import namedtuple

import wire

FORMAT_ERROR, TRANSMIT, FD_TRANSMIT = 0x01, 0x10, 0x11
CONFIRM, ARBITRATION_LOST, BUS_ERROR = 0x20, 0x30, 0x31
CONFIGURATION, STATUS, WAKEUP, SLEEP = 0x40, 0x41, 0x42, 0xF0
PRIMARY, SECONDARY = 1, 2
STATES = {1: b"active", 2: b"passive", 3: b"off"}

# An operation, or bytes that are none: what it does, its bytes, and what else it says.
Item = namedtuple("Item", "name spelled value")


def spelled(code, *fields):
    body = b"".join(fields)
    return struct.pack("<II", code, len(body) + 8) + body


def format_error(message):
    return spelled(FORMAT_ERROR, struct.pack("<H", len(message)), message)


def confirm(identifier):
    return spelled(CONFIRM, struct.pack("<I", identifier))


def arbitration_lost(identifier):
    return spelled(ARBITRATION_LOST, struct.pack("<I", identifier))


def bus_error(identifier, kind, itself, sender):
    """An error on the bus: whether the node detected it itself, and whether it is the sender."""
    flag = PRIMARY if itself else SECONDARY
    return spelled(BUS_ERROR, struct.pack("<IBBB", identifier, kind, flag, 1 if sender else 0))


def wakeup():
    return spelled(WAKEUP)


def sleep():
    return spelled(SLEEP)


def rate(value):
    return spelled(CONFIGURATION, struct.pack("<BI", 1, value))


def data_rate(value):
    return spelled(CONFIGURATION, struct.pack("<BI", 2, value))


def behaviour(discards):
    return spelled(CONFIGURATION, struct.pack("<BB", 4, 2 if discards else 1))


def status(number):
    return spelled(STATUS, struct.pack("<B", number))


def transmit(text):
    """The operation that transmits the frame of a text."""
    frame = wire.read_frame(text)
    head = struct.pack("<IB", frame.identifier, 1 if frame.extended else 0)
    length = struct.pack("<H", len(frame.data))
    if frame.fd:
        flags = bytes([frame.rate_switch, frame.error_state])
        return spelled(FD_TRANSMIT, head, flags, length, frame.data)
    return spelled(TRANSMIT, head, bytes([1 if frame.remote else 0]), length, frame.data)


def unpacked(form, body):
    """The fields of a form, which take up all of the bytes."""
    if len(body) != struct.calcsize(form):
        raise ValueError
    return struct.unpack(form, body)


def demand(condition):
    if not condition:
        raise ValueError


def read_format_error(body):
    (length,) = unpacked("<H", body[:2])
    demand(length == len(body) - 2)
    return "format_error", body[2:]


def frame_text(identifier, extended, content):
    text = (b"%08x" if extended else b"%03x") % identifier + b"#" + content
    demand(wire.read_frame(text) is not None)
    return text


def read_transmit(body):
    identifier, extended, remote, length = unpacked("<IBBH", body[:8])
    data = body[8:]
    demand(extended < 2 and remote < 2 and length == len(data) and not (remote and data))
    content = b"R" if remote else data.hex().encode()
    return "transmit", frame_text(identifier, extended, content)


def read_fd_transmit(body):
    identifier, extended, switch, state, length = unpacked("<IBBBH", body[:9])
    data = body[9:]
    demand(extended < 2 and switch < 2 and state < 2 and length == len(data))
    content = b"#%d" % (switch + 2 * state) + data.hex().encode()
    return "fd_transmit", frame_text(identifier, extended, content)


def read_told(body):
    unpacked("<I", body)
    return "to_a_node", None


def read_bus_error(body):
    _, kind, flag, sender = unpacked("<IBBB", body)
    demand(1 <= kind <= 5 and flag in (PRIMARY, SECONDARY) and sender < 2)
    return "to_a_node", None


def read_configuration(body):
    if body[:1] in (b"\x01", b"\x02"):
        name, value = unpacked("<BI", body)
        return ("rate", "data_rate")[name - 1], value
    name, value = unpacked("<BB", body)
    demand(name == 4 and value in (1, 2))
    return ("keep", "discard")[value - 1], None


def read_status(body):
    (state,) = unpacked("<B", body)
    demand(state in STATES)
    return "status", STATES[state]


def read_wakeup(body):
    unpacked("<", body)
    return "wake", None


def read_sleep(body):
    unpacked("<", body)
    return "sleep", None


READERS = {
    FORMAT_ERROR: read_format_error, TRANSMIT: read_transmit, FD_TRANSMIT: read_fd_transmit,
    CONFIRM: read_told, ARBITRATION_LOST: read_told, BUS_ERROR: read_bus_error,
    CONFIGURATION: read_configuration, STATUS: read_status, WAKEUP: read_wakeup, SLEEP: read_sleep,
}


def item(text):
    """The operation that these bytes are, or a bad one."""
    (code,) = struct.unpack("<I", text[:4])
    try:
        demand(code in READERS)
        name, value = READERS[code](text[8:])
        return Item(name, text, value)
    except ValueError:
        return Item("bad", text, None)


def items(text):
    """The operations of bytes, one behind the other; where no length fits, the rest is a bad one."""
    while text:
        length = struct.unpack("<I", text[4:8])[0] if len(text) >= 8 else 0
        if not 8 <= length <= len(text):
            yield Item("bad", text, None)
            return
        yield item(text[:length])
        text = text[length:]
