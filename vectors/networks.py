#!/usr/bin/env python3
"""Network files, each wrong in one way, and their refusals; some are accepted.

Each row changes one place of a network of two buses, three nodes and two errors. What it is refused for was
written down by hand from docs/NETWORKS.md, and is compared with a second reading of that page, `checked`
below, over Python's own TOML reader, which also tells what an accepted one says. Nothing is taken from the Rattle
crates. Run in this folder: it writes cases/network_cases/networks.txt.
"""

import re
import tomllib

import case_texts
from case_texts import NOTATION, Refused

CAR = """resolution = 1000000000
stop = 2000000000
events = 500000
fuel = 20000

[[bus]]
name = "body"
rate = 500000

[[bus]]
name = "drive_2"
rate = 250000
fd_rate = 2000000

[[node]]
name = "door"
fmu = "Door_1"
bus = { CAN = "body" }

[[node]]
name = "gate"
fmu = "gate"
bus.IN = "body"
bus.OUT = "drive_2"

[[node]]
name = "engine"
fmu = "engine"
bus = { CAN = "drive_2" }

[[error]]
bus = "body"
attempt = 3
count = 32
kind = 1
by = "sender"
bit = 20

[[error]]
bus = "drive_2"
attempt = 7
kind = 4
by = "gate"
bit = 0
"""

FINE = ("", 0)

BODY = '[[bus]]\nname = "body"\nrate = 500000\n'
DRIVE = '[[bus]]\nname = "drive_2"\nrate = 250000\nfd_rate = 2000000\n'
DOOR = '[[node]]\nname = "door"\nfmu = "Door_1"\nbus = { CAN = "body" }\n'
LAST = '[[error]]\nbus = "drive_2"\nattempt = 7\nkind = 4\nby = "gate"\nbit = 0\n'
BUSES = CAR[CAR.index("[[bus]]") : CAR.index("[[node]]")]
NODES = CAR[CAR.index("[[node]]") : CAR.index("[[error]]")]
ERRORS = CAR[CAR.index("[[error]]") :]


def bus(number):
    return f'[[bus]]\nname = "b{number}"\nrate = 500000\n'


def node(number):
    return f'[[node]]\nname = "n{number}"\nfmu = "e"\nbus = {{ CAN = "body" }}\n'


ERROR = '[[error]]\nbus = "body"\nattempt = 1\nkind = 1\nby = "sender"\nbit = 0\n'


# what is wrong, the old text, the new text, and the field and the place of the refusal
ROWS = [
    ("a key twice", "stop = 2000000000", "stop = 2000000000\nstop = 2000000000", "Toml", 0),
    ("no value behind the key", "stop = 2000000000", "stop =", "Toml", 0),
    ("an integer of 30 digits", "stop = 2000000000", "stop = 200000000000000000000000000000", "Toml", 0),
    ("a text that isn't ended", 'name = "door"', 'name = "door', "Toml", 0),
    ("one bus under the other's header", "[[bus]]\nname = \"drive_2\"\n", "name = \"drive_2\"\n", "Toml", 0),
    ("resolution is absent", "resolution = 1000000000\n", "", "resolution", 0),
    ("resolution is 0", "resolution = 1000000000\n", "resolution = 0\n", "resolution", 0),
    ("resolution is negative", "resolution = 1000000000\n", "resolution = -1000000000\n", "resolution", 0),
    ("resolution of more than 10^12", "resolution = 1000000000\n", "resolution = 1000000000001\n", "resolution", 0),
    ("resolution of 10^12", "resolution = 1000000000\n", "resolution = 1000000000000\n", *FINE),
    ("resolution is a text", "resolution = 1000000000\n", 'resolution = "1000000000"\n', "resolution", 0),
    ("resolution is a float", "resolution = 1000000000\n", "resolution = 1e9\n", "resolution", 0),
    ("resolution in hexadecimal", "resolution = 1000000000\n", "resolution = 0x3B9ACA00\n", *FINE),
    ("stop is absent", "stop = 2000000000\n", "", "stop", 0),
    ("stop is negative", "stop = 2000000000\n", "stop = -1\n", "stop", 0),
    ("stop is 0", "stop = 2000000000\n", "stop = 0\n", *FINE),
    ("stop of 2^62", "stop = 2000000000\n", "stop = 4611686018427387904\n", *FINE),
    ("stop of 2^62 + 1", "stop = 2000000000\n", "stop = 4611686018427387905\n", "stop", 0),
    ("stop is a flag", "stop = 2000000000\n", "stop = true\n", "stop", 0),
    ("resolution and stop are absent", "resolution = 1000000000\nstop = 2000000000\n", "", "resolution", 0),
    ("events is absent", "events = 500000\n", "", *FINE),
    ("events is 0", "events = 500000\n", "events = 0\n", "events", 0),
    ("events of 10^8", "events = 500000\n", "events = 100000000\n", *FINE),
    ("events of 10^8 + 1", "events = 500000\n", "events = 100000001\n", "events", 0),
    ("events is a text", "events = 500000\n", 'events = "all"\n', "events", 0),
    ("fuel is absent", "fuel = 20000\n", "", *FINE),
    ("fuel is 0", "fuel = 20000\n", "fuel = 0\n", "fuel", 0),
    ("fuel of 10^9", "fuel = 20000\n", "fuel = 1000000000\n", *FINE),
    ("fuel of 10^9 + 1", "fuel = 20000\n", "fuel = 1000000001\n", "fuel", 0),
    ("fuel is an array", "fuel = 20000\n", "fuel = [1]\n", "fuel", 0),
    ("events and fuel are wrong", "events = 500000\nfuel = 20000\n", "fuel = 0\nevents = 0\n", "events", 0),
    ("no bus", BUSES, "", "bus", 0),
    ("four buses", BODY, BODY + bus(3) + bus(4), *FINE),
    ("five buses", BODY, BODY + bus(3) + bus(4) + bus(5), "bus", 0),
    ("bus is a table", BUSES, '[bus]\nname = "body"\nrate = 500000\n', "bus", 0),
    ("bus.name is absent", 'name = "drive_2"\n', "", "bus.name", 1),
    ("bus.name is empty", '[[bus]]\nname = "body"', '[[bus]]\nname = ""', "bus.name", 0),
    ("bus.name with a capital", '[[bus]]\nname = "body"', '[[bus]]\nname = "Body"', "bus.name", 0),
    ("bus.name with a dash", '[[bus]]\nname = "body"', '[[bus]]\nname = "bo-dy"', "bus.name", 0),
    ("bus.name with a letter outside ASCII", '[[bus]]\nname = "body"', '[[bus]]\nname = "b\u00f6dy"', "bus.name", 0),
    ("bus.name of 33 letters", '[[bus]]\nname = "body"', '[[bus]]\nname = "%s"' % ("b" * 33), "bus.name", 0),
    ("bus.name is a number", '[[bus]]\nname = "body"', "[[bus]]\nname = 1", "bus.name", 0),
    ("bus.name of an earlier bus", '[[bus]]\nname = "drive_2"', '[[bus]]\nname = "body"', "bus.name", 1),
    ("bus.rate is absent", "rate = 500000\n", "", "bus.rate", 0),
    ("bus.rate is 0", "rate = 500000\n", "rate = 0\n", "bus.rate", 0),
    ("bus.rate is negative", "rate = 500000\n", "rate = -500000\n", "bus.rate", 0),
    ("bus.rate that doesn't divide the resolution", "rate = 500000\n", "rate = 300000\n", "bus.rate", 0),
    ("bus.rate of the resolution", "rate = 500000\n", "rate = 1000000000\n", *FINE),
    ("bus.rate over the resolution", "rate = 500000\n", "rate = 2000000000\n", "bus.rate", 0),
    ("bus.rate is a float", "rate = 500000\n", "rate = 500000.0\n", "bus.rate", 0),
    ("bus.rate is a text", "rate = 500000\n", 'rate = "500k"\n', "bus.rate", 0),
    ("bus.rate of the second bus", "rate = 250000\n", "rate = 250001\n", "bus.rate", 1),
    ("bus.fd_rate is absent", "fd_rate = 2000000\n", "", *FINE),
    ("bus.fd_rate is 0", "fd_rate = 2000000\n", "fd_rate = 0\n", "bus.fd_rate", 1),
    ("bus.fd_rate that doesn't divide the resolution", "fd_rate = 2000000\n", "fd_rate = 3000000\n", "bus.fd_rate", 1),
    ("bus.fd_rate is a flag", "fd_rate = 2000000\n", "fd_rate = true\n", "bus.fd_rate", 1),
    ("bus.fd_rate below bus.rate", "fd_rate = 2000000\n", "fd_rate = 125000\n", *FINE),
    ("no node", NODES, "", "node", 0),
    ("32 nodes", DOOR, DOOR + "".join(node(n) for n in range(29)), *FINE),
    ("33 nodes", DOOR, DOOR + "".join(node(n) for n in range(30)), "node", 0),
    ("node is a table", NODES, DOOR.replace("[[", "[").replace("]]", "]"), "node", 0),
    ("node.name is absent", 'name = "engine"\n', "", "node.name", 2),
    ("node.name is empty", 'name = "door"', 'name = ""', "node.name", 0),
    ("node.name with a space", 'name = "door"', 'name = "the door"', "node.name", 0),
    ("node.name of 32 letters", 'name = "door"', 'name = "%s"' % ("d" * 32), *FINE),
    ("node.name of 33 letters", 'name = "door"', 'name = "%s"' % ("d" * 33), "node.name", 0),
    ("node.name is the sender's word", 'name = "door"', 'name = "sender"', "node.name", 0),
    ("node.name of an earlier node", 'name = "engine"', 'name = "door"', "node.name", 2),
    ("node.name of a bus", 'name = "door"', 'name = "body"', *FINE),
    ("node.fmu is absent", 'fmu = "Door_1"\n', "", "node.fmu", 0),
    ("node.fmu is empty", 'fmu = "Door_1"', 'fmu = ""', "node.fmu", 0),
    ("node.fmu is a path", 'fmu = "Door_1"', 'fmu = "../Door_1"', "node.fmu", 0),
    ("node.fmu of 64 letters", 'fmu = "Door_1"', 'fmu = "%s"' % ("D" * 64), *FINE),
    ("node.fmu of 65 letters", 'fmu = "Door_1"', 'fmu = "%s"' % ("D" * 65), "node.fmu", 0),
    ("node.fmu of an earlier node", 'fmu = "engine"', 'fmu = "gate"', *FINE),
    ("node.bus is absent", 'fmu = "Door_1"\nbus = { CAN = "body" }\n', 'fmu = "Door_1"\n', "node.bus", 0),
    ("node.bus is a text", 'bus = { CAN = "body" }', 'bus = "body"', "node.bus", 0),
    ("node.bus is empty", 'bus = { CAN = "body" }', "bus = {}", "node.bus", 0),
    ("node.bus names no bus", 'bus = { CAN = "body" }', 'bus = { CAN = "bodies" }', "node.bus", 0),
    ("node.bus names no bus by a text", 'bus = { CAN = "body" }', "bus = { CAN = 0 }", "node.bus", 0),
    ("node.bus names a bus twice", 'bus.OUT = "drive_2"', 'bus.OUT = "body"', "node.bus", 1),
    ("node.bus with a key that is no name", 'bus = { CAN = "body" }', 'bus = { "C A N" = "body" }', *FINE),
    ("node.bus of the last node", 'bus = { CAN = "drive_2" }', 'bus = { CAN = "gate" }', "node.bus", 2),
    ("no error", ERRORS, "", *FINE),
    ("1,024 errors", LAST, ERROR * 1023, *FINE),
    ("1,025 errors", LAST, ERROR * 1024, "error", 0),
    ("error is a table", ERRORS, LAST.replace("[[", "[").replace("]]", "]"), "error", 0),
    ("error.bus is absent", LAST, LAST.replace('bus = "drive_2"\n', ""), "error.bus", 1),
    ("error.bus names no bus", LAST, LAST.replace('"drive_2"', '"gate"'), "error.bus", 1),
    ("error.bus is a place", LAST, LAST.replace('"drive_2"', "1"), "error.bus", 1),
    ("error.attempt is absent", "attempt = 7\n", "", "error.attempt", 1),
    ("error.attempt is 0", "attempt = 7\n", "attempt = 0\n", "error.attempt", 1),
    ("error.attempt of 2^32", "attempt = 7\n", "attempt = 4294967296\n", *FINE),
    ("error.attempt of 2^32 + 1", "attempt = 7\n", "attempt = 4294967297\n", "error.attempt", 1),
    ("error.count is absent", "count = 32\n", "", *FINE),
    ("error.count is 0", "count = 32\n", "count = 0\n", "error.count", 0),
    ("error.count of 2^32 + 1", "count = 32\n", "count = 4294967297\n", "error.count", 0),
    ("error.count is a text", "count = 32\n", 'count = "many"\n', "error.count", 0),
    ("error.kind is absent", "kind = 4\n", "", "error.kind", 1),
    ("error.kind is 0", "kind = 4\n", "kind = 0\n", "error.kind", 1),
    ("error.kind is 5", "kind = 4\n", "kind = 5\n", "error.kind", 1),
    ("error.by is absent", 'by = "gate"\n', "", "error.by", 1),
    ("error.by is no node", 'by = "gate"\n', 'by = "lamp"\n', "error.by", 1),
    ("error.by is a node of another bus", 'by = "gate"\n', 'by = "door"\n', "error.by", 1),
    ("error.by is another node of the bus", 'by = "gate"\n', 'by = "engine"\n', *FINE),
    ("error.by is a number", 'by = "gate"\n', "by = 1\n", "error.by", 1),
    ("error.bit is absent", "bit = 0\n", "", "error.bit", 1),
    ("error.bit is 1023", "bit = 0\n", "bit = 1023\n", *FINE),
    ("error.bit is 1024", "bit = 0\n", "bit = 1024\n", "error.bit", 1),
    ("error.bit is negative", "bit = 0\n", "bit = -1\n", "error.bit", 1),
    ("a key at the top that isn't read", "fuel = 20000\n", 'fuel = 20000\nauthor = "a"\n', *FINE),
    ("a key of a bus that isn't read", "rate = 500000\n", "rate = 500000\nlength = 4.5\n", *FINE),
    ("a key of a node that isn't read", 'fmu = "Door_1"\n', 'fmu = "Door_1"\nside = "left"\n', *FINE),
    ("a key of an error that isn't read", "bit = 0\n", "bit = 0\nwhy = 1\n", *FINE),
    ("a bad bus in front of a bad node", 'name = "body"\nrate = 500000\n', 'name = "door"\nrate = 500000\n', "node.bus", 0),
]

# what has another shape as a whole
HEAD = "resolution = 1000\nstop = 5\n"
WHOLE = [
    ("the network itself", CAR, *FINE),
    ("nothing", "", "resolution", 0),
    ("two numbers", HEAD, "bus", 0),
    ("a bus that is no table", HEAD + "bus = [1]\n", "bus", 0),
    ("a bus and a number", HEAD + 'bus = [{ name = "a", rate = 1 }, 1]\n', "bus", 0),
    ("a bus without anything", HEAD + "[[bus]]\n", "bus.name", 0),
    ("no node", HEAD + 'bus = [{ name = "a", rate = 1 }]\n', "node", 0),
    ("a node that is no table", HEAD + 'bus = [{ name = "a", rate = 1 }]\nnode = ["x"]\n', "node", 0),
    ("a node without anything", HEAD + "[[node]]\n" + '[[bus]]\nname = "a"\nrate = 500\n', "node.name", 0),
    ("all in one line", HEAD + 'bus = [{ name = "a", rate = 1000 }]\nnode = [{ name = "x", fmu = "e", bus = { c = "a" } }]\n', *FINE),
    ("an error that is no table", HEAD + 'error = [1]\nbus = [{ name = "a", rate = 1 }]\nnode = [{ name = "x", fmu = "e", bus = { c = "a" } }]\n', "error", 0),
    ("no errors in an array", HEAD + 'error = []\nbus = [{ name = "a", rate = 1 }]\nnode = [{ name = "x", fmu = "e", bus = { c = "a" } }]\n', *FINE),
    ("a rate of 2^32", "resolution = 8589934592\nstop = 5\n" + '[[bus]]\nname = "a"\nrate = 4294967296\n', "bus.rate", 0),
]


def number(value, low, high):
    return type(value) is int and low <= value <= high


def named(value):
    return type(value) is str and re.fullmatch(r"[a-z0-9_]{1,32}", value) is not None


def checked(text):
    """What a network file says, by the order of the page; refused where a check fails."""

    def check(holds, field, place=0):
        if not holds:
            raise Refused(field, place)

    def rows(name, low, high):
        array = document.get(name, [] if low == 0 else None)
        check(type(array) is list and all(type(row) is dict for row in array) and low <= len(array) <= high, name)
        return list(enumerate(array))

    def timed(value):
        return number(value, 1, 2**32 - 1) and resolution % value == 0

    check(len(text.encode()) <= 1 << 20, "Size", 1 << 20)
    try:
        document = tomllib.loads(text)
    except tomllib.TOMLDecodeError:
        raise Refused("Toml", 0)
    # tomllib takes integers of every size, TOML asks for 64 bits
    if re.search(r"= \d{20,}$", text, re.M):
        raise Refused("Toml", 0)
    resolution = document.get("resolution")
    check(number(resolution, 1, 10**12), "resolution")
    check(number(document.get("stop"), 0, 2**62), "stop")
    check(number(document.get("events", 10**6), 1, 10**8), "events")
    check(number(document.get("fuel", 10**6), 1, 10**9), "fuel")

    buses = []
    for place, row in rows("bus", 1, 4):
        name = row.get("name")
        check(named(name) and name not in buses, "bus.name", place)
        check(timed(row.get("rate")), "bus.rate", place)
        check("fd_rate" not in row or timed(row["fd_rate"]), "bus.fd_rate", place)
        buses.append(name)

    nodes = {}
    for place, row in rows("node", 1, 32):
        name, unit, terminals = row.get("name"), row.get("fmu"), row.get("bus")
        check(named(name) and name not in nodes and name != "sender", "node.name", place)
        check(type(unit) is str and re.fullmatch(r"[A-Za-z0-9_]{1,64}", unit), "node.fmu", place)
        check(type(terminals) is dict and len(terminals) > 0, "node.bus", place)
        on = list(terminals.values())
        check(all(type(b) is str and b in buses for b in on) and len(set(on)) == len(on), "node.bus", place)
        nodes[name] = on

    for place, row in rows("error", 0, 1024):
        on = row.get("bus")
        check(type(on) is str and on in buses, "error.bus", place)
        check(number(row.get("attempt"), 1, 2**32), "error.attempt", place)
        check(number(row.get("count", 1), 1, 2**32), "error.count", place)
        check(number(row.get("kind"), 1, 4), "error.kind", place)
        by = row.get("by")
        check(type(by) is str and (by == "sender" or on in nodes.get(by, [])), "error.by", place)
        check(number(row.get("bit"), 0, 1023), "error.bit", place)
    budgets = f"events {document.get('events', 10**6)} fuel {document.get('fuel', 10**6)}"
    return f"{budgets} buses {len(buses)} nodes {len(nodes)} errors {len(document.get('error', []))}"


HEADING = """# Network files from vectors/networks.py: the first check that fails and its place, or the budgets and how many buses, nodes
# and errors there are.
"""


def main():
    whole = [(what, CAR, text, field, place) for what, text, field, place in WHOLE]
    lines = case_texts.cases("network", checked, CAR, ROWS + whole)
    case_texts.write("networks", [*HEADING.splitlines(), *NOTATION.splitlines(), *lines])


if __name__ == "__main__":
    main()
