#!/usr/bin/env python3
"""Descriptions, each wrong in one way, and their refusals; some are accepted.

Each row changes one place of a description of two terminals. What it is refused for was written down by
hand from docs/DESCRIPTION.md, and is compared with a second reading of that page, `checked` below, over
Python's own TOML reader, which also tells what an accepted one says. Nothing is taken from the Rattle crates.
Run in this folder: it writes cases/network_cases/descriptions.txt.
"""

import re
import tomllib

import case_texts
from case_texts import NOTATION, Refused

GATE = """fmiVersion = "3.0"
modelName = "gate"
instantiationToken = "g1"

[CoSimulation]
modelIdentifier = "gate_1"
hasEventMode = true

[[Clock]]
name = "A.Rx_Clock"
valueReference = 0
causality = "input"
intervalVariability = "triggered"

[[Clock]]
name = "A.Tx_Clock"
valueReference = 2
causality = "output"
intervalVariability = "triggered"

[[Clock]]
name = "B.Rx_Clock"
valueReference = 4
causality = "input"
intervalVariability = "triggered"

[[Clock]]
name = "B.Tx_Clock"
valueReference = 6
causality = "output"
intervalVariability = "triggered"

[[Clock]]
name = "Timer"
valueReference = 8
causality = "input"
intervalVariability = "countdown"

[[Binary]]
name = "A.Rx_Data"
valueReference = 1
causality = "input"
clocks = [0]
maxSize = 300

[[Binary]]
name = "A.Tx_Data"
valueReference = 3
causality = "output"
clocks = [2]
maxSize = 400

[[Binary]]
name = "B.Rx_Data"
valueReference = 5
causality = "input"
clocks = [4]
maxSize = 500

[[Binary]]
name = "B.Tx_Data"
valueReference = 7
causality = "output"
clocks = [6]
maxSize = 600

[[Terminal]]
name = "A"
Rx_Data = 1
Rx_Clock = 0
Tx_Data = 3
Tx_Clock = 2

[[Terminal]]
name = "B"
Rx_Data = 5
Rx_Clock = 4
Tx_Data = 7
Tx_Clock = 6
"""

FINE = ("", 0)


def shared_clock(way, own, other):
    """The last terminal's binary and the terminal name the clock of the first one."""
    first, last = f"clocks = [{own}]", f"{way}_Clock = {own}"
    old = GATE[GATE.index(first) : GATE.index(last) + len(last)]
    return old, old.replace(first, f"clocks = [{other}]").replace(last, f"{way}_Clock = {other}")



# what is wrong, the old text, the new text, and the field and the place of the refusal
ROWS = [
    ("a key twice", 'modelName = "gate"', 'modelName = "gate"\nmodelName = "gate"', "Toml", 0),
    ("no text behind the key", 'modelName = "gate"', "modelName =", "Toml", 0),
    ("an integer of 30 digits", "maxSize = 300", "maxSize = 100000000000000000000000000300", "Toml", 0),
    ("fmiVersion is absent", 'fmiVersion = "3.0"', "", "fmiVersion", 0),
    ("fmiVersion of FMI 2", 'fmiVersion = "3.0"', 'fmiVersion = "2.0"', "fmiVersion", 0),
    ("fmiVersion is too short", 'fmiVersion = "3.0"', 'fmiVersion = "3."', "fmiVersion", 0),
    ("fmiVersion is a number", 'fmiVersion = "3.0"', "fmiVersion = 3.0", "fmiVersion", 0),
    ("fmiVersion with more behind 3.0", 'fmiVersion = "3.0"', 'fmiVersion = "3.0.1"', *FINE),
    ("modelName is absent", 'modelName = "gate"', "", "modelName", 0),
    ("modelName is a number", 'modelName = "gate"', "modelName = 1", "modelName", 0),
    ("modelName is empty", 'modelName = "gate"', 'modelName = ""', *FINE),
    ("instantiationToken is absent", 'instantiationToken = "g1"', "", "instantiationToken", 0),
    ("instantiationToken is a flag", 'instantiationToken = "g1"', "instantiationToken = true", "instantiationToken", 0),
    ("CoSimulation is absent", "[CoSimulation]", "[ModelExchange]", "CoSimulation", 0),
    ("CoSimulation is an array", "[CoSimulation]", "[[CoSimulation]]", "CoSimulation", 0),
    ("modelIdentifier is absent", 'modelIdentifier = "gate_1"', "", "modelIdentifier", 0),
    ("modelIdentifier is empty", '"gate_1"', '""', "modelIdentifier", 0),
    ("modelIdentifier has a dash", '"gate_1"', '"gate-1"', "modelIdentifier", 0),
    ("modelIdentifier has a letter outside ASCII", '"gate_1"', '"gat\u00e9_1"', "modelIdentifier", 0),
    ("modelIdentifier of 65 letters", '"gate_1"', '"%s"' % ("g" * 65), "modelIdentifier", 0),
    ("modelIdentifier of 64 letters", '"gate_1"', '"%s"' % ("g" * 64), *FINE),
    ("hasEventMode is absent", "hasEventMode = true", "", "hasEventMode", 0),
    ("hasEventMode is false", "hasEventMode = true", "hasEventMode = false", "hasEventMode", 0),
    ("hasEventMode is a text", "hasEventMode = true", 'hasEventMode = "true"', "hasEventMode", 0),
    ("a key in small letters isn't read", 'instantiationToken = "g1"', 'instantiationToken = "g1"\nclock = 1', *FINE),
    ("Clock.name is absent", 'name = "A.Tx_Clock"', "", "Clock.name", 1),
    ("Clock.name is a number", 'name = "A.Tx_Clock"', "name = 1", "Clock.name", 1),
    ("Clock.name of another clock", 'name = "A.Tx_Clock"', 'name = "A.Rx_Clock"', *FINE),
    ("Clock.valueReference is absent", "valueReference = 4", "", "Clock.valueReference", 2),
    ("Clock.valueReference of another clock", "valueReference = 4", "valueReference = 2", "Clock.valueReference", 2),
    ("Clock.valueReference is negative", "valueReference = 4", "valueReference = -4", "Clock.valueReference", 2),
    ("Clock.valueReference is 2^32", "valueReference = 8", "valueReference = 4294967296", "Clock.valueReference", 4),
    ("Clock.valueReference is 2^32 - 1", "valueReference = 8", "valueReference = 4294967295", *FINE),
    ("Clock.valueReference in hexadecimal", "valueReference = 8", "valueReference = 0x10", *FINE),
    ("Clock.valueReference is a float", "valueReference = 8", "valueReference = 8.0", "Clock.valueReference", 4),
    ("Clock.causality is absent", '2\ncausality = "output"', "2", "Clock.causality", 1),
    ("Clock.causality is another word", '2\ncausality = "output"', '2\ncausality = "local"', "Clock.causality", 1),
    ("Clock.causality is a capitalised word", '2\ncausality = "output"', '2\ncausality = "Output"', "Clock.causality", 1),
    ("Clock.intervalVariability is absent", 'intervalVariability = "countdown"', "", "Clock.intervalVariability", 4),
    ("Clock.intervalVariability is another word", '"countdown"', '"changing"', "Clock.intervalVariability", 4),
    ("a countdown clock is an output", '8\ncausality = "input"', '8\ncausality = "output"', "Clock.intervalVariability", 4),
    ("Binary.name is absent", 'name = "A.Rx_Data"', "", "Binary.name", 0),
    ("Binary.name is a flag", 'name = "A.Rx_Data"', "name = true", "Binary.name", 0),
    ("Binary.valueReference is absent", "valueReference = 3", "", "Binary.valueReference", 1),
    ("Binary.valueReference of another binary", "valueReference = 3", "valueReference = 1", "Binary.valueReference", 1),
    ("Binary.valueReference of a clock", "valueReference = 3", "valueReference = 8", "Binary.valueReference", 1),
    ("Binary.valueReference is 2^32", "valueReference = 3", "valueReference = 4294967296", "Binary.valueReference", 1),
    ("Binary.causality is absent", '3\ncausality = "output"', "3", "Binary.causality", 1),
    ("Binary.causality is another word", '3\ncausality = "output"', '3\ncausality = "both"', "Binary.causality", 1),
    ("Binary.clocks is absent", "clocks = [4]", "", "Binary.clocks", 2),
    ("Binary.clocks is a number", "clocks = [4]", "clocks = 4", "Binary.clocks", 2),
    ("Binary.clocks is empty", "clocks = [4]", "clocks = []", "Binary.clocks", 2),
    ("Binary.clocks has two", "clocks = [4]", "clocks = [4, 4]", "Binary.clocks", 2),
    ("Binary.clocks names no clock", "clocks = [4]", "clocks = [1]", "Binary.clocks", 2),
    ("Binary.clocks names a countdown clock", "clocks = [4]", "clocks = [8]", "Binary.clocks", 2),
    ("Binary.clocks names a clock of the other causality", "clocks = [4]", "clocks = [6]", "Binary.clocks", 2),
    ("Binary.clocks has a text", "clocks = [4]", 'clocks = ["4"]', "Binary.clocks", 2),
    ("Binary.maxSize is absent", "maxSize = 600", "", "Binary.maxSize", 3),
    ("Binary.maxSize is 255", "maxSize = 600", "maxSize = 255", "Binary.maxSize", 3),
    ("Binary.maxSize is 65,537", "maxSize = 600", "maxSize = 65537", "Binary.maxSize", 3),
    ("Binary.maxSize is 256", "maxSize = 600", "maxSize = 256", *FINE),
    ("Binary.maxSize is 65,536", "maxSize = 600", "maxSize = 65536", *FINE),
    ("Binary.maxSize is a float of 30 digits", "maxSize = 600", "maxSize = 600.000000000000000000000000000", "Binary.maxSize", 3),
    ("Binary.maxSize is a text", "maxSize = 600", 'maxSize = "600"', "Binary.maxSize", 3),
    ("Terminal.name is absent", 'name = "B"', "", "Terminal.name", 1),
    ("Terminal.name of an earlier terminal", 'name = "B"', 'name = "A"', "Terminal.name", 1),
    ("Terminal.name is empty", 'name = "B"', 'name = ""', "Terminal.name", 1),
    ("Terminal.name has a space", 'name = "B"', 'name = "B C"', "Terminal.name", 1),
    ("Terminal.Rx_Data is absent", "Rx_Data = 5", "", "Terminal.Rx_Data", 1),
    ("Terminal.Rx_Data names no variable", "Rx_Data = 5", "Rx_Data = 9", "Terminal.Rx_Data", 1),
    ("Terminal.Rx_Data names a clock", "Rx_Data = 5", "Rx_Data = 4", "Terminal.Rx_Data", 1),
    ("Terminal.Rx_Data names an output", "Rx_Data = 5", "Rx_Data = 7", "Terminal.Rx_Data", 1),
    ("Terminal.Rx_Data stands in an earlier terminal", "Rx_Data = 5", "Rx_Data = 1", "Terminal.Rx_Data", 1),
    ("Terminal.Rx_Clock is absent", "Rx_Clock = 4", "", "Terminal.Rx_Clock", 1),
    ("Terminal.Rx_Clock isn't the input's clock", "Rx_Clock = 4", "Rx_Clock = 8", "Terminal.Rx_Clock", 1),
    ("Terminal.Rx_Clock stands in an earlier terminal", *shared_clock("Rx", 4, 0), "Terminal.Rx_Clock", 1),
    ("Terminal.Tx_Data is absent", "Tx_Data = 7", "", "Terminal.Tx_Data", 1),
    ("Terminal.Tx_Data names an input", "Tx_Data = 7", "Tx_Data = 5", "Terminal.Tx_Data", 1),
    ("Terminal.Tx_Data stands in an earlier terminal", "Tx_Data = 7", "Tx_Data = 3", "Terminal.Tx_Data", 1),
    ("Terminal.Tx_Clock is absent", "Tx_Clock = 6", "", "Terminal.Tx_Clock", 1),
    ("Terminal.Tx_Clock isn't the output's clock", "Tx_Clock = 6", "Tx_Clock = 2", "Terminal.Tx_Clock", 1),
    ("Terminal.Tx_Clock stands in an earlier terminal", *shared_clock("Tx", 6, 2), "Terminal.Tx_Clock", 1),
    ("two fields are wrong", 'fmiVersion = "3.0"\nmodelName = "gate"', "", "fmiVersion", 0),
    ("keys that aren't read", "maxSize = 300", 'maxSize = 300\ndescription = "what comes in"\nstart = []', *FINE),
    ("a table that isn't read", "[[Terminal]]\nname = \"A\"", "[Units]\nkm = 1\n[[Terminal]]\nname = \"A\"", *FINE),
]

# what has another shape as a whole
HEAD = GATE[: GATE.index("[[Clock]]")]
WHOLE = [
    ("the description itself", GATE, *FINE),
    ("nothing", "", "fmiVersion", 0),
    ("Clock is a table", HEAD + "[Clock]\n", "Clock", 0),
    ("Clock has something that is no table", "Clock = [1]\n" + HEAD, "Clock", 0),
    ("Clock is empty, and there are no terminals", "Clock = []\n" + HEAD, "Terminal", 0),
    ("Clock and Binary are absent, and there are no terminals", HEAD, "Terminal", 0),
    ("Binary is a number", "Binary = 1\n" + HEAD, "Binary", 0),
    ("Terminal is empty", "Terminal = []\n" + HEAD, "Terminal", 0),
    ("a terminal without variables", HEAD + '[[Terminal]]\nname = "A"\n', "Terminal.Rx_Data", 0),
    ("a clock behind a bad terminal comes first", 'Terminal = 1\n' + HEAD + "[[Clock]]\n", "Clock.name", 0),
]

# what is long, or has long numbers
MEBIBYTE = 2**20
END = "Tx_Clock = 6\n"
FILLED = END + "\n" * (MEBIBYTE - len(GATE.encode()))
LONG = [
    ("1 MiB of nested arrays", GATE, "a = " + "[" * (MEBIBYTE - 4), "Toml", 0),
    ("empty lines up to 1 MiB", END, FILLED, *FINE),
    ("a byte over 1 MiB", END, FILLED + "\n", "Size", MEBIBYTE),
    ("a key twice, far apart", END, END + 'name = "C"\n', "Toml", 0),
    ("the first Binary.maxSize is a float of 30 digits", "maxSize = 300", "maxSize = 300.000000000000000000000000000", "Binary.maxSize", 0),
]


def clock(reference, causality, interval="triggered"):
    text = f'[[Clock]]\nname = "c"\nvalueReference = {reference}\ncausality = "{causality}"\n'
    return text + f'intervalVariability = "{interval}"\n'


def binary(number):
    """Binary `number` counts down from the greatest reference."""
    text = f'[[Binary]]\nname = "b"\nvalueReference = {2**32 - 1 - number}\ncausality = "{WAYS[number % 2]}"\n'
    return text + f"clocks = [{number % 8}]\nmaxSize = 65536\n"


def terminal(number):
    own = [("Rx", 2 * number), ("Tx", 2 * number + 1)]
    text = "".join(f"{way}_Data = {2**32 - 1 - place}\n{way}_Clock = {place}\n" for way, place in own)
    return f'[[Terminal]]\nname = "t{number}"\n' + text


# 56 triggered clocks, 8 countdown clocks, 64 binaries and 4 terminals
WAYS = ["input", "output"]
TRIGGERED = [clock(place, WAYS[place % 2]) for place in range(56)]
COUNTDOWN = [clock(place, "input", "countdown") for place in range(56, 64)]
PARTS = TRIGGERED + COUNTDOWN + [binary(place) for place in range(64)] + [terminal(place) for place in range(4)]
CROWD = 'fmiVersion = "3.0"\nmodelName = "m"\ninstantiationToken = ""\n[CoSimulation]\nmodelIdentifier = "m"\n'
CROWD += "hasEventMode = true\n" + "".join(PARTS)
CROWDED = [
    ("64 clocks, 8 of them countdown clocks, 64 binaries and 4 terminals", CROWD, CROWD, *FINE),
    ("a ninth countdown clock", TRIGGERED[55], clock(55, "input", "countdown"), "Clock.intervalVariability", 63),
    ("65 clocks", TRIGGERED[55], TRIGGERED[55] + clock(64, "input"), "Clock", 0),
    ("65 binaries", binary(63), binary(63) + binary(64), "Binary", 0),
    ("5 terminals", terminal(3), terminal(3) + terminal(4), "Terminal", 0),
]


def number(value, low, high):
    return type(value) is int and low <= value <= high


def identifier(value):
    return type(value) is str and re.fullmatch(r"[A-Za-z0-9_]{1,64}", value) is not None


def checked(text):
    """What a description says, by the order of the page; refused where a check fails."""

    def check(holds, field, place=0):
        if not holds:
            raise Refused(field, place)

    def rows(name, low, high):
        array = document.get(name, [] if low == 0 else None)
        check(type(array) is list and all(type(row) is dict for row in array) and low <= len(array) <= high, name)
        return list(enumerate(array))

    check(len(text.encode()) <= 1 << 20, "Size", 1 << 20)
    try:
        document = tomllib.loads(text)
    except (tomllib.TOMLDecodeError, RecursionError):
        raise Refused("Toml", 0)
    # tomllib takes integers of every size, TOML asks for 64 bits
    if re.search(r"= \d{20,}$", text, re.M):
        raise Refused("Toml", 0)
    version = document.get("fmiVersion")
    check(type(version) is str and version.startswith("3.0"), "fmiVersion")
    check(type(document.get("modelName")) is str, "modelName")
    check(type(document.get("instantiationToken")) is str, "instantiationToken")
    unit = document.get("CoSimulation")
    check(type(unit) is dict, "CoSimulation")
    check(identifier(unit.get("modelIdentifier")), "modelIdentifier")
    check(unit.get("hasEventMode") is True, "hasEventMode")

    clocks, countdown = {}, 0
    for place, row in rows("Clock", 0, 64):
        check(type(row.get("name")) is str, "Clock.name", place)
        reference = row.get("valueReference")
        check(number(reference, 0, 2**32 - 1) and reference not in clocks, "Clock.valueReference", place)
        check(row.get("causality") in ("input", "output"), "Clock.causality", place)
        interval = row.get("intervalVariability")
        check(interval in ("triggered", "countdown"), "Clock.intervalVariability", place)
        if interval == "countdown":
            countdown += 1
            check(row["causality"] == "input" and countdown <= 8, "Clock.intervalVariability", place)
        clocks[reference] = (row["causality"], interval)

    binaries = {}
    for place, row in rows("Binary", 0, 64):
        check(type(row.get("name")) is str, "Binary.name", place)
        reference = row.get("valueReference")
        new = number(reference, 0, 2**32 - 1) and reference not in clocks and reference not in binaries
        check(new, "Binary.valueReference", place)
        causality = row.get("causality")
        check(causality in ("input", "output"), "Binary.causality", place)
        own = row.get("clocks")
        one = type(own) is list and len(own) == 1 and number(own[0], 0, 2**32 - 1)
        check(one and clocks.get(own[0]) == (causality, "triggered"), "Binary.clocks", place)
        check(number(row.get("maxSize"), 256, 65536), "Binary.maxSize", place)
        binaries[reference] = (causality, own[0], row["maxSize"])

    told = f"{unit['modelIdentifier']} countdown {countdown}"
    names, used = set(), set()
    for place, row in rows("Terminal", 1, 4):
        name = row.get("name")
        check(identifier(name) and name not in names, "Terminal.name", place)
        told += " " + name
        mine = set()
        for way, causality in (("Rx", "input"), ("Tx", "output")):
            variable = row.get(way + "_Data")
            found = binaries.get(variable) if number(variable, 0, 2**32 - 1) else None
            check(found and found[0] == causality and variable not in used, f"Terminal.{way}_Data", place)
            clock = row.get(way + "_Clock")
            its = number(clock, 0, 2**32 - 1) and clock == found[1] and clock not in used
            check(its, f"Terminal.{way}_Clock", place)
            mine |= {variable, clock}
            told += f":{found[2]}"
        names.add(name)
        used |= mine
    return told


HEADING = """# Descriptions from vectors/descriptions.py: the first check that fails and its place, or the name of the module, how many
# countdown clocks there are, and each terminal with the greatest lengths of its input and its output.
"""


def main():
    whole = [(what, GATE, text, field, place) for what, text, field, place in WHOLE]
    lines = [*case_texts.cases("description", checked, GATE, ROWS + whole + LONG)]
    lines += ["# bytes behind it that are no UTF-8, in hexadecimal", "description_behind 2320ff0a = Toml 0"]
    lines += case_texts.cases("description", checked, CROWD, CROWDED)
    case_texts.write("descriptions", [*HEADING.splitlines(), *NOTATION.splitlines(), *lines])


if __name__ == "__main__":
    main()
