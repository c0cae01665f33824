"""The description of a unit, modelDescription.toml: its terminals and clocks, or the first check that fails.

The checks and their order are those of docs/DESCRIPTION.md.
"""
from collections import namedtuple

import documents
from documents import check, identifier, number, text

MOST_VARIABLES = 64
MOST_COUNTDOWN = 8
MOST_TERMINALS = 4
REFERENCES = 0, 2 ** 32 - 1

Clock = namedtuple("Clock", "causality interval")
Binary = namedtuple("Binary", "causality clock size")
Terminal = namedtuple("Terminal", "name rx_clock rx_data tx_clock tx_data")


class Description:
    """The identifier, the countdown clocks, the terminals, and the greatest size of each of their variables."""

    def __init__(self, name):
        self.identifier = name
        self.countdown = []
        self.terminals = []
        self.sizes = {}


def read_head(document):
    version = document.get("fmiVersion")
    check(text(version) and version.startswith("3.0"), "fmiVersion")
    check(text(document.get("modelName")), "modelName")
    check(text(document.get("instantiationToken")), "instantiationToken")
    simulation = document.get("CoSimulation")
    check(type(simulation) is dict, "CoSimulation")
    check(identifier(simulation.get("modelIdentifier")), "modelIdentifier")
    check(simulation.get("hasEventMode") is True, "hasEventMode")
    return Description(simulation["modelIdentifier"])


def read_clocks(document, countdown):
    """The clocks by reference; the countdown clocks are listed."""
    clocks = {}
    for place, row in documents.rows(document, "Clock", 0, MOST_VARIABLES):
        check(text(row.get("name")), "Clock.name", place)
        reference = row.get("valueReference")
        check(number(reference, *REFERENCES) and reference not in clocks, "Clock.valueReference", place)
        causality = row.get("causality")
        check(causality in ("input", "output"), "Clock.causality", place)
        interval = row.get("intervalVariability")
        check(interval in ("triggered", "countdown"), "Clock.intervalVariability", place)
        if interval == "countdown":
            few = len(countdown) < MOST_COUNTDOWN
            check(causality == "input" and few, "Clock.intervalVariability", place)
            countdown.append(reference)
        clocks[reference] = Clock(causality, interval)
    return clocks


def read_binaries(document, clocks):
    binaries = {}
    for place, row in documents.rows(document, "Binary", 0, MOST_VARIABLES):
        check(text(row.get("name")), "Binary.name", place)
        reference = row.get("valueReference")
        new = number(reference, *REFERENCES) and reference not in clocks and reference not in binaries
        check(new, "Binary.valueReference", place)
        causality = row.get("causality")
        check(causality in ("input", "output"), "Binary.causality", place)
        own = row.get("clocks")
        check(type(own) is list and len(own) == 1 and number(own[0], *REFERENCES), "Binary.clocks", place)
        check(clocks.get(own[0]) == Clock(causality, "triggered"), "Binary.clocks", place)
        check(number(row.get("maxSize"), 256, 65536), "Binary.maxSize", place)
        binaries[reference] = Binary(causality, own[0], row["maxSize"])
    return binaries


def way(row, name, causality, binaries, used, place):
    """The variable and the clock of a terminal in one direction."""
    data = row.get(name + "_Data")
    known = number(data, *REFERENCES) and data in binaries and binaries[data].causality == causality
    check(known and data not in used, f"Terminal.{name}_Data", place)
    clock = row.get(name + "_Clock")
    its = number(clock, *REFERENCES) and clock == binaries[data].clock
    check(its and clock not in used, f"Terminal.{name}_Clock", place)
    return clock, data


def read_terminals(document, description, binaries):
    used = set()
    for place, row in documents.rows(document, "Terminal", 1, MOST_TERMINALS):
        name = row.get("name")
        new = identifier(name) and all(name != other.name for other in description.terminals)
        check(new, "Terminal.name", place)
        receives = way(row, "Rx", "input", binaries, used, place)
        transmits = way(row, "Tx", "output", binaries, used, place)
        used.update(receives, transmits)
        description.terminals.append(Terminal(name, *receives, *transmits))
        for _, data in (receives, transmits):
            description.sizes[data] = binaries[data].size


def read(data):
    """The description of these bytes."""
    document = documents.read(data)
    description = read_head(document)
    clocks = read_clocks(document, description.countdown)
    binaries = read_binaries(document, clocks)
    read_terminals(document, description, binaries)
    return description
