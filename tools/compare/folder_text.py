"""Writes the folders of networks: net.toml, descriptions and modules."""
import os

import kit_guests


NAMES = ("CAN0", "CAN1", "CAN2", "CAN3")


def triggered(place, name):
    for number, way, causality in (4 * place, "Rx", "input"), (4 * place + 2, "Tx", "output"):
        yield ["[[Clock]]", f'name = "{name}.{way}_Clock"', f"valueReference = {number}",
               f'causality = "{causality}"', 'intervalVariability = "triggered"']


def ticking(reference):
    return ["[[Clock]]", f'name = "Timer{reference}"', f"valueReference = {reference}", 'causality = "input"',
            'intervalVariability = "countdown"']


def variables(place, name, size):
    for number, way, causality in (4 * place + 1, "Rx", "input"), (4 * place + 3, "Tx", "output"):
        yield ["[[Binary]]", f'name = "{name}.{way}_Data"', f"valueReference = {number}",
               f'causality = "{causality}"', f"clocks = [{number - 1}]", f"maxSize = {size}"]


def terminal(place, name):
    return ["[[Terminal]]", f'name = "{name}"', f"Rx_Data = {4 * place + 1}", f"Rx_Clock = {4 * place}",
            f"Tx_Data = {4 * place + 3}", f"Tx_Clock = {4 * place + 2}"]


class Unit:
    """A unit's folder: its identifier, its module, its terminals and countdown clocks. The arrays of its
    description may be in another order, by shuffling."""

    def __init__(self, identifier, module, terminals=1, countdown=(), size=kit_guests.SIZE, dice=None):
        self.identifier = identifier
        self.module = module
        self.names = NAMES[:terminals]
        self.countdown = (kit_guests.COUNTDOWN,) if countdown is True else tuple(countdown or ())
        self.size = size
        self.dice = dice

    def description(self):
        """The text of its description."""
        places = list(enumerate(self.names))
        clocks = [row for place in places for row in triggered(*place)] + [ticking(one) for one in self.countdown]
        binaries = [row for place in places for row in variables(*place, self.size)]
        terminals = [terminal(*place) for place in places]
        if self.dice:
            for rows in (clocks, binaries, terminals):
                self.dice.shuffle(rows)
        lines = ['fmiVersion = "3.0"', f'modelName = "{self.identifier}"',
                 f'instantiationToken = "{self.identifier}"', "[CoSimulation]",
                 f'modelIdentifier = "{self.identifier}"', "hasEventMode = true"]
        lines += [line for row in clocks + binaries + terminals for line in row]
        return "".join(line + "\n" for line in lines)

    def write(self, path):
        os.makedirs(os.path.join(path, "binaries"), exist_ok=True)
        put(os.path.join(path, "modelDescription.toml"), self.description().encode())
        put(os.path.join(path, "binaries", self.identifier + ".wasm"), self.module)


def put(path, data):
    with open(path, "wb") as file:
        file.write(data)


def lines_of(header, pairs):
    return [header] + [f"{key} = {value}" for key, value in pairs if value is not None]


class Network:
    """A network that is to be written. Buses are numbers in the order in which they are added."""

    def __init__(self, resolution, stop, events=None, fuel=None):
        self.settings = [("resolution", resolution), ("stop", stop), ("events", events), ("fuel", fuel)]
        self.buses = []
        self.nodes = []
        self.units = {}
        self.errors = []

    def bus(self, rate, data_rate=None, name=None):
        name = name or f"bus_{len(self.buses)}"
        self.buses.append((name, [("name", f'"{name}"'), ("rate", rate), ("fd_rate", data_rate)]))

    def node(self, unit, *buses, name=None, folder=None):
        """A node whose terminals stand on these buses, in their order."""
        folder = folder or unit.identifier
        self.units[folder] = unit
        where = ", ".join(f'CAN{place} = "{self.buses[bus][0]}"' for place, bus in enumerate(buses))
        name = name or f"node_{len(self.nodes)}"
        self.nodes.append([("name", f'"{name}"'), ("fmu", f'"{folder}"'), ("bus", "{ " + where + " }")])

    def error(self, bus, attempt, kind, by, bit, count=None):
        """An error of these attempts; `by` is `sender` or a node's name."""
        self.errors.append([("bus", f'"{self.buses[bus][0]}"'), ("attempt", attempt), ("count", count),
                            ("kind", kind), ("by", f'"{by}"'), ("bit", bit)])

    def text(self):
        """The text of net.toml."""
        lines = [f"{key} = {value}" for key, value in self.settings if value is not None]
        for header, rows in ("[[bus]]", [row for _, row in self.buses]), ("[[node]]", self.nodes), \
                ("[[error]]", self.errors):
            for row in rows:
                lines += ["", *lines_of(header, row)]
        return "".join(line + "\n" for line in lines)

    def write(self, path):
        os.makedirs(path, exist_ok=True)
        put(os.path.join(path, "net.toml"), self.text().encode())
        for folder, unit in self.units.items():
            unit.write(os.path.join(path, folder))
