"""The file net.toml: buses, nodes and errors, or the first check that fails (docs/NETWORKS.md)."""
import re

import documents
from documents import check, identifier, number, text
from member import Error
from world_text import BusPlan, NodePlan, Plan

MOST_BUSES = 4
MOST_NODES = 32
MOST_ERRORS = 1024


def named(value):
    return text(value) and re.fullmatch("[a-z0-9_]{1,32}", value) is not None


def has_bit_time(rate, resolution):
    return number(rate, 1, 2 ** 32 - 1) and resolution % rate == 0


class Network:
    """The plan of a network, and for each node its name, its folder, and its buses by terminal names."""

    def __init__(self, plan, fuel):
        self.plan = plan
        self.fuel = fuel
        self.bus_names = []
        self.node_names = []
        self.folders = []
        self.terminals = []


def read_settings(document):
    check(number(document.get("resolution"), 1, 10 ** 12), "resolution")
    check(number(document.get("stop"), 0, 2 ** 62), "stop")
    events = document.get("events", 10 ** 6)
    check(number(events, 1, 10 ** 8), "events")
    fuel = document.get("fuel", 10 ** 6)
    check(number(fuel, 1, 10 ** 9), "fuel")
    return Network(Plan(document["resolution"], document["stop"], events), fuel)


def read_buses(document, network):
    resolution = network.plan.resolution
    for place, row in documents.rows(document, "bus", 1, MOST_BUSES):
        name = row.get("name")
        check(named(name) and name not in network.bus_names, "bus.name", place)
        check(has_bit_time(row.get("rate"), resolution), "bus.rate", place)
        data_rate = row.get("fd_rate")
        check("fd_rate" not in row or has_bit_time(data_rate, resolution), "bus.fd_rate", place)
        network.bus_names.append(name)
        network.plan.buses.append(BusPlan(resolution, row["rate"], data_rate))


def read_nodes(document, network):
    for place, row in documents.rows(document, "node", 1, MOST_NODES):
        name = row.get("name")
        check(named(name) and name not in network.node_names and name != "sender", "node.name", place)
        check(identifier(row.get("fmu")), "node.fmu", place)
        terminals = row.get("bus")
        check(type(terminals) is dict and terminals, "node.bus", place)
        buses = list(terminals.values())
        check(all(text(bus) and bus in network.bus_names for bus in buses), "node.bus", place)
        check(len(set(buses)) == len(buses), "node.bus", place)
        network.node_names.append(name)
        network.folders.append(row["fmu"])
        network.terminals.append({key: network.bus_names.index(bus) for key, bus in terminals.items()})
        network.plan.nodes.append(NodePlan())


def detector(network, by, bus):
    """The number of the node that detects an error, or None for the sender; False where it is neither."""
    if by == "sender":
        return None
    if not text(by) or by not in network.node_names:
        return False
    node = network.node_names.index(by)
    return node if bus in network.terminals[node].values() else False


def read_errors(document, network):
    for place, row in documents.rows(document, "error", 0, MOST_ERRORS):
        bus = row.get("bus")
        check(text(bus) and bus in network.bus_names, "error.bus", place)
        bus = network.bus_names.index(bus)
        count = row.get("count", 1)
        check(number(row.get("attempt"), 1, 2 ** 32), "error.attempt", place)
        check(number(count, 1, 2 ** 32), "error.count", place)
        check(number(row.get("kind"), 1, 4), "error.kind", place)
        by = detector(network, row.get("by"), bus)
        check(by is not False, "error.by", place)
        check(number(row.get("bit"), 0, 1023), "error.bit", place)
        network.plan.buses[bus].errors.append(Error(row["attempt"], count, row["kind"], by, row["bit"]))


def read(data):
    """The network of these bytes, whose descriptions aren't read yet."""
    document = documents.read(data)
    network = read_settings(document)
    read_buses(document, network)
    read_nodes(document, network)
    read_errors(document, network)
    return network
