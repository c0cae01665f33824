#!/usr/bin/env python3
"""The runs that crates/worked_worlds/specs computes from the definitions, through world.py.

A world is made here again; its log is the text that the specs have. `answering` has units with lists.
"""
import glob
import os
import re
import sys

import operations
import world
import world_text
from table_units import CLOCK, Table
from units import ListUnit, Terminal
from world_parts import CLOSED, ended, opened, stepped

SPECS = os.path.join(os.path.dirname(os.path.realpath(__file__)), "../../crates/worked_worlds/specs/*.antt")
SECOND = 10 ** 9
frame = operations.transmit
WAKE, SLEEP, NONE = operations.wakeup(), operations.sleep(), 10 ** 6
BRAKE, ENGINE, LIGHT = frame(b"0ff#"), frame(b"100#1770"), frame(b"300##15555555555555555")


def crossing():
    return [([0], Table(period=10 ** 7, ticks=[(0, BRAKE)])), ([0, 1], Table(rules=[(0, BRAKE, (1, BRAKE))])),
            ([1], Table())]


def lists(*replies):
    return [([0], ListUnit([world_text.read_reply(word, parts) for word, *parts in map(str.split, unit)]))
            for unit in replies]


# name, stop, budget, data rates of the buses, and the nodes: buses and units
WORLDS = [
    ("crossing", 12000000, NONE, [0, 0], crossing()),
    ("spent", 12000000, 6, [0, 0], crossing()),
    ("resumed", 12000000, NONE, [0, 0], crossing()),
    ("one_cycle", 20000000, NONE, [0, 2000000], [
        ([0], Table(period=10 ** 7, ticks=[(0, ENGINE)])), ([0], Table(period=10 ** 7, ticks=[(0, BRAKE)])),
        ([0, 1], Table(rules=[(0, ENGINE, (1, ENGINE)), (0, BRAKE, (1, BRAKE))])), ([1], Table()),
        ([1], Table(period=10 ** 7, ticks=[(0, LIGHT)])), ([0], Table())]),
    ("failing", 10 ** 6, NONE, [0], [
        ([0], Table(first=[(0, WAKE)])), ([0], Table(first=[(0, WAKE)], ends=["trap"])),
        ([0], Table(rules=[(0, WAKE, (0, WAKE))], ends=["live", "over"])),
        ([0], Table(first=[(0, SLEEP)], close="error"))]),
    ("pieces", 10 ** 6, NONE, [0], [
        ([0], Table(first=[(0, SLEEP + WAKE + b"\x07"), (0, b"\x42\0\0\0"), (0, b"\x08\0\0\0")])), ([0], Table())]),
    ("by_bus", 1000, NONE, [0, 0], [
        ([1, 0], Table(first=[(0, operations.confirm(9)), (1, SLEEP), (0, SLEEP), (1, frame(b"001##0"))])),
        ([0, 1], Table())]),
    ("sessions_first", 201000, NONE, [0], [
        ([0], Table(first=[(0, frame(b"100#")), (0, frame(b"101#"))])),
        ([0], Table(period=102000, ticks=[(0, BRAKE)]))]),
    ("no_more_requests", 10 ** 6, NONE, [0], [
        ([0], Table(first=[(0, frame(b"100#"))], ends=["over"])), ([0], Table())]),
    ("ticks_once", 10 ** 6, NONE, [0], [([0], Table(period=5, once=True, reports=True))]),
    ("sessions_join", 17, NONE, [0], [
        ([0], Table(period=5, reports=True)), ([0], Table(period=7, reports=True))]),
    ("answering", 10 ** 6, NONE, [0], lists(
        opened(BRAKE.hex()) + stepped(2, None) + CLOSED, opened(None) + ended(2, None), [])),
]


def plan_of(stop, budget, data_rates, nodes):
    plan = world_text.Plan(SECOND, stop, budget)
    plan.buses = [world_text.BusPlan(SECOND, 500000, data_rate) for data_rate in data_rates]
    for buses, unit in nodes:
        node = world_text.NodePlan()
        node.terminals = [Terminal(bus, *range(10 * place, 10 * place + 4)) for place, bus in enumerate(buses)]
        node.clocks = [CLOCK] if getattr(unit, "period", 0) else []
        plan.nodes.append(node)
    return plan


def texts_of_specs():
    """The log that each run of the specs has, by the name of the run."""
    logs, parts = {}, {}
    for path in glob.glob(SPECS):
        with open(path, encoding="utf-8") as file:
            for piece in file.read().split("\n\n"):
                lines = "".join(line + "\n" for line in re.findall(r'codes "([^"]*)"', piece))
                name = re.search(r"^(?:abbrev |pub )+(\w+) :", piece, re.M)
                if lines and name:
                    parts[name[1]] = lines
                    logs[name[1]] = parts.get("front", "") + lines if "front" in piece and name[1] != "front" else lines
    return {name: log for name, log in logs.items() if name != "front"}


def main():
    wanted = texts_of_specs()
    wrong = set(wanted) ^ {name for name, *_ in WORLDS}
    for name, stop, budget, data_rates, nodes in WORLDS:
        run = world.World(plan_of(stop, budget, data_rates, nodes), [unit for _, unit in nodes])
        run.run()
        if b"".join(run.log).decode() != wanted.get(name):
            wrong.add(name)
            print(f"{name}: the log is\n{b''.join(run.log).decode()}")
    print(f"differ: {sorted(wrong)}" if wrong else f"{len(WORLDS)} worlds, as the definitions compute them")
    return 1 if wrong else 0


if __name__ == "__main__":
    sys.exit(main())
