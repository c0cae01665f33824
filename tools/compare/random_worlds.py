#!/usr/bin/env python3
"""Runs random worlds of several buses through a program and through world.py, and compares what they write.

    random_worlds.py COUNT SEED [PROGRAM ..]
    random_worlds.py COUNT SEED --cases FOLDER

PROGRAM and its words get the file of a world's text as their last word. With --cases each text becomes a file of the
folder, beside what is to be written of it, NAME.stdout. With neither it shows what happens in these worlds: how many
of them have which line.
"""
import collections
import os
import random
import subprocess
import sys
import tempfile

import world
import world_text
from member import Error
from random_units import Habits, RandomUnit, random_frame
from units import Terminal

RESOLUTIONS = [1, 7, 12, 60, 1000, 1024, 65536, 720720, 10 ** 6, 10 ** 9, 10 ** 12]
LATEST = 2 ** 62


def random_rate(dice, resolution):
    return dice.choice([rate for rate in range(1, min(resolution, 5000) + 1) if resolution % rate == 0])


def random_error(dice, members):
    first = dice.choice([1, 1, dice.randint(1, 20), dice.randint(1, 100)])
    count = dice.choice([1, 1, 2, 5, 16, 17, 33, 70, 2 ** 32])
    by = dice.choice([None, *members])
    bit = dice.choice([0, 1, dice.randint(0, 60), dice.randint(0, 200), 1023])
    return Error(first, count, dice.randint(1, 4), by, bit)


def random_terminals(dice, references, buses):
    chosen = dice.sample(range(buses), dice.choice([1, buses, buses, dice.randint(1, buses)]))
    return [Terminal(bus, *(references.pop() for _ in range(4))) for bus in chosen]


def random_plan(dice):
    """A world without its replies."""
    resolution = dice.choice(RESOLUTIONS)
    plan = world_text.Plan(resolution, 0, dice.choice([1, 2, 3, 7, 40] + [300] * 6 + [600] * 4))
    for _ in range(dice.choice([1, 1, 2, 2, 3, 4])):
        data_rate = dice.choice([0, random_rate(dice, resolution)])
        plan.buses.append(world_text.BusPlan(resolution, random_rate(dice, resolution), data_rate))
    for _ in range(dice.choice([1, 2, 2, 3, 3, 3, 4, 5, 7, 32])):
        references = dice.sample(range(200), 24) if dice.random() < 0.8 else dice.sample(range(2 ** 32), 24)
        node = world_text.NodePlan()
        node.terminals = random_terminals(dice, references, len(plan.buses))
        node.clocks = [references.pop() for _ in range(dice.choice([0, 0, 1, 1, 2, 3, 8]))]
        plan.nodes.append(node)
    for place, bus in enumerate(plan.buses):
        bus.errors = [random_error(dice, plan.members(place)) for _ in range(dice.choice([0, 0, 1, 2, 6]))]
    slowest = max(bus.nominal for bus in plan.buses)
    plan.stop = min(LATEST, slowest * dice.choice([0, 1, 100, 1000] + [10000, 100000, LATEST] * 4))
    return plan


def declining(dice, plan):
    """Long stretches of errors on each bus, so that nodes become passive and off, and come back."""
    plan.events = 900
    plan.stop = LATEST
    for place, bus in enumerate(plan.buses):
        first = 1
        while first < 300:
            error = random_error(dice, plan.members(place))
            bus.errors.append(Error(first, dice.choice([1, 10, 17, 33]), error.kind, error.by, error.bit))
            first = max(1, bus.errors[-1].last + dice.choice([-4, 1, 1, 2, 6]))


def random_units(dice, plan):
    """A unit for each node, which answers at random."""
    identifiers = [dice.getrandbits(11) for _ in range(dice.choice([1, 2, 8]))]
    frames = [random_frame(dice, identifiers) for _ in range(dice.choice([1, 3, 20]))]
    bits = [bus.nominal for bus in plan.buses]
    rates = [rate for bus in plan.buses for rate in (bus.rate, bus.data_rate or 1)]
    return [RandomUnit(dice, Habits(dice, frames, plan.resolution, bits, rates)) for _ in plan.nodes]


def random_world(dice):
    """A world with the replies that units gave at random in a run of it."""
    plan = random_plan(dice)
    units = random_units(dice, plan)
    declines = dice.random() < 0.3 and len(plan.nodes) < 7
    if declines:
        declining(dice, plan)
        for unit in units:
            unit.habits.keep_on_sending()
    world.World(plan, units).run()
    for node, unit in zip(plan.nodes, units):
        kept = len(unit.given) if declines or dice.random() < 0.95 else dice.randint(0, len(unit.given))
        node.replies = unit.given[:kept]
    return world_text.written(plan)


def kind_of(line):
    """A line of a log by its words that aren't numbers or frames."""
    words = line.split(" ")
    if words[0] == "end":
        return " ".join(words[:2])
    more = {"told": words[4:5], "fail": ["kind", words[5] if len(words) > 5 else ""], "state": words[4:5],
            "lost": words[5:6], "down": words[4:5]}
    return " ".join(words[2:3] + more.get(words[2], []))


def show(dice, count):
    kinds = collections.Counter()
    for _ in range(count):
        lines = world.outcome(world_text.read(random_world(dice))).decode().splitlines()
        log = lines[:lines.index("calls 0")]
        moments = [int(line.split(" ")[0]) for line in log[:-1]]
        if moments != sorted(moments):
            sys.exit("a moment falls")
        kinds.update({kind_of(line) for line in log})
    for kind, worlds in sorted(kinds.items()):
        print(worlds, kind)


def compare(dice, count, seed, program):
    with tempfile.TemporaryDirectory() as folder:
        path = os.path.join(folder, "a.world")
        for place in range(count):
            text = random_world(dice)
            with open(path, "wb") as file:
                file.write(text)
            ran = subprocess.run([*program, path], capture_output=True, check=False)
            if ran.stdout != world.outcome(world_text.read(text)):
                sys.stdout.buffer.write(text)
                sys.exit(f"the two differ on this world, number {place} of seed {seed}")
    print(f"{count} worlds, no difference")


def write_cases(dice, count, seed, folder):
    os.makedirs(folder, exist_ok=True)
    for place in range(count):
        text = random_world(dice)
        for name, content in [("", text), (".stdout", world.outcome(world_text.read(text)))]:
            with open(os.path.join(folder, f"world_{seed}_{place:05}{name}"), "wb") as file:
                file.write(content)


def main(count="1000", seed="1", *program):
    dice = random.Random(int(seed))
    if program[:1] == ("--cases",):
        write_cases(dice, int(count), seed, program[1])
    elif program:
        compare(dice, int(count), seed, program)
    else:
        show(dice, int(count))


if __name__ == "__main__":
    main(*sys.argv[1:])
