#!/usr/bin/env python3
"""Runs random folders of networks through a program and through folder.py, and compares what they write.

    random_folders.py COUNT SEED [PROGRAM]

The units are those of kit_guests.py and odd_guests.py. `PROGRAM run NET` and folder.py have to agree on the log, the
report and the exit status; a folder on which they differ is kept, and its path is printed. Without a PROGRAM it shows
how many folders have which line.
"""
import collections
import os
import random
import shutil
import subprocess
import sys
import tempfile

import folder
import kit_guests
import odd_guests
import operations
import random_units
from folder_text import Network, Unit

RESOLUTIONS = [10 ** 9] * 6 + [10 ** 12, 10 ** 6, 720720, 1000, 60, 1]
LATEST = 2 ** 62
MOST_BYTES = 128  # of a kit guest's operation
SECONDS = 120  # that a program may take


def random_rate(dice, resolution):
    usual = [rate for rate in (10 ** 6, 500000, 250000, 125000, 2 * 10 ** 6) if resolution % rate == 0]
    if usual and dice.random() < 0.7:
        return dice.choice(usual)
    return dice.choice([rate for rate in range(1, min(resolution, 5000) + 1) if resolution % rate == 0])


class Draws:
    """What the units of one network are made from."""

    def __init__(self, dice, resolution, rates):
        self.dice = dice
        self.resolution = resolution
        self.bit = resolution // min(rates)
        identifiers = [dice.getrandbits(11) for _ in range(dice.choice([1, 2, 8]))]
        frames = [random_units.random_frame(dice, identifiers) for _ in range(dice.choice([1, 3, 12]))]
        self.habits = random_units.Habits(dice, frames, resolution, [self.bit], rates)
        self.framed = dice.choice([0.4, 0.8, 0.95, 1])
        self.shuffles = dice.random() < 0.3

    def said(self):
        """The bytes of some operations, perhaps with a fault in them."""
        dice = self.dice
        parts = [operations.transmit(dice.choice(self.habits.frames)) if dice.random() < self.framed
                 else random_units.plain_operation(dice, self.habits) for _ in range(dice.choice([1, 1, 1, 2, 3]))]
        text = b"".join(parts)
        return random_units.changed_bytes(dice, text) if dice.random() < 0.03 else text

    def operation(self):
        """Bytes that a kit guest can emit."""
        for _ in range(20):
            found = self.said()
            if len(found) <= MOST_BYTES:
                return found
        return operations.wakeup()

    def period(self):
        """Counter and resolution of an interval of some frames."""
        ticks = self.bit * self.dice.choice([60, 100, 200, 500, 1000, 5000])
        ticks = self.dice.choice([ticks, ticks, ticks, self.dice.randint(1, ticks)])
        factor = self.dice.choice([1, 1, 1, 1000])
        return ticks * factor, self.resolution * factor


def random_module(dice, draws, terminals):
    """A module, and its countdown clocks."""
    kind = dice.choice(["sender"] * 8 + ["talker"] * 4 + ["echo", "sleeper", "flooder", "two"] + ["odd"] * 3
                       + ["listener"] * 2 if terminals == 1 else ["gateway"] * 3 + ["hub"] * 2 + ["sender", "echo"])
    if kind == "sender":
        return kit_guests.sender(draws.operation(), *draws.period()), [kit_guests.COUNTDOWN]
    if kind == "talker":
        emissions = [draws.said() for _ in range(dice.choice([1, 2, 5]))]
        return kit_guests.talker(emissions, *draws.period()), [kit_guests.COUNTDOWN]
    if kind == "two":
        first, second = draws.period(), draws.period()
        module = odd_guests.two_clocks(draws.operation(), draws.operation(), (first[0], second[0]), first[1])
        return module, [kit_guests.COUNTDOWN, kit_guests.COUNTDOWN + 1]
    if kind == "odd":
        return odd_module(dice, draws)
    if kind == "hub":
        return odd_guests.hub(terminals), []
    if kind == "sleeper":
        return kit_guests.sleeper(draws.operation()), []
    return {"echo": kit_guests.echo, "flooder": kit_guests.flooder, "listener": kit_guests.listener,
            "gateway": kit_guests.gateway}[kind](), []


def odd_module(dice, draws):
    kind = dice.randrange(6)
    if kind == 0:
        name = dice.choice(sorted(odd_guests.ODD_SENDERS))
        return odd_guests.odd_sender(name, draws.operation(), *draws.period()), [kit_guests.COUNTDOWN]
    if kind == 1:
        module = odd_guests.echo_in_turns(draws.operation(), dice.choice([1, 14, 15, 16]))
        return module, [kit_guests.COUNTDOWN]
    if kind == 2:
        text = dice.choice(["unreachable", "", "i32.const 70000 i32.const 1 i32.store"])
        return odd_guests.starts_with(text), []
    return odd_guests.odd_listener(dice.choice(sorted(odd_guests.ODD_LISTENERS))), []


def damaged(dice, module):
    """A module with a byte that is changed, added or left out, or that is cut."""
    if not module:
        return b"\0"
    place = dice.randrange(len(module))
    byte = bytes([dice.choice([0, 1, 0x0B, 0x7F, 0x80, module[place] ^ 1 << dice.randrange(8), dice.randrange(256)])])
    return dice.choice([module[:place] + byte + module[place + 1:], module[:place] + byte + module[place:],
                        module[:place] + module[place + 1:], module[:place]])


def random_unit(dice, draws, place, terminals, size):
    module, countdown = random_module(dice, draws, terminals)
    if dice.random() < 0.01:
        module = damaged(dice, module)
    return Unit(f"u{place}", module, terminals, countdown, size, dice if draws.shuffles else None)


def random_errors(dice, network, bus, names):
    declines = dice.random() < 0.25
    first = 1
    for _ in range(dice.choice([0, 0, 1, 3, 6]) + 5 * declines):
        count = dice.choice([1, 17, 33, 33]) if declines else dice.choice([None, 1, 2, 16, 70, 2 ** 32])
        bit = dice.choice([0, 1, dice.randint(0, 60), dice.randint(0, 200), 1023])
        network.error(bus, first, dice.randint(1, 4), dice.choice(["sender", *names]), bit, count)
        first = max(1, first + dice.choice([-4, 0, 1, 5, count or 1])) if declines else dice.randint(1, 100)
        first = min(first, 2 ** 32)


def random_network(dice):
    resolution = dice.choice(RESOLUTIONS)
    rates = [random_rate(dice, resolution) for _ in range(dice.choice([1, 1, 1, 2, 2, 3, 4]))]
    draws = Draws(dice, resolution, rates)
    stop = min(LATEST, draws.bit * dice.choice([0, 1, 100, 3000] + [10 ** 5, 10 ** 6, LATEST] * 7))
    fuel = dice.choice([None] * 7 + [dice.randint(1, 40), dice.randint(40, 400), 5000])
    network = Network(resolution, stop, dice.choice([1, 2, 7, 60] + [200, 300, 500] * 5), fuel)
    for rate in rates:
        network.bus(rate, dice.choice([None, random_rate(dice, resolution)]))
    nodes = dice.choice([1, 2, 3, 3, 4, 4, 5, 6, 7, 8, 32 if dice.random() < 0.1 else 3])
    by_terminals, members = collections.defaultdict(list), collections.defaultdict(list)
    for place in range(nodes):
        terminals = dice.choice([1] * 4 + [len(rates), min(2, len(rates))])
        known = by_terminals[terminals]
        size = kit_guests.SIZE if dice.random() < 0.9 else 20000
        unit = dice.choice(known) if known and dice.random() < 0.3 else random_unit(dice, draws, place, terminals, size)
        known.append(unit)
        buses = dice.sample(range(len(rates)), terminals)
        network.node(unit, *buses)
        for bus in buses:
            members[bus].append(f"node_{place}")
    for bus in range(len(rates)):
        random_errors(dice, network, bus, members[bus])
    return network


def run(program, path):
    try:
        done = subprocess.run([program, "run", path], capture_output=True, timeout=SECONDS)
    except subprocess.TimeoutExpired:
        return None, b"", b"no answer\n"
    return done.returncode, done.stdout, done.stderr


def told(path, found, wanted):
    """Prints the first place at which a program's answer differs."""
    print(f"{path}: status {found[0]}, in place of {wanted[0]}")
    if found[2] != wanted[2]:
        print(f"  report {found[2]}, in place of {wanted[2]}")
    if found[1] != wanted[1]:
        lines = zip(found[1].split(b"\n"), wanted[1].split(b"\n"))
        place, (one, other) = next((n, pair) for n, pair in enumerate(lines, 1) if pair[0] != pair[1])
        print(f"  line {place}: {one}, in place of {other}")


def noted(seen, answer):
    """Counts the kinds of lines that a log has, once for each folder."""
    status, log, report = answer
    kinds = {b"status %d" % status, report.split(b"\n")[0].partition(b" ")[0]}
    for line in log.split(b"\n")[:-2]:
        words = line.split(b" ")
        kinds.add(b" ".join(words[2:3] + ([words[-1]] if words[2:3] in ([b"down"], [b"state"]) else [])))
    seen.update(kinds - {b""})


def main(words):
    count, seed, *program = words
    seen, failed, events = collections.Counter(), 0, 0
    base = tempfile.mkdtemp(prefix="folders_")
    for place in range(int(count)):
        path = os.path.join(base, str(place))
        random_network(random.Random(f"{seed} {place}")).write(path)
        wanted = folder.outcome(path)
        events += int(wanted[1].rsplit(b" ", 1)[-1]) if wanted[1] else 0
        found = run(program[0], path) if program else wanted
        noted(seen, wanted)
        if found == wanted:
            shutil.rmtree(path)
        else:
            failed += 1
            told(path, found, wanted)
    if not program:
        print("\n".join(f"{many:6} {kind.decode()}" for kind, many in sorted(seen.items())))
    print(f"{count} folders, {events} events, {failed} differ")
    if not failed:
        os.rmdir(base)
    return 1 if failed else 0


if __name__ == "__main__":
    sys.exit(main(sys.argv[1:]))
