#!/usr/bin/env python3
"""Runs random folders with the guests of the crate guest_kit and with those of kit_guests.py: the logs are the same.

    kit_alike.py FOLDER [COUNT [SEED]]

FOLDER has kit-NAME.wasm for sender, listener, echo, gateway, flooder and sleeper, and the descriptions
kit-description-1.toml, kit-description-1t.toml (with the countdown clock) and kit-description-2.toml (of two
terminals). The sender and the sleeper emit 100#1770; the sender's period is 10/1000 seconds.
"""
import os
import random
import sys
import tempfile

import description
import folder
import kit_guests
import operations
from folder_text import Network, Unit, put
from random_folders import random_errors

OPERATION = operations.transmit(b"100#1770")
OWN = {
    "sender": (kit_guests.sender(OPERATION, 10, 1000), "1t"), "listener": (kit_guests.listener(), "1"),
    "echo": (kit_guests.echo(), "1"), "gateway": (kit_guests.gateway(), "2"),
    "flooder": (kit_guests.flooder(), "1"), "sleeper": (kit_guests.sleeper(OPERATION), "1"),
}


class KitUnit:
    """A unit whose description and module are read from files."""

    def __init__(self, path, name, form):
        self.text = read(path, f"kit-description-{form}.toml")
        self.identifier = name
        self.module_name = description.read(self.text).identifier
        self.module = read(path, f"kit-{name}.wasm")

    def write(self, path):
        os.makedirs(os.path.join(path, "binaries"), exist_ok=True)
        put(os.path.join(path, "modelDescription.toml"), self.text)
        put(os.path.join(path, "binaries", self.module_name + ".wasm"), self.module)


def read(path, name):
    with open(os.path.join(path, name), "rb") as file:
        return file.read()


def own(name):
    module, form = OWN[name]
    return Unit(name, module, int(form[0]), form.endswith("t"))


def random_network(dice, unit_of):
    """The same network for the same dice, with units by name."""
    network = Network(10 ** 9, 10 ** 8, dice.choice([None, 700]))
    network.bus(500000, dice.choice([None, 2000000]))
    network.bus(dice.choice([250000, 500000]))
    members = [[], []]
    for place in range(dice.randint(2, 7)):
        name = dice.choice(["sender", "sender", *OWN])
        buses = [0, 1] if name == "gateway" else [dice.randrange(2)]
        dice.shuffle(buses)
        network.node(unit_of(name), *buses)
        for bus in buses:
            members[bus].append(f"node_{place}")
    for bus in range(2):
        random_errors(dice, network, bus, members[bus])
    return network


def main(words):
    path, *rest = words
    count, seed = rest + ["100", "1"][len(rest):]
    kit = {name: KitUnit(path, name, form) for name, (_, form) in OWN.items()}
    failed = 0
    with tempfile.TemporaryDirectory() as base:
        for place in range(int(count)):
            answers = []
            for who, unit_of in ("own", own), ("kit", kit.get):
                net = os.path.join(base, f"{who}_{place}")
                random_network(random.Random(f"{seed} {place}"), unit_of).write(net)
                answers.append(folder.outcome(net))
            if answers[0] != answers[1] or answers[0][0] == 3:
                failed += 1
                print(f"folder {place}: {answers[1][0]} {answers[1][2]} in place of {answers[0][0]} {answers[0][2]}")
    print(f"{count} folders, {failed} have another log with the kit's guests")
    return 1 if failed else 0


if __name__ == "__main__":
    sys.exit(main(sys.argv[1:]))
