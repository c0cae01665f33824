#!/usr/bin/env python3
"""Spoils random folders in one to three places, and compares what a program and folder.py report.

    random_refusals.py COUNT SEED [PROGRAM]

A line of net.toml or of a description gets another value, is left out, or stands in another place; or a module is
damaged. Which of several faults is told is the first in the order of the checks. A folder on which PROGRAM differs is
kept, and its path is printed. Without a PROGRAM it shows what is reported how often.
"""
import collections
import os
import random
import shutil
import sys
import tempfile

import folder
import random_folders

VALUES = ["0", "1", "4", "5", "-1", "255", "256", "1023", "1024", "65536", "65537", "4294967295", "4294967296",
          "4294967297", "1000000000000", "1000000000001", "4611686018427387904", "4611686018427387905", "true", "false",
          "0.5", '""', '"a"', '"A"', '"a b"', '"sender"', '"input"', '"output"', '"triggered"', '"countdown"', '"3.1"',
          '"node_0"', '"node_1"', '"bus_0"', '"bus_1"', '"CAN0"', '"CAN1"', '"u0"', '"u1"', "[]", "[0]", "[1]", "[2]",
          "[2, 2]", "{}", '{ CAN0 = "bus_0" }', '{ CAN1 = "bus_0" }', '{ CAN0 = "bus_0", CAN1 = "bus_1" }',
          '{ CAN0 = "bus_0", CAN1 = "bus_0" }', "2024-05-01", '"' + "a" * 32 + '"', '"' + "a" * 33 + '"',
          '"' + "a" * 64 + '"', '"' + "a" * 65 + '"']


def rows_of(lines):
    """Where the tables of a text begin and end: the header, and the line behind the last."""
    heads = [place for place, line in enumerate(lines) if line.startswith("[")] + [len(lines)]
    return list(zip(heads, heads[1:]))


def spoil_text(dice, path):
    with open(path, encoding="utf-8") as file:
        lines = file.read().splitlines()
    pairs = [place for place, line in enumerate(lines) if " = " in line]
    rows = rows_of(lines)
    way = dice.randrange(10)
    if way < 6:
        place = dice.choice(pairs)
        lines[place] = lines[place].partition(" = ")[0] + " = " + dice.choice(VALUES)
    elif way < 8:
        lines.pop(dice.choice(pairs))
    elif rows:
        first, behind = dice.choice(rows)
        row = lines[first:behind]
        if way == 8:
            del lines[first:behind]
        lines += row * dice.choice([1, 1, 64]) if lines and way == 9 else []
    with open(path, "w", encoding="utf-8") as file:
        file.write("".join(line + "\n" for line in lines))


def spoil_module(dice, path):
    with open(path, "rb") as file:
        data = file.read()
    with open(path, "wb") as file:
        file.write(random_folders.damaged(dice, data))


def spoil(dice, path):
    """Spoils a file of a folder, or takes it away."""
    files = [os.path.join(base, name) for base, _, names in sorted(os.walk(path)) for name in sorted(names)]
    texts = [name for name in files if name.endswith(".toml")]
    chosen = dice.choice(files if dice.random() < 0.3 else texts)
    if dice.random() < 0.02:
        os.remove(chosen)
    elif chosen in texts:
        spoil_text(dice, chosen)
    else:
        spoil_module(dice, chosen)


def main(words):
    count, seed, *program = words
    seen, failed = collections.Counter(), 0
    base = tempfile.mkdtemp(prefix="refusals_")
    for place in range(int(count)):
        path = os.path.join(base, str(place))
        dice = random.Random(f"refusals {seed} {place}")
        network = random_folders.random_network(dice)
        network.settings[2] = ("events", dice.choice([1, 5, 20]))
        network.write(path)
        for _ in range(dice.choice([1, 1, 2, 3])):
            spoil(dice, path)
        wanted = folder.outcome(path)
        words = wanted[2].decode().split()[:4]
        seen[" ".join(word for word in words if not word.isdigit()) or "runs"] += 1
        found = random_folders.run(program[0], path) if program else wanted
        if found == wanted:
            shutil.rmtree(path)
        else:
            failed += 1
            random_folders.told(path, found, wanted)
    if not program:
        print("\n".join(f"{many:6} {kind}" for kind, many in seen.most_common()))
    print(f"{count} folders, {failed} differ")
    if not failed:
        os.rmdir(base)
    return 1 if failed else 0


if __name__ == "__main__":
    sys.exit(main(sys.argv[1:]))
