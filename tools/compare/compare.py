#!/usr/bin/env python3
"""Runs play files, good and bad, through the program and through simulate.py, and compares the
output, the error stream and the exit status: first those of worked.py and broken.py, then random ones.

    compare.py [PROGRAM [SECONDS [SEED]]]
"""
import os
import random
import subprocess
import sys
import tempfile
import time

import broken
import simulate
import wire
import worked

HERE = os.path.dirname(os.path.realpath(__file__))
PROGRAM = os.path.join(HERE, "../../crates/bench/out/bench")
RESOLUTIONS = [1, 7, 12, 60, 1000, 1024, 65536, 720720, 10 ** 6, 10 ** 9, 10 ** 12, 2 ** 36]
NUMBERS = [0, 1, 2, 31, 32, 33, 255, 256, 1023, 1024, 2 ** 32 - 1, 2 ** 32, 2 ** 62, 2 ** 62 + 1,
           2 ** 64, 10 ** 12, 10 ** 12 + 1, 10 ** 30]
WORDS = [b"send", b"wake", b"sleep", b"keep", b"discard", b"error", b"play", b"sender", b"R", b"#",
         b"000#", b"000##", b"000##0", b"00000000#R", b"800#", b"7FF#", b"20000000#", b"000#0", b""]
NAMES = [b"send", b"wake", b"sleep", b"keep", b"discard"]
ENDLESS = b"play 1 1 0 1 4611686018427387904\n0 0 send 000#\n"
MIXES = [[1, 0, 0, 0, 0], [8, 0, 0, 1, 2], [6, 2, 2, 0, 0], [8, 1, 1, 1, 1], [2, 1, 1, 1, 1]]


def lines_of(lines):
    return b"".join(line + b"\n" for line in lines)


def random_rate(dice, resolution):
    return dice.choice([rate for rate in range(1, min(resolution, 5000) + 1)
                        if resolution % rate == 0])


def random_bytes(dice, length):
    repeated = dice.choice([b"\x00", b"\xff", b"\x1f", b"\xf8", b"\x55", None, None])
    data = repeated * length if repeated else dice.randbytes(length)
    return data.hex().encode()


def random_frame(dice, bases, fd):
    base = dice.choice(bases)
    name = b"%03x" % base
    if dice.random() < 0.4:
        name = b"%08x" % ((base << 18) | dice.choice([0, 1, 0x3FFFF, dice.getrandbits(18)]))
    kind = dice.random()
    if kind < 0.15:
        return name + b"#R"
    if kind < 0.55 or not fd:
        return name + b"#" + random_bytes(dice, dice.randint(0, 8))
    length = dice.choice(wire.FD_LENGTHS)
    return name + b"##%d" % dice.randint(0, 3) + random_bytes(dice, length)


class Bus:
    """What the lines of a random play have in common. Few identifiers, so that many requests meet."""

    def __init__(self, dice, most):
        self.dice = dice
        self.resolution = dice.choice(RESOLUTIONS)
        self.rate = random_rate(dice, self.resolution)
        self.data_rate = dice.choice([0, self.rate, random_rate(dice, self.resolution)])
        self.nodes = dice.choice([1, 2, 2, 3, 3, 4, 5, 32])
        self.bit = self.resolution // self.rate
        bases = [dice.getrandbits(11) for _ in range(dice.choice([1, 2, 8]))]
        self.frames = [random_frame(dice, bases, self.data_rate)
                       for _ in range(dice.choice([1, 3, most]))]

    def header(self, stop):
        return b"play %d %d %d %d %d" % (self.resolution, self.rate, self.data_rate, self.nodes, stop)

    def error(self, first, count):
        dice = self.dice
        by = dice.choice([b"sender", b"%d" % dice.randrange(self.nodes)])
        bit = dice.choice([0, 1, dice.randint(0, 60), dice.randint(0, 200), 1023])
        return b"error %d %d %d %s %d" % (first, count, dice.randint(1, 4), by, bit)

    def action(self, moment, mix):
        dice = self.dice
        name = dice.choices(NAMES, mix)[0]
        line = b"%d %d %s" % (moment, dice.randrange(self.nodes), name)
        return line + b" " + dice.choice(self.frames) if name == b"send" else line


def random_errors(dice, bus):
    """An error script: none, single ones, whole stretches, one upon the other, or as many as can be."""
    kind = dice.choices(range(6), [5, 5, 5, 5, 5, 1])[0]
    if kind == 0:
        return []
    if kind == 1:
        return [bus.error(dice.randint(1, 20), 1) for _ in range(dice.randint(1, 5))]
    if kind == 2:
        return [bus.error(first, dice.choice([1, 1, 2, 9])) for first in range(1, 200, 3)]
    if kind == 3:
        return [bus.error(1, dice.choice([16, 17, 32, 33, 70, 2 ** 32]))]
    if kind == 5:
        return [bus.error(dice.randint(1, 500), dice.choice([1, 2, 5])) for _ in range(1024)]
    return [bus.error(dice.randint(1, 60), dice.choice([1, 5, 20, 40, 2 ** 32]))
            for _ in range(dice.randint(1, 12))]


def random_play(dice, most):
    """A good play file; some last long enough for nodes to go bus off and to come back."""
    bus = Bus(dice, most)
    bit = bus.bit
    span = dice.choice([0, bit, 60 * bit, 3000 * bit, 10000 * bit])
    moments = sorted(dice.randint(0, span) // bit * bit + dice.choice([0, 0, 1])
                     for _ in range(dice.randint(0, most)))
    stop = dice.choice([span, span + 200 * bit, span + 8000 * bit, dice.randint(0, span + 1)])
    mix = dice.choice(MIXES)
    errors = random_errors(dice, bus)
    actions = [bus.action(moment, mix) for moment in moments]
    return lines_of([bus.header(stop)] + errors + actions)


def flood(dice):
    """A play in which queues fill up."""
    bus = Bus(dice, 40)
    bus.nodes = dice.choice([1, 2, 2, 3])
    actions, moment = [], 0
    for _ in range(dice.randint(260, 900)):
        moment += dice.choice([0, 0, 0, 0, 25 * bus.bit])
        node = dice.choice([0, 0, 0, bus.nodes - 1])
        actions.append(b"%d %d send %s" % (moment, node, dice.choice(bus.frames)))
        if dice.random() < 0.01:
            actions.append(bus.action(moment, [0, 1, 1, 1, 1]))
    stop = dice.choice([0, moment, moment + 30000 * bus.bit])
    return lines_of([bus.header(stop)] + random_errors(dice, bus) + actions)


def decline(dice):
    """A play that leads several nodes to error passive and bus off, with frames all the time."""
    bus = Bus(dice, 10)
    bus.nodes = dice.choice([2, 3, 3, 4, 6])
    errors, first = [], 1
    while first < 400:
        count = dice.choice([1, 10, 17, 33])
        errors.append(bus.error(first, count))
        first += count + dice.choice([-5, 0, 0, 1, 5])
        first = max(first, 1)
    stop = dice.choice([9000, 20000]) * bus.bit
    moments = sorted(dice.randint(0, stop) for _ in range(dice.randint(20, 150)))
    mix = dice.choice(MIXES[:3])
    actions = [bus.action(moment, mix) for moment in moments]
    return lines_of([bus.header(stop)] + errors + actions)


def changed_line(dice, line):
    words = line.split(b" ")
    place = dice.randrange(len(words))
    change = dice.randrange(6)
    if change == 0:
        words[place] = b"%d" % dice.choice(NUMBERS)
    elif change == 1:
        words[place] = dice.choice(WORDS)
    elif change == 2:
        words[place] = dice.choice([b"0", b"+", b"-"]) + words[place]
    elif change == 3:
        words[place] = words[place][:-1] + dice.choice([b"\r", b"\t", b"", b"R", b"F"])
    elif change == 4:
        words.pop(place)
    else:
        words.insert(place, words[place])
    return b" ".join(words)


def changed(dice, text):
    """A play file with a few changes, most of which are refused."""
    change = dice.randrange(8)
    at = dice.randint(0, len(text))
    if change == 0:
        return text[:at]
    if change == 1:
        return text[:at] + dice.randbytes(1) + text[at + 1:]
    if change == 2:
        return text[:at] + dice.choice([b" ", b"\n", b"\r", b"\x00", b"#"]) + text[at:]
    lines = text.split(b"\n")
    for _ in range(dice.choice([1, 1, 2])):
        place = dice.randrange(len(lines))
        if change == 3:
            lines.insert(place, dice.choice([b"", b"error 1 1 1 sender 0", b"0 0 wake"]))
        else:
            lines[place] = changed_line(dice, lines[place])
    return b"\n".join(lines)


def ends_soon(text):
    """Whether a play stops before a bus that never rests has used the budget of events."""
    try:
        play = simulate.read_play(text)
    except simulate.Refused:
        return True
    return play.stop // play.nominal < 10 ** 6


def random_file(dice):
    kind = dice.random()
    if kind < 0.05:
        return flood(dice)
    if kind < 0.25:
        return decline(dice)
    text = random_play(dice, 40 if kind < 0.6 else 10)
    text = text if kind < 0.6 else changed(dice, text)
    return text if ends_soon(text) else random_file(dice)


def files(dice):
    for _, header, lines, _ in worked.WORKED:
        yield (header + "\n" + lines + "\n").encode()
    for text, _, _ in broken.refused():
        yield text
    yield from broken.accepted()
    yield ENDLESS
    while True:
        yield random_file(dice)


def main(program=PROGRAM, seconds="60", seed="1"):
    end = time.monotonic() + float(seconds)
    count = 0
    with tempfile.TemporaryDirectory() as folder:
        path = os.path.join(folder, "a.play")
        for text in files(random.Random(int(seed))):
            with open(path, "wb") as file:
                file.write(text)
            ran = subprocess.run([program, "play", path], capture_output=True, check=False)
            if (ran.returncode, ran.stdout, ran.stderr) != simulate.outcome(text):
                sys.stdout.buffer.write(text)
                sys.exit(f"the two differ on this file, number {count} of seed {seed}")
            count += 1
            if time.monotonic() > end:
                break
    print(f"{count} files, no difference")


if __name__ == "__main__":
    main(*sys.argv[1:])
