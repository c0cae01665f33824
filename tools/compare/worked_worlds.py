#!/usr/bin/env python3
"""Worlds worked out by hand, against world.py: each log in full, and what is called of some units.

    worked_worlds.py [FOLDER]

With a FOLDER it writes there the texts of these worlds, one behind the other, as `stdin`, and what world.py gives for
them as `stdout`: what a program over these worlds reads, and what it has to write.
"""
import os
import sys

import more_worlds
import world
import world_text
from world_parts import CLOSED, CONFIRMED, FRAME, HEAD, ONE, SLEEP, UNKNOWN, WAKEUP
from world_parts import AT_50000, AT_100000, ended, opened, stepped, terminals

GATEWAY = (HEAD + ["bus 250000 0"]
           + terminals(0) + opened(FRAME) + stepped(2, None) + CLOSED
           + terminals(0, 1) + opened(None, None) + stepped(2, None, FRAME) + stepped(2, None, None) + CLOSED
           + terminals(1) + opened(None) + stepped(2, None) + CLOSED)
OPENING_OF_TWO = ["Instantiate", "EnterInit", "ExitInit", "GetClock 2", "GetClock 12", "Update", "EnterStep"]

WORLDS = [
    ("a gateway between two buses", GATEWAY, (1000000, 100), """0 0 req 0 000#
0 0 start 0 000#
100000 0 done 0 000# to 1
100000 1 req 1 000#
100000 1 start 1 000#
300000 1 done 1 000# to 2
end 0 7""", {
        0: ["Instantiate", "EnterInit", "ExitInit", "GetClock 2", "GetBinary 3", "Update", "EnterStep",
            "DoStep 0 100000", "EnterEvent", "SetClock 0", "SetBinary 1 " + CONFIRMED, "GetClock 2", "Update",
            "EnterStep", "Terminate", "Free"],
        1: OPENING_OF_TWO
        + ["DoStep 0 100000", "EnterEvent", "SetClock 0", "SetBinary 1 " + FRAME, "GetClock 2", "GetClock 12",
           "GetBinary 13", "Update", "EnterStep",
           "DoStep 100000 200000", "EnterEvent", "SetClock 10", "SetBinary 11 " + CONFIRMED, "GetClock 2",
           "GetClock 12", "Update", "EnterStep", "Terminate", "Free"],
        2: ["Instantiate", "EnterInit", "ExitInit", "GetClock 2", "Update", "EnterStep",
            "DoStep 0 300000", "EnterEvent", "SetClock 0", "SetBinary 1 " + FRAME, "GetClock 2", "Update",
            "EnterStep", "Terminate", "Free"],
    }),
    ("a budget that ends between delivery and Sessions", GATEWAY, (1000000, 3), """0 0 req 0 000#
0 0 start 0 000#
100000 0 done 0 000# to 1
end 8 3""", {
        1: OPENING_OF_TWO + ["Terminate", "Free"],
        2: ["Instantiate", "EnterInit", "ExitInit", "GetClock 2", "Update", "EnterStep", "Terminate", "Free"],
    }),
    ("a stop at a delivery", GATEWAY, (100000, 100), """0 0 req 0 000#
0 0 start 0 000#
100000 0 done 0 000# to 1
100000 1 req 1 000#
100000 1 start 1 000#
end 0 5""", {}),
    ("a node that goes down in its first session", HEAD
     + terminals(0) + opened(FRAME) + stepped(2, None) + CLOSED
     + terminals(0) + ["plain error"], (124000, 100), """0 0 req 0 000#
0 - down 1 Status3
0 0 start 0 000#
124000 0 fail 0 000# 5 0
end 0 4""", {
        0: ["Instantiate", "EnterInit", "ExitInit", "GetClock 2", "GetBinary 3", "Update", "EnterStep",
            "DoStep 0 124000", "EnterEvent", "SetClock 0", "SetBinary 1 310000000f00000000000000050101",
            "GetClock 2", "Update", "EnterStep", "Terminate", "Free"],
        1: ["Instantiate"],
    }),
    ("a node that ends by its own wish while its frame runs", HEAD
     + terminals(0) + ["clock 100"] + opened(FRAME, intervals=AT_50000) + ended(1, ONE)
     + terminals(0) + opened(None) + stepped(2, None) + CLOSED, (1000000, 100), """0 0 req 0 000#
0 0 start 0 000#
50000 0 req 0 001#
50000 - over 0
100000 0 done 0 000# to 1
end 0 5""", {
        0: ["Instantiate", "EnterInit", "ExitInit", "GetClock 2", "GetBinary 3", "Update", "GetInterval 100",
            "EnterStep", "DoStep 0 50000", "EnterEvent", "SetClock 100", "GetClock 2", "GetBinary 3", "Update",
            "Terminate", "Free"],
        1: ["Instantiate", "EnterInit", "ExitInit", "GetClock 2", "Update", "EnterStep",
            "DoStep 0 100000", "EnterEvent", "SetClock 0", "SetBinary 1 " + FRAME, "GetClock 2", "Update",
            "EnterStep", "Terminate", "Free"],
    }),
    ("a wakeup reaches no later node in the same Sessions", HEAD
     + terminals(0) + ["clock 7"] + opened(None, intervals=AT_100000) + stepped(1, WAKEUP, intervals=UNKNOWN) + CLOSED
     + terminals(0) + ["clock 8"] + opened(SLEEP, intervals=AT_100000) + stepped(1, None, intervals=UNKNOWN)
     + stepped(2, None, intervals=UNKNOWN) + CLOSED, (1000000, 100), """0 0 sleep 1
100000 0 wake 0
102000 0 told 1 wake
end 0 3""", {
        1: ["Instantiate", "EnterInit", "ExitInit", "GetClock 2", "GetBinary 3", "Update", "GetInterval 8", "EnterStep",
            "DoStep 0 100000", "EnterEvent", "SetClock 8", "GetClock 2", "Update", "GetInterval 8", "EnterStep",
            "DoStep 100000 2000", "EnterEvent", "SetClock 0", "SetBinary 1 " + WAKEUP, "GetClock 2", "Update",
            "GetInterval 8", "EnterStep", "Terminate", "Free"],
    }),
]


def text_of(lines, limits):
    return "".join(line + "\n" for line in [lines[0] % limits] + lines[1:]).encode()


def write_all(folder):
    texts = [text_of(lines, limits) for _, lines, limits, _, _ in WORLDS + more_worlds.WORLDS]
    outcomes = [world.outcome(world_text.read(text)) for text in texts]
    for name, contents in [("stdin", texts), ("stdout", outcomes)]:
        with open(os.path.join(folder, name), "wb") as file:
            file.write(b"".join(contents))


def wrong_worlds():
    for name, lines, limits, log, calls in WORLDS + more_worlds.WORLDS:
        text = text_of(lines, limits)
        plan = world_text.read(text)
        if world_text.written(plan) != text:
            yield f"{name}: its text is\n{world_text.written(plan).decode()}"
        played = world.World(plan)
        played.run()
        if b"".join(played.log).decode() != log + "\n":
            yield f"{name}: the log is\n{b''.join(played.log).decode()}"
        for number, wanted in calls.items():
            if played.nodes[number].unit.calls != wanted:
                yield f"{name}: the calls of node {number} are\n{played.nodes[number].unit.calls}"


if __name__ == "__main__":
    for folder in sys.argv[1:]:
        write_all(folder)
    wrong = list(wrong_worlds())
    print("\n".join(wrong) or f"{len(WORLDS + more_worlds.WORLDS)} worlds, as worked out")
    sys.exit(1 if wrong else 0)
