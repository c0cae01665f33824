#!/usr/bin/env python3
"""A second implementation of a world of several buses, over units whose answers it is told.

    world.py FILE

writes the log of the world whose text FILE is (world_text.py says how), and then for each node a line
`calls NODE` and the calls that were made of its unit, in their order. It takes nothing from the crates.
"""
import sys

import operations
import units
import world_text
from bus import ACT, FINISH, RETURN, START
from network_bus import NetworkBus

NEW, LIVE, DOWN, OVER = "new", "live", "down", "over"


class Node:
    """A node: its unit, its last session, and when each of its countdown clocks is due, if it is."""

    def __init__(self, plan, unit):
        self.plan = plan
        self.unit = unit
        self.state = NEW
        self.last = None
        self.dues = [None] * len(plan.clocks)


class World:
    """A world behind some of its events, and the log so far."""

    def __init__(self, plan, all_units=None):
        all_units = all_units or [units.ListUnit(node.replies) for node in plan.nodes]
        self.plan = plan
        self.now = 0
        self.events = 0
        self.log = []
        self.nodes = [Node(node, unit) for node, unit in zip(plan.nodes, all_units)]
        self.buses = [NetworkBus(place, bus, plan.members(place), self.log)
                      for place, bus in enumerate(plan.buses)]

    def next_event(self):
        """The least event that is enabled, as moment, kind, bus and node, unless it is after the stop."""
        due = [(moment, kind, bus.place, number)
               for bus in self.buses for moment, kind, number in bus.dues(self.now)]
        due += [(moment, ACT, 0, 0) for moment in self.session_moments()]
        least = min(due, default=None)
        return least if least is not None and least[0] <= self.plan.stop else None

    def session_moments(self):
        for node in self.nodes:
            if node.state == NEW:
                yield self.now
            yield from (moment for moment in node.dues if moment is not None)
        for bus in self.buses:
            yield from bus.notice_moments()
            yield from (self.now for member in bus.members.values() if member.mail)

    def event(self):
        self.now, kind, bus, number = self.next_event()
        self.events += 1
        if kind == FINISH:
            self.buses[bus].finish(self.now)
        elif kind == RETURN:
            self.buses[bus].come_back(self.now, number)
        elif kind == START:
            self.buses[bus].start(self.now)
        else:
            self.sessions()

    def sessions(self):
        """All sessions of this moment: first each unit on its own, then what comes of them in node order."""
        outcomes = {}
        for number, node in enumerate(self.nodes):
            inbox = self.inbox(number, node)
            ticked = self.ticked(node)
            if node.state == NEW or node.state == LIVE and (any(inbox) or any(ticked)):
                clocks = [clock for clock, ticks in zip(node.plan.clocks, ticked) if ticks]
                given = self.plan.resolution, self.now, node.last, clocks, inbox
                outcomes[number] = ticked, units.session(node.unit, node.plan, *given)
        for number in outcomes:
            if self.nodes[number].state == NEW:
                self.enter(number)
        for number, (ticked, outcome) in outcomes.items():
            self.take(number, ticked, outcome)

    def inbox(self, number, node):
        """The bytes for each terminal of a node."""
        return [self.buses[terminal.bus].inbox(self.now, number) for terminal in node.plan.terminals]

    def ticked(self, node):
        return [moment is not None and moment <= self.now for moment in node.dues]

    def buses_of(self, number):
        return [bus for bus in self.buses if number in bus.members]

    def enter(self, number):
        self.nodes[number].state = LIVE
        for bus in self.buses_of(number):
            bus.members[number].live = True

    def take(self, number, ticked, outcome):
        """What comes of a node's session."""
        node = self.nodes[number]
        node.last = self.now
        for bus in self.buses_of(number):
            bus.tell(self.now, number)
        for bus in self.buses_of(number):
            self.submit(bus, number, outcome.emitted)
        for place, change in enumerate(outcome.dues):
            if change is not None or ticked[place]:
                node.dues[place] = None if change in (None, units.CLEAR) else change
        if outcome.end == "over":
            self.log.append(b"%d - over %d\n" % (self.now, number))
            self.leave(number, OVER)
        elif outcome.end != "live":
            self.log.append(b"%d - down %d %s\n" % (self.now, number, outcome.end))
            self.leave(number, DOWN)

    def submit(self, bus, number, emitted):
        """What the node emits for this bus, in its order."""
        terminals = self.nodes[number].plan.terminals
        for place, text in emitted:
            if terminals[place].bus == bus.place:
                for item in operations.items(text):
                    bus.submit(self.now, number, item)

    def leave(self, number, state):
        node = self.nodes[number]
        node.state = state
        node.dues = [None] * len(node.dues)
        for bus in self.buses_of(number):
            bus.members[number].leave()

    def close(self):
        for number, node in enumerate(self.nodes):
            if node.state == LIVE:
                end = units.close(node.unit)
                if end == "over":
                    node.state = OVER
                else:
                    node.state = DOWN
                    self.log.append(b"%d - down %d %s\n" % (self.now, number, end))

    def run(self):
        """The status of the world; its log has then all lines."""
        while self.next_event() is not None and self.events < self.plan.events:
            self.event()
        status = 0 if self.next_event() is None else 8
        self.close()
        self.log.append(b"end %d %d\n" % (status, self.events))
        return status


def outcome(plan):
    """The log of a world, and the calls of each of its units."""
    world = World(plan)
    world.run()
    lines = [line for number, node in enumerate(world.nodes)
             for line in ["calls %d" % number] + node.unit.calls]
    return b"".join(world.log) + "".join(line + "\n" for line in lines).encode()


if __name__ == "__main__":
    with open(sys.argv[1], "rb") as file:
        sys.stdout.buffer.write(outcome(world_text.read(file.read())))
