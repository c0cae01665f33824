"""Units that are tables: what they transmit at first, at each tick, and for what they receive.

The runs that crates/worked_worlds computes have such units. Here a table answers calls, so that world.py can run it.
"""
import operations
from units import Reply

CLOCK = 1000  # the value reference of the one countdown clock
FINE = Reply("plain", "ok")


class Table:
    """A table: (terminal, bytes) each, and rules (terminal, bytes, what is transmitted for them)."""

    def __init__(self, first=(), period=0, ticks=(), rules=(), ends=(), close=None, once=False, reports=False):
        self.first = list(first)
        self.period = period
        self.ticks = list(ticks)
        self.rules = list(rules)
        self.ends = list(ends)  # of its sessions: "live", "over" or the reason why it breaks
        self.close = close  # the status of its Terminate, where that is refused
        self.once = once  # whether the clock ticks once alone
        self.reports = reports  # whether a tick also tells the moment of the last session
        self.calls = []
        self.last = 0
        self.begin(True)

    def begin(self, is_first):
        self.is_first = is_first
        self.ticked = False
        self.received = {}
        self.queues = None  # by terminal: what is still to be transmitted
        self.end = "live"

    def answer(self, name, *parts):
        self.calls.append((name, *parts))
        return getattr(self, name, lambda *unread: FINE)(*parts)

    def DoStep(self, last, size):
        self.begin(False)
        self.last = last
        return FINE

    def SetClock(self, reference):
        self.ticked = self.ticked or reference == CLOCK
        return FINE

    def SetBinary(self, reference, text):
        self.received[reference // 10] = bytes.fromhex(text)
        return FINE

    def transmitted(self):
        if self.is_first:
            yield from self.first
        if self.ticked:
            yield from self.ticks
        if self.ticked and self.reports:
            yield 0, operations.format_error(bytes([self.last]))
        yield from (answer for terminal, text, answer in self.rules if self.received.get(terminal) == text)

    def prepare(self):
        self.queues = {}
        for terminal, text in self.transmitted():
            self.queues.setdefault(terminal, []).append(text)
        self.end = self.ends.pop(0) if self.ends else "live"

    def GetClock(self, reference):
        if self.queues is None:
            self.prepare()
        return Reply("clock", "ok", (bool(self.queues.get(reference // 10)),))

    def GetBinary(self, reference):
        return Reply("data", "ok", (self.queues[reference // 10].pop(0),))

    def Update(self):
        if any(self.queues.values()):
            return Reply("updated", "ok", (True, False))
        if self.end in ("live", "over"):
            return Reply("updated", "ok", (False, self.end == "over"))
        return Reply("broken", self.end)

    def GetInterval(self, reference):
        sets = self.is_first or self.ticked and not self.once
        return Reply("interval", "ok", (self.period, 10 ** 9, "changed" if sets else "unchanged"))

    def Terminate(self):
        return Reply("plain", self.close) if self.close and self.end == "live" else FINE
