"""A unit that is a WebAssembly module: how its calls exchange numbers and bytes with it (docs/GUESTS.md)."""
import struct

from machine import Machine, Spent
from machine_steps import Trap
from units import Reply

SETUP = 64  # bytes of the area in front of the bytes that are exchanged
STATUSES = ["ok", "warning", "discard", "error", "fatal"]
QUALIFIERS = ["unknown", "unchanged", "changed"]
# Calls that exchange nothing but their numbers: the exported function.
PLAIN = {"EnterInit": b"fmi3EnterInitializationMode", "ExitInit": b"fmi3ExitInitializationMode",
         "EnterEvent": b"fmi3EnterEventMode", "EnterStep": b"fmi3EnterStepMode", "DoStep": b"fmi3DoStep",
         "Terminate": b"fmi3Terminate"}


class Lost(Exception):
    """No reply: the unit is lost, and why."""

    def __init__(self, reason):
        super().__init__(reason)
        self.reason = reason


class Guest:
    """A unit over a machine. The largest sizes are those of the variables that stand in terminals."""

    def __init__(self, prepared, description, fuel):
        self.machine = Machine(prepared)
        self.functions = prepared.functions
        self.start = prepared.module.start
        self.fuel = fuel
        self.sizes = description.sizes
        self.area = 0

    def answer(self, name, *parts):
        """The reply to a call, as units.py makes them."""
        try:
            if name in PLAIN:
                return Reply("plain", self.status(PLAIN[name], *parts))
            return getattr(self, "answer_" + name)(*parts)
        except Lost as lost:
            return Reply("broken", lost.reason)

    def run(self, index, *arguments):
        try:
            return self.machine.call(index, arguments, self.fuel)
        except Trap:
            raise Lost("trap") from None
        except Spent:
            raise Lost("spent") from None

    def status(self, name, *arguments):
        (number,) = self.run(self.functions[name], *arguments)
        if number >= len(STATUSES):
            raise Lost("bad_reply")
        return STATUSES[number]

    def asked(self, name, *arguments):
        """The status, and whether the area is to be read."""
        status = self.status(name, *arguments)
        return status, status in ("ok", "warning")

    def number(self, at, form="<I"):
        return struct.unpack_from(form, self.machine.memory, self.area + at)[0]

    def flag(self, at):
        value = self.number(at)
        if value > 1:
            raise Lost("bad_reply")
        return value == 1

    def answer_Instantiate(self):
        if self.start is not None:
            self.run(self.start)
        status, good = self.asked(b"fmi3InstantiateCoSimulation")
        if good:
            size = SETUP + max(self.sizes.values())
            (self.area,) = self.run(self.functions[b"bench_area"], size)
            if self.area + size > len(self.machine.memory):
                raise Lost("bad_buffer")
        return Reply("plain", status)

    def answer_SetClock(self, reference):
        return Reply("plain", self.status(b"fmi3SetClock", reference, 1))

    def answer_SetBinary(self, reference, text):
        data = bytes.fromhex(text)
        at = self.area + SETUP
        if at + len(data) > len(self.machine.memory):
            raise Lost("bad_buffer")
        self.machine.memory[at:at + len(data)] = data
        return Reply("plain", self.status(b"fmi3SetBinary", reference, len(data)))

    def answer_GetClock(self, reference):
        status, good = self.asked(b"fmi3GetClock", reference)
        return Reply("clock", status, (good and self.flag(0),))

    def answer_GetBinary(self, reference):
        status, good = self.asked(b"fmi3GetBinary", reference)
        if not good:
            return Reply("data", status, (b"",))
        length = self.number(0)
        if length > self.sizes.get(reference, 0):
            raise Lost("bad_buffer")
        at = self.area + SETUP
        return Reply("data", status, (bytes(self.machine.memory[at:at + length]),))

    def answer_Update(self):
        status, good = self.asked(b"fmi3UpdateDiscreteStates")
        return Reply("updated", status, (good and self.flag(0), good and self.flag(4)))

    def answer_GetInterval(self, reference):
        status, good = self.asked(b"fmi3GetIntervalFraction", reference)
        if not good:
            return Reply("interval", status, (0, 0, "unchanged"))
        qualifier = self.number(16)
        if qualifier >= len(QUALIFIERS):
            raise Lost("bad_reply")
        return Reply("interval", status, (self.number(0, "<Q"), self.number(8, "<Q"), QUALIFIERS[qualifier]))

    def answer_Free(self):
        self.run(self.functions[b"fmi3FreeInstance"])
        return Reply("plain", "ok")
