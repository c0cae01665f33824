"""Units that answer at random, and keep what they answered: a world with a list of it is the same world."""
import operations
import units
import wire
from units import Reply

STATUSES = ["ok"] * 9 + ["warning"]
REFUSALS = ["discard", "error", "fatal"]
REASONS = ["trap", "spent", "bad_reply", "bad_buffer"]
KINDS = ["plain", "clock", "data", "updated", "interval"]


def random_bytes(dice, length):
    repeated = dice.choice([b"\x00", b"\xff", b"\x1f", b"\xf8", b"\x55", None, None])
    return repeated * length if repeated else dice.randbytes(length)


def random_frame(dice, identifiers):
    """The text of a frame. Few identifiers, so that many requests meet."""
    base = dice.choice(identifiers)
    name = b"%03x" % base
    if dice.random() < 0.3:
        name = b"%08x" % ((base << 18) | dice.choice([0, 1, 0x3FFFF, dice.getrandbits(18)]))
    kind = dice.random()
    if kind < 0.1:
        return name + b"#R"
    if kind < 0.6:
        return name + b"#" + random_bytes(dice, dice.randint(0, 8)).hex().encode()
    length = dice.choice(wire.FD_LENGTHS)
    return name + b"##%d" % dice.randint(0, 3) + random_bytes(dice, length).hex().encode()


class Habits:
    """How likely a unit is to do what, and what it may say."""

    def __init__(self, dice, frames, resolution, bits, rates):
        self.frames = frames
        self.resolution = resolution
        self.bits = bits
        self.rates = rates
        self.faults = dice.choice([0, 0, 0, 0, 0.001, 0.01])
        self.emits = dice.choice([0, 0.05, 0.2, 0.5, 0.9])
        self.repeats = dice.choice([0, 0.1, 0.3])
        self.ends = dice.choice([0, 0, 0, 0.001, 0.05])
        self.ticks = dice.choice([0.1, 0.5, 0.95])
        self.frames_alone = dice.choice([0.3, 0.9, 0.97, 1])
        self.most = dice.choice([1, 1, 3, 3, 400])
        self.cuts = dice.choice([0, 0, 0.1])
        self.wishes = dice.choice([0, 0.002, 0.01])

    def keep_on_sending(self):
        """Frames and hardly anything else; now and then a unit ends."""
        self.faults, self.cuts, self.repeats, self.most = 0, 0, 0, 1
        self.frames_alone, self.emits, self.ends = 0.999, 0.9, self.wishes


def plain_operation(dice, habits):
    """The bytes of an operation that is no frame."""
    return dice.choice([
        operations.wakeup, operations.sleep,
        lambda: operations.behaviour(dice.random() < 0.5),
        lambda: operations.status(dice.randint(0, 4)),
        lambda: operations.rate(dice.choice(habits.rates)),
        lambda: operations.data_rate(dice.choice(habits.rates)),
        lambda: operations.format_error(random_bytes(dice, dice.choice([0, 1, 63, 64, 65, 90]))),
        lambda: operations.confirm(dice.getrandbits(32)),
        lambda: operations.arbitration_lost(dice.getrandbits(11)),
        lambda: operations.bus_error(dice.getrandbits(11), dice.randint(0, 6), dice.random() < 0.5, True),
        lambda: operations.spelled(dice.choice([0x12, 0, 0x43]), random_bytes(dice, dice.randint(0, 70))),
    ])()


def changed_bytes(dice, text):
    place = dice.randrange(len(text))
    return dice.choice([text[:place], text[:place] + dice.randbytes(1) + text[place + 1:], text + b"\x00"])


def said(dice, habits):
    """The bytes of some operations, perhaps with a fault in them."""
    count = dice.choice([0, 1, 1, 1, 2, dice.randint(0, habits.most)])
    frame = dice.random() < habits.frames_alone
    parts = [operations.transmit(dice.choice(habits.frames)) if frame else plain_operation(dice, habits)
             for _ in range(count)]
    text = b"".join(parts)
    return changed_bytes(dice, text) if text and dice.random() < habits.cuts else text


def interval(dice, habits):
    """An interval: a whole number of ticks, some bits long, or perhaps none that fits."""
    if dice.random() >= habits.ticks:
        return dice.getrandbits(64), dice.getrandbits(64), dice.choice(["unknown", "unchanged"])
    if dice.random() < habits.faults:
        return dice.choice([0, 3, 2 ** 63, 2 ** 64 - 1]), dice.choice([0, 1, 7, 2 ** 64 - 1]), "changed"
    factor = dice.choice([1, 1, 2, 1000])
    ticks = dice.choice([1, 10, 47, 50, 100, 500, 2000]) * dice.choice(habits.bits)
    ticks = dice.choice([ticks, ticks, ticks, 1, dice.randint(1, ticks)])
    return ticks * factor, habits.resolution * factor, "changed"


class RandomUnit(units.ListUnit):
    """A unit that answers at random, by its habits."""

    def __init__(self, dice, habits):
        super().__init__([])
        self.dice = dice
        self.habits = habits
        self.given = []

    def reply(self, name):
        reply = self.chosen(units.SUITABLE.get(name, "plain"))
        self.given.append(reply)
        return reply

    def chosen(self, kind):
        dice, status = self.dice, self.dice.choice(STATUSES)
        if dice.random() < self.habits.faults:
            fault = dice.randrange(4)
            if fault == 0:
                return Reply("broken", dice.choice(REASONS))
            kind = dice.choice(KINDS) if fault == 1 else kind
            status = dice.choice(REFUSALS) if fault > 1 else status
        return Reply(kind, status, self.parts(kind))

    def parts(self, kind):
        dice, habits = self.dice, self.habits
        if kind == "clock":
            return (dice.random() < habits.emits,)
        if kind == "data":
            return (said(dice, habits),)
        if kind == "updated":
            return dice.random() < habits.repeats, dice.random() < habits.ends
        return interval(dice, habits) if kind == "interval" else ()
