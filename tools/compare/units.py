"""Units that answer from a list, and what one session calls of them, after FMI 3.0 (docs/SESSIONS.md)."""
from collections import namedtuple

MOST_ITERATIONS = 16
LONGEST_INTERVAL = 2 ** 62
FINE = ("ok", "warning")
CAUSES = {"discard": b"Status2", "error": b"Status3", "fatal": b"Status4", "trap": b"Trap",
          "spent": b"Spent", "bad_reply": b"BadReply", "bad_buffer": b"BadBuffer"}
# The kind of reply that suits a call; to the others a plain one.
SUITABLE = {"GetClock": "clock", "GetBinary": "data", "Update": "updated", "GetInterval": "interval"}

# A reply: its kind, its status (of a broken unit the reason), and what else it says, by kind:
# clock: ticks; data: bytes; updated: another_update, end; interval: counter, resolution, qualifier.
Reply = namedtuple("Reply", "kind status parts", defaults=((),))
BAD_REPLY = Reply("broken", "bad_reply")

# A terminal of a unit: its bus, and its value references.
Terminal = namedtuple("Terminal", "bus rx_clock rx_data tx_clock tx_data")
# What comes of a session: (terminal's place, bytes), a change for each countdown clock (None: it stays,
# CLEAR, or its moment), and the end: "live", "over" or the cause that takes the unit down.
Outcome = namedtuple("Outcome", "emitted dues end")
CLEAR = "clear"


class Down(Exception):
    """The unit is down, and why."""

    def __init__(self, cause):
        super().__init__(cause)
        self.cause = cause


class ListUnit:
    """Answers each call with the next reply of a list; bad where none is left, or it doesn't suit."""

    def __init__(self, replies):
        self.replies = list(replies)
        self.calls = []

    def answer(self, name, *parts):
        self.calls.append(" ".join([name] + [str(part) for part in parts]))
        reply = self.reply(name)
        return reply if reply.kind in ("broken", SUITABLE.get(name, "plain")) else BAD_REPLY

    def reply(self, name):
        return self.replies.pop(0) if self.replies else BAD_REPLY


def call(unit, name, *parts):
    """The parts of a good reply; else the unit is freed, where it still can be, and down."""
    reply = unit.answer(name, *parts)
    if reply.kind != "broken" and reply.status in FINE:
        return reply.parts
    if reply.status in ("discard", "error") and reply.kind != "broken" and name != "Instantiate":
        unit.answer("Free")
    raise Down(CAUSES[reply.status])


def begin(unit, now, last):
    """Opens a new unit, whose last moment is None; another takes a step."""
    if last is None:
        for name in ("Instantiate", "EnterInit", "ExitInit"):
            call(unit, name)
    else:
        call(unit, "DoStep", last, now - last)
        call(unit, "EnterEvent")


def give(unit, description, ticked, inbox):
    for clock in ticked:
        call(unit, "SetClock", clock)
    for terminal, text in zip(description.terminals, inbox):
        if text:
            call(unit, "SetClock", terminal.rx_clock)
            call(unit, "SetBinary", terminal.rx_data, text.hex())


def iterate(unit, description):
    """What is emitted in the iterations, and whether the unit wishes to end."""
    emitted = []
    for _ in range(MOST_ITERATIONS):
        for place, terminal in enumerate(description.terminals):
            (ticks,) = call(unit, "GetClock", terminal.tx_clock)
            if ticks:
                (text,) = call(unit, "GetBinary", terminal.tx_data)
                emitted.append((place, text))
        another_update, end = call(unit, "Update")
        if end or not another_update:
            return emitted, end
    raise Down(b"Loop")


def terminate(unit):
    """The reply to Free decides nothing."""
    call(unit, "Terminate")
    unit.answer("Free")


def due(now, resolution, counter, per_second, qualifier):
    """What becomes of a clock's moment; an interval is a whole number of ticks, and not too long."""
    if qualifier != "changed":
        return CLEAR if qualifier == "unknown" else None
    if per_second == 0 or counter * resolution % per_second:
        raise Down(b"BadInterval")
    interval = counter * resolution // per_second
    if not 1 <= interval <= LONGEST_INTERVAL:
        raise Down(b"BadInterval")
    return now + interval


def good_session(unit, description, resolution, now, last, ticked, inbox):
    begin(unit, now, last)
    give(unit, description, ticked, inbox)
    emitted, end = iterate(unit, description)
    if end:
        terminate(unit)
        return Outcome(emitted, [None] * len(description.clocks), "over")
    dues = [due(now, resolution, *call(unit, "GetInterval", clock)) for clock in description.clocks]
    call(unit, "EnterStep")
    return Outcome(emitted, dues, "live")


def session(unit, description, *given):
    """What comes of a session: a unit that is down emits nothing."""
    try:
        return good_session(unit, description, *given)
    except Down as down:
        return Outcome([], [None] * len(description.clocks), down.cause)


def close(unit):
    """How the close of a live unit ends."""
    try:
        terminate(unit)
        return "over"
    except Down as down:
        return down.cause
