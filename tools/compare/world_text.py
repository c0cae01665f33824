"""The text of a world whose units answer from lists. Each line is words with one space between.

    world RESOLUTION STOP EVENTS             the first line: ticks in a second, and when the run ends
    bus RATE FDRATE                          a bus, from number 0; FDRATE 0 means no CAN FD
    error FIRST COUNT KIND BY BIT            its error script; BY is `sender` or a node's number
    node                                     a node, from number 0, behind all buses
    terminal BUS RXCLOCK RXDATA TXCLOCK TXDATA    its terminals, with their value references
    clock REFERENCE                          its countdown clocks, behind its terminals
    plain STATUS                             its replies, in the order in which they are given
    clocked STATUS TICKS                     to GetClock; each flag is 0 or 1
    data STATUS BYTES                        to GetBinary; in lower-case hexadecimal, `-` for none
    updated STATUS ANOTHER END               to UpdateDiscreteStates
    interval STATUS COUNTER RESOLUTION QUALIFIER  to GetIntervalFraction
    broken REASON                            no reply: the unit is lost

STATUS is ok, warning, discard, error or fatal; QUALIFIER is unknown, unchanged or changed; REASON is trap,
spent, bad_reply or bad_buffer. The text isn't checked: it is one of a plan that is well formed.
"""
from units import Reply, Terminal
from member import Error

REPLIES = {"plain": "plain", "clocked": "clock", "data": "data", "updated": "updated",
           "interval": "interval", "broken": "broken"}
WORDS = {kind: word for word, kind in REPLIES.items()}


class BusPlan:
    """A bus: its rates and bit times, and its error script."""

    def __init__(self, resolution, rate, data_rate):
        self.rate = rate
        self.data_rate = data_rate or None
        self.nominal = resolution // rate
        self.fast = resolution // data_rate if data_rate else None
        self.errors = []


class NodePlan:
    """A node: its terminals, its countdown clocks, and what its unit answers."""

    def __init__(self):
        self.terminals = []
        self.clocks = []
        self.replies = []


class Plan:
    """A world: when it ends, its buses and its nodes."""

    def __init__(self, resolution, stop, events):
        self.resolution = resolution
        self.stop = stop
        self.events = events
        self.buses = []
        self.nodes = []

    def members(self, place):
        """The numbers of the nodes on a bus."""
        return [number for number, node in enumerate(self.nodes)
                if any(terminal.bus == place for terminal in node.terminals)]


def read_reply(word, parts):
    status, *parts = parts
    kind = REPLIES[word]
    if kind in ("clock", "updated"):
        parts = [part == "1" for part in parts]
    elif kind == "data":
        parts = [b"" if parts[0] == "-" else bytes.fromhex(parts[0])]
    elif kind == "interval":
        parts = [int(parts[0]), int(parts[1]), parts[2]]
    return Reply(kind, status, tuple(parts))


def read_error(first, count, kind, by, bit):
    by = None if by == "sender" else int(by)
    return Error(int(first), int(count), int(kind), by, int(bit))


def read(text):
    """The plan that a text is of."""
    plan = None
    for line in text.decode().splitlines():
        word, *parts = line.split(" ")
        if word == "world":
            plan = Plan(*map(int, parts))
        elif word == "bus":
            plan.buses.append(BusPlan(plan.resolution, *map(int, parts)))
        elif word == "error":
            plan.buses[-1].errors.append(read_error(*parts))
        elif word == "node":
            plan.nodes.append(NodePlan())
        elif word == "terminal":
            plan.nodes[-1].terminals.append(Terminal(*map(int, parts)))
        elif word == "clock":
            plan.nodes[-1].clocks.append(int(parts[0]))
        else:
            plan.nodes[-1].replies.append(read_reply(word, parts))
    return plan


def reply_line(reply):
    parts = [part.hex() or "-" if isinstance(part, bytes) else int(part) if isinstance(part, bool) else part
             for part in reply.parts]
    return " ".join(str(word) for word in [WORDS[reply.kind], reply.status, *parts])


def error_line(error):
    by = "sender" if error.by is None else error.by
    return f"error {error.first} {error.last - error.first + 1} {error.kind} {by} {error.bit}"


def written(plan):
    """The text of a plan."""
    lines = [f"world {plan.resolution} {plan.stop} {plan.events}"]
    for bus in plan.buses:
        lines.append(f"bus {bus.rate} {bus.data_rate or 0}")
        lines += map(error_line, bus.errors)
    for node in plan.nodes:
        lines.append("node")
        lines += ["terminal " + " ".join(map(str, terminal)) for terminal in node.terminals]
        lines += [f"clock {clock}" for clock in node.clocks]
        lines += map(reply_line, node.replies)
    return "".join(line + "\n" for line in lines).encode()
