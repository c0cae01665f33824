"""The error counters of each node, from the lines of a log, by the table of counters in docs/BUS.md.

The log doesn't tell them; it tells each change of state, and where these don't agree with the counters, that is said.
"""
import dataclasses


@dataclasses.dataclass
class Member:
    """A node on a bus: TEC, REC, and whether it takes part."""
    tec: int = 0
    rec: int = 0
    awake: bool = True
    live: bool = True

    def state(self):
        return "off" if self.tec > 255 else "passive" if max(self.tec, self.rec) > 127 else "active"

    def takes_part(self):
        return self.live and self.awake and self.state() != "off"


class Counters:
    """Goes along a log; `behind` tells the counters that aren't 0 behind each end of an attempt, by bus."""

    def __init__(self, setup):
        self.buses = [{number: Member() for number, node in enumerate(setup.nodes) if bus in node.buses()}
                      for bus in range(len(setup.buses))]
        self.listeners = [[] for _ in setup.buses]
        self.wrong = 0

    def take(self, line):
        """What a line says of the counters."""
        if line.word in ("down", "over"):
            for members in self.buses:
                if line.node in members:
                    members[line.node].live = False
        elif line.bus is not None and line.node in self.buses[line.bus]:
            getattr(self, "take_" + line.word, lambda *_: None)(line, self.buses[line.bus], self.buses[line.bus][line.node])

    def take_sleep(self, line, members, member):
        member.awake = False

    def take_wake(self, line, members, member):
        member.awake = True

    def take_told(self, line, members, member):
        member.awake = member.awake or line.rest[0] == "wake"

    def take_start(self, line, members, member):
        self.listeners[line.bus] = [n for n, other in members.items() if n != line.node and other.takes_part()]

    def take_done(self, line, members, member):
        member.tec = max(member.tec - 1, 0)
        for node in line.receivers():
            members[node].rec = 119 if members[node].rec > 127 else max(members[node].rec - 1, 0)

    def take_fail(self, line, members, member):
        kind, by = int(line.rest[1]), int(line.rest[2])
        if kind != 5 or member.state() == "active":
            member.tec += 8
        for node in self.listeners[line.bus]:
            self.saw_error(members[node], node == by)

    def take_hurt(self, line, members, member):
        if member.live:
            self.saw_error(member, True)

    def saw_error(self, member, itself):
        member.rec = min(member.rec + (8 if itself else 1), 255)

    def take_state(self, line, members, member):
        self.wrong += member.state() != line.rest[0]

    def take_back(self, line, members, member):
        member.tec = member.rec = 0

    def behind(self, bus):
        return [[node, member.tec, member.rec] for node, member in self.buses[bus].items() if member.tec or member.rec]


def of_log(lines, setup):
    """For each end of an attempt, by its line, the counters behind that event; and how many states don't agree."""
    counters, told, end = Counters(setup), {}, None
    for line in lines:
        if end is not None and line.word not in ("hurt", "state"):
            told[end.number] = counters.behind(end.bus)
            end = None
        counters.take(line)
        end = line if line.word in ("done", "fail") else end
    return told, counters.wrong
