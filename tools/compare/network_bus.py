"""A bus of a world: it takes what its nodes emit, and logs it."""
from bus import MOST_SHOWN, Bus
from member import Member, Sent


class NetworkBus(Bus):
    """A bus whose nodes are all new at first."""

    def __init__(self, place, plan, numbers, log):
        members = {number: Member(False) for number in numbers}
        super().__init__(place, plan.nominal, plan.errors, members, log)
        self.rate = plan.rate
        self.data_rate = plan.data_rate
        self.fast = plan.fast

    def fits(self, item):
        """Whether an item is an operation that a node may ask of this bus."""
        if item.name == "fd_transmit":
            return self.data_rate is not None
        if item.name == "rate":
            return item.value == self.rate
        if item.name == "data_rate":
            return self.data_rate in (None, item.value)
        return item.name not in ("bad", "to_a_node")

    def submit(self, now, number, item):
        if not self.fits(item):
            self.complain(now, number, item.spelled)
        elif item.name in ("transmit", "fd_transmit"):
            self.ask(now, number, Sent(item.value, self.bit, self.fast))
        elif item.name in ("keep", "discard"):
            self.configure(now, number, item.name == "discard")
        elif item.name == "wake":
            self.wake(now, number)
        elif item.name == "sleep":
            self.sleep(now, number)
        else:
            self.note(now, number, item)

    def note(self, now, number, item):
        """What has no effect but its line."""
        if item.name == "rate":
            self.print(now, b"rate %d %d", number, item.value)
        elif item.name == "data_rate":
            self.print(now, b"fdrate %d %d", number, item.value)
        elif item.name == "status":
            self.print(now, b"status %d %s", number, item.value)
        else:
            shown = item.value[:MOST_SHOWN].hex().encode() or b"-"
            self.print(now, b"ferr %d %s", number, shown)
