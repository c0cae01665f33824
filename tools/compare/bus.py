"""One CAN bus with its errors, fault confinement, sleep and notices, which docs/BUS.md describes.

member.py has its nodes and frames, operations.py the bytes that nodes exchange with it.
"""
import bisect

import operations
from member import NO_ACKNOWLEDGEMENT, OFF, PASSIVE

FINISH, RETURN, ACT, START = range(4)  # in the order of the events of one moment
MOST_REQUESTS = 256
MOST_SHOWN = 64  # bytes of a bad operation

INTERMISSION = 3  # in nominal bits, as all that follow
SUSPENSION = 8
ERROR_FRAME = 20
OCCURRENCE = 11
OCCURRENCES = 128


class Attempt:
    """A frame on the wire: when it ends, and how."""

    def __init__(self, sender, request, listeners):
        self.sender = sender
        self.request = request
        self.listeners = listeners
        self.end = None
        self.failure = None  # the kind of an error, and the node that detects it
        self.hurt = None  # a passive listener with an error of its own, and the error's kind


class Bus:
    """A bus: its members by number, and what runs. It writes its lines into a log."""

    def __init__(self, place, nominal, errors, members, log):
        self.place = place
        self.bit = nominal
        self.errors = errors
        self.members = members
        self.log = log
        self.accepted = 0
        self.attempts = 0
        self.running = None
        self.idle = 0
        self.last_sender = None

    def print(self, now, text, *parts):
        self.log.append(b"%d %d " % (now, self.place) + text % parts + b"\n")

    def dues(self, now):
        """The moment, kind and node of each event that the bus itself may come to next."""
        if self.running is not None:
            yield self.running.end, FINISH, 0
            return
        for number, member in self.members.items():
            if member.state() == OFF:
                left = OCCURRENCES - member.occurrences
                yield self.idle + left * OCCURRENCE * self.bit, RETURN, number
            elif member.takes_part() and member.requests:
                yield max(now, self.ready(number)), START, 0

    def notice_moments(self):
        return [notice[0] for member in self.members.values() for notice in member.notices.values()]

    def ready(self, number):
        """From when on a node may start a frame: a passive one suspends behind its own."""
        suspends = number == self.last_sender and self.members[number].state() == PASSIVE
        return self.idle + (SUSPENSION * self.bit if suspends else 0)

    def start(self, now):
        for member in self.members.values():
            if member.state() == OFF:
                member.occurrences += (now - self.idle) // (OCCURRENCE * self.bit)
        able = [number for number, member in self.members.items()
                if member.takes_part() and member.requests and self.ready(number) <= now]
        winner = min(able, key=lambda number: (self.members[number].requests[0][0], number))
        request = self.members[winner].requests[0]
        self.attempts += 1
        self.print(now, b"start %d %s", winner, request[2].text)
        for number in able:
            if number != winner:
                self.lose(now, number)
        self.running = self.attempt(now, winner, request)

    def lose(self, now, number):
        member = self.members[number]
        sent = member.requests[0][2]
        if member.discards:
            member.requests.pop(0)
            text = b"lost %08x" % sent.identifier
            told = operations.arbitration_lost(sent.identifier)
            member.notices["lost"] = now + self.bit, text, told
        self.print(now, b"lost %d %s %s", number, sent.text, b"gone" if member.discards else b"keep")

    def attempt(self, now, sender, request):
        """How the frame that starts now will end."""
        listeners = [number for number, member in self.members.items()
                     if number != sender and member.takes_part()]
        attempt = Attempt(sender, request, listeners)
        ends = request[2].ends
        attempt.end = now + ends[-1]
        error, by = self.error(sender, listeners)
        if error is not None and (by == sender or self.members[by].state() != PASSIVE):
            attempt.failure = error.kind, by
            attempt.end = now + ends[min(error.bit, len(ends) - 1)] + ERROR_FRAME * self.bit
            return attempt
        if error is not None:
            attempt.hurt = by, error.kind
            listeners.remove(by)
        if not listeners:
            attempt.failure = NO_ACKNOWLEDGEMENT, sender
            attempt.end = now + ends[-9] + ERROR_FRAME * self.bit
        return attempt

    def error(self, sender, listeners):
        """The first entry of the script for this attempt and one of its nodes, and that node."""
        for error in self.errors:
            by = sender if error.by is None else error.by
            if error.first <= self.attempts <= error.last and (by == sender or by in listeners):
                return error, by
        return None, None

    def finish(self, now):
        attempt, self.running = self.running, None
        before = {number: member.state() for number, member in self.members.items()}
        for member in self.members.values():
            if member.state() == OFF:
                member.occurrences += 1
        self.idle = now + INTERMISSION * self.bit
        self.last_sender = attempt.sender
        if attempt.failure is None:
            self.deliver(now, attempt)
        else:
            self.fail(now, attempt)
        if attempt.hurt is not None:
            self.hurt(now, attempt)
        for number, member in self.members.items():
            if member.state() != before[number]:
                self.print(now, b"state %d %s", number, member.state())
                if member.state() == OFF:
                    member.requests.clear()
                    member.occurrences = 0

    def deliver(self, now, attempt):
        sent = attempt.request[2]
        sender = self.members[attempt.sender]
        if attempt.request in sender.requests:
            sender.requests.remove(attempt.request)
        sender.sent()
        sender.put(operations.confirm(sent.identifier))
        receivers = [number for number in attempt.listeners
                     if self.members[number].live and self.members[number].awake]
        for number in receivers:
            self.members[number].received()
            self.members[number].put(sent.spelled)
        names = b",".join(b"%d" % number for number in receivers) or b"-"
        self.print(now, b"done %d %s to %s", attempt.sender, sent.text, names)

    def fail(self, now, attempt):
        kind, by = attempt.failure
        sent = attempt.request[2]
        sender = self.members[attempt.sender]
        sender.failed_to_send(kind)
        sender.put(operations.bus_error(sent.identifier, kind, attempt.sender == by, True))
        for number in attempt.listeners:
            self.members[number].saw_error(number == by)
            self.members[number].put(operations.bus_error(sent.identifier, kind, number == by, False))
        self.print(now, b"fail %d %s %d %d", attempt.sender, sent.text, kind, by)

    def hurt(self, now, attempt):
        number, kind = attempt.hurt
        member = self.members[number]
        if member.live:
            member.saw_error(True)
            member.put(operations.bus_error(attempt.request[2].identifier, kind, True, False))
        self.print(now, b"hurt %d %d", number, kind)

    def come_back(self, now, number):
        member = self.members[number]
        member.tec = member.rec = 0
        self.print(now, b"back %d", number)

    def notices(self, now, number):
        """The notices of a node that are due, in their order."""
        standing = self.members[number].notices
        return [(name, *standing[name]) for name in ("lost", "format", "wake")
                if name in standing and standing[name][0] <= now]

    def inbox(self, now, number):
        """The bytes for a node: its mail, and its notices that are due."""
        told = [spelled for _, _, _, spelled in self.notices(now, number)]
        return self.members[number].mail + b"".join(told)

    def tell(self, now, number):
        """A node takes its mail and its notices that are due."""
        member = self.members[number]
        member.mail = b""
        for name, _, text, _ in self.notices(now, number):
            self.print(now, b"told %d %s", number, text)
            del member.notices[name]
            member.awake = member.awake or name == "wake"

    def ask(self, now, number, sent):
        member = self.members[number]
        if member.state() == OFF:
            answer = b"drop"
        elif len(member.requests) == MOST_REQUESTS:
            answer = b"full"
        else:
            answer = b"req"
            bisect.insort(member.requests, (sent.key, self.accepted, sent))
            self.accepted += 1
        self.print(now, answer + b" %d %s", number, sent.text)

    def configure(self, now, number, discards):
        self.members[number].discards = discards
        self.print(now, b"discard %d" if discards else b"keep %d", number)

    def sleep(self, now, number):
        self.members[number].awake = False
        self.print(now, b"sleep %d", number)

    def wake(self, now, number):
        self.members[number].awake = True
        self.print(now, b"wake %d", number)
        for other, member in self.members.items():
            if other != number and member.live:
                notice = now + self.bit, b"wake", operations.wakeup()
                member.notices.setdefault("wake", notice)

    def complain(self, now, number, text):
        """A bad operation of a node comes back as a notice, but one at a time."""
        shown = text[:MOST_SHOWN]
        self.print(now, b"bad %d %s", number, shown.hex().encode())
        notice = now + self.bit, b"format " + shown.hex().encode(), operations.format_error(shown)
        self.members[number].notices.setdefault("format", notice)
