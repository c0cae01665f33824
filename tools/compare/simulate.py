#!/usr/bin/env python3
"""A second implementation of `bench play FILE`, which takes nothing from the crates.

It has the text of a play file, which docs/FORMATS.md describes; bus.py has the bus. `compare.py` compares
it with the program.
"""
import functools
import os
import re
import sys

from bus import ACT, FINISH, RETURN, START, Bus
from member import Error, Member, Sent

SIZE_LIMIT = 2 ** 24
EVENT_BUDGET = 10 ** 6
LATEST = 2 ** 62
MOST_ERRORS = 1024
DECIMAL = re.compile(rb"(0|[1-9][0-9]*)\Z")


class Refused(Exception):
    """A file that breaks a rule: which, and where."""

    def __init__(self, why, place):
        super().__init__(why, place)
        self.line = b"refused main %s %d 0\n" % (why, place)


def number(word, least, most):
    """The decimal number of a word, without leading zeros and in this range."""
    if len(word) > 30 or not DECIMAL.match(word) or not least <= int(word) <= most:
        raise ValueError
    return int(word)


def bit_time(rate, resolution):
    """The ticks of a bit: the rate divides the resolution."""
    if rate == 0 or resolution % rate:
        raise ValueError
    return resolution // rate


def read_error(words, nodes):
    _, first, count, kind, by, bit = words
    first = number(first, 1, 2 ** 32)
    count = number(count, 1, 2 ** 32)
    by = None if by == b"sender" else number(by, 0, nodes - 1)
    return Error(first, count, number(kind, 1, 4), by, number(bit, 0, 1023))


class Play:
    """A play file: its bit times, its nodes, its stop, its error script and what the nodes do."""

    def __init__(self, words):
        name, resolution, rate, data_rate, nodes, stop = words
        if name != b"play":
            raise ValueError
        resolution = number(resolution, 1, 10 ** 12)
        self.nominal = bit_time(number(rate, 0, 2 ** 32 - 1), resolution)
        data_rate = number(data_rate, 0, 2 ** 32 - 1)
        self.fast = bit_time(data_rate, resolution) if data_rate else None
        self.nodes = number(nodes, 1, 32)
        self.stop = number(stop, 0, LATEST)
        self.errors = []
        self.actions = []
        self.sent = functools.lru_cache(None)(self.read_sent)

    def read_sent(self, text):
        return Sent(text, self.nominal, self.fast)

    def take_error(self, words):
        if self.actions or len(self.errors) == MOST_ERRORS:
            raise ValueError
        self.errors.append(read_error(words, self.nodes))

    def take_action(self, words):
        moment, node, name, *rest = words
        moment = number(moment, self.actions[-1][0] if self.actions else 0, LATEST)
        node = number(node, 0, self.nodes - 1)
        if name == b"send":
            (text,) = rest
            self.actions.append((moment, node, name, self.sent(text)))
        elif name in (b"wake", b"sleep", b"keep", b"discard") and not rest:
            self.actions.append((moment, node, name, None))
        else:
            raise ValueError


def read_play(text):
    """The play of a file; the first line that breaks a rule is refused."""
    if len(text) > SIZE_LIMIT:
        raise Refused(b"Size", SIZE_LIMIT)
    lines = text.split(b"\n")
    unended = lines.pop()
    play = None
    for place, line in enumerate(lines, 1):
        words = line.split(b" ")
        try:
            if play is None:
                play = Play(words)
            elif words[0] == b"error":
                play.take_error(words)
            else:
                play.take_action(words)
        except ValueError:
            raise Refused(b"Line", place) from None
    if unended or play is None:
        raise Refused(b"Line", len(lines) + 1)
    return play


class PlayedBus(Bus):
    """The bus of a play, whose nodes are all live and take no mail."""

    def __init__(self, play):
        members = {number: Member(True) for number in range(play.nodes)}
        super().__init__(0, play.nominal, play.errors, members, [])

    def next_due(self, now):
        """The moment, kind and node of what the bus does next, or None."""
        due = [(moment, ACT, 0) for moment in self.notice_moments()]
        return min(due + list(self.dues(now)), default=None)

    def tell_all(self, now):
        for place in self.members:
            self.tell(now, place)

    def act(self, now, place, name, sent):
        if name == b"send":
            self.ask(now, place, sent)
        elif name == b"wake":
            self.wake(now, place)
        elif name == b"sleep":
            self.sleep(now, place)
        else:
            self.configure(now, place, name == b"discard")


def run(play):
    """The status of a play, and its log."""
    bus, now, events, place = PlayedBus(play), 0, 0, 0
    actions = play.actions
    while True:
        due = [event for event in [bus.next_due(now)] if event]
        if place < len(actions):
            due.append((actions[place][0], ACT, 0))
        if not due or min(due)[0] > play.stop:
            status = 0
            break
        if events == EVENT_BUDGET:
            status = 8
            break
        now, kind, node = min(due)
        events += 1
        if kind == FINISH:
            bus.finish(now)
        elif kind == RETURN:
            bus.come_back(now, node)
        elif kind == START:
            bus.start(now)
        else:
            bus.tell_all(now)
            while place < len(actions) and actions[place][0] == now:
                bus.act(*actions[place])
                place += 1
    bus.log.append(b"end %d %d\n" % (status, events))
    return status, b"".join(bus.log)


def outcome(text):
    """Exit status, output and error stream for a file of these bytes."""
    try:
        play = read_play(text)
    except Refused as refused:
        return 3, b"", refused.line
    status, log = run(play)
    return status, log, b"spent\n" if status == 8 else b""


def main(words):
    if len(words) != 2 or words[0] != b"play":
        return 2, b"", b"usage\n"
    try:
        with open(words[1], "rb") as file:
            text = file.read(SIZE_LIMIT + 1)
    except (OSError, ValueError):
        return 4, b"", b"unread main\n"
    return outcome(text)


if __name__ == "__main__":
    code, output, error = main([os.fsencode(word) for word in sys.argv[1:]])
    sys.stdout.buffer.write(output)
    sys.stderr.buffer.write(error)
    sys.exit(code)
