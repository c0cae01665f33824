"""What the scripts in this folder share: the lines of a log, frames, and the head of a play or of a network.

Read here are only files that `bench` took or wrote; what is no line of a log is told with its number.
Standard library only; a network needs Python 3.11, which reads TOML.
"""
import dataclasses
import fractions
import pathlib
import re
import sys

BYTE = "[0-9a-f]{2}"
FD_BYTES = f"(?:(?:{BYTE}){{0,8}}|" + "|".join(f"(?:{BYTE}){{{count}}}" for count in (12, 16, 20, 24, 32, 48, 64)) + ")"
FRAME = f"(?:[0-7][0-9a-f]{{2}}|[01][0-9a-f]{{7}})#(?:R|#[0-3]{FD_BYTES}|(?:{BYTE}){{0,8}})"
STATE, BYTES, NODE = "(?:active|passive|off)", f"(?:-|(?:{BYTE})+)", "[0-9]{1,2}"
# What stands behind the node, by the word of a line: the table in docs/FORMATS.md.
BEHIND = {
    "req": FRAME, "full": FRAME, "drop": FRAME, "keep": "", "discard": "", "wake": "", "sleep": "",
    "told": f"(?:wake|lost [01][0-9a-f]{{7}}|format {BYTES})", "start": FRAME, "lost": f"{FRAME} (?:keep|gone)",
    "done": f"{FRAME} to (?:-|{NODE}(?:,{NODE})*)", "fail": f"{FRAME} [1-5] {NODE}", "hurt": "[1-5]", "state": STATE,
    "back": "", "rate": "[0-9]{1,10}", "fdrate": "[0-9]{1,10}", "status": STATE, "ferr": BYTES, "bad": BYTES,
    "down": "[A-Z][A-Za-z]+[0-9]?", "over": "",
}
LINES = {word: re.compile(f"[0-9]{{1,20}} {'-' if word in ('down', 'over') else '[0-3]'} {word} {NODE}"
                          + (f" {behind}" if behind else "")) for word, behind in BEHIND.items()}
KINDS = {1: "bit error", 2: "stuff error", 3: "form error", 4: "CRC error", 5: "no acknowledgement"}


class NotALog(Exception):
    """A line that is none of a log."""


@dataclasses.dataclass(frozen=True)
class Frame:
    """A frame: `kind` is `data`, `remote` or `fd`; `data` is empty for a remote frame."""
    identifier: int
    extended: bool
    kind: str
    data: bytes
    flags: int = 0  # of an FD frame: 1 bit rate switch, 2 error state indicator

    @staticmethod
    def read(text):
        name, hash_sign, rest = text.partition("#")
        if not hash_sign or len(name) not in (3, 8):
            raise ValueError(text)
        identifier, extended = int(name, 16), len(name) == 8
        if rest.startswith("#"):
            return Frame(identifier, extended, "fd", bytes.fromhex(rest[2:]), int(rest[1], 16))
        if rest == "R":
            return Frame(identifier, extended, "remote", b"")
        return Frame(identifier, extended, "data", bytes.fromhex(rest))


@dataclasses.dataclass(frozen=True)
class Line:
    """A line of a log. `bus` is None in the lines of a node that is down or over, and `rest` is what follows the node.

    The last line has the word `end`; its moment, bus and node are None and `rest` is the status and the events.
    """
    number: int
    text: str
    moment: int | None
    bus: int | None
    word: str
    node: int | None
    rest: tuple

    def frame(self):
        """The text of the frame of a line that has one."""
        return self.rest[0]

    def receivers(self):
        """The nodes that a `done` line names."""
        return [] if self.rest[2] == "-" else [int(node) for node in self.rest[2].split(",")]

    def nodes(self):
        """All nodes that the line names."""
        named = [] if self.node is None else [self.node]
        named += self.receivers() if self.word == "done" else []
        return named + ([int(self.rest[2])] if self.word == "fail" else [])


def shown(text):
    """The beginning of a text, with what can't be seen in it as its code."""
    seen = "".join(sign if sign.isprintable() else f"\\x{ord(sign):02x}" for sign in text[:100])
    return seen if len(text) <= 100 else seen + " .."


def line_of(number, text):
    """A line of a log, or NotALog."""
    words = text.split(" ")
    if re.fullmatch("end [0-9]{1,2} [0-9]{1,20}", text):
        return Line(number, text, None, None, "end", None, tuple(words[1:]))
    if len(words) < 4 or words[2] not in LINES or not LINES[words[2]].fullmatch(text):
        why = " (lines end with CR LF, as from Windows)" if text.endswith("\r") else ""
        raise NotALog(f"line {number} isn't a line of a log{why}: {shown(text)}")
    bus = None if words[1] == "-" else int(words[1])
    return Line(number, text, int(words[0]), bus, words[2], int(words[3]), tuple(words[4:]))


def lines_in(file, name, whole=False):
    """The lines of an open log, one after another. One without the line `end` is told of, or isn't taken if it has to be whole."""
    last = None
    for number, text in enumerate(file, 1):
        if not text.endswith("\n"):
            raise NotALog(f"line {number} is cut off, as no line feed ends it: {shown(text)}")
        line = line_of(number, text[:-1])
        if last and (last.word == "end" or line.moment is not None and line.moment < last.moment):
            raise NotALog(f"line {number} can't follow the one before it: {shown(line.text)}")
        yield line
        last = line
    if last is None or last.word != "end":
        why = f"{name} isn't whole: its last line isn't `end STATUS EVENTS`"
        if whole:
            raise NotALog(why)
        sys.stdout.flush()
        print(f"note: {why}", file=sys.stderr)


def lines_of(path, whole=False):
    """The lines of a log by its path; `-` is standard input."""
    if str(path) == "-":
        sys.stdin.reconfigure(encoding="ascii", errors="backslashreplace", newline="\n")
        yield from lines_in(sys.stdin, "standard input", whole)
        return
    with open(path, encoding="ascii", errors="backslashreplace", newline="\n") as file:
        yield from lines_in(file, path, whole)


def log_of(path, setup=None, whole=False):
    """All lines of a log; with a setup they name what stands there."""
    lines = list(lines_of(path, whole))
    members = {(bus, number) for number, node in enumerate(setup.nodes) for bus in node.buses() + [None]} if setup else ()
    for line in lines if setup else ():
        strange = [node for node in line.nodes() if (line.bus, node) not in members]
        if strange:
            where = "" if line.bus is None else f" on bus {line.bus}"
            raise NotALog(f"{path} is the log of something else: line {line.number} has node {strange[0]}{where}: {line.text}")
    return lines


@dataclasses.dataclass
class Attempt:
    """A frame on a bus from its start on. `how` is `done`, `fail`, or `open` where the log ends before it does."""
    start: Line
    end: Line | None = None
    losers: list = dataclasses.field(default_factory=list)

    @property
    def how(self):
        return self.end.word if self.end else "open"

    def until(self, last):
        return self.end.moment if self.end else last

    def kind(self):
        """In words, what a failed attempt failed by."""
        return KINDS.get(int(self.end.rest[1]), self.end.rest[1])

    def detector(self):
        return int(self.end.rest[2])


def attempts_of(lines):
    """All attempts, in the order of their starts."""
    running, attempts = {}, []
    for line in lines:
        if line.word == "start":
            running[line.bus] = Attempt(line)
            attempts.append(running[line.bus])
        elif line.word == "lost" and line.bus in running:
            running[line.bus].losers.append(line)
        elif line.word in ("done", "fail") and line.bus in running:
            running.pop(line.bus).end = line
    return attempts


@dataclasses.dataclass(frozen=True)
class Bus:
    """Rates in bits a second; `fd_rate` is 0 on a bus without CAN FD."""
    name: str
    rate: int
    fd_rate: int


@dataclasses.dataclass(frozen=True)
class Node:
    """A node with its terminals by name, each with the place of its bus; in a play it has one, `CAN`, on bus 0."""
    name: str
    terminals: dict

    def buses(self):
        return sorted(set(self.terminals.values()))


@dataclasses.dataclass(frozen=True)
class Setup:
    """What a log is read by: ticks a second, the last moment, buses and nodes in the order of their numbers."""
    resolution: int
    stop: int
    buses: list
    nodes: list
    is_play: bool = False

    def bus_name(self, bus):
        return self.buses[bus].name if bus is not None and bus < len(self.buses) else f"bus {bus}"

    def node_name(self, node):
        return self.nodes[node].name if node is not None and node < len(self.nodes) else f"node {node}"

    def seconds(self, ticks):
        return ticks / self.resolution

    def node_of(self, name):
        """The number of a node by its name or number."""
        names = [node.name for node in self.nodes]
        if name in names:
            return names.index(name)
        if name.isdecimal() and int(name) < len(names):
            return int(name)
        raise ValueError(f"no node is called {name}: there is {', '.join(names)}")

    def ticks(self, text):
        """A time in ticks: a whole number of ticks, or a number with s, ms or us behind it."""
        for unit, parts in (("ms", 1000), ("us", 10 ** 6), ("s", 1)):
            if re.fullmatch(rf"[0-9]+(\.[0-9]+)?{unit}", text):
                return round(fractions.Fraction(text[:-len(unit)]) * self.resolution / parts)
        return whole_ticks(text)


def whole_ticks(text):
    if not re.fullmatch("[0-9]+", text):
        raise ValueError(f"no time: {text}; a time is a number of ticks, or with a NET or PLAY one as 5ms, 300us, 1.5s")
    return int(text)


def play_setup(path):
    with open(path, encoding="ascii", errors="replace", newline="\n") as file:
        words = file.readline().rstrip("\n").split(" ")
    if len(words) != 6 or words[0] != "play" or not all(word.isdecimal() for word in words[1:]) or words[1] == "0":
        raise ValueError(f"{path} is neither a network's folder nor a play: its first line is no header of a play")
    resolution, rate, fd_rate, nodes, stop = (int(word) for word in words[1:])
    if rate < 1 or resolution % rate or fd_rate and resolution % fd_rate or not 1 <= nodes <= 32:
        raise ValueError(f"{path} isn't taken by the bench: tools/explain {path}")
    return Setup(resolution, stop, [Bus("bus 0", rate, fd_rate)], [Node(f"node {n}", {"CAN": 0}) for n in range(nodes)],
                 is_play=True)


def network_setup(folder):
    import tomllib
    refused = ValueError(f"{folder / 'net.toml'} isn't taken by the bench: tools/explain {folder}")
    try:
        table = tomllib.loads((folder / "net.toml").read_text(encoding="utf-8"))
        buses = [Bus(bus["name"], bus["rate"], bus.get("fd_rate", 0)) for bus in table["bus"]]
        places = {bus.name: place for place, bus in enumerate(buses)}
        nodes = [Node(n["name"], {t: places[b] for t, b in n["bus"].items()}) for n in table["node"]]
        setup = Setup(table["resolution"], table["stop"], buses, nodes)
        numbers = [setup.resolution, setup.stop] + [number for bus in buses for number in (bus.rate, bus.fd_rate)]
        if any(type(number) is not int or number < 0 for number in numbers) or not all(bus.rate for bus in buses):
            raise refused
        if any(setup.resolution % rate for bus in buses for rate in (bus.rate, bus.fd_rate) if rate) or not setup.resolution:
            raise refused
        if not buses or not nodes or not all(isinstance(one.name, str) for one in buses + nodes):
            raise refused
        return setup
    except (UnicodeDecodeError, tomllib.TOMLDecodeError, RecursionError, KeyError, TypeError, AttributeError):
        raise refused from None


def setup_of(path):
    """The head of a play, or of a network by its folder or its `net.toml`."""
    path = pathlib.Path(path)
    if path.is_dir():
        return network_setup(path)
    if path.name == "net.toml":
        return network_setup(path.parent)
    return play_setup(path)


def run(name, main):
    """Runs a script: a file that can't be read, or is none of the bench's, ends it with a line and status 2."""
    try:
        sys.exit(main())
    except BrokenPipeError:
        sys.stderr.close()
        sys.exit(1)
    except KeyboardInterrupt:
        sys.exit(130)
    except OSError as error:
        sys.exit(fail(name, f"{error.filename}: {error.strerror}" if error.filename else error.strerror or error))
    except (ValueError, NotALog) as error:
        sys.exit(fail(name, error))


def fail(name, why):
    print(f"{name}: {why}", file=sys.stderr)
    return 2
