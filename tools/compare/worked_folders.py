#!/usr/bin/env python3
"""Folders with what their runs write, worked out by hand, through the second implementation, and a program.

    worked_folders.py [PROGRAM]

prints each folder that is answered in another way than is written here, by folder.py or by PROGRAM.
"""
import os
import subprocess
import sys
import tempfile

import folder
import kit_guests
import odd_guests
import operations
from folder_text import Network, Unit

SECOND = 10 ** 9
TICK = 10 ** 7  # of the senders: 10/1000 s

SIX_FIRST = """\
10000000 0 req 0 100#1770
10000000 0 req 1 0ff#
10000000 1 req 4 300##15555555555555555
10000000 0 start 1 0ff#
10000000 0 lost 0 100#1770 keep
10000000 1 start 4 300##15555555555555555
10094000 0 done 1 0ff# to 0,2,5
10094000 1 req 2 0ff#
10100000 0 start 0 100#1770
10106000 1 done 4 300##15555555555555555 to 2,3
10112000 1 start 2 0ff#
10206000 1 done 2 0ff# to 3,4
10224000 0 done 0 100#1770 to 1,2,5
10224000 1 req 2 100#1770
10224000 1 start 2 100#1770
10348000 1 done 2 100#1770 to 3,4
20000000 0 req 0 100#1770
"""
SIX_LAST = """\
1000000000 0 req 0 100#1770
1000000000 0 req 1 0ff#
1000000000 1 req 4 300##15555555555555555
1000000000 0 start 1 0ff#
1000000000 0 lost 0 100#1770 keep
"""
SIX_VERY_LAST = "1000000000 1 start 4 300##15555555555555555\n"
BAD_OPERATION = """\
10000000 0 bad 0 1200000008000000
10002000 0 told 0 format 1200000008000000
end 0 3
"""
TWO_BAD = """\
10000000 0 bad 0 1000000011000000230100000000020001
10000000 0 bad 0 02
10002000 0 told 0 format 1000000011000000230100000000020001
end 0 3
"""


def sender(identifier, text, counter=10, resolution=1000):
    operation = operations.transmit(text)
    return Unit(identifier, kit_guests.sender(operation, counter, resolution), 1, True)


def six_nodes(events=None):
    """Three senders, a gateway and two listeners on two buses."""
    network = Network(SECOND, SECOND, events)
    network.bus(500000)
    network.bus(500000, 2000000)
    network.node(sender("engine", b"100#1770"), 0)
    network.node(sender("brake", b"0ff#"), 0)
    network.node(Unit("gateway", kit_guests.gateway(), 2), 0, 1)
    network.node(Unit("door", kit_guests.listener()), 1)
    network.node(sender("light", b"300##15555555555555555"), 1)
    network.node(Unit("logger", kit_guests.listener()), 0)
    return network


def on_one_bus(stop, *units, fuel=None):
    network = Network(SECOND, stop, None, fuel)
    network.bus(500000)
    for unit in units:
        network.node(unit, 0)
    return network


def sending(data, stop=TICK + TICK // 2):
    return on_one_bus(stop, Unit("loud", kit_guests.sender(data, 10, 1000), 1, True))


def beside_listener(module, countdown=False):
    """A guest, behind a listener, in one moment."""
    return on_one_bus(0, Unit("quiet", kit_guests.listener()), Unit("odd", module, 1, countdown))


def down(cause):
    return f"0 - down 1 {cause}\nend 0 1\n"


def whole(log, status=0):
    return lambda found: found == (status, log.encode(), b"spent\n" if status == 8 else b"")


def six_is_right(found):
    status, log, report = found
    lines = log.decode()
    right = lines.startswith(SIX_FIRST) and lines.endswith(SIX_LAST + SIX_VERY_LAST + "end 0 1588\n")
    return right and (status, report) == (0, b"") and len(lines.splitlines()) == 99 * 16 + 7


def budget_is_right(found):
    status, log, report = found
    return (status, report) == (8, b"spent\n") and log.decode().endswith(SIX_LAST + "end 8 1587\n") \
        and log.startswith(SIX_FIRST.encode())


def flood_is_right(found):
    status, log, report = found
    lines = log.decode().splitlines()
    return lines[:256] == ["0 0 req 0 7ff#"] * 256 and lines[256:300] == ["0 0 full 0 7ff#"] * 44 \
        and lines[300] == "0 0 start 0 7ff#" and (status, report) == (0, b"")


def lone_flood_is_right(found):
    """Sixteen attempts fail for want of an acknowledgement, and the sender is passive; it never goes off."""
    lines = found[1].decode().splitlines()
    fails = [line for line in lines if line.endswith(" fail 0 7ff# 5 0")]
    states = [line for line in lines if " state " in line]
    return len(states) == 1 and states[0].endswith(" state 0 passive") \
        and lines.index(states[0]) == lines.index(fails[15]) + 1 and len(fails) > 17


def spin_is_right(found):
    """The third node's second session ends it; the other two go on."""
    status, log, report = found
    lines = log.decode().splitlines()
    first = [line for line in lines if line.endswith(" done 0 123# to 1,2")]
    others = [line for line in lines if line.endswith(" done 0 123# to 1")]
    lost = first[0].split()[0] + " - down 2 Spent" if first else None
    return (status, report) == (0, b"") and len(first) == 1 and lost in lines and len(others) > 5


def header_alone():
    return beside_listener(b"\0asm\1\0\0\0")


def refused(line):
    return lambda found: found == (3, b"", f"refused {line}\n".encode())


def spinning():
    quiet, spins = kit_guests.listener(), odd_guests.odd_listener("a step that spins")
    return on_one_bus(10 * TICK, sender("loud", b"123#"), Unit("quiet", quiet), Unit("spins", spins), fuel=1000)


def twice_named():
    network = six_nodes()
    network.buses[1] = network.buses[0]
    return network


LISTENERS = {
    "always asks for another update": down("Loop"),
    "asks for another update fifteen times": "end 0 1\n",
    "a clock that answers 2": down("BadReply"),
    "emits too many bytes": down("BadBuffer"),
    "an error in EnterInitializationMode": down("Status3"),
    "an error, and FreeInstance spins": down("Status3"),
    "discards its instantiation": down("Status2"),
    "a status of 5": down("BadReply"),
    "warnings everywhere": "end 0 1\n",
    "an area one byte outside": down("BadBuffer"),
    "an area up to the last byte": "end 0 1\n",
    "grows for its area": "end 0 1\n",
    "an update of 2": down("BadReply"),
    "ends at once": "0 - over 1\nend 0 1\n",
    "ends at once and asks for another update": "0 - over 1\nend 0 1\n",
    "ends, and Terminate is an error": down("Status3"),
    "ends, and FreeInstance traps": "0 - over 1\nend 0 1\n",
    "Terminate is an error": down("Status3"),
    "Terminate spins": down("Spent"),
}
SENDERS = {
    "an interval of 0": down("BadInterval"),
    "an interval without a resolution": down("BadInterval"),
    "an interval of a third": down("BadInterval"),
    "an interval that is too long": down("BadInterval"),
    "a qualifier of 3": down("BadReply"),
    "an interval that isn't known": "end 0 1\n",
    "an interval that is discarded": down("Status2"),
}


def folders():
    """What is tried, its network, and whether what is found is right."""
    yield "six nodes", six_nodes(), six_is_right
    yield "as many events as happen", six_nodes(1588), six_is_right
    yield "one event less", six_nodes(1587), budget_is_right
    quiet = Unit("quiet", kit_guests.listener())
    yield "a flood", on_one_bus(TICK, Unit("flood", kit_guests.flooder()), quiet), flood_is_right
    yield "a flood alone", on_one_bus(TICK, Unit("flood", kit_guests.flooder())), lone_flood_is_right
    yield "a step that spins", spinning(), spin_is_right
    yield "a bad operation", sending(bytes.fromhex("1200000008000000")), whole(BAD_OPERATION)
    cut = bytes.fromhex("100000001100000023010000000002000102")
    yield "an operation that says a byte too few", sending(cut), whole(TWO_BAD)
    yield "a header alone", header_alone(), refused("module 1 Missing 0 0")
    yield "a start function that traps", beside_listener(odd_guests.starts_with("unreachable")), whole(down("Trap"))
    yield "a start function that spins", beside_listener(odd_guests.starts_with("loop br 0 end")), whole(down("Spent"))
    no_stop = six_nodes()
    no_stop.settings.pop(1)
    yield "no stop", no_stop, refused("main stop 0 0")
    yield "a bus of an earlier bus's name", twice_named(), refused("main bus.name 1 0")
    for name, log in LISTENERS.items():
        yield name, beside_listener(odd_guests.odd_listener(name)), whole(log)
    for name, log in SENDERS.items():
        operation = operations.transmit(b"123#")
        yield name, beside_listener(odd_guests.odd_sender(name, operation), True), whole(log)


def run(program, path):
    """What a program writes of a folder: status, log, report."""
    done = subprocess.run([program, "run", path], capture_output=True)
    return done.returncode, done.stdout, done.stderr


def usage(words):
    """Programs that don't say that these words are no command."""
    for program in words:
        for wrong in [], ["run"], ["run", "a", "b"], ["Run", "a"]:
            done = subprocess.run([program, *wrong], capture_output=True)
            if (done.returncode, done.stdout, done.stderr) != (2, b"", b"usage\n"):
                yield f"{program} {' '.join(wrong)}: {done.returncode} {done.stderr} in place of usage"


def cut_modules():
    """A small module cut to its first bytes, and the refusal."""
    data = bytes.fromhex("0061736d0100000001060160017f017f030201000503010001070501016600000a0901070020002802000b")
    shorts = {**{n: 16 for n in range(10, 16)}, 18: 20, 19: 20, **{n: 25 for n in range(22, 25)},
              **{n: 32 for n in range(27, 32)}, **{n: 43 for n in range(34, 43)}}
    for count in range(len(data)):
        if count < 8:
            why = "Magic 0" if count < 4 else "Version 4"
        elif count in (8, 16, 43):
            why = "Missing 0"
        elif count in (20, 25, 32):
            why = f"Count {count}"
        else:
            why = f"Short {shorts.get(count, count)}"
        yield count, data[:count], refused(f"module 0 {why} 0")


def main(words):
    failed = 0
    with tempfile.TemporaryDirectory() as path:
        runs = [("folder.py", folder.outcome)] + [(word, lambda net, word=word: run(word, net)) for word in words]
        tried = [*folders()] + [(f"a module of {count} bytes", on_one_bus(0, Unit("cut", data)), right)
                                for count, data, right in cut_modules()]
        for place, (name, network, right) in enumerate(tried):
            net = os.path.join(path, str(place))
            network.write(net)
            for who, answer in runs:
                found = answer(net)
                if not right(found):
                    failed += 1
                    print(f"{name}: {who} answers {found[0]} {found[2]} {found[1][:400]}")
    for line in usage(words):
        failed += 1
        print(line)
    print(f"{len(tried)} folders, {failed} are answered in another way")
    return 1 if failed else 0


if __name__ == "__main__":
    sys.exit(main(sys.argv[1:]))
