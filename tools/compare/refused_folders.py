#!/usr/bin/env python3
"""Folders that are wrong in one place each, or in two, and what is reported, through folder.py and a program.

    refused_folders.py [PROGRAM]

For each check of each file there is a folder that fails it. What is reported was written down by hand here and in
the tables of ../../vectors; where a row says that a file is accepted, folder.py and PROGRAM have to agree.
"""
import os
import subprocess
import sys
import tempfile

import folder
import kit_guests
from assembler import module
from folder_text import Network, Unit, put
from module_bytes import Bytes
from module_checks import ROWS
from tried_modules import cases, document_rows, from_runs

MEBIBYTE = 2 ** 20
GATE = "gate/modelDescription.toml"
GATE_MODULE = "gate/binaries/gate_1.wasm"
FIRST, SECOND = "door/modelDescription.toml", "lamp/modelDescription.toml"
FIRST_MODULE, SECOND_MODULE = "door/binaries/door.wasm", "lamp/binaries/lamp.wasm"
TABLE_OF_TWO = b"\x04\x04\x01\x70\x00\x02"
ELEMENTS = b"\x09\x08\x01\x00\x41%s\x0b\x02\x00\x00"


def named(identifier, module_bytes, *names):
    unit = Unit(identifier, module_bytes)
    unit.names = names
    return unit


def files_of(units):
    """The files of units by their folders."""
    files = {}
    for place, unit in units.items():
        files[place + "/modelDescription.toml"] = unit.description().encode()
        files[f"{place}/binaries/{unit.identifier}.wasm"] = unit.module
    return files


def two_nodes():
    """Two listeners on one bus."""
    network = Network(10 ** 9, 10 ** 6)
    network.bus(500000)
    units = {name: Unit(name, kit_guests.listener()) for name in ("door", "lamp")}
    for unit in units.values():
        network.node(unit, 0)
    return {"net.toml": network.text().encode(), **files_of(units)}


def gate_alone(description, module_bytes):
    """A node with the two terminals of the description in vectors/descriptions.py."""
    text = 'resolution = 1000\nstop = 1000\n[[bus]]\nname = "a"\nrate = 500\n[[bus]]\nname = "b"\nrate = 500\n'
    text += '[[node]]\nname = "gate"\nfmu = "gate"\nbus = { A = "a", B = "b" }\n'
    return {"net.toml": text.encode(), GATE: description, GATE_MODULE: module_bytes}


def network_files():
    """Each row of vectors/networks.py."""
    listener = kit_guests.listener()
    units = files_of({"Door_1": named("door", listener, "CAN"), "gate": named("gate", listener, "IN", "OUT"),
                      "engine": named("engine", listener, "CAN")})
    for what, text, (field, place) in document_rows("networks", "CAR"):
        line = f"refused main {field} {place} 0" if field else None
        yield "net.toml: " + what, {"net.toml": text.encode(), **units}, line


def descriptions():
    """Each row of vectors/descriptions.py."""
    for what, text, (field, place) in document_rows("descriptions", "GATE"):
        line = f"refused description 0 {field} {place} 0" if field else None
        yield "description: " + what, gate_alone(text.encode(), kit_guests.listener()), line


def with_module(data, place=0):
    return {**two_nodes(), (FIRST_MODULE, SECOND_MODULE)[place]: data}


def modules():
    """Each case of modules.txt and of bodies.txt in vectors/cases/module_cases."""
    for name in "modules.txt", "bodies.txt":
        for what, text, found in cases(name):
            words = found.split()
            refused = words[0][0].isupper()
            line = f"refused module 1 {' '.join((words + ['0'])[:3])}" if refused else None
            yield f"{name}: {what}", with_module(from_runs(text), 1), line


def with_segments(elements, *datas):
    """A listener with a table of two entries, an element at an address of one byte, and data."""
    whole = module(kit_guests.functions_of({}), kit_guests.VARIABLES, list(datas))
    source, parts = Bytes(whole, 8, len(whole)), {4: TABLE_OF_TWO, 9: ELEMENTS % elements}
    while not source.ends():
        start = source.at
        number = source.byte()
        source.take(source.unsigned())
        parts[number] = whole[start:source.at]
    return whole[:8] + b"".join(part for _, part in sorted(parts.items()))


def segments():
    """Elements and data that lead out of a table of two entries, or a memory of one page."""
    for what, elements, datas, line in [
            ("segments that fit", b"\0", [(65535, b"a"), (65536, b"")], ""),
            ("elements past the end", b"\1", [], "refused module 0 Segment 0 0"),
            ("elements far past the end", b"\x7f", [], "refused module 0 Segment 0 0"),
            ("data past the end", b"\0", [(0, b"a"), (65536, b"a")], "refused module 0 Segment 1 1"),
            ("no data past the end", b"\0", [(65537, b"")], "refused module 0 Segment 0 1"),
            ("data at the last address", b"\0", [(-1, b"ab")], "refused module 0 Segment 0 1"),
            ("elements and data past the end", b"\1", [(65536, b"a")], "refused module 0 Segment 0 0")]:
        yield what, with_module(with_segments(elements, *datas)), line
    without = with_segments(b"\1").replace(b"memory", b"Memory")
    yield "elements past the end, and no memory", with_module(without), "refused module 0 Segment 0 0"


def retyped(name, params, results):
    """A listener of which one function has another type."""
    text = "" if not results else f"{results[0]}.const 0"
    functions = [one._replace(params=params, results=results, text=text) if one.name == name else one
                 for one in kit_guests.functions_of({})]
    return module(functions, kit_guests.VARIABLES, [])


def exports():
    """Each row of what a unit exports: absent, of another kind, of another type."""
    whole = kit_guests.listener()
    for row, (name, asked) in enumerate(ROWS):
        missing, wrong = f"refused module 0 Missing {row} 0", f"refused module 0 Signature {row} 0"
        spelled = bytes([len(name)]) + name
        at = whole.index(spelled) + len(spelled)
        yield f"no {name.decode()}", with_module(whole[:at - 1] + b"_" + whole[at:]), missing
        kind = b"\3\0" if asked is None else b"\2\0"
        yield f"{name.decode()} of another kind", with_module(whole[:at] + kind + whole[at + 2:]), wrong
        if asked is not None:
            params, results = asked
            for other in (params + ("i32",), results), (params[1:], results), (params, ("i64",)), (params, ()):
                if other != asked:
                    changed = retyped(name.decode(), *other)
                    yield f"{name.decode()} of the type {other}", with_module(changed), wrong


def orders():
    """Faults in two files, of which the first is told; and files that can't be read."""
    good, bad = two_nodes(), b"x = "
    worse = {name: bad for name in good}
    yield "every file is wrong", worse, "refused main Toml 0 0"
    order = [("net.toml", "main"), (FIRST, "description 0"), (FIRST_MODULE, "module 0"), (SECOND, "description 1"),
             (SECOND_MODULE, "module 1")]
    for place, (name, file) in enumerate(order):
        behind = {later: bad for later, _ in order[place:]}
        why = "Magic" if "module" in file else "Toml"
        yield f"wrong from {name} on", {**good, **behind}, f"refused {file} {why} 0 0"
        yield f"no {name}", {**good, **behind, name: None}, f"unread {file}"
        yield f"a folder in place of {name}", {**good, **behind, name: "folder"}, f"unread {file}"
        limit = 4 * MEBIBYTE if "module" in file else MEBIBYTE
        yield f"{name} is too long", {**good, name: b"\n" * (limit + 1)}, f"refused {file} Size {limit} 0"
        if "module" not in file:
            yield f"{name} is as long as it may be", {**good, name: good[name].ljust(limit, b"\n")}, ""
            yield f"{name} isn't UTF-8", {**good, name: good[name] + b"# \xff\n"}, f"refused {file} Toml 0 0"
    lamp = b'name = "node_1"\nfmu = "lamp"\nbus = { CAN0 = "bus_0" }'
    for keys in "CAN", "can0", '"CAN0 "':
        text = good["net.toml"].replace(lamp, lamp.replace(b"CAN0", keys.encode()))
        files = {**good, "net.toml": text}
        yield f"a bus at {keys}", {**files, SECOND_MODULE: bad}, "refused main node.bus 1 0"
        yield f"a bus at {keys}, behind another module", {**files, FIRST_MODULE: bad}, "refused module 0 Magic 0 0"
        yield f"a bus at {keys}, behind its description", {**files, SECOND: bad}, "refused description 1 Toml 0 0"
    two = good["net.toml"].replace(b'[[node]]', b'[[bus]]\nname = "b"\nrate = 1000\n[[node]]', 1)
    two = two.replace(lamp, lamp.replace(b' }', b', CAN1 = "b" }'))
    yield "a bus at a terminal that isn't there", {**good, "net.toml": two}, "refused main node.bus 1 0"
    terminals = Unit("lamp", kit_guests.listener(), 2).description().encode()
    yield "a terminal without a bus", {**good, SECOND: terminals}, "refused main node.bus 1 0"
    same = good["net.toml"].replace(b'fmu = "lamp"', b'fmu = "door"')
    yield "two nodes of one folder", {**good, "net.toml": same, SECOND: None}, ""
    other = good[SECOND].replace(b'modelIdentifier = "lamp"', b'modelIdentifier = "Lamp"')
    yield "no module of this name", {**good, SECOND: other}, "unread module 1"


def write(path, files):
    for name, data in files.items():
        at = os.path.join(path, name)
        if data is None:
            continue
        os.makedirs(at if data == "folder" else os.path.dirname(at), exist_ok=True)
        if data != "folder":
            put(at, data)


def run(program, path):
    done = subprocess.run([program, "run", path], capture_output=True)
    return done.returncode, done.stdout, done.stderr


def is_right(found, line):
    """Whether a run reports this line, where one is known."""
    status, log, report = found
    if line is None:
        return True
    if line == "":
        return status == 0 and report == b""
    return (status, log, report) == (3 if line.startswith("refused") else 4, b"", line.encode() + b"\n")


def main(words):
    tried = [*network_files(), *descriptions(), *modules(), *segments(), *exports(), *orders()]
    failed = 0
    with tempfile.TemporaryDirectory() as base:
        for place, (what, files, line) in enumerate(tried):
            path = os.path.join(base, str(place))
            write(path, files)
            own = folder.outcome(path)
            answers = [("folder.py", own)] + [(word, run(word, path)) for word in words]
            for who, found in answers:
                if not is_right(found, line) or found != own:
                    failed += 1
                    print(f"{what}: {who} answers {found[0]} {found[2]}, in place of {line or own[2]}")
    print(f"{len(tried)} folders, {failed} are answered in another way")
    return 1 if failed else 0


if __name__ == "__main__":
    sys.exit(main(sys.argv[1:]))
