#!/usr/bin/env python3
"""A second implementation of `bench run NET`: it reads the folder of a network, runs it and writes its log.

    folder.py NET

writes the log, and the line of the report to the error stream; its exit status is that of the program. With
`--digest` in front of NET it writes the network's digest in place of the log. It takes nothing from the crates.
"""
import functools
import hashlib
import os
import struct
import sys

import description
import documents
import guest
import machine
import module_checks
import module_reader
import net_file
import units
import world
from module_bytes import Fault

REFUSED, UNREAD, SPENT = 3, 4, 8


class Ends(Exception):
    """Why no run begins: the exit status and the line of the report."""

    def __init__(self, status, line):
        super().__init__(status, line)
        self.status = status
        self.line = line


def refused(file, why, place, at=0):
    return Ends(REFUSED, f"refused {file} {why} {place} {at}\n")


class Folder:
    """Reads the files of a folder, each up to its limit, and notes them for the digest."""

    def __init__(self, path):
        self.path = path
        self.parts = []

    def read(self, file, name, limit):
        try:
            with open(os.path.join(self.path, name), "rb") as opened:
                data = opened.read(limit + 1)
        except (OSError, ValueError):
            raise Ends(UNREAD, f"unread {file}\n") from None
        self.parts += [struct.pack("<Q", len(data)), data]
        return data

    def document(self, file, name, read):
        data = self.read(file, name, documents.SIZE_LIMIT)
        try:
            return read(data)
        except documents.Refused as fault:
            raise refused(file, fault.field, fault.place) from None

    def module(self, file, name):
        data = self.read(file, name, module_reader.SIZE_LIMIT)
        try:
            return prepared(data)
        except Fault as fault:
            raise refused(file, fault.why, fault.place) from None
        except module_checks.Fails as fault:
            raise refused(file, fault.why, fault.place, fault.at) from None

    def digest(self):
        return hashlib.sha256(b"".join(self.parts)).hexdigest()


@functools.lru_cache(64)
def prepared(data):
    """A module of these bytes, read and checked."""
    module = module_reader.read(data)
    module_checks.check(module)
    return machine.Prepared(module)


def read_node(folder, network, place):
    """The unit of a node; its plan is filled in."""
    name = network.folders[place]
    read = folder.document(f"description {place}", f"{name}/modelDescription.toml", description.read)
    buses = network.terminals[place]
    if set(buses) != {terminal.name for terminal in read.terminals}:
        raise refused("main", "node.bus", place)
    code = folder.module(f"module {place}", f"{name}/binaries/{read.identifier}.wasm")
    plan = network.plan.nodes[place]
    plan.clocks = read.countdown
    plan.terminals = [units.Terminal(buses[terminal.name], *terminal[1:]) for terminal in read.terminals]
    return guest.Guest(code, read, network.fuel)


def read_folder(path):
    """The plan of a network, its units and its digest."""
    folder = Folder(path)
    network = folder.document("main", "net.toml", net_file.read)
    guests = [read_node(folder, network, place) for place in range(len(network.folders))]
    return network.plan, guests, folder.digest()


def outcome(path):
    """Exit status, log and report of a run."""
    try:
        plan, guests, _ = read_folder(path)
    except Ends as ends:
        return ends.status, b"", ends.line.encode()
    run = world.World(plan, guests)
    status = run.run()
    return status, b"".join(run.log), b"spent\n" if status == SPENT else b""


def digest(path):
    try:
        return 0, read_folder(path)[2].encode() + b"\n", b""
    except Ends as ends:
        return ends.status, b"", ends.line.encode()


def main(words):
    if len(words) == 2 and words[0] == "--digest":
        return digest(words[1])
    if len(words) == 1:
        return outcome(words[0])
    return 2, b"", b"usage\n"


if __name__ == "__main__":
    code, output, error = main(sys.argv[1:])
    sys.stdout.buffer.write(output)
    sys.stderr.buffer.write(error)
    sys.exit(code)
