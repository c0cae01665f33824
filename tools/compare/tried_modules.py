#!/usr/bin/env python3
"""Tries the second implementation's parts on the tables and cases of ../../vectors, which were written out by hand.

Modules are read and their validity is found; numeric instructions are run; network files and descriptions are
checked. It prints each row that is answered in another way.
"""
import os
import sys

import description
import documents
import machine_steps
import module_checks
import module_reader
import net_file
from module_bytes import Fault
from module_code import bodies

VECTORS = os.path.join(os.path.dirname(os.path.realpath(__file__)), "../../vectors")
OPCODES = {row[0]: name for name, row in bodies.NUMERIC.items()}


def cases(name):
    """The cases of a table of modules: what is shown, the words behind the call, and the answer."""
    shown = ""
    with open(os.path.join(VECTORS, "cases/module_cases", name), encoding="utf-8") as file:
        for line in file:
            if line.startswith("#"):
                shown = line[2:].rstrip("\n")
                continue
            question, _, answer = line.rstrip("\n").rpartition(" = ")
            yield shown, question.partition(" ")[2], answer


def from_runs(text):
    runs = [run.partition("*") for run in text.split()]
    return b"".join(bytes.fromhex(unit) * int(times or 1) for unit, _, times in runs)


def parts(module):
    """The parts that are there, as modules.txt counts them."""
    names = [("types", module.types), ("functions", module.type_indices), ("tables", module.tables),
             ("memories", module.memories), ("globals", module.globals), ("exports", module.exports)]
    words = [f"{name} {len(items)}" for name, items in names if items]
    words += ["start 1"] if module.start is not None else []
    words += [f"{name} {len(items)}" for name, items in
              [("elements", module.elements), ("segments", module.datas)] if items]
    found = [f"{sum(count for count, _ in runs)}:{len(code)}" for runs, code in module.bodies]
    return " ".join(words + (["bodies"] + found if found else [])) or "nothing"


def read_answer(data):
    try:
        return parts(module_reader.read(data))
    except Fault as fault:
        return f"{fault.why} {fault.place}"


def validity_answer(data):
    try:
        module_checks.check_validity(module_reader.read(data))
        return "valid"
    except Fault as fault:
        return f"{fault.why} {fault.place}"
    except module_checks.Fails as fault:
        return f"{fault.why} {fault.place} {fault.at}"


def numeric_answer(words):
    """The result of an operation; an i32 stands in the low bits of its operands."""
    name = OPCODES[int(words[0], 16)]
    bits = 32 if bodies.NUMERIC[name][1][0] == "i32" else 64
    operands = [int(word, 16) % (1 << bits) for word in words[1:]]
    try:
        machine_steps.numeric(name, 0)(None, operands, None)
    except machine_steps.Trap as trap:
        return str(trap)
    return "%x" % operands[0]


def document_answer(read, text):
    try:
        read(text.encode())
        return "", 0
    except documents.Refused as refused:
        return refused.field, refused.place


def document_rows(name, whole):
    """The rows of a script of vectors: what is tried, the text, and the answer."""
    sys.path.append(VECTORS)
    script = __import__(name)
    base = getattr(script, whole)
    for what, old, new, field, place in script.ROWS:
        yield what, base.replace(old, new), (field, place)
    for what, text, field, place in script.WHOLE:
        yield what, text, (field, place)


def tried():
    for name, answer in ("modules.txt", read_answer), ("bodies.txt", validity_answer):
        for what, text, wanted in cases(name):
            yield f"{name}: {what}", answer(from_runs(text)), wanted
    for what, text, wanted in cases("numbers.txt"):
        yield f"numbers.txt: {what}: {text}", numeric_answer(text.split()), wanted
    for name, whole, read in ("networks", "CAR", net_file.read), ("descriptions", "GATE", description.read):
        for what, text, wanted in document_rows(name, whole):
            yield f"{name}.py: {what}", document_answer(read, text), wanted


def main():
    count, failed = 0, 0
    for what, found, wanted in tried():
        count += 1
        if found != wanted:
            failed += 1
            print(f"{what}: {found} in place of {wanted}")
    print(f"{count} rows, {failed} are answered in another way")
    return 1 if failed else 0


if __name__ == "__main__":
    sys.exit(main())
