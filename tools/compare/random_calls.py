#!/usr/bin/env python3
"""Calls random functions with random budgets through a program and through machine.py, and compares the outcomes.

    random_calls.py COUNT SEED [PROGRAM]

compares what `PROGRAM call FILE f0 BUDGET ..` writes. Without a PROGRAM it shows how many calls end in which way.
"""
import collections
import os
import random
import subprocess
import sys
import tempfile

import assembler
import machine
import module_checks
import module_reader
from assembler import Function
from machine_steps import Trap
from module_code import bodies

TYPES = ["i32", "i64"]
VARIABLES = [("v0", "i32", 7), ("v1", "i64", -3)]
SIGNATURES = [(("i32", "i64"), "i32"), (("i64",), "i64"), ((), None), (("i32", "i64"), "i32")]
LOCALS = ["i32"] * 2
NUMBERS = [0, 1, 2, 3, 7, 31, 32, 63, 64, 255, 65532, 65535, 65536, 2 ** 31 - 1, -2 ** 31, -1, -2, 2 ** 63 - 1,
           -2 ** 63]


class Writer:
    """Writes the text of one function; `labels` are the types of what branches carry, the innermost last."""

    def __init__(self, dice, params, result):
        self.dice = dice
        self.locals = [*params, *LOCALS]
        self.result = result
        self.labels = [result]
        self.left = dice.choice([5, 20, 60, 150])

    def text(self):
        return self.many(self.dice.randint(0, 4)) + self.value(self.result)

    def many(self, count):
        return "".join(self.statement() for _ in range(count))

    def value(self, kind):
        """Leaves a value of this type, or nothing where it is None."""
        self.left -= 1
        if kind is None:
            return self.statement()
        ways = [self.constant, self.local] if self.left < 0 else \
            [self.constant, self.local, self.numeric, self.numeric, self.numeric, self.load, self.nested, self.chosen,
             self.called, self.carried, self.left_early, self.variable]
        return self.dice.choice(ways)(kind)

    def constant(self, kind):
        return f"{kind}.const {self.dice.choice(NUMBERS)} "

    def local(self, kind):
        places = [place for place, one in enumerate(self.locals) if one == kind]
        return f"local.get {self.dice.choice(places)} " if places else self.constant(kind)

    def variable(self, kind):
        return f"global.get v{TYPES.index(kind)} "

    def numeric(self, kind):
        name, (_, takes, _) = self.dice.choice([row for row in bodies.NUMERIC.items() if row[1][2] == [kind]])
        return "".join(map(self.value, takes)) + name + " "

    def address(self):
        bounded = f"i32.const {self.dice.choice([255, 65535])} i32.and " if self.dice.random() < 0.8 else ""
        return self.value("i32") + bounded

    def load(self, kind):
        name = self.dice.choice([name for name, row in bodies.ACCESS.items() if row[1] == kind and not row[3]])
        return self.address() + f"{name} +{self.dice.choice([0, 0, 1, 65534])} "

    def store(self):
        name, (_, kind, _, _) = self.dice.choice([row for row in bodies.ACCESS.items() if row[1][3]])
        return self.address() + self.value(kind) + f"{name} +{self.dice.choice([0, 0, 3])} "

    def inside(self, label, kind):
        self.labels.append(label)
        text = self.many(self.dice.randint(0, 2)) + (self.value(kind) if kind else "")
        self.labels.pop()
        return text

    def nested(self, kind):
        """A block, a loop or an if."""
        shown = (kind or "") + " "
        form = self.dice.choice(["block", "loop", "if"])
        if form == "if":
            otherwise = "else " + self.inside(kind, kind) if kind or self.dice.random() < 0.6 else ""
            return self.value("i32") + "if " + shown + self.inside(kind, kind) + otherwise + "end "
        return f"{form} {shown}" + self.inside(kind if form == "block" else None, kind) + "end "

    def chosen(self, kind):
        return self.value(kind) + self.value(kind) + self.value("i32") + "select "

    def depths(self, kind):
        """The labels to which a branch carries this."""
        return [depth for depth, label in enumerate(reversed(self.labels)) if label == kind]

    def carried(self, kind):
        depths = self.depths(kind)
        return self.value(kind) + (self.value("i32") + f"br_if {self.dice.choice(depths)} " if depths else "")

    def left_early(self, kind):
        """A branch behind which anything may stand."""
        carried = self.dice.choice([self.labels[-1], self.labels[0], None])
        depths = self.depths(carried)
        text = self.value(carried) if carried else ""
        if not depths or self.dice.random() < 0.3:
            return (self.value(self.result) if self.result else "") + "return "
        if self.dice.random() < 0.5:
            return text + f"br {self.dice.choice(depths)} "
        labels = ",".join(str(self.dice.choice(depths)) for _ in range(self.dice.randint(1, 4)))
        return text + self.value("i32") + f"br_table {labels} "

    def called(self, kind):
        place = self.dice.choice([place for place, one in enumerate(SIGNATURES) if one[1] == kind])
        arguments = "".join(map(self.value, SIGNATURES[place][0]))
        if self.dice.random() < 0.5:
            return arguments + f"call f{place} "
        return arguments + f"i32.const {self.dice.randint(0, 6)} call_indirect {place % 3} "

    def statement(self):
        self.left -= 1
        if self.left < 0:
            return "nop "
        kind = self.dice.choice(TYPES)
        place = self.dice.randrange(len(self.locals))
        return self.dice.choice([
            lambda: self.value(kind) + "drop ",
            lambda: self.value(self.locals[place]) + f"local.set {place} ",
            lambda: self.value(self.locals[place]) + f"local.tee {place} drop ",
            lambda: self.value(kind) + f"global.set v{TYPES.index(kind)} ",
            self.store, self.store, lambda: self.nested(None), lambda: self.nested(None),
            lambda: self.called(None), self.maybe_out, lambda: "nop ",
            lambda: self.value("i32") + "i32.const 3 i32.and memory.grow drop ",
        ])()

    def maybe_out(self):
        depths = self.depths(None)
        return self.value("i32") + f"br_if {self.dice.choice(depths)} " if depths else "nop "


def random_module(dice):
    functions = []
    for place, (params, result) in enumerate(SIGNATURES):
        text = Writer(dice, params, result).text()
        functions.append(Function(f"f{place}", params, (result,) if result else (), LOCALS, text))
    table = ["f0", "f1", "f2", "f3", None, "f0"]
    return assembler.module(functions, VARIABLES, [(0, bytes(dice.randrange(256) for _ in range(300)))], 1, None, table)


def outcome(data, budget, arguments):
    """What comes of a call of `f0`, as the program writes it; and the machine behind it."""
    read = module_reader.read(data)
    module_checks.check_validity(read)
    called = machine.Machine(machine.Prepared(read))
    try:
        values = called.call(called.prepared.functions[b"f0"], arguments, budget)
        return f"value {values[0] if values else '-'} left {called.fuel}", called
    except Trap as trap:
        return f"trap {trap} left {called.fuel}", called
    except machine.Spent:
        return "spent left 0", called


def main(words):
    count, seed, *program = words
    seen, failed = collections.Counter(), 0
    base = tempfile.mkdtemp(prefix="calls_")
    for place in range(int(count)):
        dice = random.Random(f"{seed} {place}")
        data = random_module(dice)
        budget = dice.choice([dice.randint(0, 50), dice.randint(0, 500), 20000])
        arguments = [dice.choice(NUMBERS) % 2 ** 32, dice.choice(NUMBERS) % 2 ** 64]
        wanted = outcome(data, budget, arguments)[0]
        seen[" ".join(word for word in wanted.split() if not word.isdigit())] += 1
        if program:
            path = os.path.join(base, f"{place}.wasm")
            with open(path, "wb") as file:
                file.write(data)
            line = [program[0], "call", path, "f0", str(budget), *map(str, arguments)]
            found = subprocess.run(line, capture_output=True, text=True).stdout.rstrip("\n")
            if found == wanted:
                os.remove(path)
            else:
                failed += 1
                print(f"{' '.join(line[1:])}: '{found}' in place of '{wanted}'")
    if not program:
        print("\n".join(f"{many:6} {kind}" for kind, many in seen.most_common()))
    print(f"{count} calls, {failed} differ")
    if not failed:
        os.rmdir(base)
    return 1 if failed else 0


if __name__ == "__main__":
    sys.exit(main(sys.argv[1:]))
