#!/usr/bin/env python3
"""Calls of small functions with a budget, whose outcomes were counted by hand, through machine.py and a program.

    tried_calls.py [PROGRAM]

A function has the name `f` and one parameter, the i32 2; behind it stands `g`, which has none. What `bench call`
writes is `value V left L`, `trap KIND left L` or `spent left 0`.
"""
import os
import subprocess
import sys
import tempfile

import machine
import module_checks
import module_reader
from assembler import Function, module
from machine_steps import Trap

ARGUMENT = 2
BUDGET = 100
# What is tried, the text of `f`, its results, and what comes of it; the text of `g` where it does something.
ROWS = [
    ("nothing", "", "", "value - left 100"),
    ("three that do nothing", "nop nop nop", "", "value - left 97"),
    ("a result", "i32.const -1", "i32", "value 4294967295 left 99"),
    ("a result of 64 bits", "i64.const -1", "i64", "value 18446744073709551615 left 99"),
    ("the end of a block is free", "block end", "", "value - left 99"),
    ("an if that is true", "local.get 0 if nop else nop nop end", "", "value - left 97"),
    ("an if that is false", "i32.const 0 if nop else nop nop end", "", "value - left 96"),
    ("an if that is false, and no else", "i32.const 0 if nop end nop", "", "value - left 97"),
    ("an if with a result", "local.get 0 if i32 i32.const 5 else i32.const 6 end", "i32", "value 5 left 97"),
    ("out of a block", "block br 0 unreachable end", "", "value - left 98"),
    ("out of a block with a result", "block i32 nop i32.const 7 br 0 end", "i32", "value 7 left 96"),
    ("what stands below is taken off", "block i32 i32.const 1 i32.const 7 br 0 end", "i32", "value 7 left 96"),
    ("out of two blocks", "block block br 1 end unreachable end", "", "value - left 97"),
    ("out of the function", "block br 1 end unreachable", "", "value - left 98"),
    ("out of the function with a result", "i32.const 9 i32.const 8 br 0", "i32", "value 8 left 97"),
    ("return", "block loop return end end unreachable", "", "value - left 97"),
    ("return over operands", "i32.const 9 i32.const 8 return", "i32", "value 8 left 97"),
    ("a loop that goes round twice",
     "loop local.get 0 i32.const 1 i32.sub local.tee 0 br_if 0 end", "", "value - left 89"),
    ("a loop that is left at its end", "loop nop end nop", "", "value - left 97"),
    ("a loop without an end", "loop br 0 end", "", "spent left 0"),
    ("a loop with a result, without an end", "loop i32 br 0 end", "i32", "spent left 0"),
    ("a loop in a loop",
     "loop loop local.get 0 i32.const 1 i32.sub local.tee 0 br_if 0 end end", "", "value - left 88"),
    ("to the outer of two loops",
     "loop loop local.get 0 i32.const 1 i32.sub local.tee 0 br_if 1 end end", "", "value - left 87"),
    ("a call", "call g nop", "", "value - left 98"),
    ("unreachable", "nop unreachable", "", "trap Unreachable left 98"),
    ("divides by zero", "local.get 0 i32.const 0 i32.div_u drop", "", "trap ZeroDivide left 97"),
    ("overflows", "i32.const -2147483648 i32.const -1 i32.div_s drop", "", "trap Overflow left 97"),
    ("the remainder doesn't", "i32.const -2147483648 i32.const -1 i32.rem_s", "i32", "value 0 left 97"),
    ("the last four bytes", "i32.const 65532 i32.load", "i32", "value 0 left 98"),
    ("one byte too far", "i32.const 65533 i32.load", "i32", "trap Memory left 98"),
    ("an address past 32 bits", "i32.const -1 i32.load8_u +1", "i32", "trap Memory left 98"),
    ("a part of a store outside", "i32.const 65535 i32.const 257 i32.store16", "", "trap Memory left 97"),
    ("a byte with its sign",
     "i32.const 4 i32.const 128 i32.store8 i32.const 4 i32.load8_s", "i32", "value 4294967168 left 95"),
    ("a long with the sign of a word",
     "i32.const 4 i64.const -5 i64.store32 i32.const 4 i64.load32_s", "i64", "value 18446744073709551611 left 95"),
    ("the size of the memory", "memory.size", "i32", "value 1 left 99"),
    ("a memory that grows", "i32.const 1 memory.grow drop memory.size", "i32", "value 2 left 96"),
    ("a memory that can't grow so far", "i32.const 256 memory.grow", "i32", "value 4294967295 left 98"),
    ("a memory as large as it may be", "i32.const 255 memory.grow", "i32", "value 1 left 98"),
    ("a memory that grows by nothing", "i32.const 0 memory.grow", "i32", "value 1 left 98"),
    ("select the first", "i32.const 3 i32.const 4 local.get 0 select", "i32", "value 3 left 96"),
    ("select the second", "i32.const 3 i32.const 4 i32.const 0 select", "i32", "value 4 left 96"),
    ("the first label", "block block block i32.const 0 br_table 0,1,2 end nop end nop end", "", "value - left 93"),
    ("the second label", "block block block i32.const 1 br_table 0,1,2 end nop end nop end", "", "value - left 94"),
    ("the default", "block block block i32.const -1 br_table 0,1,2 end nop end nop end", "", "value - left 95"),
    ("a label with a result", "block i32 block i32 i32.const 5 local.get 0 br_table 0,0,1 end drop i32.const 6 end",
     "i32", "value 5 left 95"),
]
DEEP = ("calls itself", "call f", "", 1000, "trap Depth left 744")
EXACT = [("a budget of three for three", "nop nop nop", "", 3, "value - left 0"),
         ("a budget of two for three", "nop nop nop", "", 2, "spent left 0"),
         ("no budget for nothing", "", "", 0, "value - left 0"),
         ("no budget", "nop", "", 0, "spent left 0"),
         ("a trap without a unit left", "unreachable", "", 1, "trap Unreachable left 0"),
         ("a trap that isn't paid", "nop unreachable", "", 1, "spent left 0")]


def made(text, result, parameters=("i32",)):
    results = (result,) if result else ()
    functions = [Function("f", parameters, results, [], text), Function("g", (), (), [], "")]
    return module(functions, [], [])


def outcome(data, budget, arguments):
    """What comes of a call of `f`."""
    read = module_reader.read(data)
    module_checks.check_validity(read)
    called = machine.Machine(machine.Prepared(read))
    try:
        values = called.call(called.prepared.functions[b"f"], arguments, budget)
        return f"value {values[0] if values else '-'} left {called.fuel}"
    except Trap as trap:
        return f"trap {trap} left {called.fuel}"
    except machine.Spent:
        return "spent left 0"


def tried():
    for what, text, result, wanted in ROWS:
        yield what, made(text, result), BUDGET, [ARGUMENT], wanted
    for what, text, result, budget, wanted in EXACT + [DEEP]:
        yield what, made(text, result, ()), budget, [], wanted


def answer(program, path, budget, arguments):
    words = [program, "call", path, "f", str(budget), *map(str, arguments)]
    return subprocess.run(words, capture_output=True, text=True).stdout.rstrip("\n")


def main(words):
    failed, count = 0, 0
    with tempfile.TemporaryDirectory() as folder:
        path = os.path.join(folder, "module.wasm")
        for what, data, budget, arguments, wanted in tried():
            count += 1
            with open(path, "wb") as file:
                file.write(data)
            answers = [("machine.py", outcome(data, budget, arguments))]
            answers += [(word, answer(word, path, budget, arguments)) for word in words]
            for who, found in answers:
                if found != wanted:
                    failed += 1
                    print(f"{what}: {who} answers '{found}' in place of '{wanted}'")
    print(f"{count} calls, {failed} are answered in another way")
    return 1 if failed else 0


if __name__ == "__main__":
    sys.exit(main(sys.argv[1:]))
