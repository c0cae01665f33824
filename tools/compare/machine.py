"""Runs WebAssembly functions with a budget: one unit for each instruction that begins (docs/MACHINE.md)."""
import sys

import machine_steps
from machine_code import Code
from machine_steps import Trap
from module_checks import PAGE, for_validity

MOST_FRAMES = 256
sys.setrecursionlimit(20 * MOST_FRAMES)
MOST_PAGES = 256


class Spent(Exception):
    """The budget is used up."""


class Prepared:
    """A valid module whose segments fit, with its functions made ready."""

    def __init__(self, module):
        self.module = module
        parts = for_validity(module)
        self.types = [module.types[index] for index in module.type_indices]
        self.codes = [Code(parts, func) for func in module.funcs]
        self.most_pages = MOST_PAGES
        if module.memories and module.memories[0][1] is not None:
            self.most_pages = min(module.memories[0][1], MOST_PAGES)
        self.functions = {export.name: export.index for export in module.exports if export.kind == 0}
        self.made = {}

    def steps(self, index):
        """The steps of a function, made when it is first called."""
        if index not in self.made:
            self.made[index] = machine_steps.of(self.codes[index])
        return self.made[index]

    def table(self):
        """The entries of the table: a function's index, or None."""
        entries = [None] * (self.module.tables[0][0] if self.module.tables else 0)
        for element in self.module.elements:
            entries[element.offset.value:element.offset.value + len(element.funcs)] = element.funcs
        return entries


class Machine:
    """An instance of a module: its memory, its globals, and the budget that is left."""

    def __init__(self, prepared):
        self.prepared = prepared
        module = prepared.module
        self.memory = bytearray(module.memories[0][0] * PAGE if module.memories else 0)
        for data in module.datas:
            self.memory[data.offset.value:data.offset.value + len(data.bytes)] = data.bytes
        self.globals = [one.init.value for one in module.globals]
        self.table = prepared.table()
        self.fuel = 0
        self.depth = 0

    def call(self, index, arguments, fuel):
        """The results of a function; it traps, or its budget is spent."""
        self.fuel = fuel
        self.depth = 0
        stack = list(arguments)
        self.enter(index, stack)
        return stack

    def enter(self, index, stack):
        """Runs a function on the operands of its caller."""
        if self.depth == MOST_FRAMES:
            raise Trap("Depth")
        self.depth += 1
        code = self.prepared.codes[index]
        kept = len(stack) - code.params
        local = stack[kept:] + [0] * code.locals
        del stack[kept:]
        operands = []
        self.run(self.prepared.steps(index), code, operands, local)
        stack += operands[len(operands) - code.results:]
        self.depth -= 1

    def run(self, steps, code, operands, local):
        place, last = code.next(0), code.last
        while place < last:
            if self.fuel == 0:
                raise Spent
            self.fuel -= 1
            place = steps[place](self, operands, local)

    def enter_indirect(self, type_index, stack):
        place = stack.pop()
        if place >= len(self.table):
            raise Trap("Table")
        index = self.table[place]
        if index is None:
            raise Trap("Null")
        if self.prepared.types[index] != self.prepared.module.types[type_index]:
            raise Trap("Signature")
        self.enter(index, stack)

    def grow(self, pages):
        """The old size in pages, or -1 as an i32."""
        old = len(self.memory) // PAGE
        if old + pages > self.prepared.most_pages:
            return 2 ** 32 - 1
        self.memory += bytes(pages * PAGE)
        return old
