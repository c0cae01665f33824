#!/usr/bin/env python3
"""WebAssembly modules, and the first rule of validity that fails in each, after WebAssembly Core 1.0, section 3.

Each row is written out by hand, with the rule and a mark before the instruction that breaks it; `first_failing` finds
the same once more, after the algorithm of the standard's appendix (7.3), and both must agree. Nothing is taken from
the Rattle crates. Run in this folder: it writes the cases cases/module_cases/bodies.txt, and write_cases.py what the program
of cases then reads and must print.
"""
import re

I32, I64 = "i32", "i64"
BYTE = {I32: 0x7F, I64: 0x7E}

# Instructions without an operand in the code: the types that they take, and those that they give.
NUMERIC = {}
for ty, first_test, first_operation in ((I32, 0x45, 0x67), (I64, 0x50, 0x79)):
    NUMERIC[ty + ".eqz"] = (first_test, [ty], [I32])
    for place, name in enumerate("eq ne lt_s lt_u gt_s gt_u le_s le_u ge_s ge_u".split()):
        NUMERIC[f"{ty}.{name}"] = (first_test + 1 + place, [ty, ty], [I32])
    for place, name in enumerate("clz ctz popcnt".split()):
        NUMERIC[f"{ty}.{name}"] = (first_operation + place, [ty], [ty])
    for place, name in enumerate("add sub mul div_s div_u rem_s rem_u and or xor shl shr_s shr_u rotl rotr".split()):
        NUMERIC[f"{ty}.{name}"] = (first_operation + 3 + place, [ty, ty], [ty])
NUMERIC["i32.wrap_i64"] = (0xA7, [I64], [I32])
NUMERIC["i64.extend_i32_s"] = (0xAC, [I32], [I64])
NUMERIC["i64.extend_i32_u"] = (0xAD, [I32], [I64])

# Loads and stores: opcode, type, the exponent of the width, and whether it stores.
ACCESS = {
    "i32.load": (0x28, I32, 2, False), "i64.load": (0x29, I64, 3, False),
    "i32.load8_s": (0x2C, I32, 0, False), "i32.load8_u": (0x2D, I32, 0, False),
    "i32.load16_s": (0x2E, I32, 1, False), "i32.load16_u": (0x2F, I32, 1, False),
    "i64.load8_s": (0x30, I64, 0, False), "i64.load8_u": (0x31, I64, 0, False),
    "i64.load16_s": (0x32, I64, 1, False), "i64.load16_u": (0x33, I64, 1, False),
    "i64.load32_s": (0x34, I64, 2, False), "i64.load32_u": (0x35, I64, 2, False),
    "i32.store": (0x36, I32, 2, True), "i64.store": (0x37, I64, 3, True),
    "i32.store8": (0x3A, I32, 0, True), "i32.store16": (0x3B, I32, 1, True),
    "i64.store8": (0x3C, I64, 0, True), "i64.store16": (0x3D, I64, 1, True), "i64.store32": (0x3E, I64, 2, True),
}  # fmt: skip
LISTS = {"block": 0x02, "loop": 0x03, "if": 0x04}
INDEXED = {"br": 0x0C, "br_if": 0x0D, "call": 0x10, "local.get": 0x20, "local.set": 0x21, "local.tee": 0x22,
           "global.get": 0x23, "global.set": 0x24}  # fmt: skip
PLAIN = {"unreachable": 0x00, "nop": 0x01, "else": 0x05, "end": 0x0B, "return": 0x0F, "drop": 0x1A, "select": 0x1B}
MOST_SLOTS = 4096


# ---- binary format


def number(value):
    out = []
    while value > 0x7F:
        out.append(value & 0x7F | 0x80)
        value >>= 7
    return bytes(out + [value])


def signed(value):
    out = []
    while not -0x40 <= value < 0x40:
        out.append(value & 0x7F | 0x80)
        value >>= 7
    return bytes(out + [value & 0x7F])


def vector(items):
    return number(len(items)) + b"".join(items)


def section(ident, items):
    content = vector(items)
    return bytes([ident]) + number(len(content)) + content if items else b""


def spelled_instr(name, args):
    if name in PLAIN:
        return bytes([PLAIN[name]])
    if name in NUMERIC:
        return bytes([NUMERIC[name][0]])
    if name in LISTS:
        return bytes([LISTS[name], BYTE[args[0]] if args else 0x40])
    if name in INDEXED:
        return bytes([INDEXED[name]]) + number(args[0])
    if name in ACCESS:
        return bytes([ACCESS[name][0]]) + number(args[0]) + number(0)
    if name == "br_table":
        return bytes([0x0E]) + vector([number(label) for label in args[:-1]]) + number(args[-1])
    if name == "call_indirect":
        return bytes([0x11]) + number(args[0]) + b"\0"
    if name in ("memory.size", "memory.grow"):
        return bytes([0x3F if name == "memory.size" else 0x40, 0])
    return bytes([0x41 if name == "i32.const" else 0x42]) + signed(args[0])


def limits(pair):
    least, most = pair
    return b"\0" + number(least) if most is None else b"\1" + number(least) + number(most)


def constant(ty):
    return (b"\x41" if ty == I32 else b"\x42") + b"\0\x0b"


def func_type(params, results):
    return b"\x60" + vector([bytes([BYTE[t]]) for t in params]) + vector([bytes([BYTE[t]]) for t in results])


def body(locals_, code):
    content = vector([number(count) + bytes([BYTE[t]]) for count, t in locals_]) + b"".join(spelled_instr(*i) for i in code)
    return number(len(content)) + content


def spelled(m):
    out = b"\0asm\1\0\0\0" + section(1, [func_type(*t) for t in m["types"]])
    out += section(3, [number(f[0]) for f in m["funcs"]])
    out += section(4, [b"\x70" + limits(pair) for pair in m["tables"]])
    out += section(5, [limits(pair) for pair in m["memories"]])
    out += section(6, [bytes([BYTE[t], mutable]) + constant(init) for t, mutable, init in m["globals"]])
    out += section(7, [number(len(name)) + name + bytes([kind]) + number(index) for name, kind, index in m["exports"]])
    if m["start"] is not None:
        index = number(m["start"])
        out += b"\x08" + number(len(index)) + index
    out += section(9, [b"\0" + constant(t) + vector([number(f) for f in funcs]) for t, funcs in m["elements"]])
    out += section(10, [body(f[1], f[2]) for f in m["funcs"]])
    return out + section(11, [b"\0" + constant(t) + number(len(data)) + data for t, data in m["datas"]])


# ---- the rules, by the algorithm of the appendix


class Fails(Exception):
    """A rule that fails, at a place and an instruction."""


class List:
    """An open list: what a branch to it carries, what it leaves, where its operands begin, and whether it is left."""

    def __init__(self, kind, label, end, height):
        self.kind, self.label, self.end, self.height, self.unreachable = kind, label, end, height, False


class Body:
    """The body of a function: operands are i32, i64 or None for either."""

    def __init__(self, m, func):
        params, results = m["types"][func[0]]
        self.m, self.results, self.operands = m, list(results), []
        self.locals = list(params) + [t for count, t in func[1] for _ in range(count)]
        self.open = [List("body", self.results, self.results, 0)]

    def need(self, holds, rule):
        if not holds:
            raise Fails(rule)

    def at(self, items, index):
        self.need(index < len(items), "Index")
        return items[index]

    def label(self, index):
        self.need(index < len(self.open), "Index")
        return self.open[-1 - index].label

    def pop_any(self):
        top = self.open[-1]
        if len(self.operands) == top.height:
            self.need(top.unreachable, "Operand")
            return None
        return self.operands.pop()

    def pop(self, ty):
        found = self.pop_any()
        self.need(found is None or found == ty, "Operand")

    def pops(self, types):
        for ty in reversed(types):
            self.pop(ty)

    def leave(self):
        self.operands = self.operands[: self.open[-1].height]
        self.open[-1].unreachable = True

    def through(self, takes, gives):
        self.pops(takes)
        self.operands += gives

    def opens(self, kind, args):
        if kind == "if":
            self.pop(I32)
        label = [] if kind == "loop" else list(args)
        self.open.append(List(kind, label, list(args), len(self.operands)))

    def closes(self):
        top = self.open[-1]
        self.pops(top.end)
        self.need(len(self.operands) == top.height, "Operand")
        return self.open.pop()

    def step(self, name, args):
        """One instruction."""
        if name in NUMERIC:
            self.through(NUMERIC[name][1], NUMERIC[name][2])
        elif name in ACCESS:
            _, ty, width, stores = ACCESS[name]
            self.at(self.m["memories"], 0)
            self.need(args[0] <= width, "Align")
            self.through([I32, ty] if stores else [I32], [] if stores else [ty])
        elif name in LISTS:
            self.opens(name, args)
        elif name == "else":
            first = self.closes()
            self.open.append(List("second", first.label, first.end, len(self.operands)))
        elif name == "end":
            top = self.closes()
            self.need(top.kind != "if" or not top.end, "Operand")
            self.operands += top.end
        elif name == "unreachable":
            self.leave()
        elif name == "br":
            self.pops(self.label(args[0]))
            self.leave()
        elif name == "br_if":
            carried = self.label(args[0])
            self.through(carried + [I32], carried)
        elif name == "br_table":
            carried = [self.label(label) for label in args]
            self.pop(I32)
            self.need(all(types == carried[-1] for types in carried), "Operand")
            self.pops(carried[-1])
            self.leave()
        elif name == "return":
            self.pops(self.results)
            self.leave()
        elif name == "call":
            params, results = self.m["types"][self.at(self.m["funcs"], args[0])[0]]
            self.through(list(params), list(results))
        elif name == "call_indirect":
            self.at(self.m["tables"], 0)
            params, results = self.at(self.m["types"], args[0])
            self.through(list(params) + [I32], list(results))
        elif name == "drop":
            self.pop_any()
        elif name == "select":
            self.pop(I32)
            upper, lower = self.pop_any(), self.pop_any()
            self.need(upper is None or lower is None or upper == lower, "Operand")
            self.operands.append(lower if upper is None else upper)
        elif name.startswith("local."):
            ty = self.at(self.locals, args[0])
            self.through([] if name == "local.get" else [ty], [] if name == "local.set" else [ty])
        elif name.startswith("global."):
            ty, mutable, _ = self.at(self.m["globals"], args[0])
            self.need(name == "global.get" or mutable, "Index")
            self.through([] if name == "global.get" else [ty], [ty] if name == "global.get" else [])
        elif name.startswith("memory."):
            self.at(self.m["memories"], 0)
            self.through([] if name == "memory.size" else [I32], [I32])
        elif name != "nop":
            self.operands.append(I32 if name == "i32.const" else I64)

    def failing(self, code):
        for place, (name, args) in enumerate(code):
            try:
                self.step(name, args)
                self.need(len(self.locals) + len(self.operands) <= MOST_SLOTS, "Slots")
            except Fails as fails:
                return fails.args[0], place
        return None


def first_failing(m):
    """The first rule that fails, its place and its instruction; None where the module is valid."""
    for place, (_, results) in enumerate(m["types"]):
        if len(results) > 1:
            return "TypeResult", place, 0
    for place, func in enumerate(m["funcs"]):
        if func[0] >= len(m["types"]):
            return "FuncType", place, 0
    for kind, greatest in ("tables", 2**32), ("memories", 65536):
        for place, (least, most) in enumerate(m[kind]):
            if place == 1 or most is not None and (least > most or most > greatest):
                return "Limits", place, 0
    for place, (ty, _, init) in enumerate(m["globals"]):
        if ty != init:
            return "Global", place, 0
    names = set()
    for place, (name, kind, index) in enumerate(m["exports"]):
        if index >= len(m[("funcs", "tables", "memories", "globals")[kind]]) or name in names:
            return "Export", place, 0
        names.add(name)
    start = m["start"]
    if start is not None and (start >= len(m["funcs"]) or m["types"][m["funcs"][start][0]] != ((), ())):
        return "Start", 0, 0
    for place, (ty, funcs) in enumerate(m["elements"]):
        if not m["tables"] or ty != I32 or any(func >= len(m["funcs"]) for func in funcs):
            return "Element", place, 0
    for place, (ty, _) in enumerate(m["datas"]):
        if not m["memories"] or ty != I32:
            return "Data", place, 0
    for place, func in enumerate(m["funcs"]):
        found = Body(m, func).failing(func[2])
        if found:
            return found[0], place, found[1]
    return None


# ---- rows

# In each module of a row of bodies stand these, and the row's function is the second: function 0 gives its argument.
TYPES = [((), ()), ((I32,), (I32,)), ((I64, I32), (I64,)), ((), (I32,))]
FIRST = (1, [], [("local.get", [0]), ("end", [])])


def base():
    return {"types": list(TYPES), "funcs": [FIRST], "tables": [(1, None)], "memories": [(1, None)],
            "globals": [(I32, 1, I32), (I64, 0, I64)], "exports": [], "start": None, "elements": [], "datas": []}  # fmt: skip


# Rows of bodies, by what they are about: name: parameters -> result, locals : code = the rule, with @ before the
# instruction that breaks it. `N*( .. )` is a run of code; `no memory`, `no table` stand before the parameters.
BODIES = """
# ends
nothing: : end = valid
one operand left: : i32.const 1 @ end = Operand
no result: -> i32 : @ end = Operand
a result of the other type: -> i64 : i32.const 1 @ end = Operand
a result: -> i64 : i64.const 1 end = valid
two operands for one result: -> i32 : i32.const 1 i32.const 2 @ end = Operand
a block that leaves one too many: : block i32.const 1 @ end end = Operand
a block without its result: : block i64 @ end drop end = Operand
a block's result is used: -> i32 : block i32 i32.const 5 end i32.eqz end = valid
a loop's result: -> i64 : loop i64 i64.const 5 end end = valid
values below a block's start: -> i32 : i32.const 1 block i32 @ i32.eqz end end = Operand
values below a loop's start: : i32.const 1 loop @ drop end end = Operand
values below an if's start: : i32.const 1 i32.const 1 if @ drop end drop end = Operand
an if whose first list leaves nothing: -> i32 : i32.const 1 if i32 @ else i32.const 1 end end = Operand
an if whose second list leaves nothing: -> i32 : i32.const 1 if i32 i32.const 1 else @ end end = Operand
an if whose lists differ: -> i32 : i32.const 1 if i32 i32.const 1 else i64.const 2 @ end end = Operand
# ifs
an if without a condition: : @ if end end = Operand
an if with an i64: : i64.const 1 @ if end end = Operand
an if without else: : i32.const 0 if nop end end = valid
an if with a result and no else: -> i32 : i32.const 0 if i32 i32.const 1 @ end end = Operand
the same with an else: -> i32 : i32.const 0 if i32 i32.const 1 else i32.const 2 end end = valid
a result that is missing comes first: -> i32 : i32.const 0 if i32 @ end end = Operand
an if that leaves nothing reached: -> i32 : i32.const 0 if i32 unreachable @ end end = Operand
a second list takes what the first left: : i32.const 0 if i32 i32.const 1 else @ drop i32.const 1 end drop end = Operand
ifs in ifs: i32 -> i32 : local.get 0 if i32 local.get 0 if i32 i32.const 1 else i32.const 2 end else i32.const 3 end end = valid
# operands
no operand for a drop: : @ drop end = Operand
one operand for a sum: -> i32 : i32.const 1 @ i32.add end = Operand
a sum of two types: -> i32 : i64.const 1 i32.const 1 @ i32.add end = Operand
a comparison gives an i32: -> i32 : i64.const 1 i64.const 2 i64.lt_u end = valid
a comparison gives no i64: -> i64 : i64.const 1 i64.const 2 i64.lt_u @ end = Operand
conversions: -> i64 : i32.const 1 i64.extend_i32_s i32.wrap_i64 i64.extend_i32_u end = valid
a wrap of an i32: -> i32 : i32.const 1 @ i32.wrap_i64 end = Operand
a select of two types: : i32.const 1 i64.const 1 i32.const 1 @ select drop end = Operand
a select of i64: -> i64 : i64.const 1 i64.const 2 i32.const 0 select end = valid
a select without a condition: : i32.const 1 i32.const 1 i64.const 1 @ select drop end = Operand
a select of one: : i32.const 1 i32.const 1 @ select drop end = Operand
# variables
a parameter: i64 -> i64 : local.get 0 end = valid
the last local: i32 -> i64 , 2 i32 1 i64 : local.get 3 end = valid
past the last local: i32 -> i64 , 2 i32 1 i64 : nop @ local.get 4 drop end = Index
an index comes before a missing operand: : @ local.set 0 end = Index
a local of the other type: , 1 i64 : i32.const 1 @ local.set 0 end = Operand
a tee gives what it takes: -> i32 , 1 i32 : i32.const 1 local.tee 0 end = valid
a tee without an operand: -> i32 , 1 i32 : @ local.tee 0 end = Operand
globals: -> i64 : i32.const 1 global.set 0 global.get 1 end = valid
a global that is constant: : i64.const 1 @ global.set 1 end = Index
a constant global and no operand: : @ global.set 1 end = Index
a global of the other type: : i64.const 1 @ global.set 0 end = Operand
past the last global: : nop nop @ global.get 2 drop end = Index
# memory
an alignment of the width: -> i32 : i32.const 0 i32.load 2 end = valid
an alignment over the width: -> i32 : i32.const 0 @ i32.load 3 end = Align
the widest: -> i64 : i32.const 0 i64.load 3 end = valid
over the widest: -> i64 : i32.const 0 @ i64.load 4 end = Align
a byte at 1: -> i32 : i32.const 0 @ i32.load8_u 1 end = Align
a byte: -> i64 : i32.const 0 i64.load8_s 0 end = valid
the greatest alignment that is written: -> i32 : i32.const 0 @ i32.load 4294967295 end = Align
an alignment comes before a missing operand: : @ i64.store32 3 end = Align
a memory comes before an alignment: no memory : @ i64.store32 3 end = Index
a store of the other type: : i32.const 0 i64.const 0 @ i32.store 2 end = Operand
an address that is an i64: -> i32 : i64.const 0 @ i32.load 0 end = Operand
half an i64: : i32.const 0 i64.const 0 i64.store32 2 end = valid
no memory to load from: no memory -> i32 : i32.const 0 @ i32.load 0 end = Index
no memory that grows: no memory : i32.const 0 @ memory.grow drop end = Index
no memory that has a size: no memory : @ memory.size drop end = Index
pages: -> i32 : memory.size memory.grow end = valid
# branches
a branch to the function: -> i32 : i32.const 1 br 0 end = valid
past the function: : block @ br 2 end end = Index
past the function in three lists: : block loop i32.const 1 if @ br 4 end end end end = Index
a branch without what it carries: -> i32 : block i32 @ br 0 end end = Operand
a branch to a loop carries nothing: -> i32 : loop i32 br 0 end end = valid
a branch to a block in a loop: -> i64 : block i64 loop i64 i64.const 1 br 1 end end end = valid
a branch to an if carries its result: i32 -> i32 : local.get 0 if i32 i32.const 1 br 0 else i32.const 2 br 0 end end = valid
a conditional branch keeps what it carries: -> i32 : block i32 i32.const 1 i32.const 1 br_if 0 end end = valid
a conditional branch without a condition: : @ br_if 0 end = Operand
a conditional branch out of a block: -> i32 : i32.const 1 i32.const 1 @ br_if 1 end = Index
a return without its result: -> i32 : @ return end = Operand
a return inside: -> i32 : block loop i32.const 1 return end end @ end = Operand
a return of the function's result: -> i32 : block loop i32.const 1 return end end unreachable end = valid
a table of labels: i32 : block block local.get 0 br_table 0 1 2 end end end = valid
labels of two types: i32 -> i32 : block i32 block i32.const 1 local.get 0 @ br_table 0 1 end i32.const 2 end end = Operand
labels of two types, unreached: i32 -> i32 : block i32 block unreachable @ br_table 0 1 end i32.const 2 end end = Operand
a label that isn't there: i32 : local.get 0 @ br_table 0 1 0 end = Index
a default that isn't there: i32 : local.get 0 @ br_table 0 1 end = Index
a label comes before the index: : @ br_table 1 0 end = Index
a table of labels without an index: -> i32 : i64.const 1 @ br_table 0 end = Operand
# unreached
anything may stand there: -> i32 : unreachable i32.add end = valid
what is known is compared: -> i32 : unreachable i64.const 1 @ i32.add end = Operand
one is known: -> i32 : unreachable i32.const 1 i32.add end = valid
a select of nothing known: -> i64 : unreachable select end = valid
a select of one that is known: -> i64 : unreachable i32.const 1 i32.const 1 select @ end = Operand
behind a branch: -> i64 : i64.const 1 br 0 drop drop i64.eqz i64.extend_i32_u end = valid
behind a return, an operand too many: : return i32.const 1 @ end = Operand
a list behind what isn't reached is checked: : unreachable block @ drop end end = Operand
an index there: : unreachable @ call 9 end = Index
the rest behind a list that isn't left: : block unreachable end @ drop end = Operand
# calls
a call: -> i32 : i32.const 1 call 0 end = valid
a call of itself: i64 i32 -> i64 : local.get 0 local.get 1 call 1 end = valid
arguments in the wrong order: i64 i32 -> i64 : local.get 1 local.get 0 @ call 1 end = Operand
a function that isn't there: : @ call 2 end = Index
an argument that is missing: -> i32 : @ call 0 end = Operand
a call through the table: -> i64 : i64.const 1 i32.const 2 i32.const 3 call_indirect 2 end = valid
a type that isn't there: : i32.const 0 @ call_indirect 9 end = Index
no table: no table : i32.const 0 @ call_indirect 0 end = Index
no table and no type, without an index: no table : @ call_indirect 9 end = Index
the index is an i32: : i64.const 0 @ call_indirect 0 end = Operand
an argument below the index: -> i32 : i64.const 1 i32.const 0 @ call_indirect 1 end = Operand
# slots
as many operands as there is room for: : 4096*( i32.const 0 ) 4096*( drop ) end = valid
one more: : 4096*( i32.const 0 ) @ i32.const 0 4097*( drop ) end = Slots
locals count: , 4096 i32 : nop end = valid
no room above the locals: , 4096 i64 : @ i32.const 0 drop end = Slots
parameters count: i32 , 4095 i64 : @ local.get 0 drop end = Slots
too many locals fail at the first instruction: i32 , 4096 i64 : @ nop end = Slots
behind its other rules: i32 , 4096 i64 : @ drop end = Operand
at the end of an empty body: i32 , 4096 i64 : @ end = Slots
the operands of all lists count: : 4000*( i32.const 0 ) block 96*( i32.const 0 ) 96*( drop ) end 4000*( drop ) end = valid
in the inner list: : 4000*( i32.const 0 ) block 96*( i32.const 0 ) @ i32.const 0 97*( drop ) end 4000*( drop ) end = Slots
the result of a list: , 4095 i32 : i32.const 0 drop block i32 i32.const 0 end drop end = valid
known operands alone count: , 4095 i32 : unreachable i32.add drop select drop end = valid
known operands count where it isn't reached: , 4094 i32 : unreachable i32.const 1 i32.const 2 @ i32.const 3 end = Slots
a tee needs no more room: , 4095 i32 : i32.const 0 local.tee 0 drop end = valid
"""


def numbered(word):
    return int(word) if re.fullmatch(r"\d+", word) else word


def instructions(words):
    """The instructions of a text, and the place of the mark, if there is one."""
    out, mark = [], None
    while words:
        word = words.pop(0)
        if word == "@":
            mark = len(out)
        elif match := re.fullmatch(r"(\d+)\*\(", word):
            inner = words[: words.index(")")]
            del words[: len(inner) + 1]
            out += instructions(inner)[0] * int(match.group(1))
        else:
            args = []
            while words and (words[0].isdigit() or word in LISTS and words[0] in BYTE):
                args.append(numbered(words.pop(0)))
            out.append((word, args))
    return out, mark


def of_body(source):
    """The module with the function of a row, and the mark."""
    head, code = source.split(" : ")
    m = base()
    for kind, absent in ("memories", "no memory"), ("tables", "no table"):
        if absent in head:
            head, m[kind] = head.replace(absent, ""), []
    signature, _, runs = head.partition(",")
    params, _, results = signature.partition("->")
    runs = runs.split()
    ty = tuple(params.split()), tuple(results.split())
    if ty not in m["types"]:
        m["types"].append(ty)
    code, mark = instructions(code.split())
    m["funcs"].append((m["types"].index(ty), [(int(n), t) for n, t in zip(runs[::2], runs[1::2])], code))
    return m, mark


def nop(ty):
    return ty, [], [("nop", []), ("end", [])]


# Rows of whole modules: name, what differs from the base, and the rule with its place and its instruction.
MODULES = [
    ("nothing but the base", {}, None),
    ("two results", {"types": TYPES + [((), (I32, I64))]}, ("TypeResult", 4, 0)),
    ("two results, of a type that isn't used, before a function without a type",
     {"types": TYPES + [((), (I32, I32))], "funcs": [FIRST, nop(9)]}, ("TypeResult", 4, 0)),
    ("a function without a type", {"funcs": [FIRST, FIRST, nop(4)]}, ("FuncType", 2, 0)),
    ("a function without a type, before its code", {"funcs": [nop(4)], "tables": [(2, 1)]}, ("FuncType", 0, 0)),
    ("two tables", {"tables": [(0, None), (0, None)]}, ("Limits", 1, 0)),
    ("two tables of which the first is the other way round", {"tables": [(2, 1), (0, None)]}, ("Limits", 0, 0)),
    ("a table as large as it may become", {"tables": [(5, 5)]}, None),
    ("a table without an end", {"tables": [(5, 4294967295)]}, None),
    ("a table the other way round", {"tables": [(5, 4)]}, ("Limits", 0, 0)),
    ("a memory the other way round", {"memories": [(2, 1)]}, ("Limits", 0, 0)),
    ("a memory of 65,536 pages at most", {"memories": [(1, 65536)]}, None),
    ("a memory of 65,537 pages at most", {"memories": [(1, 65537)]}, ("Limits", 0, 0)),
    ("two memories", {"memories": [(1, None), (2, 1)]}, ("Limits", 1, 0)),
    ("a second table before a memory", {"tables": [(0, None)] * 2, "memories": [(2, 1)]}, ("Limits", 1, 0)),
    ("a global of the other type", {"globals": [(I32, 1, I32), (I64, 0, I32)]}, ("Global", 1, 0)),
    ("limits come before globals", {"globals": [(I64, 0, I32)], "memories": [(2, 1)]}, ("Limits", 0, 0)),
    ("an export of each kind", {"exports": [(b"f", 0, 0), (b"t", 1, 0), (b"m", 2, 0), (b"g", 3, 1)]}, None),
    ("an export of no function", {"exports": [(b"f", 0, 1)]}, ("Export", 0, 0)),
    ("an export of no table", {"tables": [], "exports": [(b"f", 0, 0), (b"t", 1, 0)]}, ("Export", 1, 0)),
    ("an export of memory 1", {"exports": [(b"m", 2, 1)]}, ("Export", 0, 0)),
    ("an export of no global", {"exports": [(b"g", 3, 2)]}, ("Export", 0, 0)),
    ("a name used twice", {"exports": [(b"a", 0, 0), (b"b", 0, 0), (b"a", 3, 0)]}, ("Export", 2, 0)),
    ("no name used twice", {"exports": [(b"", 0, 0), (b"a", 0, 0), (b"", 2, 0)]}, ("Export", 2, 0)),
    ("a name and its beginning", {"exports": [(b"ab", 0, 0), (b"a", 0, 0), (b"b", 0, 0), (b"A", 0, 0)]}, None),
    ("a name used twice before what isn't there", {"exports": [(b"a", 0, 0), (b"a", 0, 0), (b"b", 0, 9)]}, ("Export", 1, 0)),
    ("a global comes before an export", {"globals": [(I64, 0, I32)], "exports": [(b"f", 0, 9)]}, ("Global", 0, 0)),
    ("a start", {"funcs": [FIRST, nop(0)], "start": 1}, None),
    ("a start with a parameter and a result", {"start": 0}, ("Start", 0, 0)),
    ("a start with a result", {"funcs": [FIRST, (3, [], [("i32.const", [1]), ("end", [])])], "start": 1}, ("Start", 0, 0)),
    ("a start that isn't there", {"start": 1}, ("Start", 0, 0)),
    ("an export comes before a start", {"exports": [(b"f", 0, 9)], "start": 1}, ("Export", 0, 0)),
    ("elements", {"elements": [(I32, [0]), (I32, [])]}, None),
    ("elements at an i64", {"elements": [(I32, [0]), (I64, [])]}, ("Element", 1, 0)),
    ("elements without a table", {"tables": [], "elements": [(I32, [])]}, ("Element", 0, 0)),
    ("an element that isn't there", {"elements": [(I32, [0, 0, 1])]}, ("Element", 0, 0)),
    ("elements and data", {"elements": [(I64, [])], "datas": [(I64, b"")]}, ("Element", 0, 0)),
    ("a start comes before elements", {"start": 7, "elements": [(I64, [])]}, ("Start", 0, 0)),
    ("data", {"datas": [(I32, b"ab"), (I32, b"")]}, None),
    ("data past the end are valid", {"memories": [(0, 0)], "datas": [(I32, b"ab")]}, None),
    ("data at an i64", {"datas": [(I64, b"ab")]}, ("Data", 0, 0)),
    ("data without a memory", {"memories": [], "datas": [(I32, b"")]}, ("Data", 0, 0)),
    ("data come before bodies", {"funcs": [(3, [], [("end", [])])], "datas": [(I64, b"")]}, ("Data", 0, 0)),
    ("the first of two bodies", {"funcs": [(3, [], [("nop", []), ("end", [])]), (0, [], [("drop", []), ("end", [])])]}, ("Operand", 0, 1)),
    ("the second of two bodies", {"funcs": [FIRST, (0, [], [("drop", []), ("end", [])])]}, ("Operand", 1, 0)),
]  # fmt: skip


def in_runs(data):
    """The bytes in hexadecimal, and each 64 or more like ones or like pairs as a run."""
    run = re.compile(rb"(..??)\1{63,}", re.DOTALL)
    out, done = [], 0
    for found in run.finditer(data):
        unit = found.group(1)
        out += [data[done : found.start()].hex(), "%s*%d" % (unit.hex(), len(found.group()) // len(unit))]
        done = found.end()
    return " ".join(filter(None, out + [data[done:].hex()]))


def row(name, m, expected):
    found = first_failing(m)
    if found != expected:
        raise SystemExit(f"{name}: {expected} by hand, and {found} by the rules")
    return name, in_runs(spelled(m)), "valid" if expected is None else "%s %d %d" % expected


def tables():
    out = {}
    for line in BODIES.strip().split("\n"):
        if line.startswith("# "):
            rows = out[line[2:]] = []
            continue
        name, source, rule = re.fullmatch(r"(.*?):( .*) = (.*)", line).groups()
        m, mark = of_body(source)
        rows.append(row(name, m, None if rule == "valid" else (rule, 1, mark)))
    out["modules"] = [row(name, {**base(), **parts}, expected) for name, parts, expected in MODULES]
    return out


HEAD = """# Modules from vectors/bodies.py: their bytes (UNIT*TIMES is a run), and the first rule that fails with its place and its
# instruction, or valid.
"""


def main():
    groups = tables()
    with open("cases/module_cases/bodies.txt", "w") as out:
        out.write(HEAD)
        for group, rows in groups.items():
            for name, data, found in rows:
                out.write("# %s: %s\n" % (group.replace("_", " "), name))
                out.write("valid %s = %s\n" % (data, found))
    print(sum(map(len, groups.values())), "modules")


if __name__ == "__main__":
    main()
