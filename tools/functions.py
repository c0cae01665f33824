#!/usr/bin/env python3
"""Runs 200 small functions by `bench call` and by wabt's wasm-interp, and compares values and traps.

functions.py [PROGRAM [SEED]]: crates/bench/out/bench and seed 1, unless they are named. Each function stands in a module of
its own, and its result has what it leaves in memory and globals. Together they have each integer instruction.
"""
import pathlib, random, re, shutil, subprocess, sys, tempfile

COUNT, FUEL = 200, 10_000_000
TYPES, GLOBALS = ("i32", "i64"), {"i32": "$g", "i64": "$h"}
# Each instruction that makes a value of others: what it gives, and what it takes.
OPS = {"i32.wrap_i64": ("i32", ["i64"]), "i64.extend_i32_s": ("i64", ["i32"]), "i64.extend_i32_u": ("i64", ["i32"])}
for t in TYPES:
    for op in "add sub mul div_s div_u rem_s rem_u and or xor shl shr_s shr_u rotl rotr".split():
        OPS[f"{t}.{op}"] = (t, [t, t])
    for op in "eq ne lt_s lt_u gt_s gt_u le_s le_u ge_s ge_u".split():
        OPS[f"{t}.{op}"] = ("i32", [t, t])
    OPS |= {f"{t}.clz": (t, [t]), f"{t}.ctz": (t, [t]), f"{t}.popcnt": (t, [t]), f"{t}.eqz": ("i32", [t])}
LOADS = [f"{t}.load{n}" for t in TYPES for n in ("", "8_s", "8_u", "16_s", "16_u")] + ["i64.load32_s", "i64.load32_u"]
STORES = [f"{t}.store{n}" for t in TYPES for n in ("", "8", "16")] + ["i64.store32"]
OTHERS = """unreachable nop block loop if br br_if br_table return call call_indirect drop select local.get local.set
    local.tee global.get global.set memory.size memory.grow i32.const i64.const""".split()
TRAPS = {"unreachable executed": "Unreachable", "out of bounds memory access": "Memory",
         "integer divide by zero": "ZeroDivide", "integer overflow": "Overflow", "undefined table index": "Table",
         "uninitialized table element": "Null", "indirect call signature mismatch": "Signature"}
# The table has three functions of the type $leaf, one of another type, and two entries without one. $down calls itself.
FRAME = """(module
  (type $leaf (func (param i32 i64) (result i32)))
  (memory 1 3) (data (i32.const 16) "%s")
  (table 6 funcref) (elem (i32.const 0) $leaf_0 $leaf_1 $leaf_2 $down)
  (global $g (mut i32) (i32.const %d)) (global $h (mut i64) (i64.const %d))
  (func $down (param i32) (result i32) local.get 0
    if (result i32) local.get 0 i32.const 1 i32.sub call $down local.get 0 i32.add else i32.const 3 end)
  (func (export "f") (result i64) (local i32 i64) call $main global.get $h i64.xor global.get $g i64.extend_i32_u i64.add
    loop local.get 1 i64.const 7 i64.rotl local.get 0 i64.load i64.add local.set 1
    local.get 0 i32.const 8 i32.add local.tee 0 i32.const 512 i32.lt_u br_if 0 end
    local.get 1 i64.add memory.size i64.extend_i32_u i64.xor)
%s)
"""

class Maker:
    """Makes the text of a function. Its locals 0, 2, 3 are i32, and 1, 4, 5 i64; those behind count turns of loops."""

    def __init__(self, rng, calls):
        self.rng, self.calls, self.loops = rng, calls, 0

    def const(self, ty):
        half = 2 ** (int(ty[1:]) - 1)
        near = (0, 1, 2, 7, 31, 32, 63, 255, half - 1, half, 2 * half - 1)
        return f"{ty}.const {self.rng.choice(near * 2 + tuple(self.rng.randrange(2 * half) for _ in range(9)))}"

    def local(self, ty):
        return self.rng.choice((0, 2, 3) if ty == "i32" else (1, 4, 5))

    def apply(self, op, depth):
        if op in OPS:
            takes = [self.value(ty, depth - 1) for ty in OPS[op][1]]
            if op[4:7] in ("div", "rem") and self.rng.random() < 0.8:
                takes[1] += f" {op[:3]}.const 1 {op[:3]}.or"
            if op[4:] == "div_s" and self.rng.random() < 0.1:
                takes = [f"{op[:3]}.const -{2 ** (int(op[1:3]) - 1)}", f"{op[:3]}.const -1"]
            return " ".join([*takes, op])
        align = self.rng.choice([a for a in (1, 2, 4, 8) if 8 * a <= int(re.findall(r"[1368]\d?", op)[-1])])
        place = f"{self.value('i32', depth - 1)} i32.const 255 i32.and"
        if self.rng.random() < 0.02:
            place = f"i32.const {self.rng.choice((65527, 65533, 65536, 2**32 - 1))}"
        new = self.value(op[:3], depth - 1) if op in STORES else ""
        return f"{place} {new} {op} offset={self.rng.choice((0, 1, 3, 200))} align={align}"

    def value(self, ty, depth):
        if depth <= 0 or self.rng.random() < 0.1:
            return self.const(ty) if self.rng.random() < 0.5 else f"local.get {self.local(ty)}"
        sub = lambda t=ty: self.value(t, depth - 1)
        entry = lambda: self.rng.choice((0, 1, 2) * 4 + (3, 5, 6, 2**32 - 1))
        ways = [lambda: f"global.get {GLOBALS[ty]}", lambda: f"{sub()} local.tee {self.local(ty)}",
                lambda: f"{sub()} {sub()} {sub('i32')} select",
                lambda: f"{sub('i32')} if (result {ty}) {sub()} else {sub()} end",
                lambda: f"block (result {ty}) {sub()} {sub('i32')} br_if 0 drop {sub()} end",
                *[lambda: self.apply(self.rng.choice([op for op in OPS if OPS[op][0] == ty]), depth)] * 8,
                *[lambda: self.apply(self.rng.choice([op for op in LOADS if op[:3] == ty]), depth)] * 2]
        if ty == "i32":
            ways += [lambda: "memory.size", lambda: f"i32.const {self.rng.choice((0, 1, 1, 5))} memory.grow",
                     lambda: f"i32.const {self.rng.randrange(30)} call $down"]
        if ty == "i32" and self.calls:
            ways += [lambda: f"{sub()} {sub('i64')} call $leaf_{self.rng.randrange(3)}",
                     lambda: f"{sub()} {sub('i64')} i32.const {entry()} call_indirect (type $leaf)"] * 2
        return self.rng.choice(ways)()

    def loop(self, depth):
        turns, self.loops = 6 + self.loops, self.loops + 1
        body = f"{self.step(depth - 1)} {self.step(depth - 1)} local.get {turns} i32.const 1 i32.sub local.tee {turns}"
        return f"i32.const {self.rng.randrange(1, 7)} local.set {turns} loop {body} br_if 0 end"

    def step(self, depth):
        ty, sub, number = self.rng.choice(TYPES), lambda: self.step(depth - 1), lambda: self.value("i32", depth)
        ways = [lambda: f"{self.value(ty, depth)} local.set {self.local(ty)}",
                lambda: self.apply(self.rng.choice(STORES), depth)]
        if depth > 0:
            ways += [lambda: f"{self.value(ty, depth)} global.set {GLOBALS[ty]}", lambda: self.loop(depth),
                     lambda: f"{number()} if {sub()} else nop {sub()} end", lambda: f"{number()} drop",
                     lambda: f"block block {number()} i32.const 3 i32.and br_table 1 0 1 0 end {sub()} br 0 end {sub()}",
                     lambda: f"{number()} i32.const 7 i32.rem_u i32.eqz if {self.result()} return end",
                     lambda: f"{number()} i32.const 9 i32.rem_u i32.const 4 i32.eq if unreachable end"]
        return self.rng.choice(ways)()

    def result(self):
        return f"local.get {self.local('i64' if self.calls else 'i32')}"

    def function(self, head, first, steps):
        kept = "" if first in STORES else f" local.set {self.local(OPS.get(first, [first[:3]])[0])}"
        body = "\n    ".join([self.apply(first, 2) + kept, *(self.step(3) for _ in range(steps)), self.result()])
        return f"  (func {head} (local {'i32 i64 ' * self.calls}i32 i32 i64 i64{' i32' * self.loops})\n    {body})\n"

def module(rng, number):
    firsts = [*OPS, *LOADS, *STORES]
    made = [Maker(rng, False).function(f"$leaf_{n} (type $leaf)", rng.choice(firsts), 1) for n in range(3)]
    made.append(Maker(rng, True).function("$main (result i64)", firsts[number % len(firsts)], 4))
    data = "".join(f"\\{rng.randrange(256):02x}" for _ in range(40))
    return FRAME % (data, rng.getrandbits(32), rng.getrandbits(64), "".join(made))

def said(*words):
    return subprocess.run(words, capture_output=True, text=True, timeout=60).stdout

def wanted(file):
    line = said("wasm-interp", file, "--run-all-exports")
    value, trap = re.fullmatch(r"f\(\) => i64:(\d+)\n", line), re.match(r"f\(\) => error: ([a-z ]*)", line)
    return f"value {value[1]}" if value else f"trap {TRAPS[trap[1].strip()]}" if trap else line

def main(program="crates/bench/out/bench", seed="1"):
    if not (shutil.which("wasm-interp") and shutil.which("wat2wasm")):
        sys.exit(print("functions.py: skipped: no wasm-interp"))
    rng, used, ends, wrong = random.Random(int(seed)), set(), [], 0
    with tempfile.TemporaryDirectory() as folder:
        source, file = pathlib.Path(folder, "f.wat"), f"{folder}/f.wasm"
        for number in range(COUNT):
            source.write_text(text := module(rng, number))
            used |= set(re.findall(r"[a-z0-9_.]+", text))
            subprocess.run(["wat2wasm", source, "-o", file], check=True)
            want, got = wanted(file), said(program, "call", file, "f", str(FUEL)).split(" left ")[0]
            ends, wrong = [*ends, re.sub(" [0-9]*$", "", want)], wrong + (got != want)
            if got != want:
                print(f"functions.py: seed {seed}, function {number}: wasm-interp has {want}, bench {got}")
    if lacking := {*OPS, *LOADS, *STORES, *OTHERS} - used:
        sys.exit(f"functions.py: no function has {' '.join(sorted(lacking))}")
    print(f"functions.py: {COUNT - wrong} of {COUNT} functions agree:", *(f"{ends.count(e)} {e};" for e in sorted({*ends})))
    sys.exit(wrong > 0)

if __name__ == "__main__":
    main(*sys.argv[1:])
