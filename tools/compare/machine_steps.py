"""What each instruction does: functions of the machine, the operands and the locals, which give the next place.

An i32 and an i64 are held as unsigned numbers.
"""
from module_code import bodies

PAGE = 65536


class Trap(Exception):
    """A trap, and its kind."""


def signed(value, bits):
    return value - (1 << bits) if value >> (bits - 1) else value


def divide(a, b, bits):
    """Signed division, toward zero."""
    if b == 0:
        raise Trap("ZeroDivide")
    first, second = signed(a, bits), signed(b, bits)
    size = abs(first) // abs(second)
    value = size if (first < 0) == (second < 0) else -size
    if value == 1 << (bits - 1):
        raise Trap("Overflow")
    return value


def remainder(a, b, bits):
    """The remainder of signed division, with the sign of the first."""
    if b == 0:
        raise Trap("ZeroDivide")
    first, second = signed(a, bits), signed(b, bits)
    size = abs(first) % abs(second)
    return size if first >= 0 else -size


def by_nonzero(a, b):
    if b == 0:
        raise Trap("ZeroDivide")
    return divmod(a, b)


def rotated(a, count, bits):
    count %= bits
    return a << count | a >> (bits - count)


UNARY = {
    "eqz": lambda a, n: a == 0,
    "clz": lambda a, n: n - a.bit_length(),
    "ctz": lambda a, n: (a & -a).bit_length() - 1 if a else n,
    "popcnt": lambda a, n: a.bit_count(),
}
BINARY = {
    "eq": lambda a, b, n: a == b,
    "ne": lambda a, b, n: a != b,
    "lt_s": lambda a, b, n: signed(a, n) < signed(b, n),
    "lt_u": lambda a, b, n: a < b,
    "gt_s": lambda a, b, n: signed(a, n) > signed(b, n),
    "gt_u": lambda a, b, n: a > b,
    "le_s": lambda a, b, n: signed(a, n) <= signed(b, n),
    "le_u": lambda a, b, n: a <= b,
    "ge_s": lambda a, b, n: signed(a, n) >= signed(b, n),
    "ge_u": lambda a, b, n: a >= b,
    "add": lambda a, b, n: a + b,
    "sub": lambda a, b, n: a - b,
    "mul": lambda a, b, n: a * b,
    "div_s": divide,
    "div_u": lambda a, b, n: by_nonzero(a, b)[0],
    "rem_s": remainder,
    "rem_u": lambda a, b, n: by_nonzero(a, b)[1],
    "and": lambda a, b, n: a & b,
    "or": lambda a, b, n: a | b,
    "xor": lambda a, b, n: a ^ b,
    "shl": lambda a, b, n: a << b % n,
    "shr_s": lambda a, b, n: signed(a, n) >> b % n,
    "shr_u": lambda a, b, n: a >> b % n,
    "rotl": lambda a, b, n: rotated(a, b, n),
    "rotr": lambda a, b, n: rotated(a, n - b % n, n),
}
CONVERSIONS = {
    "i32.wrap_i64": lambda a: a % 2 ** 32,
    "i64.extend_i32_s": lambda a: signed(a, 32) % 2 ** 64,
    "i64.extend_i32_u": lambda a: a,
}


def numeric(name, then):
    """A numeric instruction; `then` is the place behind it."""
    if name in CONVERSIONS:
        convert = CONVERSIONS[name]

        def step(machine, operands, local):
            operands[-1] = convert(operands[-1])
            return then
        return step
    kind, _, operation = name.partition(".")
    bits = int(kind[1:])
    most = (1 << bits) - 1
    if operation in UNARY:
        one = UNARY[operation]

        def step(machine, operands, local):
            operands[-1] = int(one(operands[-1], bits))
            return then
        return step
    two = BINARY[operation]

    def step(machine, operands, local):
        upper = operands.pop()
        operands[-1] = two(operands[-1], upper, bits) & most
        return then
    return step


def access(name, offset, then):
    """A load or a store."""
    kind, _, operation = name.partition(".")
    bits = int(kind[1:])
    exact = operation.removeprefix("load").removeprefix("store")
    width = int(exact.partition("_")[0] or bits) // 8
    negative = exact.endswith("_s")

    def load(machine, operands, local):
        at = operands[-1] + offset
        if at + width > len(machine.memory):
            raise Trap("Memory")
        value = int.from_bytes(machine.memory[at:at + width], "little", signed=negative)
        operands[-1] = value % (1 << bits)
        return then

    def store(machine, operands, local):
        value = operands.pop() % (1 << 8 * width)
        at = operands.pop() + offset
        if at + width > len(machine.memory):
            raise Trap("Memory")
        machine.memory[at:at + width] = value.to_bytes(width, "little")
        return then
    return load if operation.startswith("load") else store


def jump(code, label):
    """A branch, as a function of the operands."""
    target, height, carried = code.next(label.target), label.height, label.carried

    def go(operands):
        operands[height:] = operands[len(operands) - carried:]
        return target
    return go


def branch(code, place, name):
    jumps = [jump(code, label) for label in code.branches[place]]
    first, then = jumps[0], code.next(place + 1)
    if name == "br":
        return lambda machine, operands, local: first(operands)
    if name == "br_if":
        return lambda machine, operands, local: first(operands) if operands.pop() else then

    def choose(machine, operands, local):
        return jumps[min(operands.pop(), len(jumps) - 1)](operands)
    return choose


def variable(name, index, then):
    def get(machine, operands, local):
        operands.append(local[index])
        return then

    def put(machine, operands, local):
        local[index] = operands.pop()
        return then

    def tee(machine, operands, local):
        local[index] = operands[-1]
        return then

    def get_global(machine, operands, local):
        operands.append(machine.globals[index])
        return then

    def put_global(machine, operands, local):
        machine.globals[index] = operands.pop()
        return then
    return {"local.get": get, "local.set": put, "local.tee": tee, "global.get": get_global,
            "global.set": put_global}[name]


def unreachable(machine, operands, local):
    raise Trap("Unreachable")


def parametric(name, args, code, then):
    """What is neither a number, an access, a branch nor a variable."""
    def push(machine, operands, local):
        operands.append(args[0])
        return then

    def drop(machine, operands, local):
        operands.pop()
        return then

    def select(machine, operands, local):
        if operands.pop() == 0:
            operands[-2] = operands[-1]
        operands.pop()
        return then

    def size(machine, operands, local):
        operands.append(len(machine.memory) // PAGE)
        return then

    def grow(machine, operands, local):
        operands[-1] = machine.grow(operands[-1])
        return then

    def call(machine, operands, local):
        machine.enter(args[0], operands)
        return then

    def indirect(machine, operands, local):
        machine.enter_indirect(args[0], operands)
        return then

    return {"i32.const": push, "i64.const": push, "drop": drop, "select": select, "memory.size": size,
            "memory.grow": grow, "call": call, "call_indirect": indirect, "unreachable": unreachable,
            "return": lambda machine, operands, local: code.last}.get(name, lambda *_: then)


def step(code, place, name, args):
    """The step of one instruction."""
    then = code.next(place + 1)
    if name in bodies.NUMERIC:
        return numeric(name, then)
    if name in bodies.ACCESS:
        return access(name, args[1], then)
    if name in ("br", "br_if", "br_table"):
        return branch(code, place, name)
    if name == "if":
        otherwise = code.behind_if(place)
        return lambda machine, operands, local: then if operands.pop() else otherwise
    if name.startswith(("local.", "global.")):
        return variable(name, args[0], then)
    return parametric(name, args, code, then)


def of(code):
    """The steps of a function by their places; ends and elses have none."""
    return [None if name in ("end", "else") else step(code, place, name, args)
            for place, (name, args) in enumerate(code.code)]
