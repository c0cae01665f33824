"""Guests of stated behaviour: a sender, a listener, an echo, a gateway, a flooder and a sleeper.

Terminal J has the references 4 J (Rx_Clock), 4 J + 1 (Rx_Data), 4 J + 2 (Tx_Clock) and 4 J + 3 (Tx_Data); the
countdown clock has 100, and each variable takes 8,192 bytes.
"""
import operations
from assembler import Function, module

SIZE = 8192
COUNTDOWN = 100
OPERATION = 0  # where the bytes stand that a guest emits
TABLE = 8192  # where the talker has the places of its emissions
AREA = 16384  # the setup of 64 bytes, and the bytes that are exchanged
BYTES = AREA + 64
OUT = 32768  # where a guest gathers what it emits

STATUS = ((), ("i32",))
REFERENCE = (("i32",), ("i32",))
PAIR = (("i32", "i32"), ("i32",))
TYPES = {
    "bench_area": REFERENCE, "fmi3InstantiateCoSimulation": STATUS, "fmi3EnterInitializationMode": STATUS,
    "fmi3ExitInitializationMode": STATUS, "fmi3EnterEventMode": STATUS, "fmi3EnterStepMode": STATUS,
    "fmi3SetClock": PAIR, "fmi3SetBinary": PAIR, "fmi3GetClock": REFERENCE, "fmi3GetBinary": REFERENCE,
    "fmi3UpdateDiscreteStates": STATUS, "fmi3GetIntervalFraction": REFERENCE,
    "fmi3DoStep": (("i64", "i64"), ("i32",)), "fmi3Terminate": STATUS, "fmi3FreeInstance": ((), ()),
    "copy": (("i32", "i32", "i32"), ()), "spin": ((), ()),
}
VARIABLES = [("out_at", "i32", OPERATION), ("out_length", "i32", 0), ("setting", "i32", 0), ("turn", "i32", 0)]
OK = "i32.const 0"

# Copies to the first place from the second, eight bytes at a time.
COPY = """
block loop
  local.get 2 i32.const 0 i32.le_s br_if 1
  local.get 0 local.get 1 i64.load i64.store
  local.get 0 i32.const 8 i32.add local.set 0
  local.get 1 i32.const 8 i32.add local.set 1
  local.get 2 i32.const 8 i32.sub local.set 2
  br 0
end end
"""


def emits(length):
    """Lets the guest emit this many bytes of its operation."""
    return f"i32.const {OPERATION} global.set out_at i32.const {length} global.set out_length "


def get_clock(terminal):
    return f"""
i32.const {AREA}
local.get 0 i32.const {4 * terminal + 2} i32.eq
global.get out_length i32.const 0 i32.ne i32.and
i32.store {OK}
"""


GET_BINARY = f"""
i32.const {AREA} global.get out_length i32.store
i32.const {BYTES} global.get out_at global.get out_length call copy
i32.const 0 global.set out_length {OK}
"""
UPDATE = f"i32.const {AREA} i64.const 0 i64.store {OK}"


def get_interval(counter, resolution):
    """Changed where the interval is being set, else unchanged."""
    return f"""
i32.const {AREA} i64.const {counter} i64.store
i32.const {AREA} i64.const {resolution} i64.store +8
i32.const {AREA} i32.const 2 i32.const 1 global.get setting select i32.store +16
i32.const 0 global.set setting {OK}
"""


def each_operation(deed):
    """Does a deed for each operation that comes in at terminal 0: local 2 is its place, 3 its code, 4 its length."""
    return f"""
local.get 0 i32.const 1 i32.eq if
  i32.const {BYTES} local.set 2
  block loop
    local.get 2 local.get 1 i32.const {BYTES} i32.add i32.ge_u br_if 1
    local.get 2 i32.load local.set 3
    local.get 2 i32.load +4 local.set 4
    {deed}
    local.get 2 local.get 4 i32.add local.set 2
    br 0
  end end
end {OK}
"""


def gather(place, length):
    """Appends bytes to what is emitted."""
    return f"""
i32.const {OUT} global.set out_at
i32.const {OUT} global.get out_length i32.add {place} {length} call copy
global.get out_length {length} i32.add global.set out_length
"""


FORWARD = f"""
local.get 3 i32.const {operations.TRANSMIT} i32.eq local.get 3 i32.const {operations.FD_TRANSMIT} i32.eq i32.or if
{gather("local.get 2", "local.get 4")} end
"""


def functions_of(texts, terminal=0):
    """The functions of a guest, which have these texts and else do nothing; it emits at one terminal."""
    given = {"bench_area": f"i32.const {AREA}", "fmi3GetClock": get_clock(terminal), "fmi3GetBinary": GET_BINARY,
             "fmi3UpdateDiscreteStates": UPDATE, "fmi3GetIntervalFraction": get_interval(0, 0),
             "fmi3FreeInstance": "", "copy": COPY, "spin": "", **texts}
    return [Function(name, *kind, ["i32"] * 3, given.get(name, OK)) for name, kind in TYPES.items()]


def guest(texts, data=b"", terminal=0, more_data=(), start=None):
    """A module with these functions, and its operation in its memory."""
    return module(functions_of(texts, terminal), VARIABLES, [(OPERATION, data), *more_data], 1, start)


def sender_texts(length, counter, resolution):
    return {
        "fmi3InstantiateCoSimulation": f"i32.const 1 global.set setting {OK}",
        "fmi3SetClock": f"local.get 0 i32.const {COUNTDOWN} i32.eq if {emits(length)} "
                        f"i32.const 1 global.set setting end {OK}",
        "fmi3GetIntervalFraction": get_interval(counter, resolution),
    }


def sender(operation, counter, resolution):
    """Emits these bytes each time that its interval is over."""
    return guest(sender_texts(len(operation), counter, resolution), operation)


def talker(emissions, counter, resolution):
    """Emits the next of these each time that its interval is over, from the first one on again behind the last."""
    places, at = b"", 0
    for one in emissions:
        places += at.to_bytes(4, "little") + len(one).to_bytes(4, "little")
        at += len(one)
    entry = f"global.get turn i32.const 8 i32.mul i32.load +{TABLE}"
    texts = sender_texts(0, counter, resolution)
    texts["fmi3SetClock"] = f"""
{entry} global.set out_at {entry.replace(f"+{TABLE}", f"+{TABLE + 4}")} global.set out_length
global.get turn i32.const 1 i32.add i32.const {len(emissions)} i32.rem_u global.set turn
i32.const 1 global.set setting {OK}
"""
    texts["fmi3SetClock"] = f"local.get 0 i32.const {COUNTDOWN} i32.ne if {OK} return end" + texts["fmi3SetClock"]
    return guest(texts, b"".join(emissions), more_data=[(TABLE, places)])


def listener():
    return guest({})


def echo():
    return guest({"fmi3SetBinary": each_operation(FORWARD)})


def gateway():
    return guest({"fmi3SetBinary": each_operation(FORWARD)}, terminal=1)


def flooder():
    flood = operations.transmit(b"7ff#") * 300
    return guest({"fmi3InstantiateCoSimulation": emits(len(flood)) + OK}, flood)


def sleeper(operation):
    """Sleeps at first, and emits these bytes each time that it is woken."""
    sleep = operations.sleep()
    place = OPERATION + len(sleep)
    woken = f"local.get 3 i32.const {operations.WAKEUP} i32.eq if "
    woken += gather(f"i32.const {place}", f"i32.const {len(operation)}") + " end"
    return guest({"fmi3InstantiateCoSimulation": emits(len(sleep)) + OK, "fmi3SetBinary": each_operation(woken)},
                 sleep + operation)
