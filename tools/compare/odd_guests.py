"""Guests that break a rule, end by their own wish, or ask for much: each by name, over a listener or a sender."""
import kit_guests
from kit_guests import AREA, OK, STATUS, UPDATE, guest, sender_texts

ALL_PAGES = 65536 - kit_guests.SIZE - 63  # the least address at which the area leads out of one page
AGAIN = f"i32.const {AREA} i64.const 1 i64.store {OK}"
ENDS = f"i32.const {AREA} i64.const {1 << 32} i64.store {OK}"
ENDS_AND_AGAIN = f"i32.const {AREA} i64.const {(1 << 32) + 1} i64.store {OK}"
SPINS = "loop br 0 end i32.const 0"


def status(number):
    return f"i32.const {number}"


def from_turn(turn, then, otherwise=OK):
    """Counts the calls, and does another thing from one of them on; the first is 1."""
    count = "global.get turn i32.const 1 i32.add global.set turn "
    return count + f"global.get turn i32.const {turn} i32.ge_u if i32 {then} else {otherwise} end"


def interval(counter, resolution, qualifier=2):
    """An answer that is the same each time."""
    return f"""
i32.const {AREA} i64.const {counter} i64.store i32.const {AREA} i64.const {resolution} i64.store +8
i32.const {AREA} i32.const {qualifier} i32.store +16 {OK}
"""


# What differs from a listener: the texts of some functions.
ODD_LISTENERS = {
    "always asks for another update": {"fmi3UpdateDiscreteStates": AGAIN},
    "asks for another update fifteen times": {"fmi3UpdateDiscreteStates": from_turn(16, UPDATE, AGAIN)},
    "a clock that answers 2": {"fmi3GetClock": f"i32.const {AREA} i32.const 2 i32.store {OK}"},
    "emits too many bytes": {
        "fmi3GetClock": f"i32.const {AREA} i32.const 1 i32.store {OK}",
        "fmi3GetBinary": f"i32.const {AREA} i32.const {kit_guests.SIZE + 1} i32.store {OK}"},
    "emits as many bytes as it may": {
        "fmi3GetClock": f"i32.const {AREA} i32.const 1 i32.store {OK}",
        "fmi3GetBinary": f"i32.const {AREA} i32.const {kit_guests.SIZE} i32.store {OK}"},
    "an update of 2": {"fmi3UpdateDiscreteStates": f"i32.const {AREA} i64.const 2 i64.store {OK}"},
    "an end of 2": {"fmi3UpdateDiscreteStates": f"i32.const {AREA} i64.const {2 << 32} i64.store {OK}"},
    "ends at once": {"fmi3UpdateDiscreteStates": ENDS},
    "ends at once and asks for another update": {"fmi3UpdateDiscreteStates": ENDS_AND_AGAIN},
    "ends in its third session": {"fmi3UpdateDiscreteStates": from_turn(3, ENDS, UPDATE)},
    "ends, and Terminate is an error": {"fmi3UpdateDiscreteStates": ENDS, "fmi3Terminate": status(3)},
    "ends, and FreeInstance traps": {"fmi3UpdateDiscreteStates": ENDS, "fmi3FreeInstance": "unreachable"},
    "an error in EnterInitializationMode": {"fmi3EnterInitializationMode": status(3)},
    "an error, and FreeInstance spins": {"fmi3ExitInitializationMode": status(3),
                                         "fmi3FreeInstance": "loop br 0 end"},
    "discards its instantiation": {"fmi3InstantiateCoSimulation": status(2)},
    "a fatal SetBinary": {"fmi3SetBinary": status(4)},
    "a status of 5": {"fmi3EnterStepMode": status(5)},
    "a status of -1": {"fmi3EnterEventMode": status(-1)},
    "warnings everywhere": {name: "i32.const 1" for name, kind in kit_guests.TYPES.items()
                            if kind == STATUS and name != "fmi3UpdateDiscreteStates"},
    "a step that calls itself": {"fmi3DoStep": "local.get 0 local.get 1 call fmi3DoStep"},
    "a step that spins": {"fmi3DoStep": SPINS},
    "traps in its fourth step": {"fmi3DoStep": from_turn(4, "unreachable")},
    "an area one byte outside": {"bench_area": f"i32.const {ALL_PAGES}"},
    "an area up to the last byte": {"bench_area": f"i32.const {ALL_PAGES - 1}"},
    "an area at the end of all addresses": {"bench_area": "i32.const -1"},
    "grows for its area": {"bench_area": "i32.const 1 memory.grow drop i32.const 65536"},
    "Terminate is an error": {"fmi3Terminate": status(3)},
    "Terminate spins": {"fmi3Terminate": SPINS},
    "divides by zero": {"fmi3SetClock": "i32.const 1 i32.const 0 i32.div_s"},
    "stores outside": {"fmi3SetBinary": "i32.const -4 i32.const 0 i32.store +5 i32.const 0"},
}
# What differs from a sender of 10/1000 seconds: with the countdown clock.
ODD_SENDERS = {
    "an interval of 0": {"fmi3GetIntervalFraction": interval(0, 1000)},
    "an interval without a resolution": {"fmi3GetIntervalFraction": interval(1, 0)},
    "an interval of a third": {"fmi3GetIntervalFraction": interval(1, 3)},
    "an interval that is too long": {"fmi3GetIntervalFraction": interval(1 << 63, 1)},
    "a qualifier of 3": {"fmi3GetIntervalFraction": interval(1, 1000, 3)},
    "an interval that isn't known": {"fmi3GetIntervalFraction": interval(0, 0, 0)},
    "an interval that is always set anew": {"fmi3GetIntervalFraction": interval(3, 1000)},
    "an interval that is discarded": {"fmi3GetIntervalFraction": status(2)},
    "an interval read wrongly, with a warning": {"fmi3GetIntervalFraction": interval(7, 1000) + "drop i32.const 1"},
}


def odd_listener(name):
    return guest(ODD_LISTENERS[name])


def odd_sender(name, operation, counter=10, resolution=1000):
    return guest({**sender_texts(len(operation), counter, resolution), **ODD_SENDERS[name]}, operation)


def starts_with(text):
    """A listener whose module has a start function with this text."""
    return guest({"spin": text}, start="spin")


def echo_in_turns(operation, times):
    """A sender that emits in each of some iterations of one session, and asks for another update before them."""
    texts = sender_texts(len(operation), 10, 1000)
    texts["fmi3SetClock"] += f" i32.const {times} global.set turn"
    texts["fmi3UpdateDiscreteStates"] = f"""
global.get turn i32.const 0 i32.gt_s if i32
  global.get turn i32.const 1 i32.sub global.set turn
  {kit_guests.emits(len(operation))} {AGAIN}
else {UPDATE} end
"""
    return guest(texts, operation)



def two_clocks(first, second, counters, resolution):
    """Two countdown clocks, 100 and 101: each emits bytes of its own and is set anew where it ticks."""
    texts = {
        "fmi3InstantiateCoSimulation": f"i32.const 3 global.set setting {OK}",
        "fmi3SetClock": f"""
local.get 0 i32.const 100 i32.eq if
  {kit_guests.gather("i32.const 0", f"i32.const {len(first)}")} global.get setting i32.const 1 i32.or global.set setting
end
local.get 0 i32.const 101 i32.eq if
  {kit_guests.gather(f"i32.const {len(first)}", f"i32.const {len(second)}")}
  global.get setting i32.const 2 i32.or global.set setting
end {OK}
""",
        "fmi3GetIntervalFraction": f"""
local.get 0 i32.const 99 i32.sub local.set 1
i32.const {AREA} i64.const {counters[0]} i64.const {counters[1]} local.get 1 i32.const 1 i32.eq select i64.store
i32.const {AREA} i64.const {resolution} i64.store +8
i32.const {AREA} i32.const 2 i32.const 1 global.get setting local.get 1 i32.and select i32.store +16
global.get setting local.get 1 i32.const -1 i32.xor i32.and global.set setting {OK}
""",
    }
    return guest(texts, first + second)


def hub(terminals):
    """Emits on each other terminal what it receives on one; global `turn` has a bit for each that emits."""
    every = (1 << terminals) - 1
    forward = kit_guests.FORWARD.replace("end", f"""
global.get turn i32.const {every} i32.const 1 local.get 0 i32.const 2 i32.shr_u i32.shl i32.xor i32.or
global.set turn end""")
    receives = kit_guests.each_operation(forward).replace(
        "local.get 0 i32.const 1 i32.eq", "local.get 0 i32.const 3 i32.and i32.const 1 i32.eq", 1)
    bit = "global.get turn local.get 0 i32.const 2 i32.shr_u i32.shr_u i32.const 1 i32.and"
    return guest({
        "fmi3SetBinary": receives,
        "fmi3GetClock": f"i32.const {AREA} {bit} i32.store {OK}",
        "fmi3GetBinary": f"""
i32.const {AREA} global.get out_length i32.store
i32.const {kit_guests.BYTES} global.get out_at global.get out_length call copy
global.get turn i32.const 1 local.get 0 i32.const 2 i32.shr_u i32.shl i32.xor global.set turn
global.get turn if else i32.const 0 global.set out_length end {OK}
""",
    })
