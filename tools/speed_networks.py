#!/usr/bin/env python3
"""Measures how long the program takes for networks of 32 nodes on 4 buses, and how much memory.

    speed_networks.py [PROGRAM]

Eight nodes on each bus send a frame of eight bytes each at a period of their own, at a load of about a sixth of a bus of
500,000 bit/s, for 6 and for 60 seconds. A line tells the events, the least processor time of some runs, microseconds
an event, and the greatest memory. Then what a call of a guest that does nothing takes, with all that the session around
it does: from the difference between 1 and 31 listeners to the same 10,000 frames.
"""
import os
import subprocess
import sys
import tempfile
import time

HERE = os.path.dirname(os.path.realpath(__file__))
sys.path.insert(0, os.path.join(HERE, "compare"))
import kit_guests  # noqa: E402
import operations  # noqa: E402
from folder_text import Network, Unit  # noqa: E402

RUNS = 3
CALLS = 7  # of a listener to which a frame comes: a step, event mode, clock, bytes, clock asked, update, step mode


def network(seconds):
    """Four buses of eight senders each; periods of about ten milliseconds that don't fall together."""
    made = Network(10 ** 9, seconds * 10 ** 9, events=10 ** 8)
    for bus in range(4):
        made.bus(500000)
    for node in range(32):
        text = b"%03x#%016x" % (0x100 + node, node * 0x0123456789abcd % 2 ** 64)
        period = 100000 + 173 * node  # in ten-millionths of a second
        unit = Unit(f"unit_{node}", kit_guests.sender(operations.transmit(text), period, 10 ** 7), 1, True)
        made.node(unit, node % 4)
    return made


def listeners(count):
    """A node that sends a frame each millisecond for ten seconds, and so many that listen."""
    made = Network(10 ** 9, 10 ** 10, events=10 ** 8)
    made.bus(500000)
    sender = kit_guests.sender(operations.transmit(b"100#"), 1, 1000)
    made.node(Unit("sender", sender, 1, True), 0)
    for node in range(count):
        made.node(Unit(f"listener_{node}", kit_guests.listener(), 1, False), 0)
    return made


def high_water(process, program):
    """The greatest memory of a process so far in KiB, 0 where it isn't this program yet."""
    try:
        if os.readlink(f"/proc/{process}/exe") != program:
            return 0
        with open(f"/proc/{process}/status", encoding="ascii") as file:
            return max(int(line.split()[1]) for line in file if line.startswith("VmHWM"))
    except (OSError, ValueError):
        return 0


def took(program, folder):
    """Seconds of processor time of a run, and the greatest memory of it in MiB, as it was seen each 20 milliseconds."""
    child = subprocess.Popen([program, "run", folder], stdout=subprocess.DEVNULL, stderr=subprocess.DEVNULL)
    memory = 0
    while True:
        ended, _, used = os.wait4(child.pid, os.WNOHANG)
        if ended:
            return used.ru_utime + used.ru_stime, memory // 1024
        memory = max(memory, high_water(child.pid, program))
        time.sleep(0.02)


def measure(program, seconds):
    with tempfile.TemporaryDirectory() as folder:
        network(seconds).write(folder)
        runs = [took(program, folder) for _ in range(RUNS)]
        log = subprocess.run([program, "run", folder], capture_output=True, check=False).stdout
        last = log.splitlines()[-1].decode()
        least, memory, events = min(runs)[0], max(run[1] for run in runs), int(last.split()[2])
        print(f"{seconds} s of bus time: {last}, {len(log)} bytes of log, {least:.2f} s, "
              f"{least / events * 1e6:.2f} microseconds an event, at most {memory} MiB", flush=True)


def measure_calls(program):
    least = []
    for count in (1, 31):
        with tempfile.TemporaryDirectory() as folder:
            listeners(count).write(folder)
            least.append(min(took(program, folder)[0] for _ in range(RUNS)))
    each = (least[1] - least[0]) / (30 * 10000 * CALLS)
    print(f"a call of a guest that does nothing: {each * 1e9:.0f} nanoseconds", flush=True)


def main():
    program = os.path.realpath(sys.argv[1] if len(sys.argv) > 1 else os.path.join(HERE, "../crates/bench/out/bench"))
    for seconds in (6, 60):
        measure(program, seconds)
    measure_calls(program)


if __name__ == "__main__":
    main()
