#!/usr/bin/env python3
"""Writes small random worlds, with what world.py gives for them, as values that the definitions have to compute.

    worlds_to_specs.py FOLDER COUNT SEED [EVENTS]

writes COUNT modules and their Lib.antt into FOLDER, the specs of a crate that stands on world_specs. Its check
computes each world from the definitions, and refuses one whose log differs, or what was called of a unit that is
live at the end.
"""
import os
import random
import re
import sys

import random_worlds
import specs_terms as terms
import world
import world_text

HERE = os.path.dirname(os.path.realpath(__file__))
MODEL = os.path.join(HERE, "../../crates/worked_worlds/specs/Answering.antt")
MOST_REPLIES = 400

HEAD = """-- A random world, and what the second implementation gives for it.
use Rattle.std.specs.Prelude.{◌≡◌, true, false, ℕ, List, [], ◌∷◌, ◌++◌, map, None, Some, codes, refl}
use Rattle.fmi_states.specs.declared.call.Call.{Call}
use Rattle.fmi_states.specs.declared.call.Call.TheVariants as call
use Rattle.fmi_states.specs.declared.reply.Reply.{Reply}
use Rattle.fmi_states.specs.declared.reply.Reply.TheVariants as reply
use Rattle.fmi_states.specs.declared.reply.Broken.TheVariants as broken
use Rattle.fmi_states.specs.declared.reply.Qualifier.TheVariants as qualifier
use Rattle.fmi_states.specs.declared.status.FmiStatus.TheVariants as status
use Rattle.fmi_states.specs.ListEcu.{ListState, list_answer, fresh_with}
use Rattle.unit_specs.specs.Description.{Terminal}
use Rattle.session_specs.specs.Exchanges.{Noted, noting, noted_at}
use Rattle.world_specs.specs.World.{Standing, New, Live, Down, Over}
use Rattle.world_specs.specs.Network.{run_log, network}
use Rattle.world_specs.specs.Plan.{Plan, opening_of, units_of}
"""

WORDS = """
abbrev line : List ℕ → List ℕ
line text = text ++ 10 ∷ []

abbrev terminal : ℕ → ℕ → ℕ → ℕ → Terminal
terminal rx_clock rx_data tx_clock tx_data = record { name = []; rx_clock = rx_clock; rx_data = rx_data; tx_clock = tx_clock; tx_data = tx_data; rx_max = 65536; tx_max = 65536 }

abbrev calls_of : Standing (Noted ListState) → List Call
calls_of (New s) = []
calls_of (Live s last clocks) = map (λ x. x.call) s.exchanges
calls_of Down = []
calls_of Over = []

"""


def unfolded():
    """What the model unfolds, and the imports of it."""
    with open(MODEL, encoding="utf-8") as file:
        lines = file.read().splitlines()
    unfolding = next(line for line in lines if line.startswith("unfolding "))
    names = set(unfolding.split()[1:])
    there = set(re.findall(r"\w+", HEAD))
    uses = [re.match(r"use ([\w.]+)\.\{(.*)\}$", line) for line in lines]
    kept = [(use[1], [name for name in use[2].split(", ") if name in names - there]) for use in uses if use]
    return unfolding, "".join("use %s.{%s}\n" % (path, ", ".join(chosen)) for path, chosen in kept if chosen)


def small_world(dice, events):
    """A random world that the definitions compute soon."""
    while True:
        plan = random_worlds.random_plan(dice)
        plan.events = dice.choice([events, events, events // 2, 3])
        units = random_worlds.random_units(dice, plan)
        for unit in units:
            unit.habits.most = min(unit.habits.most, 3)
        world.World(plan, units).run()
        for node, unit in zip(plan.nodes, units):
            node.replies = unit.given
        if len(plan.nodes) < 6 and 20 <= sum(len(unit.given) for unit in units) <= MOST_REPLIES:
            return plan


def computed(plan):
    """The lines of a world's log, and the calls of each unit that is live behind its last event."""
    run = world.World(plan)
    while run.next_event() is not None and run.events < plan.events:
        run.event()
    calls = [list(node.unit.calls) if node.state == world.LIVE else [] for node in run.nodes]
    whole = world.World(plan)
    whole.run()
    return b"".join(whole.log).decode().splitlines(), calls


def module(plan, unfolding, uses):
    log, calls = computed(plan)
    places = range(len(plan.nodes))
    text = HEAD + uses + WORDS + "abbrev plan : Plan\nplan = " + terms.plan(plan) + "\n\n"
    for place, node in enumerate(plan.nodes):
        text += f"abbrev replies_{place} : List Reply\nreplies_{place} = {terms.many(map(terms.reply, node.replies))}\n\n"
    states = terms.many(f"fresh_with replies_{place}" for place in places)
    noted = terms.many(f"noted_at (fresh_with replies_{place}) []" for place in places)
    text += "pub logged : run_log (units_of list_answer (λ s. s.phase) plan) plan.stop plan.events"
    text += f" (opening_of plan {states})\n    ≡ " + "\n    ++ ".join(f'line (codes "{line}")' for line in log)
    text += f"\n{unfolding}\nlogged = refl\n\n"
    text += "pub called : map (λ n. calls_of n.standing) (behind (network (units_of (noting list_answer) (λ n. n.state.phase)"
    text += f" plan) plan.stop) plan.events (opening_of plan {noted})).nodes\n    ≡ "
    text += terms.many(terms.many(map(terms.call, each)) for each in calls)
    return text + f"\n{unfolding}\ncalled = refl\n"


def main(folder, count, seed, events="12"):
    dice = random.Random(int(seed))
    unfolding, uses = unfolded()
    for place in range(int(count)):
        plan = world_text.read(world_text.written(small_world(dice, int(events))))
        with open(os.path.join(folder, f"W{place}.antt"), "w", encoding="utf-8") as file:
            file.write(module(plan, unfolding, uses))
    with open(os.path.join(folder, "Lib.antt"), "w", encoding="utf-8") as file:
        file.write("".join(f"pub mod W{place}\n" for place in range(int(count))))


if __name__ == "__main__":
    main(*sys.argv[1:])
