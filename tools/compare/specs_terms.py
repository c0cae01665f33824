"""Plans, replies and calls as terms of the specs in crates/."""
QUALIFIERS = {"unknown": "NotYetKnown", "unchanged": "Unchanged", "changed": "Changed"}
REASONS = {"trap": "Trap", "spent": "Spent", "bad_reply": "BadReply", "bad_buffer": "BadBuffer"}


def many(parts):
    return "(" + " ∷ ".join([*parts, "[]"]) + ")"


def perhaps(part):
    return "None" if part is None else f"Some {part}"


def record(**fields):
    return "record { " + "; ".join(f"{name} = {term}" for name, term in fields.items()) + " }"


def numbers(parts):
    return many(map(str, parts))


def flag(part):
    return "true" if part else "false"


def status(name):
    return "status." + name.capitalize()


def reply(given):
    if given.kind == "broken":
        return f"reply.Broken broken.{REASONS[given.status]}"
    head = {"plain": "Plain", "clock": "Clock", "data": "Data", "updated": "Updated", "interval": "Interval"}[given.kind]
    words = [f"reply.{head}", status(given.status)]
    if given.kind == "data":
        words.append(numbers(given.parts[0]))
    elif given.kind == "interval":
        words += [str(given.parts[0]), str(given.parts[1]), "qualifier." + QUALIFIERS[given.parts[2]]]
    else:
        words += map(flag, given.parts)
    return " ".join(words)


def call(text):
    """A call from its line."""
    name, *parts = text.split(" ")
    if name == "SetBinary":
        parts[1] = numbers(bytes.fromhex(parts[1]))
    return " ".join(["call." + name, *parts])


def error(entry):
    return record(first=entry.first, count=entry.last - entry.first + 1, kind=entry.kind, by=perhaps(entry.by),
                  bit=entry.bit)


def bus(number, planned, members):
    setup = record(number=number, rate=planned.rate, fd_rate=perhaps(planned.data_rate), nominal=planned.nominal,
                   data_bit_time=perhaps(planned.fast), errors=many(map(error, planned.errors)))
    return record(setup=setup, members=numbers(members))


def node(planned):
    terminals = many("terminal %d %d %d %d" % tuple(terminal)[1:] for terminal in planned.terminals)
    description = record(identifier="[]", countdown=numbers(planned.clocks), terminals=terminals)
    return record(description=description, buses=numbers(terminal.bus for terminal in planned.terminals))


def plan(planned):
    buses = many(bus(place, each, planned.members(place)) for place, each in enumerate(planned.buses))
    return record(resolution=planned.resolution, stop=planned.stop, events=planned.events, fuel=1, buses=buses,
                  nodes=many(map(node, planned.nodes)))
