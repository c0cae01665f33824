"""What is asked where a network, a description or a module is refused: the tables of docs/ in short words.

`WANTED` has for each field of a document what stands there; `KEYS` which keys are read in which table, by the name of
the table; `FAULTS` the faults of a module's bytes; `RULES` the rules of validity; `EXPORTS` the rows that a unit exports.
"""
IDENTIFIER = "1 to 64 letters, digits and underscores of ASCII"
NAME = "1 to 32 of the letters a to z, digits and _"
REFERENCE = "an integer from 0 to 4294967295"

NETWORK = {
    "Size": "a file of at most 1048576 bytes",
    "Toml": "a document of TOML",
    "resolution": "how many ticks a second has: an integer from 1 to 1000000000000",
    "stop": "the last moment in ticks: an integer from 0 to 4611686018427387904",
    "events": "how many events at most: an integer from 1 to 100000000, or the key left out",
    "fuel": "how many instructions a function takes at most: an integer from 1 to 1000000000, or the key left out",
    "bus": "an array of 1 to 4 tables: write [[bus]], and not [bus]",
    "bus.name": NAME + ", not the name of an earlier bus",
    "bus.rate": "bits a second: an integer from 1 to 4294967295 that divides the resolution",
    "bus.fd_rate": "bits a second: an integer from 1 to 4294967295 that divides the resolution, or the key left out",
    "node": "an array of 1 to 32 tables: write [[node]], and not [node]",
    "node.name": NAME + ", not the name of an earlier node, and not `sender`",
    "node.fmu": "the folder of the unit beside net.toml, no path: " + IDENTIFIER,
    "node.bus": "a table { TERMINAL = \"BUS\", .. } with exactly the terminals of the unit's description, each with the"
                " name of a bus, and no bus twice",
    "error": "an array of at most 1024 tables: write [[error]], and not [error]",
    "error.bus": "the name of a bus",
    "error.attempt": "the first attempt that fails, counted from 1 on its bus: an integer from 1 to 4294967296",
    "error.count": "how many attempts fail: an integer from 1 to 4294967296, or the key left out for 1",
    "error.kind": "1 bit error, 2 stuff error, 3 form error or 4 CRC error",
    "error.by": "who detects it: \"sender\", or the name of a node that stands on that bus",
    "error.bit": "at which bit of the frame on the wire, SOF being 0: an integer from 0 to 1023",
}
DESCRIPTION = {
    "Size": "a file of at most 1048576 bytes",
    "Toml": "a document of TOML",
    "fmiVersion": "a text that begins with 3.0, in quotes",
    "modelName": "a text",
    "instantiationToken": "a text",
    "CoSimulation": "a table [CoSimulation]",
    "modelIdentifier": "in [CoSimulation], the name of the module's file without .wasm: " + IDENTIFIER,
    "hasEventMode": "in [CoSimulation], true: a unit without event mode can't stand on a bus",
    "Clock": "an array of at most 64 tables: write [[Clock]], and not [Clock]",
    "Clock.name": "a text",
    "Clock.valueReference": REFERENCE + ", that no earlier clock has",
    "Clock.causality": "\"input\" or \"output\"",
    "Clock.intervalVariability": "\"triggered\" or \"countdown\"; a countdown clock is an input, and there are at most 8",
    "Binary": "an array of at most 64 tables: write [[Binary]], and not [Binary]",
    "Binary.name": "a text",
    "Binary.valueReference": REFERENCE + ", that no clock and no earlier binary has",
    "Binary.causality": "\"input\" or \"output\"",
    "Binary.clocks": "an array of one value reference, of a triggered clock of the same causality",
    "Binary.maxSize": "the greatest length in bytes: an integer from 256 to 65536",
    "Terminal": "an array of 1 to 4 tables: write [[Terminal]], and not [Terminal]",
    "Terminal.name": IDENTIFIER + ", not the name of an earlier terminal",
    "Terminal.Rx_Data": "the value reference of a binary that is an input and stands in no earlier terminal",
    "Terminal.Rx_Clock": "the value reference of that binary's clock, that stands in no earlier terminal",
    "Terminal.Tx_Data": "the value reference of a binary that is an output and stands in no earlier terminal",
    "Terminal.Tx_Clock": "the value reference of that binary's clock, that stands in no earlier terminal",
}
# The keys that are read in a table, by the path of the table without the places of rows; `None`: each key is read.
NETWORK_KEYS = {
    (): ("resolution", "stop", "events", "fuel", "bus", "node", "error"),
    ("bus",): ("name", "rate", "fd_rate"),
    ("node",): ("name", "fmu", "bus"),
    ("node", "bus"): None,
    ("error",): ("bus", "attempt", "count", "kind", "by", "bit"),
}
DESCRIPTION_KEYS = {
    (): ("fmiVersion", "modelName", "instantiationToken", "CoSimulation", "Clock", "Binary", "Terminal"),
    ("CoSimulation",): ("modelIdentifier", "hasEventMode"),
    ("Clock",): ("name", "valueReference", "causality", "intervalVariability"),
    ("Binary",): ("name", "valueReference", "causality", "clocks", "maxSize"),
    ("Terminal",): ("name", "Rx_Data", "Rx_Clock", "Tx_Data", "Tx_Clock"),
}

# Of a fault in the bytes the place is an offset, of a rule the position of an item in its list.
FAULTS = {
    "Size": "the file is over 4 MiB, or a section or a body ends before the size that it states",
    "Magic": "the file doesn't begin with the four bytes 00 61 73 6d: it is no binary module (a text? wat2wasm makes one)",
    "Version": "bytes 4 to 7 aren't 01 00 00 00",
    "Section": "a section has an unknown id",
    "Order": "a section stands behind one that it has to stand before, or twice",
    "Short": "something leads past the end of the file, or of its section or body",
    "Number": "a LEB128 number is too long or too large",
    "Import": "the module imports something; there is nothing to import",
    "Float": "a type, an instruction or a constant of floating point; there is none (f32, f64)",
    "Form": "a byte that stands for no type, limit, kind, mutability or constant; or a segment of another index than 0",
    "Utf8": "a name isn't UTF-8",
    "Opcode": "an unknown opcode: an instruction behind WebAssembly 1.0, as sign extension or memory.copy; switch those off",
    "Nesting": "an else outside an if, or a second one",
    "Count": "there aren't as many functions as bodies",
    "Limit": "a table or a memory that is too large, lists that nest over 1024 deep, or over 4096 locals in a body",
}
RULES = {
    "TypeResult": ("type", "a function type has more than one result"),
    "FuncType": ("function", "its type isn't there"),
    "Limits": ("table or memory", "its least size is over its greatest, a memory is over 65536 pages, or it is a second one"),
    "Global": ("global", "its constant has another type"),
    "Export": ("export", "what it names isn't there, or an earlier export has its name"),
    "Start": ("start function", "it has parameters or results"),
    "Element": ("element segment", "there is no table, its offset is no i32, or a function isn't there"),
    "Data": ("data segment", "there is no memory, or its offset is no i32"),
    "Index": ("function", "a local, global, function, type, label, table or memory isn't there, or a constant global is set"),
    "Align": ("function", "the alignment of an access is over its width"),
    "Operand": ("function", "an operand is missing or has another type, or a block doesn't end with exactly its results"),
    "Slots": ("function", "parameters, locals and operands are more than 4096 at one time"),
    "Segment": ("segment", "it leads out of the table or the memory (Segment N 0: element segment N; Segment N 1: data segment N)"),
}
EXPORTS = [
    ("memory", "a memory"),
    ("bench_area", "(param i32) (result i32)"),
    ("fmi3InstantiateCoSimulation", "(result i32)"),
    ("fmi3EnterInitializationMode", "(result i32)"),
    ("fmi3ExitInitializationMode", "(result i32)"),
    ("fmi3EnterEventMode", "(result i32)"),
    ("fmi3EnterStepMode", "(result i32)"),
    ("fmi3SetClock", "(param i32 i32) (result i32)"),
    ("fmi3SetBinary", "(param i32 i32) (result i32)"),
    ("fmi3GetClock", "(param i32) (result i32)"),
    ("fmi3GetBinary", "(param i32) (result i32)"),
    ("fmi3UpdateDiscreteStates", "(result i32)"),
    ("fmi3GetIntervalFraction", "(param i32) (result i32)"),
    ("fmi3DoStep", "(param i64 i64) (result i32)"),
    ("fmi3Terminate", "(result i32)"),
    ("fmi3FreeInstance", "no parameter and no result"),
]
BODY_RULES = ("Index", "Align", "Operand", "Slots")


def module_words(why, place, at):
    """In words why a module is refused; a name may be a fault and a rule, and then the position decides nothing."""
    if why in ("Missing", "Signature"):
        name, kind = EXPORTS[place]
        said = f"it exports nothing of the name `{name}`" if why == "Missing" else f"its export `{name}` is of another type"
        return f"row {place} of what a unit exports: {said}; wanted is {kind}"
    if why == "Segment":
        return f"{'data' if at else 'element'} segment {place} leads out of the {'memory' if at else 'table'}"
    if why == "Args":
        return f"{place} arguments are given and the function takes others, or argument {place} doesn't fit into an i32"
    if why == "Export" and place == 0 and at == 0:
        return "no function is exported under that name (or export 0 names what isn't there)"
    if why in RULES:
        item, rule = RULES[why]
        where = f", instruction {at} (counted from 0, with each else and end)" if why in BODY_RULES else ""
        return f"{item} {place}{where}: {rule}"
    if why in FAULTS:
        return f"at byte {place}: {FAULTS[why]}"
    return f"docs/MODULES.md and docs/MEANING.md have the faults; {why} is none of them"


def keys_of(path, keys):
    """The keys that are read in the table of this path; `None` where all are, or where the table itself isn't read."""
    return keys.get(tuple(name for name in path if isinstance(name, str)))
