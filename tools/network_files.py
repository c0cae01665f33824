"""The documents of a network, net.toml and modelDescription.toml, for people: where a key stands, what is wrong with it,
and which keys nobody reads. Python 3.11 reads TOML; what decides is the program."""
import difflib
import os
import pathlib
import tomllib

import refusals
import toml_places


def program():
    """Where the proved program stands; BENCH names another."""
    own = pathlib.Path(__file__).resolve().parent.parent / "crates" / "bench" / "out" / "bench"
    return pathlib.Path(os.environ.get("BENCH") or own)


class Document:
    """A document of a network with its text, its places and what is asked of it."""

    def __init__(self, path):
        self.path = path
        self.is_network = path.name == "net.toml"
        self.wanted = refusals.NETWORK if self.is_network else refusals.DESCRIPTION
        self.keys = refusals.NETWORK_KEYS if self.is_network else refusals.DESCRIPTION_KEYS
        self.data = path.read_bytes()
        self.fault = None
        self.places = {}
        self.table = {}
        try:
            text = self.data.decode("utf-8")
            self.table = tomllib.loads(text)
            self.places = toml_places.places(text)
        except UnicodeDecodeError as error:
            line = self.data.count(b"\n", 0, error.start) + 1
            self.fault = f"byte {error.start}, in line {line}, isn't UTF-8"
        except (tomllib.TOMLDecodeError, RecursionError) as error:
            self.fault = str(error)

    def path_of(self, field, row):
        """The path of a field as the report names it."""
        names = field.split(".")
        if field in ("modelIdentifier", "hasEventMode"):
            return ("CoSimulation", field)
        return (names[0], row, names[1]) if names[1:] else (names[0],)

    def where(self, path):
        """The place of a path, or of the nearest table around it; and whether the key is there."""
        for length in range(len(path), 0, -1):
            if path[:length] in self.places:
                return self.places[path[:length]], length == len(path)
        return None, False

    def refusal(self, field, row):
        """What the report's field and place are about, in lines."""
        wanted = f"wanted: {self.wanted.get(field, 'see docs')}"
        if field == "Size":
            return [f"{self.path}: {len(self.data)} bytes", wanted]
        if field == "Toml":
            return [f"{self.path}: {self.fault or 'no TOML document for the program'}", wanted]
        place, is_there = self.where(self.path_of(field, row))
        if place is None:
            return [f"{self.path}: `{field}` isn't there", wanted]
        at = f"{self.path}:{place.line}:{place.column}"
        said = f"`{field}`" + (f" = {place.value}" if place.value else "")
        lines = [f"{at}: {said}" if is_there else f"{at}: `{field}` is absent from this table (row {row}, counted from 0)"]
        return lines + [wanted]

    def unread(self):
        """Lines on the keys that aren't read."""
        lines = []
        for path, place in self.places.items():
            name = path[-1]
            inside = [path[:length] for length in range(len(path))]
            if not isinstance(name, str) or any(self.is_closed(part) for part in inside):
                continue
            keys = refusals.keys_of(path[:-1], self.keys)
            if keys is not None and name not in keys:
                near = difflib.get_close_matches(name, keys, 1)
                hint = f"; did you mean `{near[0]}`?" if near else "."
                lines.append(f"{self.path}:{place.line}:{place.column}: `{name}` isn't read{hint}"
                             f" Read here: {', '.join(keys)}")
        return lines

    def is_closed(self, path):
        """Whether a path leads into a key that isn't read, or whose inside is its own."""
        names = tuple(name for name in path if isinstance(name, str))
        if not names:
            return False
        return names not in self.keys or self.keys[names] is None


def description_of(folder, network, node):
    """The path of the description of a node, or None where net.toml doesn't say it."""
    rows = network.table.get("node")
    if not isinstance(rows, list) or node >= len(rows) or not isinstance(rows[node].get("fmu"), str):
        return None
    return folder / rows[node]["fmu"] / "modelDescription.toml"


def module_of(description):
    """The path of the module that a description names."""
    name = Document(description).table.get("CoSimulation", {}).get("modelIdentifier")
    return description.parent / "binaries" / f"{name}.wasm"
