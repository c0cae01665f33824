"""TOML documents whose keys are checked in an order: what the first failing check is told as."""
import re
import tomllib

SIZE_LIMIT = 2 ** 20
LONGEST = range(-2 ** 63, 2 ** 63)


class Refused(Exception):
    """The first check that fails: its field, and the position of the row in its array."""

    def __init__(self, field, place=0):
        super().__init__(field, place)
        self.field = field
        self.place = place


def check(holds, field, place=0):
    if not holds:
        raise Refused(field, place)


def fits(value):
    """Whether all integers are of 64 bits, as TOML asks."""
    if isinstance(value, dict):
        return all(map(fits, value.values()))
    if isinstance(value, list):
        return all(map(fits, value))
    return type(value) is not int or value in LONGEST


def read(data):
    check(len(data) <= SIZE_LIMIT, "Size", SIZE_LIMIT)
    try:
        document = tomllib.loads(data.decode())
    except (UnicodeDecodeError, tomllib.TOMLDecodeError, RecursionError):
        raise Refused("Toml") from None
    check(fits(document), "Toml")
    return document


def rows(document, name, least, most):
    """The rows of an array of tables, which may be absent where it may be empty."""
    array = document.get(name, [] if least == 0 else None)
    check(type(array) is list and all(type(row) is dict for row in array), name)
    check(least <= len(array) <= most, name)
    return list(enumerate(array))


def number(value, least, most):
    return type(value) is int and least <= value <= most


def text(value):
    return type(value) is str


def identifier(value):
    return text(value) and re.fullmatch("[A-Za-z0-9_]{1,64}", value) is not None
