"""Texts of many lines, written in one line as the questions of network_cases have them, and the cases on one text."""

import re

# one character a hundred times, or up to 200 of them four times
RUN = re.compile(r"(.)\1{99,}|(.{20,200}?)\2{3,}", re.DOTALL)

NOTATION = """# A text of many lines stands in one line: \\n is a line end, a bar stands between two pieces of the text, UNIT*TIMES is a
# piece that stands there so many times, and a lone bar is no text. `keep TEXT` keeps a text and says how many bytes it has;
# `OLD -> NEW` is the kept text with its first OLD changed; where a question has no text, it is about the kept one.
"""


class Refused(Exception):
    """The field and the place of the first check that fails."""


def piece(text):
    assert not re.search(r"[\\|*]| -> ", text), text
    return text.replace("\n", "\\n")


def one_line(text):
    """A text as a question has it."""
    pieces, at = [], 0
    for run in RUN.finditer(text):
        unit = run[1] or run[2]
        pieces.append(piece(text[at : run.start()]))
        pieces.append(f"{piece(unit)}*{len(run[0]) // len(unit)}")
        at = run.end()
    pieces.append(piece(text[at:]))
    return "|".join(filter(None, pieces)) or "|"


def question(name, base, old, new):
    """The question on the kept text with one place changed, or on another text as a whole."""
    if old != base:
        return f"{name} {one_line(old)} -> {one_line(new)}"
    return name if new == base else f"{name} {one_line(new)}"


def answer(checked, text, refusal):
    """What `checked` answers; it has to refuse a text as its row says."""
    try:
        said, found = checked(text), ("", 0)
    except Refused as refused:
        said, found = "%s %d" % refused.args, refused.args
    assert found == refusal, (text[:2000], found, refusal)
    return said


def cases(name, checked, base, rows):
    """The lines of a text that is kept, and of its rows: what is tried, the old and the new text, and the refusal."""
    yield f"keep {one_line(base)} = {len(base.encode())} bytes"
    for what, old, new, *refusal in rows:
        assert base.count(old) == 1, what
        yield f"# {what}"
        said = answer(checked, base.replace(old, new), tuple(refusal))
        yield f"{question(name, base, old, new)} = {said}"


def write(name, lines):
    with open(f"cases/network_cases/{name}.txt", "w", encoding="utf-8") as out:
        out.writelines(line + "\n" for line in lines)
