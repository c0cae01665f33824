#!/usr/bin/env python3
"""Writes what the programs of cases read and must print.

A folder vectors/cases/PROGRAM holds the cases of crates/PROGRAM, in files that are taken in the order of their names.
A line of them is `question = answer`, cut at its last ` = `; a line that begins with `#` says what the next ones show.
The program's stdin has the lines that begin with `#` and the questions, its stdout the same lines and the answers.
Tables that a script works out (frames.py and its neighbours) are files of such a folder, with the script's name.

    vectors/write_cases.py            writes stdin and stdout of each program
    vectors/write_cases.py --check    writes nothing, and fails where they are not what the cases say
"""
import pathlib
import sys

HERE = pathlib.Path(__file__).resolve().parent
CRATES = HERE.parent / "crates"


def cut(name, number, line):
    """The line of stdin and that of stdout."""
    if line.startswith("#"):
        return line, line
    question, is_cut, answer = line.rpartition(" = ")
    if not is_cut:
        sys.exit(f"{name}:{number}: no ` = `")
    return question, answer


def texts(folder):
    """stdin and stdout of a program."""
    pairs = []
    for path in sorted(folder.glob("*.txt")):
        lines = path.read_text(encoding="utf-8").splitlines()
        pairs += [cut(path, n, line) for n, line in enumerate(lines, 1) if line]
    return ["".join(line + "\n" for line in side) for side in zip(*pairs)]


def main():
    check = sys.argv[1:] == ["--check"]
    if sys.argv[1:] and not check:
        sys.exit(__doc__)
    stale = []
    for folder in sorted(p for p in (HERE / "cases").iterdir() if p.is_dir()):
        for name, text in zip(("stdin", "stdout"), texts(folder)):
            path = CRATES / folder.name / name
            if check:
                if not path.is_file() or path.read_text(encoding="utf-8") != text:
                    stale.append(str(path.relative_to(CRATES.parent)))
            else:
                path.write_text(text, encoding="utf-8")
    if stale:
        sys.exit("not what vectors/cases say: " + ", ".join(stale))


main()
