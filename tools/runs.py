#!/usr/bin/env python3
"""Runs the program with words and files of a table, and compares what it writes and its exit status.

runs.py [PROGRAM [TABLE]]: crates/bench/out/bench and tools/runs.txt, unless they are named. The table says at its
beginning how a run is written. Exit status 1 where a run differs.
"""
import os
import subprocess
import sys
import tempfile

HERE = os.path.dirname(os.path.abspath(__file__))
TOP = os.path.dirname(HERE)


class Run:
    """One run of the table, and what is wanted of it."""

    def __init__(self, line, words):
        self.line, self.words = line, words
        self.target, self.output, self.ends, self.error, self.status = None, [], False, [], 0

    def failure(self, program, folder):
        """What differs in this folder, or None."""
        words = [b"\xff" if word == "\\0" else word.encode() for word in self.words]
        path = os.path.join(folder, self.target or ".output")
        with open(path, "wb") as target:
            ran = subprocess.run([program.encode(), *words], cwd=folder, stdin=subprocess.DEVNULL,
                                 stdout=target, stderr=subprocess.PIPE)
        wanted = "".join(line + "\n" for line in self.output).encode()
        if self.target is None:
            with open(path, "rb") as target:
                output = target.read()
            if self.ends:
                output = output[-len(wanted):]
            if output != wanted:
                return "wrote %r, and not %r" % (output, wanted)
        error = "".join(line + "\n" for line in self.error).encode()
        if (ran.returncode, ran.stderr) != (self.status, error):
            return "status %d, %r, and not %d, %r" % (ran.returncode, ran.stderr, self.status, error)
        return None


def rows(text):
    """The lines of a file that differ in moment and node."""
    count, step, nodes, rest = text.split(" ", 3)
    lines = ("%d %d %s\n" % (i * int(step), i % int(nodes), rest) for i in range(int(count)))
    return "".join(lines).encode()


def copied(path):
    with open(os.path.join(TOP, path), "rb") as file:
        return file.read()


CONTENTS = {
    "|": lambda text: (text + "\n").encode(),
    "x": bytes.fromhex,
    "rows": rows,
    "copy": copied,
}


def wants(run, mark, text):
    """Takes a line on what is wanted of a run; False where it is none."""
    if mark == ">":
        run.output.append(text)
    elif mark == "..":
        run.output.append(text)
        run.ends = True
    elif mark == "!":
        run.error.append(text)
    elif mark == "to":
        run.target = text
    elif mark == "status":
        run.status = int(text)
    else:
        return False
    return True


def steps(path):
    """The steps of the table, in their order: a file with its name and bytes, or a run."""
    done = []
    with open(path, encoding="utf-8") as table:
        for number, line in enumerate(table, 1):
            line = line.rstrip("\n")
            mark, _, text = line.partition(" ")
            last = done[-1] if done else None
            if not line or mark == "#":
                continue
            if mark == "file":
                done.append([text, b""])
            elif mark == "run":
                done.append(Run(number, text.split(" ") if text else []))
            elif isinstance(last, list) and mark in CONTENTS:
                last[1] += CONTENTS[mark](text)
            elif not isinstance(last, Run) or not wants(last, mark, text):
                sys.exit("%s:%d: %s" % (path, number, line))
    return done


def put(folder, name, content):
    path = os.path.join(folder, name)
    os.makedirs(os.path.dirname(path), exist_ok=True)
    with open(path, "wb") as file:
        file.write(content)


def main(program=os.path.join(TOP, "crates/bench/out/bench"), table=os.path.join(HERE, "runs.txt")):
    program, failed, count = os.path.realpath(program), 0, 0
    with tempfile.TemporaryDirectory() as folder:
        for step in steps(table):
            if isinstance(step, list):
                put(folder, *step)
                continue
            count += 1
            failure = step.failure(program, folder)
            if failure:
                failed += 1
                print("%s:%d: bench %s: %s" % (table, step.line, " ".join(step.words), failure))
    print("%d runs, %d failed" % (count, failed))
    return 1 if failed or not count else 0


if __name__ == "__main__":
    sys.exit(main(*sys.argv[1:]))
