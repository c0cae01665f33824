"""Where the keys of a TOML document stand: the line and the column of each, by an own reading of the text.

Only for documents that are TOML: nothing is refused here. A key's path has names, and the places of rows in arrays of
tables, from 0: `rate` of the second `[[bus]]` is `("bus", 1, "rate")`. A header `[[bus]]` is `("bus", 1)`.
"""
import bisect
import dataclasses


@dataclasses.dataclass(frozen=True)
class Place:
    """Line and column are counted from 1; `value` is the text of the value, empty for a header."""
    line: int
    column: int
    value: str = ""


class Reader:
    """Goes through a text and notes where each path stands first."""

    def __init__(self, text):
        self.text = text
        self.at = 0
        self.places = {}
        self.last = {}  # the last row of each array of tables
        self.starts = [0] + [at + 1 for at, sign in enumerate(text) if sign == "\n"]  # of lines

    def note(self, path, start, value=""):
        line = bisect.bisect_right(self.starts, start)
        column = start - self.starts[line - 1] + 1
        self.places.setdefault(tuple(path), Place(line, column, value))

    def sees(self, what):
        return self.text.startswith(what, self.at)

    def skip(self, blanks=" \t\r\n"):
        """Goes behind blanks and comments."""
        while self.at < len(self.text):
            if self.text[self.at] in blanks:
                self.at += 1
            elif self.text[self.at] == "#" and "\n" in blanks:
                end = self.text.find("\n", self.at)
                self.at = len(self.text) if end < 0 else end
            else:
                return

    def quoted(self):
        """A text in quotes of either kind, one or three of them; its inside."""
        mark = self.text[self.at] * (3 if self.sees(self.text[self.at] * 3) else 1)
        self.at += len(mark)
        start = self.at
        while self.at < len(self.text) and not self.sees(mark):
            self.at += 2 if self.sees("\\") and mark[0] == '"' else 1
        inside = self.text[start:self.at]
        self.at += len(mark)
        while len(mark) == 3 and self.sees(mark[0]):
            self.at += 1
        return inside

    def key(self):
        """A dotted key: its names."""
        names = []
        while True:
            self.skip(" \t")
            if self.at < len(self.text) and self.text[self.at] in "\"'":
                names.append(self.quoted())
            else:
                start = self.at
                while self.at < len(self.text) and (self.text[self.at].isalnum() or self.text[self.at] in "_-"):
                    self.at += 1
                names.append(self.text[start:self.at])
            self.skip(" \t")
            if not self.sees("."):
                return names
            self.at += 1

    def rows(self, path, names):
        """A path in which the last row stands behind each array of tables."""
        for name in names:
            path = path + [name]
            if self.last.get(tuple(path)) is not None:
                path = path + [self.last[tuple(path)]]
        return path

    def value(self, path):
        if self.sees("{"):
            self.inline_table(path)
        elif self.sees("["):
            self.array(path)
        elif self.at < len(self.text) and self.text[self.at] in "\"'":
            self.quoted()
        else:
            while self.at < len(self.text) and self.text[self.at] not in ",]}#\n":
                self.at += 1

    def pair(self, path):
        start = self.at
        names = self.key()
        path = path + names
        self.at += self.sees("=")
        self.skip(" \t")
        behind = self.at
        self.value(path)
        self.note(path, start, self.text[behind:self.at].strip())

    def inline_table(self, path):
        self.at += 1
        self.skip(" \t\r\n,")
        while self.at < len(self.text) and not self.sees("}"):
            before = self.at
            self.pair(path)
            self.skip(" \t\r\n,")
            self.at += self.at == before
        self.at += 1

    def array(self, path):
        self.at += 1
        row = 0
        self.skip(" \t\r\n,")
        while self.at < len(self.text) and not self.sees("]"):
            before = self.at
            self.note(path + [row], self.at)
            self.value(path + [row])
            row += 1
            self.skip(" \t\r\n,")
            self.at += self.at == before
        self.at += 1

    def header(self):
        start = self.at
        many = self.sees("[[")
        self.at += 1 + many
        names = self.key()
        path = self.rows([], names[:-1]) + names[-1:]
        if many:
            row = self.last.get(tuple(path), -1) + 1
            self.last[tuple(path)] = row
            self.note(path, start)
            path = path + [row]
        self.note(path, start)
        end = self.text.find("]", self.at)
        self.at = len(self.text) if end < 0 else end + 1 + many
        return path

    def read(self):
        table = []
        self.skip()
        while self.at < len(self.text):
            before = self.at
            if self.sees("["):
                table = self.header()
            else:
                self.pair(table)
            self.skip()
            self.at += self.at == before
        return self.places


def places(text):
    """The places of all keys and headers, by their paths."""
    return Reader(text).read()
