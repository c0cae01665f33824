"""A function's code, made ready to run: a step for each instruction that costs something, with its next place.

`end` and `else` cost nothing and are no steps: where one comes next, what comes behind it is found beforehand.
What a branch leaves on the stack, and what it takes off, is known from the types.
"""
from module_code import bodies


class Label:
    """An open list: where its first instruction is, its end, and the heights that a branch needs."""

    def __init__(self, place, end, kind, height, carried):
        self.target = place + 1 if kind == "loop" else end
        self.height = height
        self.carried = carried


class Code:
    """The instructions of a function with their branches resolved."""

    def __init__(self, module_parts, func):
        self.code = func[2]
        self.last = len(self.code) - 1
        self.params = len(module_parts["types"][func[0]][0])
        self.results = len(module_parts["types"][func[0]][1])
        self.locals = sum(count for count, _ in func[1])
        self.ends, self.elses = self.pairs()
        self.branches = {}
        self.find_branches(bodies.Body(module_parts, func))

    def pairs(self):
        """For each list its end, and for each if its else; for each else the end of its list."""
        ends, elses, opened = {}, {}, []
        for place, (name, _) in enumerate(self.code):
            if name in bodies.LISTS:
                opened.append(place)
            elif name == "else":
                elses[opened[-1]] = place
            elif name == "end" and opened:
                first = opened.pop()
                ends[first] = place
                if first in elses:
                    ends[elses[first]] = place
        return ends, elses

    def find_branches(self, typed):
        """For each branch its labels, after the types of the body."""
        labels = [Label(-1, self.last, "body", 0, self.results)]
        for place, (name, args) in enumerate(self.code):
            typed.step(name, args)
            if name in bodies.LISTS:
                label = typed.open[-1]
                labels.append(Label(place, self.ends[place], name, label.height, len(label.label)))
            elif name == "end":
                labels.pop()
            elif name in ("br", "br_if", "br_table"):
                self.branches[place] = [labels[-1 - depth] for depth in args]

    def next(self, place):
        """The instruction that comes next where this place is come to, behind ends; `last` is the end."""
        while place < self.last and self.code[place][0] in ("end", "else"):
            place = (self.ends[place] if self.code[place][0] == "else" else place) + 1
        return place

    def behind_if(self, place):
        """What comes next where the condition of an if is false."""
        return self.next(self.elses.get(place, self.ends[place]) + 1)
