#!/usr/bin/env python3
"""Orders of calls to a trail with propagation, and what must stand there, by a plain scan of all clauses.

    solver_orders.py              compares the cases in crates/pp_circuit_cases with what it works out
    solver_orders.py write        writes 2,000 of them to the end of data/solver.txt and stdout there, in place of those

The order in which literals follow is the program's choice. So a trail is shown where calls alone determine what stands
there: which literals follow from the decisions, and whether a clause is false then. Calls that would depend on more are
left out: a decision after a false clause or among steps that were taken back in part, and a length within such steps.
"""
import random
import sys
from pathlib import Path

CASES = Path(__file__).resolve().parent.parent / "crates" / "pp_circuit_cases"
TASKS, PRINTED = "data/solver.txt", "stdout"
HEADING = "# solver solver.txt"
COUNT = 2_000
VARIABLES = 5


def letter(lit):
    return chr((96 if lit > 0 else 64) + abs(lit))


def word(clause):
    return "".join(map(letter, sorted(clause, key=abs))) or "0"


def clause(source):
    length = source.choices(range(4), weights=(1, 5, 20, 24))[0]
    chosen = source.sample(range(1, VARIABLES + 1), length)
    return [x if source.random() < 0.5 else -x for x in chosen]


def closure(clauses, true):
    """The literals that follow from these, or None where a clause is false."""
    true, before = set(true), None
    while before != len(true):
        before = len(true)
        for each in clauses:
            if any(x in true for x in each):
                continue
            rest = [x for x in each if -x not in true]
            if not rest:
                return None
            if len(rest) == 1:
                true.add(rest[0])
    return true


class Order:
    """Calls, and what is known of the trail: for each decision what stood before it, and what stands now. After a false
    clause, and where steps were taken back in part, it is known only what these literals follow from."""

    def __init__(self, source):
        self.source = source
        self.clauses = [clause(source) for _ in range(source.randrange(2, 5))]
        self.before, self.now, self.known = [], set(), True
        self.calls, self.shown = [], []

    def show(self):
        self.shown.append("".join(letter(x) for x in sorted(self.now, key=abs)))

    def decide(self):
        free = [x for x in range(1, VARIABLES + 1) if not {x, -x} & self.now]
        if not self.known or not free:
            return
        lit = self.source.choice(free) * self.source.choice([1, -1])
        self.before.append((frozenset(self.now), lit))
        self.now = self.now | {lit}
        self.calls.append("?" + letter(lit))

    def propagate(self):
        self.calls.append("!")
        found = closure(self.clauses, self.now)
        self.known = found is not None
        if self.known:
            self.now = found
            self.show()
        else:
            self.shown.append("!")

    def undo(self):
        if not self.now or self.calls[-1][0] in "<.":
            return
        # up to a length that is known: the last steps are so only where they are all known
        most = len(self.now) if self.known else len(self.before[-1][0]) + 1 if self.before else 0
        to = self.source.randrange(most + 1)
        whole = self.known and to == len(self.now)
        while self.before and to <= len(self.before[-1][0]):
            start, _ = self.before.pop()
            if to == len(start):
                self.now, whole = set(start), True
        if not whole:
            start, lit = self.before[-1] if self.before else (frozenset(), None)
            self.now = set(start) | ({lit} if self.before else set())
            self.known = to == len(self.now)
        else:
            self.known = True
        self.calls.append(f"<{to}")

    def add(self):
        new = clause(self.source)
        self.clauses.append(new)
        self.calls.append("+" + word(new))

    def line(self):
        first = " ".join(map(word, self.clauses))
        for _ in range(self.source.randrange(6, 12)):
            often = self.decide if self.calls and self.calls[-1] == "!" else self.propagate
            self.source.choice([often, often, self.decide, self.undo, self.add])()
            if self.calls and self.calls[-1][0] == "<" and self.known:
                self.calls.append(".")
                self.show()
        self.propagate()
        return f"values {first}|{' '.join(self.calls)}", "".join(x + ";" for x in self.shown)


def cases():
    for seed in range(COUNT):
        yield Order(random.Random(seed)).line()


def split(name):
    """The lines before the orders, which follow the case `laws`, and those from there on."""
    lines, tasks = ((CASES / file).read_text().splitlines() for file in (name, TASKS))
    first = tasks.index("laws") + 1
    if name == PRINTED:
        first += lines.index(HEADING) + 1
    return lines[:first], lines[first:]


def main():
    wanted = list(zip(*cases()))
    for name, lines in zip((TASKS, PRINTED), wanted):
        head, found = split(name)
        if sys.argv[1:] == ["write"]:
            (CASES / name).with_suffix(".new").write_text("\n".join(head + list(lines)) + "\n")
        elif found != list(lines):
            sys.exit(f"solver_orders: {name} differs from what the scan finds")
    if sys.argv[1:] == ["write"]:
        for name in (TASKS, PRINTED):
            (CASES / name).with_suffix(".new").rename(CASES / name)
    print(f"{COUNT} orders")


main()
