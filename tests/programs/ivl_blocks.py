#!/usr/bin/env python3
"""The free blocks beside a list of their runs: usage: tests/programs/ivl_blocks.py [PROGRAM] [--seconds N] [--seed N]"""

from ivl_ports import FreeNumbers
from lines import main

LAST = 2**40 - 1

class Blocks(FreeNumbers):
    """The runs of the free blocks, ascending."""

    least, greatest, most = 0, LAST, LAST + 1
    helps = {
        b"take": "take COUNT: takes the lowest so many free blocks in a row; take COUNT at BLOCK: those from this block on; take COUNT above BLOCK: the lowest above it",
        b"give": "give FIRST LAST: gives blocks back, unless one of them is free",
        b"free": "free: how many blocks are free, and in how many runs",
        b"largest": "largest: the lowest of the longest runs of free blocks",
        b"help": "help: the commands; help COMMAND: what one does",
    }

    def __init__(self):
        self.runs = [(0, LAST)]

    def taken(self, i, first, last):
        """Takes numbers out of a run that has them."""
        lower, upper = self.runs[i]
        self.runs[i : i + 1] = [run for run in ((lower, first - 1), (last + 1, upper)) if run[0] <= run[1]]
        return b"[%d..%d]\n" % (first, last)

    def take(self, count, least):
        for i, (lower, upper) in enumerate(self.runs):
            first = max(lower, least)
            if upper - first + 1 >= count:
                return self.taken(i, first, first + count - 1)
        return b"none\n"

    def take_at(self, count, first):
        for i, (lower, upper) in enumerate(self.runs):
            if lower <= first and first + count - 1 <= upper:
                return self.taken(i, first, first + count - 1)
        return b"none\n"

    def give(self, first, last):
        if any(lower <= last and first <= upper for lower, upper in self.runs):
            return b"some of them are free\n"
        runs = []
        for lower, upper in sorted([*self.runs, (first, last)]):
            if runs and runs[-1][1] + 1 == lower:
                lower = runs.pop()[0]
            runs.append((lower, upper))
        self.runs = runs
        return b"ok\n"

    def shown(self):
        word = b"run" if len(self.runs) == 1 else b"runs"
        return b"%d free in %d %s\n" % (sum(upper - lower + 1 for lower, upper in self.runs), len(self.runs), word)

    def largest(self):
        if not self.runs:
            return b"none\n"
        return b"[%d..%d]\n" % max(self.runs, key=lambda run: (run[1] - run[0], -run[0]))

    shows = {b"free": shown, b"largest": largest}


def random_count(dice):
    if dice.random() < 0.1:
        return dice.choice(["0", "-1", "-0", "+3", "007", "x", "1.5", "1099511627775", "1099511627776", "1099511627777", str(2**63), str(2**64)])
    return str(dice.choice([1, 1, 2, 3, 5, 8, 40, 700, 5000]) if dice.random() < 0.97 else dice.randrange(1, LAST))


def random_run(dice):
    first = dice.choice([0, 0, 700, 5000, LAST - 40]) + dice.randrange(40)
    last = first + dice.choice([0, 0, 1, 2, 5, 9, 300])
    if dice.random() < 0.08:
        first = dice.choice([0, LAST, LAST + 1, last + 1, -first])
    return [str(first), str(last)]


def random_place(dice):
    """Where blocks are to be taken, if it is said."""
    return [] if dice.random() < 0.5 else [dice.choice(["at", "above"]), random_run(dice)[0]]


def random_line(dice):
    name = dice.choice(["take", "take", "take", "give", "give", "give", "free", "largest"])
    words = {"take": lambda: [random_count(dice)] + random_place(dice), "give": lambda: random_run(dice)}.get(name, list)()
    if dice.random() < 0.03:
        words = dice.choice([words + ["1"], words[1:], words + ["free"]])
    return dice.choice([" ", " ", "  "]).join([name] + words).encode() + dice.choice([b"", b"", b"\r", b" "])


def random_lines(dice, count):
    return [random_line(dice) for _ in range(count)]


if __name__ == "__main__":
    main("ivl_blocks", Blocks, random_lines, b"free")
