#!/usr/bin/env python3
"""The check of ranges beside plain lists of pairs: usage: tests/programs/ivl_ranges.py [PROGRAM] [--seconds N] [--seed N]"""

from ivl_run import GREATEST, LEAST, joined, number, text
from lines import Commands, main, unknown_command

RANGES = b"error: write ranges such as -1..1 5..5, with the lower end first\n"
LENGTH = b"error: write length NUMBER, from 0 to 4294967295\n"


def range_from(word):
    """The two numbers of a range, or None: every place is tried for the two dots."""
    for place in range(len(word) - 1):
        if word[place : place + 2] == b"..":
            lower, upper = number(word[:place]), number(word[place + 2 :])
            if lower is not None and upper is not None and LEAST <= lower <= upper:
                return (lower, upper)
    return None


def safe_in(index, offset, length):
    """The parts of the runs of i for which i + k is an index for every run of k: each run of k cuts them."""
    for lower, upper in offset:
        index = [(max(low, -lower), min(high, length - 1 - upper)) for low, high in index]
    return joined(index)


class Access(Commands):
    """The runs of i and of k, and the length of the array."""

    helps = {
        b"i": "i RANGES: the values that i may have, such as i -1..1 5..5, the lower end first",
        b"k": "k RANGES: the values that k may have, such as k -1..1 5..5, the lower end first",
        b"length": "length NUMBER: the length of the array",
        b"check": "check: safe, or the values of i that are safe for every k",
        b"help": "help: the commands; help COMMAND: what one does",
    }

    def __init__(self):
        self.index = []
        self.offset = []
        self.length = 0

    def answer_command(self, name, words):
        if name in (b"i", b"k"):
            return self.set_ranges(name, [range_from(word) for word in words])
        if name == b"length":
            return self.set_length([number(word) for word in words])
        if name == b"check":
            return b"error: write check\n" if words else self.check()
        return unknown_command(name)

    def set_ranges(self, name, ranges):
        if not ranges or None in ranges:
            return RANGES
        if name == b"i":
            self.index = joined(ranges)
        else:
            self.offset = joined(ranges)
        return b"ok\n"

    def set_length(self, numbers):
        if len(numbers) != 1 or numbers[0] is None or not 0 <= numbers[0] < 2**32:
            return LENGTH
        self.length = numbers[0]
        return b"ok\n"

    def check(self):
        if not self.index:
            return b"error: i has no range\n"
        if not self.offset:
            return b"error: k has no range\n"
        safe = safe_in(self.index, self.offset, self.length)
        if safe == self.index:
            return b"safe\n"
        if not safe:
            return b"safe for no i\n"
        return b"safe for i in " + text(safe).encode() + b" alone\n"


def random_range(dice):
    lower = dice.choice([0, 0, 0, 5, 2**32 - 9, LEAST, GREATEST - 9, -(2**32)]) + dice.randrange(0, 10)
    upper = min(lower + dice.choice([0, 0, 1, 3, 9, 2**31]), GREATEST)
    word = "%d..%d" % (lower, upper)
    if dice.random() < 0.03:
        word = dice.choice(["%d..%d" % (upper + 1, lower), "1.2", "1...2", "..2", "1..", "+1..2", "1..2..3", "x", "..", "-..1", "007..08", "-0..0"])
    if dice.random() < 0.01:
        word = dice.choice(["%d..0" % (LEAST - 1), "0..%d" % (GREATEST + 1), "1..2,3..4", "\u00e9..2"])
    return word


def random_line(dice):
    name = dice.choice(["i", "i", "k", "k", "length", "length", "check", "check", "check", "check"])
    if name in ("i", "k"):
        words = [random_range(dice) for _ in range(dice.choice([1, 1, 2, 3, 8, 40]))]
    elif name == "length":
        words = [str(dice.choice([0, 1, 5, 9, 10, 20, 2**31, 2**32 - 1, 2**32 - 9]))]
    else:
        words = []
    if dice.random() < 0.03:
        words = dice.choice([words[1:], words + ["1"], words + ["1..1"], words + ["check"], ["-1"], ["4294967296"], ["1.5"]])
    return dice.choice([" ", " ", "  "]).join([name] + words).encode() + dice.choice([b"", b"", b"\r", b" "])


def random_lines(dice, count):
    # mostly so that i and k have small ranges: then some of i are safe
    small = lambda name: b" ".join([name] + [b"%d..%d" % (low, low + dice.randrange(4)) for low in [dice.randrange(-3, 12)]])
    first = [small(b"i") + b" 0..3", small(b"k"), b"length %d" % dice.randrange(12), b"check"] if dice.random() < 0.8 else []
    return first + [dice.choice([small(b"i"), small(b"k"), b"check"]) if dice.random() < 0.5 else random_line(dice) for _ in range(count)]


if __name__ == "__main__":
    main("ivl_ranges", Access, random_lines, b"check")
