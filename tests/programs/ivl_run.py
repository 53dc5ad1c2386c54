#!/usr/bin/env python3
"""The calculator beside plain lists of pairs: usage: tests/programs/ivl_run.py [PROGRAM] [--seconds N] [--seed N]"""

import re

from lines import main

LEAST, GREATEST = -(2**63) + 1, 2**63 - 1
NUMBER = re.compile(rb"-?[0-9]+")


def number(word):
    """The number of i64 that a word is, or None."""
    if not NUMBER.fullmatch(word):
        return None
    value = int(word)
    return value if -(2**63) <= value < 2**63 else None


def joined(pairs):
    """The maximal runs of the numbers of some pairs."""
    runs = []
    for lower, upper in sorted(pair for pair in pairs if pair[0] <= pair[1]):
        if runs and lower <= runs[-1][1] + 1:
            runs[-1] = (runs[-1][0], max(runs[-1][1], upper))
        else:
            runs.append((lower, upper))
    return runs


def has(runs, value):
    return any(lower <= value <= upper for lower, upper in runs)


def combined(a, b, is_kept):
    """The numbers for which the test of whether each has them holds: between two ends of runs nothing changes."""
    ends = sorted({LEAST, GREATEST + 1} | {end for lower, upper in a + b for end in (lower, upper + 1)})
    return joined((low, high - 1) for low, high in zip(ends, ends[1:]) if is_kept(has(a, low), has(b, low)))


def within(runs):
    return joined((max(lower, LEAST), min(upper, GREATEST)) for lower, upper in runs)


def sums(a, b):
    return [(x + z, y + w) for x, y in a for z, w in b]


def differences(a, b):
    return [(x - w, y - z) for x, y in a for z, w in b]


def products(a, b):
    every = [[x * z, x * w, y * z, y * w] for x, y in a for z, w in b]
    return [(min(four), max(four)) for four in every]


def text(runs):
    parts = "".join(f"[{lower}..{upper}]" for lower, upper in runs)
    return parts if len(runs) == 1 else "{" + parts + "}"


MERGES = {
    b"union": lambda x, y: x or y,
    b"inter": lambda x, y: x and y,
    b"diff": lambda x, y: x and not y,
    b"sym": lambda x, y: x != y,
}
CUTS = {
    b"left": lambda v: [(v, GREATEST)],
    b"right": lambda v: [(LEAST, v)],
    b"sleft": lambda v: [(v + 1, GREATEST)],
    b"sright": lambda v: [(LEAST, v - 1)],
}
PAIRS = {b"plus": sums, b"minus": differences, b"times": products}
VALUES = {b"plusv": sums, b"minusv": differences, b"timesv": products}
ABOUT = {
    b"size": lambda a: str(sum(upper - lower + 1 for lower, upper in a)),
    b"count": lambda a: str(len(a)),
    b"low": lambda a: str(a[0][0]) if a else "none",
    b"high": lambda a: str(a[-1][1]) if a else "none",
    b"show": text,
}
YES_OR_NO = {
    b"same": lambda a, b: a == b,
    b"sub": lambda a, b: not combined(a, b, lambda x, y: x and not y),
    b"meets": lambda a, b: bool(combined(a, b, lambda x, y: x and y)),
}


class Calculator:
    def __init__(self):
        self.sets = {bytes([letter]): [] for letter in range(ord("a"), ord("z") + 1)}

    def answer(self, line):
        try:
            line.decode()
        except UnicodeDecodeError:
            return b"bad line\n"
        words = [word for word in line.split(b" ") if word]
        if not words:
            return b""
        said = self.carried_out(words[0], words[1:])
        return ("bad line" if said is None else said).encode() + b"\n"

    def carried_out(self, name, words):
        """The answer to a command, or None if the words are no command."""
        if name == b"set":
            return self.set(words)
        if name in MERGES or name in PAIRS:
            return self.merge(name, words)
        if name in CUTS or name in VALUES:
            return self.with_value(name, words)
        if name == b"comp" and len(words) == 2 and self.are_registers(words):
            self.sets[words[0]] = combined(self.sets[words[1]], [], lambda x, y: not x)
            return "ok"
        if name == b"has" and len(words) == 2 and self.are_registers(words[:1]) and number(words[1]) is not None:
            return "yes" if has(self.sets[words[0]], number(words[1])) else "no"
        if name in ABOUT and len(words) == 1 and self.are_registers(words):
            return ABOUT[name](self.sets[words[0]])
        if name in YES_OR_NO and len(words) == 2 and self.are_registers(words):
            return "yes" if YES_OR_NO[name](self.sets[words[0]], self.sets[words[1]]) else "no"
        return None

    def are_registers(self, words):
        return all(word in self.sets for word in words)

    def set(self, words):
        if len(words) % 2 == 0 or not self.are_registers(words[:1]):
            return None
        numbers = [number(word) for word in words[1:]]
        if None in numbers:
            return None
        if any(lower < LEAST for lower in numbers[::2]):
            return "refused 2 range"
        self.sets[words[0]] = joined(zip(numbers[::2], numbers[1::2]))
        return "ok"

    def merge(self, name, words):
        if len(words) != 3 or not self.are_registers(words):
            return None
        a, b = self.sets[words[1]], self.sets[words[2]]
        if name in MERGES:
            self.sets[words[0]] = combined(a, b, MERGES[name])
            return "ok"
        runs = joined(PAIRS[name](a, b))
        kept = within(runs)
        if kept != runs and name == b"times":
            return "refused 3 fit"
        self.sets[words[0]] = kept
        return "ok" if kept == runs else "cut"

    def with_value(self, name, words):
        if len(words) != 3 or not self.are_registers(words[:2]) or number(words[2]) is None:
            return None
        a, value = self.sets[words[1]], number(words[2])
        if name in CUTS:
            self.sets[words[0]] = combined(a, joined(CUTS[name](value)), lambda x, y: x and y)
            return "ok"
        runs = joined(VALUES[name](a, [(value, value)]))
        if within(runs) != runs:
            return "refused 3 fit"
        self.sets[words[0]] = runs
        return "ok"


ENDS = [-(2**63), LEAST, LEAST + 1, -1, 0, 1, GREATEST - 1, GREATEST, 2**63]


def random_number(dice):
    value = dice.choice([dice.randrange(-20, 21), dice.randrange(-20, 21), dice.choice(ENDS)])
    return dice.choice([str(value), str(value), str(value), f"+{value}", f"0{value}"])


def random_line(dice):
    register = lambda: dice.choice(["a", "b", "c", "d", "d", "A", "ab"]) if dice.random() < 0.05 else dice.choice("abcd")
    name = dice.choice(["set", "set", "comp", "has"] + [word.decode() for word in [*MERGES, *PAIRS, *CUTS, *VALUES, *ABOUT, *YES_OR_NO]])
    if name == "set":
        count = dice.choice([0, 2, 2, 4, 6, 3])
        parts = [register()] + [str(dice.randrange(-20, 21)) if dice.random() < 0.9 else random_number(dice) for _ in range(count)]
    elif name == "has":
        parts = [register(), random_number(dice)]
    elif name == "comp" or name.encode() in YES_OR_NO:
        parts = [register(), register()]
    elif name.encode() in CUTS or name.encode() in VALUES:
        parts = [register(), register(), random_number(dice)]
    elif name.encode() in ABOUT:
        parts = [register()]
    else:
        parts = [register(), register(), register()]
    if dice.random() < 0.03:
        parts.append(register())
    return dice.choice([" ", " ", "  "]).join([name] + parts).encode() + dice.choice([b"", b"", b"\r", b" "])


def random_lines(dice, count):
    return [random_line(dice) for _ in range(count)]


# Sums of 64 and of 4,096 runs, and then of 16,777,216, which take seconds. As many products are in range of smaller numbers.
QUICK = [
    b"set a 0 0 2 2 4 4 6 6 8 8 10 10 12 12 14 14",
    b"timesv b a 100",
    b"plus a a b",
    b"timesv b a 10000",
    b"plus a a b",
    b"timesv b a 100000000",
    b"count a",
]
SLOW = [(QUICK, 7, b"plus c a b"), (QUICK, 7, b"minus c a b"), ([*QUICK[:5], b"timesv b a 100"], 6, b"times c a b")]

if __name__ == "__main__":
    main("ivl_run", Calculator, random_lines, b"show a", SLOW)
