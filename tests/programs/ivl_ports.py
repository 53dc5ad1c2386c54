#!/usr/bin/env python3
"""The allocator of ports beside a flag for each port: usage: tests/programs/ivl_ports.py [PROGRAM] [--seconds N] [--seed N]"""

import re

from ivl_run import number
from lines import Commands, error, escaped, form, main, unknown_command

TAKE = b"take COUNT, take COUNT at NUMBER or take COUNT above NUMBER"


class Wrong(Exception):
    """What is wrong with a line."""


def number_in(least, most, word):
    """The number that a word is, which is in this range."""
    value = number(word)
    if value is None:
        raise Wrong(error(escaped(word), b"is no number"))
    if value < least:
        raise Wrong(error(escaped(word), b"is below %d" % least))
    if value > most:
        raise Wrong(error(escaped(word), b"is above %d" % most))
    return value


class FreeNumbers(Commands):
    """Numbers from `least` to `greatest`, which are taken, `most` at a time, and given back."""

    def answer_command(self, name, words):
        try:
            if name == b"take":
                return self.take_line(words)
            if name == b"give":
                return self.give_line(words)
        except Wrong as wrong:
            return wrong.args[0]
        if name in self.shows:
            return form(name) if words else self.shows[name](self)
        return unknown_command(name)

    def take_line(self, words):
        if not words:
            return form(TAKE)
        count = number_in(1, self.most, words[0])
        if len(words) == 1:
            return self.take(count, self.least)
        if len(words) != 3 or words[1] not in (b"at", b"above"):
            return form(TAKE)
        place = number_in(self.least, self.greatest, words[2])
        return self.take_at(count, place) if words[1] == b"at" else self.take(count, place + 1)

    def give_line(self, words):
        if len(words) != 2:
            return form(b"give FIRST LAST")
        first = number_in(self.least, self.greatest, words[0])
        return self.give(first, number_in(first, self.greatest, words[1]))


class Ports(FreeNumbers):
    """A byte for each number from 0 to 65535, which is 1 if it is a free port."""

    least, greatest, most = 1024, 65535, 65535
    helps = {
        b"take": "take COUNT: takes the lowest so many free ports in a row; take COUNT at PORT: those from this port on; take COUNT above PORT: the lowest above it",
        b"give": "give FIRST LAST: gives ports back, unless one of them is free",
        b"free": "free: how many ports are free, and which",
        b"help": "help: the commands; help COMMAND: what one does",
    }

    def __init__(self):
        self.free = bytearray(1024) + bytearray(b"\1" * (65536 - 1024))

    def take_at(self, count, first):
        if self.free[first : first + count] != b"\1" * count:
            return b"none\n"
        self.free[first : first + count] = bytes(count)
        return b"[%d..%d]\n" % (first, first + count - 1)

    def take(self, count, least):
        first = self.free.find(b"\1" * count, least)
        if first < 0:
            return b"none\n"
        self.free[first : first + count] = bytes(count)
        return b"[%d..%d]\n" % (first, first + count - 1)

    def give(self, first, last):
        if any(self.free[first : last + 1]):
            return b"some of them are free\n"
        self.free[first : last + 1] = b"\1" * (last + 1 - first)
        return b"ok\n"

    def shown(self):
        runs = [b"[%d..%d]" % (run.start(), run.end() - 1) for run in re.finditer(b"\1+", self.free)]
        text = b"".join(runs)
        return b"%d free: %s\n" % (sum(self.free), text if len(runs) == 1 else b"{" + text + b"}")

    shows = {b"free": shown}


def random_count(dice):
    if dice.random() < 0.1:
        return dice.choice(["0", "-1", "-0", "+3", "007", "x", "1.5", "65535", "65536", "64512", "64511", str(2**63), str(2**64)])
    return str(dice.choice([1, 1, 2, 3, 5, 8, 40, 700, 5000]) if dice.random() < 0.95 else dice.randrange(1, 65536))


def random_run(dice):
    first = dice.choice([1024, 1024, 1700, 6000, 65500]) + dice.randrange(40)
    last = first + dice.choice([0, 0, 1, 2, 5, 9, 300])
    if dice.random() < 0.08:
        first = dice.choice([0, 80, 1000, 1023, 65536, last + 1, -first])
    return [str(first), str(last)]


def random_place(dice):
    """Where numbers are to be taken, if it is said."""
    if dice.random() < 0.5:
        return []
    return [dice.choice(["at", "above", "at", "above", "on"] if dice.random() < 0.1 else ["at", "above"]), random_run(dice)[0]]


def random_line(dice):
    name = dice.choice(["take", "take", "take", "give", "give", "give", "free"])
    words = {"take": lambda: [random_count(dice)] + random_place(dice), "give": lambda: random_run(dice), "free": lambda: []}[name]()
    if dice.random() < 0.03:
        words = dice.choice([words + ["1"], words[1:], words + ["free"]])
    return dice.choice([" ", " ", "  "]).join([name] + words).encode() + dice.choice([b"", b"", b"\r", b" "])


def random_lines(dice, count):
    return [random_line(dice) for _ in range(count)]


if __name__ == "__main__":
    main("ivl_ports", Ports, random_lines, b"free")
