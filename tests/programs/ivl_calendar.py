#!/usr/bin/env python3
"""The calendar beside a table of days for each room: usage: tests/programs/ivl_calendar.py [PROGRAM] [--seconds N] [--seed N]"""

import datetime
import re

from ivl_run import number
from lines import Commands, error, escaped, form, main, unknown_command

BOOK = b"book ROOM FIRST LAST or book ROOM FIRST LAST WHO"
DATE = re.compile(rb"(-00[0-9]{4}|[0-9]{4})-([0-9]{2})-([0-9]{2})")
# The calendar repeats after 400 years. Python has the years from 1 to 9999.
CYCLE = 146097


def day(word):
    """The number of the day whose date a word is, or None."""
    parts = DATE.fullmatch(word)
    if not parts or parts[1] == b"-000000":
        return None
    year, month, one = (int(part) for part in parts.groups())
    cycles = 0 if year > 0 else -year // 400 + 1
    try:
        return datetime.date(year + 400 * cycles, month, one).toordinal() - CYCLE * cycles
    except ValueError:
        return None


def date_text(number):
    """The date of a day, with a sign and six digits before the year 0."""
    cycles = 0 if number > 0 else -number // CYCLE + 1
    date = datetime.date.fromordinal(number + CYCLE * cycles)
    year = date.year - 400 * cycles
    return f"{year:04}{str(date)[4:]}" if year >= 0 else f"-{-year:06}{str(date)[4:]}"


class Wrong(Exception):
    """What is wrong with a line."""


def day_in(word):
    """The day whose date a word is."""
    one = day(word)
    if one is None:
        raise Wrong(error(escaped(word), b"is no day"))
    return one


def window_of(first, last):
    """The days from one date to another."""
    low, high = day_in(first), day_in(last)
    if high < low:
        raise Wrong(error(escaped(last), b"is before", escaped(first)))
    return range(low, high + 1)


def span(first, last):
    return f"{date_text(first)} to {date_text(last)}".encode()


def runs_of(days):
    """The first and the last day of each run of days that are in order."""
    runs = []
    for one in days:
        if runs and runs[-1][1] + 1 == one:
            runs[-1] = (runs[-1][0], one)
        else:
            runs.append((one, one))
    return runs


def named_runs(bookings):
    """The first and the last day of each run of days with one name, and the name, in order."""
    runs = []
    for one in sorted(bookings):
        if runs and bookings[one] is not None and runs[-1][1:] == (one - 1, bookings[one]):
            runs[-1] = (runs[-1][0], one, bookings[one])
        else:
            runs.append((one, one, bookings[one]))
    return [run for run in runs if run[2] is not None]


class Calendar(Commands):
    """The days on which each room is busy, each with the name for which it is booked, or None."""

    helps = {
        b"room": "room NAME: a new room, free on all days",
        b"rooms": "rooms: the names of the rooms",
        b"book": "book ROOM FIRST LAST WHO: books a room from the first day to the last, such as book blue 2026-03-01 2026-03-04 anna; the name may be left out",
        b"cancel": "cancel ROOM FIRST LAST: frees a room from the first day to the last, whoever booked it",
        b"show": "show ROOM: the bookings of a room, those with a name first",
        b"gap": "gap ROOM DAYS FIRST LAST: the first so many days in a row on which a room is free, between two days",
        b"free": "free FIRST LAST: the days between two days on which all rooms are free",
        b"who": "who ROOM DATE: the name for which a room is booked on a day, booked without a name, or free",
        b"of": "of WHO: the days that are booked for a name, each after its room",
        b"help": "help: the commands; help COMMAND: what one does",
    }

    def __init__(self):
        self.rooms = {}

    def answer_command(self, name, words):
        answers = {
            b"room": self.room,
            b"rooms": self.list_rooms,
            b"book": self.book,
            b"cancel": self.cancel,
            b"show": self.show,
            b"gap": self.gap,
            b"free": self.free,
            b"who": self.who,
            b"of": self.of,
        }
        try:
            return answers[name](words) if name in answers else unknown_command(name)
        except Wrong as wrong:
            return wrong.args[0]

    def known(self, name):
        """The bookings of a room."""
        if name not in self.rooms:
            raise Wrong(error(b"unknown room", escaped(name)))
        return self.rooms[name]

    def room(self, words):
        if len(words) != 1:
            return form(b"room NAME")
        if words[0] in self.rooms:
            return error(escaped(words[0]), b"is a room already")
        self.rooms[words[0]] = {}
        return b"ok\n"

    def list_rooms(self, words):
        if words:
            return form(b"rooms")
        return (b", ".join(escaped(name) for name in sorted(self.rooms)) or b"none") + b"\n"

    def book(self, words):
        if len(words) < 3:
            return form(BOOK)
        days = window_of(*words[1:3])
        if len(words) > 4:
            return form(BOOK)
        name = words[3] if len(words) == 4 else None
        if name is not None and (day(name) is not None or name == b"free"):
            return error(escaped(name), b"is no name")
        bookings = self.known(words[0])
        in_the_way = [one for one in days if one in bookings]
        if not in_the_way:
            bookings.update((one, name) for one in days)
            return b"booked\n"
        for first, last, by in named_runs(bookings):
            if any(first <= one <= last for one in in_the_way):
                return b"taken by " + escaped(by) + b" " + span(first, last) + b"\n"
        return b"taken\n"

    def cancel(self, words):
        if len(words) != 3:
            return form(b"cancel ROOM FIRST LAST")
        days = window_of(*words[1:])
        bookings = self.known(words[0])
        booked = [one for one in days if bookings.pop(one, self) is not self]
        return b"cancelled\n" if booked else b"not booked\n"

    def show(self, words):
        if len(words) != 1:
            return form(b"show ROOM")
        bookings = self.known(words[0])
        named = [span(first, last) + b" " + escaped(by) for first, last, by in named_runs(bookings)]
        unnamed = [span(first, last) for first, last in runs_of(sorted(one for one in bookings if bookings[one] is None))]
        return (b", ".join(named + unnamed) or b"free") + b"\n"

    def gap(self, words):
        if len(words) != 4:
            return form(b"gap ROOM DAYS FIRST LAST")
        count = number(words[1])
        if count is None:
            return error(escaped(words[1]), b"is no number")
        if not 1 <= count < 2**32:
            return error(escaped(words[1]), b"is below 1" if count < 1 else b"is above 4294967295")
        days = window_of(*words[2:])
        bookings = self.known(words[0])
        for first, last in runs_of(one for one in days if one not in bookings):
            if last - first + 1 >= count:
                return span(first, first + count - 1) + b"\n"
        return b"none\n"

    def free(self, words):
        if len(words) != 2:
            return form(b"free FIRST LAST")
        days = window_of(*words)
        busy = set().union(*self.rooms.values())
        runs = runs_of(one for one in days if one not in busy)
        return (b", ".join(span(first, last) for first, last in runs) or b"none") + b"\n"

    def who(self, words):
        if len(words) != 2:
            return form(b"who ROOM DATE")
        one = day_in(words[1])
        bookings = self.known(words[0])
        if one not in bookings:
            return b"free\n"
        return (b"booked without a name" if bookings[one] is None else escaped(bookings[one])) + b"\n"

    def of(self, words):
        if len(words) != 1:
            return form(b"of WHO")
        listed = [
            escaped(room) + b" " + span(first, last)
            for room in sorted(self.rooms)
            for first, last, name in named_runs(self.rooms[room])
            if name == words[0]
        ]
        return (b", ".join(listed) or b"none") + b"\n"


NAMES = ["blue", "red", "green", "b", "Blue", "blue2", "blaŭ", "roza", "9", "free", "2026-03-01", "x" * 300, "a\tb"]
PEOPLE = ["anna", "ben", "anna2", "ann", "bo\x1b[2J", "blaŭ", "none", "9", "x" * 300, "free", "Free", "2024-01-01", "2024-01-32", "a\x85b", "a\tb"]
SPOILED_DATES = [
    "{}T00:00", "{}T00:00Z", "{}T10:30+02:00", "{} 00:00", "{}[u-ca=gregory]", "{}[Europe/Berlin]", "{}Z", "+00{}", "-00{}", " {}", "{}-", "0{}",
]


def random_date(dice):
    """A date within a year, or now and then what is none."""
    one = datetime.date(2023, 12, 20) + datetime.timedelta(dice.randrange(100))
    if dice.random() < 0.02:
        one = dice.choice([datetime.date.min, datetime.date.max, datetime.date(1969, 12, 31), datetime.date(1970, 1, 1)])
    text = str(one)
    if dice.random() < 0.03:
        bad = ["2023-02-29", "2100-02-29", "2024-13-01", "2024-00-10", "2024-04-31", "2024-1-01", "20240101", "2024-W01-1", "24-01-01", "day", "10000-01-01", "0000-02-29", "-000001-12-31", "-000000-01-01", "-009999-01-01", "-010000-12-31"]
        return dice.choice(bad + [text.replace("-", ""), text.replace("-", "/"), dice.choice(SPOILED_DATES).format(text)])
    return text


def random_window(dice):
    first = random_date(dice)
    if dice.random() < 0.1:
        return [first, random_date(dice)]
    number = day(first.encode())
    return [first, first if number is None else date_text(min(number + dice.choice([0, 0, 1, 2, 3, 6, 20]), datetime.date.max.toordinal()))]


def random_count(dice):
    if dice.random() < 0.1:
        return dice.choice(["0", "-1", "+3", "007", "x", "1.5", str(2**32 - 1), str(2**32), str(2**63), str(2**64)])
    return str(dice.choice([1, 1, 2, 3, 4, 6, 9, 30]))


def random_line(dice):
    name = dice.choice(["room", "book", "book", "book", "book", "cancel", "cancel", "gap", "gap", "free", "free", "who", "who", "of", "rooms", "show"])
    room = dice.choice(NAMES[: dice.choice([3, 3, 3, len(NAMES)])])
    who = dice.choice(PEOPLE[: dice.choice([2, 2, 4, len(PEOPLE)])])
    forms = {"room": [room], "rooms": [], "show": [room], "cancel": [room], "book": [room], "gap": [room, random_count(dice)], "free": [], "who": [room], "of": [who]}
    dates = {"room": 0, "rooms": 0, "show": 0, "of": 0, "who": 1}.get(name, 2)
    words = [name] + forms[name] + random_window(dice)[:dates]
    if name == "book" and dice.random() < 0.6:
        words.append(who)
    if dice.random() < 0.03:
        words = dice.choice([words + ["1"], words[:-1], words[:1], [name.upper()] + words[1:]])
    return dice.choice([" ", " ", "  "]).join(words).encode() + dice.choice([b"", b"", b"\r", b" "])


def random_lines(dice, count):
    return [random_line(dice) for _ in range(count)]


if __name__ == "__main__":
    main("ivl_calendar", Calendar, random_lines, b"free 2026-03-01 2026-03-31")
