#!/usr/bin/env python3
"""A week of a small office and a day of a server's ports, kept in files, beside the models of the two programs.

usage: tests/programs/days.py FOLDER [--seed N]     the folder of the six programs as Cargo built them

The office has 120 bookings, some of which are cancelled, and looks at its rooms; on Wednesday the power fails while lines are answered. The
server takes and gives ports 100,000 times, and is started ten times. Both files are compacted at the end, and tell the same as before.
"""
import datetime
import os
import random
import subprocess
import sys
import tempfile
import time

from ivl_calendar import Calendar
from ivl_ports import Ports

FOLDER = ""
ROOMS, PEOPLE = ["blue", "red", "green", "attic"], ["anna", "ben", "carla", "dora", "emil"]


def expect(what, found, wanted):
    if found != wanted:
        sys.exit(f"days: {what}: {found!r:.400} where {wanted!r:.400} should be")


def command(name, path):
    return [os.path.join(FOLDER, f"ivl_{name}"), "--keep", path]


def session(name, path, lines):
    """The answers to these lines, each as bytes with its newline."""
    done = subprocess.run(command(name, path), input=b"".join(line + b"\n" for line in lines), capture_output=True, timeout=300, check=False)
    expect(f"{name}, the end of a session", (done.returncode, done.stderr), (0, b""))
    return done.stdout.splitlines(keepends=True)


def day_of(dice):
    return datetime.date(2026, 3, 2) + datetime.timedelta(dice.randrange(42))


def office_line(dice, booked):
    """A line of the office: a booking, one that is taken back, or a look."""
    first = day_of(dice)
    dates = f"{first} {first + datetime.timedelta(dice.choice([0, 0, 1, 2, 4]))}"
    room, who, kind = dice.choice(ROOMS), dice.choice(PEOPLE), dice.random()
    if kind < 0.5:
        booked.append(f"{room} {dates}")
        return f"book {room} {dates}{dice.choice([f' {who}', f' {who}', f' {who}', ''])}"
    if kind < 0.65 and booked:
        return "cancel " + dice.choice(booked)
    return dice.choice([f"show {room}", f"who {room} {first}", f"of {who}", f"gap {room} 2 {dates.split()[0]} 2026-04-30", "free 2026-03-01 2026-04-30", "rooms", f"boook {room}"])


def office_lines(dice, booked, bookings):
    """Lines with so many bookings."""
    lines = []
    while bookings:
        lines.append(office_line(dice, booked))
        bookings -= lines[-1].startswith("book ")
    return [line.encode() for line in lines]


LOOKS = [b"rooms"] + [f"show {room}".encode() for room in ROOMS] + [f"of {who}".encode() for who in PEOPLE]


def power_fails(path, model, lines):
    """Some lines are answered, and the program is ended in the middle, with a line that is torn; the model then has what the file has."""
    # (without a buffer here, of which the last answers would be lost)
    child = subprocess.Popen(command("calendar", path), stdin=subprocess.PIPE, stdout=subprocess.PIPE, bufsize=0)
    child.stdin.write(b"".join(line + b"\n" for line in lines))
    child.stdin.flush()
    answers = [child.stdout.readline() for _ in range(len(lines) // 2)]
    child.kill()
    rest, _ = child.communicate()
    answers += [line for line in rest.splitlines(keepends=True) if line.endswith(b"\n")]
    for line, answer in zip(lines, answers):
        expect(line, answer, model.answer(line))
    with open(path, "ab") as file:
        file.write(b"???????? book blue 2026-0")
    done = subprocess.run(command("calendar", path), input=b"".join(look + b"\n" for look in LOOKS), capture_output=True, check=False)
    expect("after the power failed", (done.returncode, done.stderr.endswith(b"the last line is torn and is left out; it was never answered\n")), (0, True))
    looks = [model.answer(look) for look in LOOKS]
    if done.stdout != b"".join(looks):
        # one line more may have been carried out, whose answer was not seen
        model.answer(lines[len(answers)])
        expect("after the power failed", done.stdout, b"".join(model.answer(look) for look in LOOKS))
    return len(answers)


def office(dice, work):
    """Monday to Friday; returns how many lines there were."""
    path, model, booked, count = os.path.join(work, "office"), Calendar(), [], 0
    first = [f"room {room}".encode() for room in ROOMS]
    for weekday in range(5):
        lines = first + office_lines(dice, booked, 24)
        first = []
        if weekday == 2:
            lines = lines[power_fails(path, model, lines) :]
            # (the line that was carried out without an answer is answered as taken, or as it would be)
        answers = session("calendar", path, lines)
        expect("answers of a day", answers, [model.answer(line) for line in lines])
        count += len(lines)
    before = session("calendar", path, LOOKS)
    expect("the state", before, [model.answer(look) for look in LOOKS])
    compacted("calendar", path)
    expect("the state, compacted", session("calendar", path, LOOKS), before)
    return count


def compacted(name, path):
    with open(path, "rb") as file:
        lines = file.read().count(b"\n") - 1
    done = subprocess.run([*command(name, path), "--compact"], capture_output=True, check=False)
    with open(path, "rb") as file:
        fewer = file.read().count(b"\n") - 1
    expect("--compact", (done.returncode, done.stdout, done.stderr.decode()), (0, b"", f"ivl_{name}: {path}: {fewer} lines in place of {lines}\n"))
    expect("--compact has fewer lines", fewer <= lines, True)


def port_line(dice, held):
    """Takes some ports, or gives some back that may be held."""
    if held and dice.random() < 0.5:
        first, last = held.pop(dice.randrange(len(held)))
        return b"give %d %d" % (first, last)
    count = dice.choice([1, 1, 2, 4, 8, 30])
    return b"take %d%s" % (count, dice.choice([b"", b"", b" at %d" % dice.randrange(1024, 65536), b" above %d" % dice.randrange(1024, 65536)]))


def server(dice, work):
    """Ten starts of a server; returns how many lines there were."""
    path, model, held, count = os.path.join(work, "server"), Ports(), [], 0
    for _ in range(10):
        lines, wanted = [], []
        while len(lines) < 10_000:
            line = port_line(dice, held)
            answer = model.answer(line)
            if answer.startswith(b"["):
                held.append(tuple(int(end) for end in answer[1:-2].split(b"..")))
            lines.append(line)
            wanted.append(answer)
        expect("ports of a start", session("ports", path, lines), wanted)
        count += len(lines)
    before = session("ports", path, [b"free"])
    expect("the ports", before, [model.answer(b"free")])
    compacted("ports", path)
    expect("the ports, compacted", session("ports", path, [b"free", b"take 1"]), [*before, model.answer(b"take 1")])
    return count


def main(words):
    global FOLDER
    FOLDER = words[0]
    seed = int(words[words.index("--seed") + 1]) if "--seed" in words else random.randrange(2**32)
    began = time.monotonic()
    # in memory where that can be: each line is on the disk before it is answered
    with tempfile.TemporaryDirectory(dir="/dev/shm" if os.path.isdir("/dev/shm") else None) as work:
        try:
            lines = office(random.Random(f"{seed} office"), work)
            ports = server(random.Random(f"{seed} server"), work)
        except SystemExit as fault:
            raise SystemExit(f"seed {seed}: {fault}") from None
    print(f"days: a week of an office, {lines} lines, and a day of ports, {ports} lines, as the models have them, in {time.monotonic() - began:.0f} s")


if __name__ == "__main__":
    main(sys.argv[1:])
