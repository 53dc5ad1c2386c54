#!/usr/bin/env python3
"""Large inputs to the programs: each line may take the time of its own words and of what it asks.

usage: tests/programs/large.py PROGRAM..     each program as it was built, as crates/ivl_run/out/ivl_run

Each input is given in two sizes, one ten times the other. The large one may take at most 25 times as long, and 20 seconds: what
looks at all names, rooms or ranges for each line takes a hundred times as long.
"""

import datetime
import itertools
import os
import struct
import subprocess
import sys
import time

MOST_SECONDS = 20
# below this a measure is noise
LEAST_SECONDS = 0.05


def numbers(size):
    return " ".join(f"{3 * n} {3 * n + 1}" for n in range(size, 0, -1))


def day(number):
    return datetime.date.fromordinal(number + 1)


def busy_rooms(size):
    """Rooms with ten bookings each, on days of their own."""
    lines = []
    for room in range(size // 10):
        lines.append(f"room r{room}")
        lines += [f"book r{room} {day(2 * n)} {day(2 * n)}" for n in range(room, size, size // 10)]
    return "\n".join([*lines, f"free {day(0)} {day(2 * size)}\n"])


def descending_bookings(size):
    return "room blue\n" + "".join(f"book blue {day(2 * n)} {day(2 * n)}\n" for n in range(size, 0, -1)) + f"gap blue 2 {day(2)} {day(2 * size)}\n"


def different(count):
    """So many variables, no two of which are equal: a rule for each two of them."""
    names = [f"v{n}" for n in range(count)]
    return "".join(f"var {name} 0 {count}\n" for name in names) + f"different {' '.join(names)}\n" * 2


def folded(a, b):
    """The halves of a product of 128 bits, joined, as the kit's hasher without a key mixes two numbers."""
    return a * b % 2**64 ^ a * b >> 64


def names_that_collide(size):
    """Names of 32 bytes to which that hasher gives one hash: the third 8 bytes of each are the state that its first 16 bytes lead to,
    so that the product with the last 8 is 0."""
    for n in itertools.count():
        start = b"name%012d" % n
        first, second = struct.unpack("<QQ", start)
        state = struct.pack("<Q", folded(first ^ 0x243F6A8885A308D3 + 32, second ^ 0x9E3779B97F4A7C15))
        if all(0x21 <= byte < 0x7F for byte in state):
            return [(start + state + b"%08d" % k).decode() for k in range(size)]


INPUTS = {
    "ivl_run": {
        "lines": lambda size: "set a 1 5\n" + "size a\n" * (10 * size),
        "pairs": lambda size: f"set a {numbers(size)}\ncount a\nshow a\n",
    },
    "ivl_solve": {
        "variables": lambda size: "".join(f"var v{n} 0 9\n" for n in range(size)),
        "names that collide": lambda size: "".join(f"var {name} 0 9\n" for name in names_that_collide(size)),
        "cuts": lambda size: "".join(f"var v{n} 0 9\n" for n in range(size)) + "".join(f"cut v{n} 1 9\n" for n in range(size)),
        "lines that change nothing": lambda size: "".join(f"var v{n} 0 9\n" for n in range(4 * size)) + "go on\n" * (size // 10),
        "unknown names": lambda size: "".join(f"cut v{n} 0 9\n" for n in range(size)),
        "rules that share a variable": lambda size: "var x 0 9\n" + "".join(f"var v{n} 0 9\nv{n} <= x\n" for n in range(size // 2)),
        "different numbers, twice": lambda size: different(round((10 * size) ** 0.5)),
        "a long name": lambda size: f"var {'x' * (10 * size)} 0 9\nshow\n",
        "pairs": lambda size: f"var x {numbers(size)}\nshow x\n",
    },
    "ivl_ports": {
        "lines": lambda size: "take 1\ngive 1024 1024\n" * size,
        "runs": lambda size: "".join(f"take 2\ngive {port} {port}\n" for port in range(1025, 1025 + size // 5, 2)),
    },
    "ivl_blocks": {
        "lines": lambda size: "take 1\ngive 0 0\n" * size,
        "runs": lambda size: "".join(f"take 2\ngive {block} {block}\n" for block in range(1, size, 2)) + "free\nlargest\n",
    },
    "ivl_ranges": {
        "ranges": lambda size: "i " + " ".join(f"{3 * n}..{3 * n + 1}" for n in range(size, 0, -1)) + "\n",
        "checks": lambda size: "i 0..7 9..9\nk -1..1\nlength 10\n" + "check\n" * size,
        "many by many": lambda size: "".join(
            f"{name} " + " ".join(f"{3 * n}..{3 * n}" for n in range(size // 5)) + "\n" for name in "ik"
        )
        + f"length {6 * size}\ncheck\n",
    },
    "ivl_calendar": {
        "rooms": lambda size: "".join(f"room r{n}\n" for n in range(size)),
        "busy rooms": lambda size: busy_rooms(3 * size),
        "bookings of one room": lambda size: descending_bookings(3 * size),
        "bookings": lambda size: "".join(f"room r{n}\nbook r{n} 2026-03-01 2026-03-04\n" for n in range(size)),
        "bookings for names": lambda size: "room blue\n"
        + "".join(f"book blue {day(2 * n)} {day(2 * n)} n{n % 7}\nwho blue {day(2 * n)}\n" for n in range(1, size)),
        "a long name": lambda size: f"room {'x' * (10 * size)}\nbook {'x' * (10 * size)} 2026-03-01 2026-03-04\n",
    },
}


def seconds(program, text):
    began = time.monotonic()
    ran = subprocess.run([program], input=text.encode(), capture_output=True, check=False)
    if ran.returncode != 0 or ran.stderr:
        raise SystemExit(f"large: {program}: status {ran.returncode}, {ran.stderr!r}")
    if b"memory" in ran.stdout:
        raise SystemExit(f"large: {program}: a line was refused with ample memory")
    return time.monotonic() - began, ran.stdout.count(b"\n")


def main(programs):
    for program in programs:
        shown = []
        name = os.path.basename(program)
        for what, make in INPUTS[name].items():
            few, many = make(10_000), make(100_000)
            # a machine with other work may take long once, and not three times
            for _ in range(3):
                short, _ = seconds(program, few)
                long, answers = seconds(program, many)
                is_slow = long > MOST_SECONDS or long > 25 * max(short, LEAST_SECONDS)
                if not is_slow:
                    break
            shown.append(f"{what} {long:.2f} s")
            if is_slow:
                raise SystemExit(f"large: {name}: {what}: {short:.2f} s and, ten times as large, {long:.2f} s for {answers} answers")
        print(f"large: {name}: {', '.join(shown)}")


if __name__ == "__main__":
    main(sys.argv[1:])
