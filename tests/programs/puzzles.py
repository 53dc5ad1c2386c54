#!/usr/bin/env python3
"""Puzzles as sessions of ivl_solve, by sums alone and by rules: the number of their solutions, and each of these beside the lines. Before them
what limits make unfinished.

usage: tests/programs/puzzles.py PROGRAM     ivl_solve, as it was built

A puzzle by sums is a file of lines `domain l u l u ..`, one for each variable, and `sum x y z` for the variables of these numbers. By rules it
is lines of ivl_solve, made by ruled.py.
"""

import os
import subprocess
import sys

import ruled
from ivl_solve import rule_of

TOP = os.path.dirname(os.path.dirname(os.path.dirname(os.path.realpath(__file__))))
PUZZLES = os.path.join(TOP, "bindings", "rust", "tests", "puzzles")

# How many solutions each has, as Gecode counts them, and the limit that it takes, where that is above the one of the start.
SOLUTIONS = {
    "queens6": (4, None),
    "queens8": (92, None),
    "magic3": (8, None),
    "sendmore": (1, None),
    "golomb5_11": (4, None),
    "langford4": (2, None),
    "coins50": (146, 6_500_000),
}

RULED = {
    "queens6": ruled.queens(6),
    "queens8": ruled.queens(8),
    "magic3": ruled.magic(),
    "sendmore": ruled.letters(),
    "golomb5_11": ruled.golomb(5, 11),
    "langford4": ruled.langford(4),
    "coins50": ruled.coins(50),
}


def read(name):
    """The domains and the sums of a puzzle, each a list of numbers."""
    with open(os.path.join(PUZZLES, name + ".txt"), encoding="utf-8") as file:
        lines = [line.split() for line in file]
    return [[[int(word) for word in words] for kind, *words in lines if kind == wanted] for wanted in ("domain", "sum")]


def by_sums(name):
    """The lines of a puzzle by sums."""
    domains, sums = read(name)
    return [f"var v{i} " + " ".join(map(str, domain)) for i, domain in enumerate(domains)] + [f"sum v{x} v{y} v{z}" for x, y, z in sums]


def holds(line, point):
    """Whether what a line says is so at a point."""
    name, *words = line.split(" ")
    if name == "var":
        return any(int(l) <= point[words[0]] <= int(u) for l, u in zip(words[1::2], words[2::2]))
    if name == "sum":
        return point[words[0]] + point[words[1]] == point[words[2]]
    if name == "different":
        return len({point[word] for word in words}) == len(words)
    return rule_of(line.encode().split(b" ")).holds({word.encode(): value for word, value in point.items()})


def is_solution(words, lines):
    """Whether a line of solutions gives each variable a number, and each line holds there."""
    names = [line.split(" ")[1] for line in lines if line.startswith("var ")]
    point = {name: int(word) for name, word in zip(words[::2], words[1::2])}
    return words[::2] == names and all(holds(line, point) for line in lines)


def solve(program, name, model, number, limit):
    lines = [f"limit {limit}"] if limit else []
    text = "".join(line + "\n" for line in [*lines, *model, "count", "solve"])
    ran = subprocess.run([program], input=text, capture_output=True, text=True, timeout=60, check=False)
    if (ran.returncode, ran.stderr) != (0, ""):
        raise SystemExit(f"puzzles: {name}: status {ran.returncode}, {ran.stderr!r}")
    answers = ran.stdout.splitlines()
    expected = ["ok"] * len([*lines, *model]) + [f"count {number}", "ok"]
    if answers[: len(expected)] != expected or answers[-1] != "ok":
        raise SystemExit(f"puzzles: {name}: {answers[len(expected) - 2:len(expected)]} .. {answers[-1]!r}")
    points = answers[len(expected) : -1]
    if len(set(points)) != number or len(points) != number or not all(is_solution(point.split(" "), model) for point in points):
        raise SystemExit(f"puzzles: {name}: {len(points)} lines, some of them no solutions, or twice")


def best_within_nodes(program):
    """`min` and `max` under limits of 0, 1, 2 .. nodes, of which 9 suffice: the best point so far is shown, and no better one is known."""
    # z = 9 - y, and y is cut first: each half of the numbers of z has a solution, and a better one
    lines = ["var y 0 9", "var n 9 9", "var z 0 9", "sum z y n"]
    for asked, optimum in (("min", 0), ("max", 9)):
        told = []
        for nodes in range(10):
            text = "".join(line + "\n" for line in [*lines, f"limit {500 * nodes}", f"{asked} z"])
            ran = subprocess.run([program], input=text, capture_output=True, text=True, timeout=60, check=False)
            *points, end = ran.stdout.splitlines()[len(lines) + 1 :]
            told.append((end, [abs(int(point.split(" ")[5]) - optimum) for point in points]))
        distances = [point[0] if point else 10 for _, point in told]
        ends = [end for end, _ in told]
        if ends != ["unfinished"] * 9 + ["ok"] or distances[-1] != 0 or distances != sorted(distances, reverse=True) or len(set(distances)) < 4:
            raise SystemExit(f"puzzles: {asked} within so many nodes: {told}")


def settled_rules_stop_no_line(program):
    """A rule that counts for more than the limit makes a line unfinished only where it waits."""
    evens = " ".join(f"{2 * n} {2 * n}" for n in range(60))
    lines = [(f"var {name} {evens}", "ok") for name in "abc"] + [("sum a b c", "ok"), ("var x 0 9", "ok"), ("var y 0 9", "ok"), ("limit 5", "ok")]
    # the sum counts for 43
    lines += [("x + 1 <= y", "ok"), ("go on", "ok"), ("sum a b c", "ok"), ("cut a 0 118", "ok"), ("cut y 0 8", "ok"), ("show x", "x [0..7]\nok")]
    lines += [("cut a 2 118", "unfinished"), ("x + 2 <= y", "unfinished"), ("show x", "x [0..7]\nunfinished"), ("go on", "unfinished")]
    lines += [("limit 100000", "unfinished"), ("go on", "ok")]
    text = "".join(line + "\n" for line, _ in lines)
    ran = subprocess.run([program], input=text, capture_output=True, text=True, timeout=60, check=False)
    if ran.stdout != "".join(answer + "\n" for _, answer in lines):
        raise SystemExit(f"puzzles: a rule that is settled and counts for much: {ran.stdout.splitlines()}")


def main(program):
    best_within_nodes(program)
    settled_rules_stop_no_line(program)
    for name, (number, limit) in SOLUTIONS.items():
        solve(program, name, by_sums(name), number, limit)
        solve(program, name + " by rules", RULED[name], number, limit)
    print(f"puzzles: {len(SOLUTIONS)} by sums and by rules, as they should be")


if __name__ == "__main__":
    main(*sys.argv[1:])
