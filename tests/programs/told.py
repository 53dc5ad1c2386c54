#!/usr/bin/env python3
"""Each row of the errors of docs/PROGRAMS.md, asked: each line of a row is to be answered as it says, and to change nothing.

usage: tests/programs/told.py PROGRAM..     each program as it was built; those without such rows are passed over
"""
import os
import re
import subprocess
import sys

TOP = os.path.dirname(os.path.dirname(os.path.dirname(os.path.realpath(__file__))))
# What goes before the lines, and a line whose answer stays the same.
BEFORE = {"ivl_ports": (["take 8"], "free"), "ivl_blocks": (["take 8"], "free"), "ivl_calendar": (["room blue"], "show blue"), "ivl_ranges": ([], "check")}


def rows():
    """The lines and the answer of each row, by the program."""
    found, program = {}, None
    with open(os.path.join(TOP, "docs", "PROGRAMS.md"), encoding="utf-8") as page:
        for line in page:
            if heading := re.match(r"## `(\w+)`", line):
                program = heading[1]
            elif program and (row := re.match(r"\| (`.*`[^|]*) \| `(error: .*)` \|$", line)):
                found.setdefault(program, []).append((re.findall("`([^`]*)`", row[1]), row[2]))
    return found


def main(programs):
    count = 0
    found = rows()
    for path in programs:
        name = os.path.basename(path)
        if name not in BEFORE:
            continue
        before, same = BEFORE[name]
        asked, wanted = [*before, same], []
        for lines, answer in found[name]:
            for line in lines:
                asked += [line, same]
                wanted += [answer, None]
        ran = subprocess.run([path], input="".join(line + "\n" for line in asked), capture_output=True, text=True, check=True)
        answers = ran.stdout.splitlines()[len(before) :]
        for line, answer, want in zip(asked[len(before) + 1 :], answers[1:], wanted, strict=True):
            if answer != (answers[0] if want is None else want):
                sys.exit(f"told: {name}: {line!r} is answered {answer!r}, and not {want!r}")
        count += len(wanted) // 2
    print(f"told: {count} lines are refused as docs/PROGRAMS.md says")


if __name__ == "__main__":
    main(sys.argv[1:])
