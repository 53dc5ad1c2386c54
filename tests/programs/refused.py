#!/usr/bin/env python3
"""Refuses each request for memory of the stored session of a program in turn, as Cargo built it, from the first read on.

usage: tests/programs/refused.py PROGRAM..

For the calculator each of its commands comes behind the stored session. The line that meets the refusal is answered so, and all others as by the session that never had that line; or nothing differs.
"""

import concurrent.futures
import os
import subprocess
import sys
import tempfile

HERE = os.path.dirname(os.path.realpath(__file__))
CRATES = os.path.join(HERE, "..", "..", "crates")
REFUSED = (b"error: out of memory\n", b"refused 4 memory\n")
OPERANDS = "set a 1 3 8 8 10 11,set b 2 5 7 8 12 15"
COMMANDS = (
    "set c 4 9 2 2 7 12,union c a b,inter c a b,diff c a b,sym c a b,comp c a,left c a 3,right c a 8,sleft c a 3,sright c a 8,"
    "plus c a b,minus c a b,times c a b,plusv c a 3,minusv c a 3,timesv c a -3,show a"
)
MORE_LINES = {
    "ivl_run": [f"{line}\n".encode() for command in COMMANDS.split(",") for line in (*OPERANDS.split(","), command, "show c", "size a", "high b")]
}


def answers(program, lines):
    """What the program writes for these lines."""
    return subprocess.run([program], input=b"".join(lines), stdout=subprocess.PIPE, check=True).stdout


def refusing(program, lines, number, shim):
    """What it writes where one request is refused, how it ends, and whether it made so many requests."""
    reader, writer = os.pipe()
    environment = {**os.environ, "LD_PRELOAD": shim, "REFUSE": str(number), "REFUSE_TOLD": str(writer)}
    ran = subprocess.run([program], input=b"".join(lines), capture_output=True, env=environment, pass_fds=[writer], check=False)
    os.close(writer)
    is_met = os.read(reader, 1) != b""
    os.close(reader)
    return ran.stdout, (ran.returncode, ran.stderr), is_met


def checked(program, lines, ends, number, shim):
    """Whether a line was refused at this request, or None if there is no such request."""
    written, end, is_met = refusing(program, lines, number, shim)
    whole = ends["whole"]
    if not is_met:
        return None
    if end != (0, b""):
        raise SystemExit(f"refused: {program}: request {number}: it ended with {end}")
    if written == whole:
        return False
    for text in REFUSED:
        for line, (before, after) in enumerate(zip(ends["lengths"], ends["lengths"][1:])):
            is_here = written[:before] == whole[:before] and written[before : before + len(text)] == text
            if after > before and is_here and whole[before : before + len(text)] != text:
                without = answers(program, lines[:line] + lines[line + 1 :])
                if written == without[:before] + text + without[before:]:
                    return True
    raise SystemExit(f"refused: {program}: request {number}: the line that was refused left a trace")


def check(program, shim, pool):
    name = os.path.basename(program)
    with open(os.path.join(CRATES, name, "stdin"), "rb") as file:
        lines = file.read().splitlines(keepends=True) + MORE_LINES.get(name, [])
    lengths = list(pool.map(lambda count: len(answers(program, lines[:count])), range(len(lines) + 1)))
    ends = {"whole": answers(program, lines), "lengths": lengths}
    met, refused, first, is_over = 0, 0, 0, False
    while not is_over:
        for found in pool.map(lambda number: checked(program, lines, ends, number, shim), range(first, first + 64)):
            is_over = is_over or found is None
            met += found is not None
            refused += found is True
        first += 64
    print(f"refused: {name}: {len(lines)} lines, {met} requests refused in turn, {refused} lines answered so")


def main(programs):
    with tempfile.TemporaryDirectory() as work, concurrent.futures.ThreadPoolExecutor(os.cpu_count()) as pool:
        shim = os.path.join(work, "refuse.so")
        subprocess.run(["cc", "-O2", "-shared", "-fPIC", "-o", shim, os.path.join(HERE, "refuse.c")], check=True)
        for program in programs:
            check(program, shim, pool)


if __name__ == "__main__":
    main(sys.argv[1:])
