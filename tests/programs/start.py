#!/usr/bin/env python3
"""What `./run` says and does around a program: help, version, wrong words, limits on memory and on time, a terminal, a pipe.

usage: tests/programs/start.py PROGRAM     the calculator, as the gate built it in crates/ivl_run/out, or as Cargo did
"""

import os
import pty
import subprocess
import sys

TOP = os.path.dirname(os.path.dirname(os.path.dirname(os.path.realpath(__file__))))
RUN = os.path.join(TOP, "run")
OUT = os.path.join(TOP, "crates", "ivl_run", "out")
BY_CARGO = b"run: this is the proved source as Cargo compiled it; ./run --prove proves it here first, and runs what was proved\n"
# What `./run` takes, and says first: the program that Cargo builds is tried also where one was proved.
WORDS, LEAD = [], b""

# Sums of 64, of 4,096 and of 16,777,216 runs, which take 256 MB.
LARGE = b"""set a 0 0 2 2 4 4 6 6 8 8 10 10 12 12 14 14
timesv b a 100
plus a a b
timesv b a 10000
plus a a b
timesv b a 100000000
plus c a b
count c
set d 1 5
show d
"""

# Sums of sets of 8 and more numbers, each of which has twice as many as the one before it: the last takes days.
LONG = b"set a 0 0 2 2 4 4 6 6 8 8 10 10 12 12 14 14\n" + b"plus a a a\n" * 20


def said(arguments, data=b""):
    """The status of `./run`, and what it writes to standard output and to standard error."""
    ran = subprocess.run([RUN, *arguments, *(WORDS if data else [])], input=data, capture_output=True, check=False)
    return ran.returncode, ran.stdout, ran.stderr


def on_a_terminal(data):
    """What `./run` writes where a terminal is its standard input."""
    master, slave = pty.openpty()
    child = subprocess.Popen([RUN, *WORDS], stdin=slave, stdout=subprocess.PIPE, stderr=subprocess.PIPE)
    os.close(slave)
    os.write(master, data)
    written, told = child.communicate(timeout=60)
    os.close(master)
    return child.returncode, written, told


def expect(what, found, expected):
    if found != expected:
        raise SystemExit(f"start: {what}: {found!r} where {expected!r} should be")


def main(program):
    global WORDS, LEAD
    if not os.access(program, os.X_OK):
        raise SystemExit(f"start: {program} is not built")
    if os.path.realpath(program) == os.path.join(OUT, "ivl_run"):
        # it was proved just now: ./run need not look again
        with open(os.path.join(OUT, "run.proved"), "w", encoding="utf-8"):
            pass
    else:
        WORDS, LEAD = ["--try"], BY_CARGO
    version = open(os.path.join(TOP, "VERSION"), encoding="utf-8").read().strip().encode()
    expect("--version", said(["--version"]), (0, b"ivl_run " + version + b"\n", b""))
    expect("solve --version", said(["solve", "--version"]), (0, b"ivl_solve " + version + b"\n", b""))
    for words in (["--help"], ["solve", "--help"], ["ports", "--help"], ["blocks", "--help"], ["ranges", "--help"], ["calendar", "--help"]):
        status, text, told = said(words)
        expect(words, (status, told, text.startswith(b"usage: ./run"), text.count(b"\n") > 12), (0, b"", True, True))
        # a program says nothing of the others
        expect(words, (b"CALCULATOR" in text, b"calendar  " in text), (words[0] == "--help", words[0] == "--help"))
    for words in (["--frob"], ["frob"], ["--memory"], ["--memory", "much"], ["--memory=5X"], ["--seconds"], ["--seconds", "0"], ["--seconds=x"], ["--compact"]):
        status, text, told = said(words)
        expect(words, (status, text, bool(told)), (2, b"", True))
    expect("an unknown program", said(["frob"])[2], b"run: there is no program frob; there are solve, ports, blocks, ranges and calendar, and without a name it is the calculator\n")
    expect("an argument of a program", said(["solve", "frob"])[2].split(b";")[0], b"run: ./run solve takes no argument frob")
    expect("too little memory", said(["--memory", "1"]), (2, b"", LEAD + b"run: --memory is too little for the program to start: 0 K\n"))
    expect("a pipe", said([], b"set a 1 5\nquit\nshow a"), (0, b"ok\nbad line\n[1..5]\n", LEAD))
    expect("a limit", said(["--memory", "200M"], LARGE), (0, b"ok\n" * 6 + b"refused 4 memory\n0\nok\n[1..5]\n", LEAD))
    status, written, told = said(["--seconds", "1"], LONG)
    ended = told.endswith(b"run: ended, for it has used its 1 seconds of a processor\n")
    expect("a limit on time", (status, ended, written[:18], len(written) < 63), (152, True, b"ok\n" * 6, True))
    expect("no limit on time reached", said(["--seconds=60"], b"set a 1 2\nshow a\n"), (0, b"ok\n[1..2]\n", LEAD))
    status, written, told = on_a_terminal(b"set a 1 5\nfrob\nfrob\nshow a\nquit\nshow a\n")
    expect("a terminal", (status, written), (0, b"ok\nbad line\nbad line\n[1..5]\n"))
    if WORDS:
        # what Cargo built asks for the lines itself: tests/programs/terminal.py
        expect("a terminal", (told.startswith(LEAD + b"ivl_run: one line at a time; "), told.count(b"sets> ")), (True, 5))
    else:
        hint = b"run: one line at a time; ./run --help lists them; quit ends it\n"
        expect("a terminal", told, hint + b"run: ./run --help lists the lines that are understood\n")
    print("start: as it should be")


if __name__ == "__main__":
    sys.exit(main(sys.argv[1]))
