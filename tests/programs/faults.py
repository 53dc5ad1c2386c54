#!/usr/bin/env python3
"""What the programs do where a start, a line, a write or a read is not as usual: what no contract says of them.

usage: tests/programs/faults.py PROGRAM..     each program as it was built, as crates/ivl_run/out/ivl_run
"""

import os
import resource
import socket
import subprocess
import sys
import threading

# What is said of a line that is lost, and lines with their answers, of which the last is a question.
NO_MEMORY = b"error: out of memory\n"
PROGRAMS = {
    "ivl_run": (b"refused 4 memory\n", [(b"set a 1 5", b"ok\n"), (b"has a 5", b"yes\n"), (b"show a", b"[1..5]\n")]),
    "ivl_solve": (NO_MEMORY, [(b"var x 1 9", b"ok\n"), (b"cut x 2 5", b"ok\n"), (b"show", b"x [2..5]\nok\n")]),
    "ivl_ports": (NO_MEMORY, [(b"take 8", b"[1024..1031]\n"), (b"give 1026 1027", b"ok\n"), (b"free", b"64506 free: {[1026..1027][1032..65535]}\n")]),
    "ivl_blocks": (NO_MEMORY, [(b"take 8", b"[0..7]\n"), (b"give 2 3", b"ok\n"), (b"free", b"1099511627770 free in 2 runs\n")]),
    "ivl_ranges": (NO_MEMORY, [(b"i 0..7", b"ok\n"), (b"k 0..0", b"ok\n"), (b"length 8", b"ok\n"), (b"check", b"safe\n")]),
    "ivl_calendar": (
        NO_MEMORY,
        [(b"room blue", b"ok\n"), (b"book blue 2026-03-01 2026-03-04", b"booked\n"), (b"free 2026-03-01 2026-03-05", b"2026-03-05 to 2026-03-05\n")],
    ),
}
# A limit on memory in which each session here has room, and a line that has not.
LIMIT = 100_000_000
LONG = 300_000_000


def told_by(program):
    """What stands in PROGRAMS of a program."""
    return PROGRAMS[os.path.basename(program)]


def expect(program, what, found, expected):
    if found != expected:
        raise SystemExit(f"faults: {program}: {what}: {found!r} where {expected!r} should be")


def limited():
    resource.setrlimit(resource.RLIMIT_AS, (LIMIT, LIMIT))


def give(pipe, parts):
    """Writes the parts, each a line of bytes or the size of a long line."""
    piece = b"show x " * 10_000
    for part in parts:
        if isinstance(part, bytes):
            pipe.write(part)
        else:
            for _ in range(part // len(piece)):
                pipe.write(piece)
    pipe.close()


def run_limited(program, parts):
    """The status of the program under the limit, what it wrote, and what it said."""
    child = subprocess.Popen([program], stdin=subprocess.PIPE, stdout=subprocess.PIPE, stderr=subprocess.PIPE, preexec_fn=limited)
    writer = threading.Thread(target=give, args=(child.stdin, parts))
    writer.start()
    written, said = child.stdout.read(), child.stderr.read()
    writer.join()
    return child.wait(), written, said


def check_long_lines(program):
    """A line for which there is no memory is answered with that, once, and nothing else is otherwise for it."""
    lost, lines = told_by(program)
    question, answer = lines[-1]
    parts, answers = [], []
    for line, said in [*lines, (question + b" " * 60_000, answer)]:
        parts += [LONG, b"\n", line + b"\n"]
        answers += [lost, said]
    expect(program, "long lines", run_limited(program, [*parts, LONG]), (0, b"".join(answers) + lost, b""))


def check_arguments(program):
    """An argument that is not UTF-8 is one that no program understands: the proved ones then show their help, and those that Cargo built
    say so in one line."""
    one_line = f"{os.path.basename(program)}: there is no argument ".encode()
    for words in ([b"\xff"], [b"--help", b"\xff"], [b"--frob"]):
        ran = subprocess.run([program, *words], stdin=subprocess.DEVNULL, capture_output=True, check=False)
        is_told = ran.stderr.count(b"\n") == 1 if ran.stderr.startswith(one_line) else ran.stderr.count(b"\n") > 5
        expect(program, words, (ran.returncode, ran.stdout, is_told), (2, b"", True))
    with open("/dev/full", "wb") as full:
        for word in ("--help", "--version"):
            ran = subprocess.run([program, word], stdin=subprocess.DEVNULL, stdout=full, stderr=subprocess.PIPE, check=False)
            expect(program, f"{word} on a full disk", (ran.returncode, ran.stderr), (1, f"{os.path.basename(program)}: write failed\n".encode()))


def check_last_flush(program):
    """What only the last flush writes, since no newline ends the line, and cannot: the program says so."""
    with open("/dev/full", "wb") as full:
        question, _ = told_by(program)[1][-1]
        ran = subprocess.run([program], input=question, stdout=full, stderr=subprocess.PIPE, check=False)
    expect(program, "a last flush on a full disk", (ran.returncode, ran.stderr), (1, f"{os.path.basename(program)}: write failed\n".encode()))


def check_many_reads(program):
    """More reads than any number that a body might count to: each byte comes by a read of its own."""
    ours, theirs = socket.socketpair(socket.AF_UNIX, socket.SOCK_SEQPACKET)
    lines = told_by(program)[1]
    with subprocess.Popen([program], stdin=theirs, stdout=subprocess.PIPE) as child:
        theirs.close()
        for byte in b"\n" * 200_000 + b"".join(line + b"\n" for line, _ in lines):
            ours.send(bytes([byte]))
        ours.close()
        written = child.stdout.read()
    expect(program, "200,000 reads", (child.returncode, written), (0, b"".join(answer for _, answer in lines)))


def main(programs):
    for program in programs:
        check_long_lines(program)
        check_arguments(program)
        check_last_flush(program)
        check_many_reads(program)
        print(f"faults: {os.path.basename(program)}: as it should be")


if __name__ == "__main__":
    main(sys.argv[1:])
