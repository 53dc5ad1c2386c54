#!/usr/bin/env python3
"""Gives the solver less memory than a search wants, by 1,600 limits of its address space and by small stacks.

usage: tests/programs/limits.py PROGRAM     ivl_solve, as it was built

Each run counts solutions over 1,000 variables of two values. Whatever the limit, the program is not ended by a signal: it answers
each line, some of them by `error: out of memory`, and the next one as before; or it says at the start that there is no memory.
"""

import concurrent.futures
import os
import resource
import subprocess
import sys

LINES = "".join(f"var v{n} 0 1\n" for n in range(1000)) + "count\ncount\nvar last 7 7\nshow last\n"
LIMITS = 1600
STEP = 8 << 10


def run(program, space, stack=8 << 20):
    """The status and what is written, with so many bytes of address space and of stack."""

    def limit():
        resource.setrlimit(resource.RLIMIT_STACK, (stack, stack))
        resource.setrlimit(resource.RLIMIT_AS, (space, space))

    ran = subprocess.run([program], input=LINES, capture_output=True, text=True, preexec_fn=limit, check=False)
    return ran.returncode, ran.stdout.splitlines(), ran.stderr


def kind(status, answers, told):
    """What a run came to, in a word, or None if it is not as it should be."""
    if not answers:
        # the program or the system's loader had no memory to begin with; what Rust has of its own before `main` ends by a signal
        return "did not begin" if told and (status > 0 or status == -6) else None
    if status != 0 or told:
        return None
    if "error: out of memory" in answers:
        return "refused lines"
    return "answered all" if answers[:1000] == ["ok"] * 1000 and answers[-2:] == ["last [7..7]", "ok"] else None


def main(program):
    least = next(space for space in range(1 << 20, 1 << 30, 64 << 10) if run(program, space)[0] == 0)
    spaces = [least - 64 * STEP + STEP * place for place in range(LIMITS)]
    count = {}
    with concurrent.futures.ThreadPoolExecutor(os.cpu_count()) as pool:
        for space, ran in zip(spaces, pool.map(lambda space: run(program, space), spaces)):
            found = kind(*ran)
            if found is None:
                raise SystemExit(f"limits: {program}: {space} bytes: status {ran[0]}, {len(ran[1])} answers, {ran[2]!r}")
            count[found] = count.get(found, 0) + 1
    for stack in (128 << 10, 256 << 10, 512 << 10):
        ran = run(program, 4 << 30, stack)
        if kind(*ran) != "answered all":
            raise SystemExit(f"limits: {program}: a stack of {stack} bytes: status {ran[0]}, {ran[2]!r}")
    print(f"limits: {os.path.basename(program)}: of {LIMITS} limits " + ", ".join(f"{many} {what}" for what, many in sorted(count.items())))


if __name__ == "__main__":
    main(sys.argv[1])
