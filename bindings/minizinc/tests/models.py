"""What the tests of fzn-intervallum share: running a solver over a FlatZinc file, and what it answered."""

import collections
import hashlib
import os
import re
import subprocess
import time

HERE = os.path.dirname(os.path.realpath(__file__))
PROGRAM = os.path.join(HERE, "../target/release/fzn-intervallum")
STORED = os.path.join(HERE, "models")

Ran = collections.namedtuple("Ran", "solutions end fault seconds stats")


def run(command, path, seconds=60):
    """The solutions, each as its sorted lines, how the search ended, and what was said of a fault; None after so many seconds."""
    begun = time.time()
    try:
        done = subprocess.run([*command, path], capture_output=True, text=True, timeout=seconds, check=False)
    except subprocess.TimeoutExpired:
        return None
    took = time.time() - begun
    stats = dict(re.findall(r"%%%mzn-stat: (\w+)=(\S+)", done.stdout))
    body = re.sub(r"%%%mzn-stat.*\n", "", done.stdout)
    parts = body.split("----------\n")
    solutions = ["\n".join(sorted(re.sub(r"\s", "", line) for line in part.strip().splitlines())) for part in parts[:-1]]
    end = re.sub("=", "", parts[-1].strip()) or ("all" if "==========" in parts[-1] else "more")
    return Ran(solutions, end, done.stderr.strip(), took, stats)


def goal_of(text):
    """The name of the variable that is minimized or maximized, or None."""
    found = re.search(r"(?m)^solve\b.*\b(?:minimize|maximize)\s+(\w+)\s*;", text)
    return found and found[1]


def with_goal_shown(text):
    """The model, in which the variable of the goal is printed."""
    goal = goal_of(text)
    if not goal:
        return text
    declared = re.search(rf"(?m)^var [^:;]*: {goal}\b[^;\n]*;", text)
    if not declared or "output_var" in declared[0]:
        return text
    return text.replace(declared[0], re.sub(rf": {goal}\b", f": {goal} :: output_var", declared[0], count=1), 1)


def answer(ran, goal):
    """One line that two solvers have in common exactly if they answer the same."""
    if ran is None:
        return "no answer in time"
    if ran.end not in ("all", "UNSATISFIABLE"):
        return f"{ran.end} {ran.fault}"
    if not ran.solutions:
        return "none"
    if goal:
        value = re.search(rf"(?m)^{goal}=(-?\d+);", ran.solutions[-1])
        return f"best {value[1]}"
    digest = hashlib.sha256("\n\n".join(sorted(ran.solutions)).encode()).hexdigest()
    return f"{len(ran.solutions)} solutions {digest[:16]}"
