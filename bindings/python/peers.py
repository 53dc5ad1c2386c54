"""Times sets of intervals in Python beside `intervaltree`, `SortedSet` of `sortedcontainers` and `set`, where these are installed.

bindings/peers runs it, and makes a table of what it prints. A line is a task, the number of runs, a kind of set, and nanoseconds. An edit is half of the time of adding a number and taking it out. What would take longer than five
seconds, by the time of fewer runs, is left out.
"""

import importlib
import random
import time

from intervallum import IntervalSet, MutableIntervalSet


def drawn(count, seed):
    """Runs of 1 to 8 numbers with gaps of 1 to 8."""
    draw, made, at = random.Random(seed), [], 0
    for _ in range(count):
        lower = at + 2 + draw.randrange(8)
        at = lower + draw.randrange(8)
        made.append((lower, at))
    return made


def least(call):
    """The least time of a call in ten rounds, each of a fiftieth of a second or one call, in nanoseconds of the processor."""
    taken, calls = 0.0, 1
    while True:
        taken = timed(call, calls)
        if taken > 0.02:
            break
        calls *= 2
    rounds = 9 if taken < 1 else 1
    return 1e9 * min([taken, *(timed(call, calls) for _ in range(rounds))]) / calls


def timed(call, calls):
    started = time.process_time()
    for _ in range(calls):
        call()
    return time.process_time() - started


def members(runs):
    return [number for lower, upper in runs for number in range(lower, upper + 1)]


def adding(made, number):
    made.add(number)
    made.discard(number)


def adding_run(made, number):
    made.addi(number, number + 1)
    made.removei(number, number + 1)


def anew(made, number):
    return (made | {number}) - {number}


def kinds():
    """A name, how a set is made of runs, how two are united and intersected, a search, an edit."""
    union, common, has = (lambda a, b: a | b), (lambda a, b: a & b), (lambda a, v: v in a)
    yield "IntervalSet", IntervalSet, union, common, has, anew
    yield "MutableIntervalSet", MutableIntervalSet, union, common, has, adding
    yield "set", lambda runs: set(members(runs)), union, common, has, adding
    try:
        sorted_set = importlib.import_module("sortedcontainers").SortedSet
        yield "SortedSet", lambda runs: sorted_set(members(runs)), union, common, has, adding
    except ImportError:
        pass
    try:
        tree = importlib.import_module("intervaltree").IntervalTree
    except ImportError:
        return

    def united(a, b):
        made = a | b
        made.merge_overlaps(strict=False)
        return made

    yield "intervaltree", lambda runs: tree.from_tuples((lower, upper + 1) for lower, upper in runs), united, None, lambda a, v: a.overlaps(v), adding_run


def main():
    took = {}
    for count in (10, 1000, 1_000_000):
        first, second = drawn(count, 1), drawn(count, 2)
        draw = random.Random(5)
        numbers = [draw.randrange(first[-1][1]) for _ in range(100)]
        for name, make, union, common, has, edit in kinds():

            def tell(task, call, share=1, grows=True):
                before = took.get((task, name), 0)
                if before * (1000 if grows else 1) > 5e9:
                    return
                took[task, name] = least(call)
                print("%s\t%d\t%s\t%.1f" % (task, count, name, took[task, name] / share), flush=True)

            if took.get(("make of runs", name), 0) * 1000 > 5e9:
                continue
            a, b = make(first), make(second)
            free = [number for number in numbers if not has(a, number)]
            tell("make of runs", lambda: make(first))
            tell("union", lambda: union(a, b))
            if common is not None:
                tell("intersection", lambda: common(a, b))
            tell("search", lambda: [has(a, number) for number in numbers], 100, grows=False)
            tell("edit", lambda: [edit(a, number) for number in free], 2 * len(free), grows=name == "IntervalSet")


if __name__ == "__main__":
    main()
