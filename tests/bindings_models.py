"""What tests/python runs of models: searches beside all points, misuse, and Ctrl-C in long calls."""

import itertools
import os
import random
import signal
import sys
import threading
import time

import intervallum
from intervallum import End, IntervalSet, Model, OutOfRange, SearchStopped, SumOutOfRange, Variable


def raises(kind, call, told=""):
    try:
        call()
    except kind as error:
        assert type(error) is kind and told in str(error), (told, type(error), str(error))
        return
    raise AssertionError((kind, told))


def rule(model, variables):
    """Adds a random rule, and returns what it says of the numbers of a point."""
    (i, x), (j, y), (k, z) = random.sample(list(enumerate(variables)), 3)
    by, lengths = random.randrange(-3, 4), [random.randrange(4) for _ in range(3)]
    form = random.randrange(7)
    if form == 0:
        model.at_most(x, by, y)
        return lambda at: at[i] + by <= at[j]
    if form == 1:
        model.equals(x, by, y)
        return lambda at: at[i] + by == at[j]
    if form == 2:
        model.differs(x, by, y)
        return lambda at: at[i] + by != at[j]
    if form == 3:
        model.all_different([x, y, z])
        return lambda at: len({at[i], at[j], at[k]}) == 3
    if form == 4:
        model.sum([x, y], z)
        return lambda at: at[i] + at[j] == at[k]
    if form == 5:
        model.sum(variables[:-1], variables[-1])
        return lambda at: sum(at[:-1]) == at[-1]
    places = [i, j, k]
    model.no_overlap(zip((x, y, z), lengths))
    return lambda at: all(at[a] + m <= at[b] or at[b] + n <= at[a] for (a, m), (b, n) in itertools.combinations(zip(places, lengths), 2))


def models(count):
    if intervallum._types["i64"].handles is None:
        print("bindings: Python: skipped: models, which the library that is proved has not")
        return
    random.seed(31)
    for _ in range(count):
        bounds, low = random.choice([("i64", -3), ("i64", 0), ("u64", 0), ("u64", 5)])
        model = Model(bounds)
        domains = [[n for n in range(low, low + 5) if random.random() < 0.8] for _ in range(4)]
        variables = [model.variable(domain) for domain in domains]
        rules = [rule(model, variables) for _ in range(2)]
        kept = random.randrange(4), range(low, low + random.randrange(1, 6))
        model.restrict(variables[kept[0]], kept[1])
        domains[kept[0]] = [n for n in domains[kept[0]] if n in kept[1]]
        expected = {at for at in itertools.product(*domains) if all(holds(at) for holds in rules)}
        found = model.solutions()
        assert {one.numbers for one in found} == expected and len(found) == len(expected) and found.end is End.ALL
        assert model.count() == (len(expected), End.ALL) and model.copy().count() == model.count()
        x = random.randrange(4)
        for best, most in ((model.minimize, min), (model.maximize, max)):
            solution, is_finished = best(variables[x])
            assert is_finished and (solution is not None) == bool(expected)
            assert solution is None or solution[variables[x]] == most(at[x] for at in expected) and solution.numbers in expected
        assert [list(model.domain(one)) for one in variables] == domains
    model = Model()
    x, y = model.variables(2, range(1, 10))
    for wrong in (5, None, 0, "x"):
        raises(TypeError, lambda: model.at_most(x, 1, wrong), "a variable of the model is wanted, not %r" % wrong)
    raises(ValueError, lambda: model.at_most(x, 1, Variable(2)), "a variable is none of the model")
    raises(ValueError, lambda: model.domain(Variable(-1)), "a variable is none of the model")
    raises(ValueError, lambda: model.differs(x, 1, x), "a rule names a variable twice")
    raises(TypeError, lambda: model.equals(x, "1", y), "by is a whole number, not '1'")
    raises(ValueError, lambda: model.equals(x, 2**63, y), "by is from -2**63 to 2**63 - 1")
    raises(ValueError, lambda: model.no_overlap([(x, -1)]), "length is from 0 to 2**64 - 1, not -1")
    raises(OutOfRange, lambda: model.variable(2**63), "9223372036854775808 is outside the range of i64")
    raises(TypeError, lambda: model.variable("a"), "not 'a'")
    raises(ValueError, lambda: model.count(-1), "a limit is at least 0, not -1")
    raises(ValueError, lambda: Model("i32"), "bounds is 'i64' or 'u64', not 'i32'")
    far = model.variables(2, ~IntervalSet())
    raises(SumOutOfRange, lambda: model.no_overlap([(far[0], 1), (far[1], 1)]), "outside the range of i64")
    model.restrict(far[0], 3), model.restrict(far[1], [3])
    assert model.count() == (81, End.ALL) and len(model) == 4 and model.count(3) == (3, End.SOLUTIONS)
    assert model.count(nodes=2)[1] is End.NODES and model.solutions(2).end is End.SOLUTIONS and model.first(nodes=0) == (None, False)
    assert model.solutions()[-1] == model.solutions()[80] and len(model.solutions()[1:80:2]) == 40
    model.restrict(x, ())
    assert model.first() == (None, True) and not model.solutions() and model.minimize(x) == (None, True)
    interrupts()
    print("bindings: Python: %d models agree with all points" % count)


def interrupted(call, after):
    """How long a call took that Ctrl-C ended."""
    timer = threading.Timer(after, os.kill, (os.getpid(), signal.SIGINT))
    started = time.perf_counter()
    timer.start()
    raises(KeyboardInterrupt, call)
    timer.join()
    return time.perf_counter() - started


def interrupts():
    # a shell has the commands that it runs in the background ignore it
    signal.signal(signal.SIGINT, signal.default_int_handler)
    endless = Model()
    endless.all_different(endless.variables(20, range(1, 21)))
    for call in (lambda: endless.count(nodes=2**64), lambda: endless.solutions(nodes=2**64)):
        assert interrupted(call, 0.2) < 20
        # no search is left behind, and the model is as before
        assert threading.active_count() == 1 and endless.first().solution is not None
    many = IntervalSet(range(0, 12000, 3))
    assert interrupted(lambda: many.products(many), 0.05) < 60
    assert many.sums([1]).size == many.size
    # another thread is told by stop
    told = []

    def work():
        try:
            endless.count(nodes=2**64)
        except SearchStopped as error:
            told.append(str(error))

    thread = threading.Thread(target=work)
    thread.start()
    endless.stop()
    thread.join()
    endless.stop(False)
    assert told == ["the search was told to stop"] and endless.first().solution is not None
    print("bindings: Python: Ctrl-C ends long calls")


if __name__ == "__main__":
    models(int(sys.argv[1]))
