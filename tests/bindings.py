"""What tests/bindings and tests/python run: answers of the original crate, random calls beside lists of flags, and the Python
module beside `set`, with misuse, threads and processes."""

import collections
import copy
import ctypes
import ctypes.util
import datetime
import doctest
import json
import multiprocessing
import operator
import os
import pickle
import random
import re
import subprocess
import sys
import threading
import time
import types
from decimal import Decimal
from fractions import Fraction

import intervallum
from intervallum import DateSet, IntervalMap, IntervalSet, MutableIntervalSet, OutOfRange

numpy = intervallum.numpy
# the library that is proved has no handles: there, sets that never change stand for those that do
HAS_HANDLES = intervallum._types["i64"].handles is not None
Changing = MutableIntervalSet if HAS_HANDLES else IntervalSet
TOP = os.path.dirname(os.path.dirname(os.path.abspath(__file__)))

TWO = {
    "union": lambda a, b: a | b,
    "intersection": lambda a, b: a & b,
    "difference": lambda a, b: a - b,
    "symmetric_difference": lambda a, b: a ^ b,
}
ADDED_AS = {
    "add": lambda a, b: a.sums(b, clipped=True),
    "sub": lambda a, b: a.differences(b, clipped=True),
    "mul": lambda a, b: a.products(b),
}
ASKED = {
    "overlap": lambda a, b: a.overlaps(b),
    "is_subset": lambda a, b: a.issubset(b),
    "is_proper_subset": lambda a, b: a < b,
    "eq": lambda a, b: a == b,
}


def pairs_of(text):
    numbers = [int(word) for word in text.split() if word != "-"]
    return list(zip(numbers[::2], numbers[1::2]))


def answer_of(bounds, call, operands):
    """The answer in the form of the facts, or nothing where the call is not offered."""

    def set_of(text):
        return IntervalSet(pairs_of(text), bounds=bounds)

    def shown(made):
        words = " ".join("%d %d" % run for run in made.runs()) or "-"
        return "%s # %d" % (words, made.size)

    name, is_value = (call[:-2], True) if call.endswith("_v") else (call, False)
    if name in TWO:
        second = operands[1] if not is_value else "%s %s" % (operands[1], operands[1])
        return shown(TWO[name](set_of(operands[0]), set_of(second)))
    if call in ASKED:
        return "yes" if ASKED[call](set_of(operands[0]), set_of(operands[1])) else "no"
    if name in ADDED_AS:
        second = operands[1] if not is_value else "%s %s" % (operands[1], operands[1])
        return shown(ADDED_AS[name](set_of(operands[0]), set_of(second)))
    if call == "contains":
        return "yes" if int(operands[1]) in set_of(operands[0]) else "no"
    if call == "complement":
        return shown(~set_of(operands[0]))
    if call == "from_pairs":
        return shown(set_of(operands[0]))
    if call == "count":
        return str(len(set_of(operands[0]).runs()))
    return None


def facts(path):
    seen, outside = 0, 0
    for line in open(path):
        fields = [field.strip() for field in line.split(";")]
        kind = fields[0].split()
        if line.startswith("#") or len(kind) != 2 or kind[0] not in ("i64", "u64") or not kind[1].startswith("s."):
            continue
        try:
            answer = answer_of(kind[0], kind[1][2:], fields[1:-1])
        except OutOfRange:
            # a value as operand may lie outside the range; as a set of its own it may not
            assert kind[1].endswith("_v"), line
            outside += 1
            continue
        if answer is not None:
            assert answer == fields[-1], (line, answer)
            seen += 1
    assert seen > 200, seen
    print("bindings: Python: %d answers of the original crate agree; %d with a value outside the range" % (seen, outside))


# ---- random calls, beside sets as flags: bit i of a whole number for the number LOW + i

LOW, COUNT = -24, 48


def flags_of(pairs, low):
    flags = 0
    for lower, upper in pairs:
        if lower <= upper:
            flags |= ((1 << (upper - lower + 1)) - 1) << (lower - low)
    return flags


def runs_of(flags, low):
    runs, at = [], 0
    while flags >> at:
        if flags >> at & 1:
            start = at
            while flags >> at & 1:
                at += 1
            runs.append((start + low, at - 1 + low))
        at += 1
    return runs


FLAGS = {
    "union": lambda a, b: a | b,
    "intersection": lambda a, b: a & b,
    "difference": lambda a, b: a & ~b,
    "symmetric_difference": lambda a, b: a ^ b,
    "normalize": lambda a, b: a,
}
ADDED = {"sums_within": lambda x, y: x + y, "differences_within": lambda x, y: x - y}
TRUTHS = {"overlap": lambda a, b: a & b != 0, "is_subset": lambda a, b: a & ~b == 0, "equal": lambda a, b: a == b}


def array_of(bounds, pairs):
    return (bounds.run * max(len(pairs), 1))(*pairs)


def one_set(bounds, low, call, first, second, mark):
    """A call that makes a set, with a room of any size, which is full of a mark."""
    lists = [(ctypes.addressof(array), len(pairs)) for array, pairs in (first, second)]
    given = [part for one in (lists[:1] if call in ("normalize", "complement") else lists) for part in one]
    room = random.randrange(10)
    out = array_of(bounds, [mark] * (room + 1))
    told = getattr(bounds, call)(*given, ctypes.addressof(out), room)
    flags = [flags_of(pairs, low) for array, pairs in (first, second)]
    if call in ADDED:
        sets = [{low + i for i in range(COUNT) if one >> i & 1} for one in flags]
        least = 0 if not bounds.is_signed else -(2**62)
        numbers = {ADDED[call](x, y) for x in sets[0] for y in sets[1]}
        base = -4 * COUNT
        expected = runs_of(sum(1 << (z - base) for z in numbers if z >= least), base)
    elif call == "complement":
        least, greatest = (-(2**63) + 1, 2**63 - 1) if bounds.is_signed else (0, 2**64 - 2)
        expected, at = [], least
        for lower, upper in runs_of(flags[0], low):
            if at < lower:
                expected.append((at, lower - 1))
            at = upper + 1
        expected += [(at, greatest)]
    else:
        expected = runs_of(FLAGS[call](*flags), low)
    written = expected if len(expected) <= room else []
    assert told == len(expected), (call, first[1], second[1], told, expected)
    seen = [(run.lower, run.upper) for run in out]
    assert seen == written + [mark] * (room + 1 - len(written)), (call, first[1], second[1], seen, expected)


def one_product(bounds, low, first, second, mark):
    """The hull of each two runs' products, or the code and nothing written where one is outside the range."""
    room = random.randrange(10)
    out = array_of(bounds, [mark] * (room + 1))
    given = [part for array, pairs in (first, second) for part in (ctypes.addressof(array), len(pairs))]
    told = bounds.products(*given, ctypes.addressof(out), room)
    runs = [runs_of(flags_of(pairs, low), low) for array, pairs in (first, second)]
    corners = [[x * y for x in run for y in other] for run in runs[0] for other in runs[1]]
    base = -(COUNT**2)
    flags = flags_of([(min(products), max(products)) for products in corners], base)
    expected = runs_of(flags, base)
    written = expected if len(expected) <= room else []
    assert told == len(expected), (first[1], second[1], told, expected)
    seen = [(run.lower, run.upper) for run in out]
    assert seen == written + [mark] * (room + 1 - len(written)), (first[1], second[1], seen, expected)


def product_outside(bounds, first):
    """Some product of members is outside the range exactly where the list has a member beside 0."""
    greatest = 2**63 - 1 if bounds.is_signed else 2**64 - 2
    array, out = array_of(bounds, [(greatest, greatest)]), array_of(bounds, [(3, 4)] * 9)
    pairs = [(lower, upper) for lower, upper in first[1] if lower <= upper]
    is_outside = any(abs(bound) > 1 for pair in pairs for bound in pair)
    told = bounds.products(ctypes.addressof(first[0]), len(first[1]), ctypes.addressof(array), 1, ctypes.addressof(out), 9)
    assert (told == -3) == is_outside, (first[1], told)
    assert not is_outside or all((run.lower, run.upper) == (3, 4) for run in out), first[1]


def one_next(bounds, low, first):
    value = low + random.randrange(-2 if bounds.is_signed else 0, COUNT + 2)
    found = bounds.number(5)
    told = bounds.next_from(ctypes.addressof(first[0]), len(first[1]), value, ctypes.addressof(found))
    flags = flags_of(first[1], low)
    above = [low + i for i in range(COUNT) if flags >> i & 1 and low + i >= value]
    assert (told, found.value) == ((True, above[0]) if above else (False, 5)), (first[1], value, told, found.value)


def one_search(bounds, low, first):
    """A search is right in a list that is in order; in any other, a member that it finds is one."""
    pairs = [pair for pair in first[1] if pair[0] <= pair[1]]
    ordered = list(zip(sorted(lower for lower, upper in pairs), sorted(upper for lower, upper in pairs)))
    value = low + random.randrange(-2 if bounds.is_signed else 0, COUNT + 2)
    for pairs in (ordered, first[1]):
        array, found = array_of(bounds, pairs), bounds.number(5)
        flags = flags_of(pairs, low)
        above = [low + i for i in range(COUNT) if flags >> i & 1 and low + i >= value]
        has = bounds.contains_sorted(ctypes.addressof(array), len(pairs), value)
        told = bounds.next_from_sorted(ctypes.addressof(array), len(pairs), value, ctypes.addressof(found))
        if pairs is ordered:
            assert has == (value in above), (pairs, value, has)
            assert (told, found.value) == ((True, above[0]) if above else (False, 5)), (pairs, value, told, found.value)
        else:
            assert not has or value in above, (pairs, value)
            assert found.value in above if told else found.value == 5, (pairs, value, told, found.value)


def one_beside(bounds, low, first):
    """What lies beside a number: exact in a list that is in order, and the run itself in a list of runs."""
    pairs = [pair for pair in first[1] if pair[0] <= pair[1]]
    ordered = list(zip(sorted(lower for lower, upper in pairs), sorted(upper for lower, upper in pairs)))
    value = low + random.randrange(-2 if bounds.is_signed else 0, COUNT + 2)
    runs = runs_of(flags_of(first[1], low), low)
    for pairs in (runs, ordered, first[1]):
        array, found, run = array_of(bounds, pairs), bounds.number(5), bounds.run(5, 4)
        flags = flags_of(pairs, low)
        below = [low + i for i in range(COUNT) if flags >> i & 1 and low + i <= value]
        told = bounds.previous_to_sorted(ctypes.addressof(array), len(pairs), value, ctypes.addressof(found))
        has = bounds.run_at_sorted(ctypes.addressof(array), len(pairs), value, ctypes.addressof(run))
        pair = run.lower, run.upper
        if pairs is first[1]:
            assert found.value in below if told else found.value == 5, (pairs, value, told, found.value)
        else:
            assert (told, found.value) == ((True, below[-1]) if below else (False, 5)), (pairs, value, told, found.value)
            assert has == (value in below), (pairs, value, has)
        assert pair in pairs and pair[0] <= value <= pair[1] if has else pair == (5, 4), (pairs, value, has, pair)


def one_fit(bounds, low, first):
    count = random.randrange(12)
    found = bounds.run(5, 4)
    told = bounds.first_fit(ctypes.addressof(first[0]), len(first[1]), count, ctypes.addressof(found))
    fits = [lower for lower, upper in runs_of(flags_of(first[1], low), low) if 0 < count <= upper - lower + 1]
    expected = (1, fits[0], fits[0] + count - 1) if fits else (0, 5, 4)
    assert (told, found.lower, found.upper) == expected, (first[1], count, told, found.lower, found.upper)


def one_question(bounds, low, call, first, second):
    told = getattr(bounds, call)(ctypes.addressof(first[0]), len(first[1]), ctypes.addressof(second[0]), len(second[1]))
    assert told == TRUTHS[call](flags_of(first[1], low), flags_of(second[1], low)), (call, first[1], second[1], told)


def one_outside(bounds, call, first):
    """A member outside the range: a code, and nothing is written."""
    bad = (-(2**63), random.choice([-(2**63), 0])) if bounds.is_signed else (random.choice([0, 2**64 - 1]), 2**64 - 1)
    pairs = first[1] + [bad]
    random.shuffle(pairs)
    array, out = array_of(bounds, pairs), array_of(bounds, [(3, 4)] * 12)
    given = [ctypes.addressof(array), len(pairs)]
    given = given if call in ("normalize", "complement") else given + [ctypes.addressof(first[0]), len(first[1])]
    assert getattr(bounds, call)(*given, ctypes.addressof(out), 12) == -1, (call, pairs)
    assert all((run.lower, run.upper) == (3, 4) for run in out), (call, pairs)


def list_of_runs(low):
    """Pairs that ascend, with at least one number missing between neighbours, often just one."""
    pairs, at = [], low + random.randrange(4)
    while at < low + COUNT and random.randrange(9):
        upper = min(at + random.randrange(5), low + COUNT - 1)
        pairs.append((at, upper))
        at = upper + random.choice([2, 2, 3, 6])
    return pairs


def any_list(low):
    pairs = []
    for _ in range(random.randrange(7)):
        lower = low + random.randrange(COUNT)
        pairs.append((lower, min(max(low, lower + random.randrange(-4, 9)), low + COUNT - 1)))
    return pairs


def ends_of_the_range(bounds, call):
    """Lists of runs at the ends of the range, where no bound has a number beside it."""
    least, greatest = (-(2**63) + 1, 2**63 - 1) if bounds.is_signed else (0, 2**64 - 2)
    cut = random.randrange(least + 2, greatest - 2)
    first = random.choice([[(least, greatest)], [(least, cut)], [(cut, greatest)], [(least, cut - 1), (cut + 1, greatest)], []])
    second = random.choice([[(least, greatest)], [(least, least), (greatest, greatest)], [(cut, cut)], [(cut + 1, greatest)]])
    edges = sorted({edge for lower, upper in first + second for edge in (lower, upper + 1)})
    expected = []
    for lower, upper in zip(edges, edges[1:]):
        given = [any(pair[0] <= lower <= pair[1] for pair in pairs) for pairs in (first, second)]
        if FLAGS[call](*map(int, given)) & 1:
            joins = expected and expected[-1][1] == lower - 1
            expected[-1:] = [(expected[-1][0], upper - 1)] if joins else expected[-1:] + [(lower, upper - 1)]
    room = random.randrange(5)
    arrays, out = [array_of(bounds, pairs) for pairs in (first, second)], array_of(bounds, [(7, 5)] * 5)
    given = [part for array, pairs in zip(arrays, (first, second)) for part in (ctypes.addressof(array), len(pairs))]
    told = getattr(bounds, call)(*given, ctypes.addressof(out), room)
    written = expected if len(expected) <= room else []
    assert told == len(expected), (call, first, second, told, expected)
    seen = [(run.lower, run.upper) for run in out]
    assert seen == written + [(7, 5)] * (5 - len(written)), (call, first, second, seen, expected)


def fuzz(count):
    random.seed(20)
    started, calls = time.time(), 0
    while calls < count and time.time() - started < 60:
        bounds = intervallum._types[random.choice(["i64", "u64"])]
        low = LOW if bounds.is_signed else 0
        # half of the rounds have two lists of runs, which three of the calls merge as they are
        draw = random.choice([any_list, list_of_runs])
        lists = []
        for _ in range(2):
            pairs = draw(low)
            lists.append((array_of(bounds, pairs), pairs))
        for call in list(FLAGS) + list(ADDED) + ["complement"]:
            one_set(bounds, low, call, *lists, mark=(7, random.randrange(9)))
        for call in TRUTHS:
            one_question(bounds, low, call, *lists)
        one_outside(bounds, random.choice(list(FLAGS) + ["complement"]), lists[0])
        size = ctypes.c_uint64(99)
        flags = flags_of(lists[0][1], low)
        assert bounds.size(ctypes.addressof(lists[0][0]), len(lists[0][1]), ctypes.addressof(size)) == 0
        assert size.value == bin(flags).count("1"), lists[0][1]
        value = random.randrange(COUNT)
        told = bounds.contains(ctypes.addressof(lists[0][0]), len(lists[0][1]), low + value)
        assert told == bool(flags >> value & 1), (lists[0][1], low + value)
        one_product(bounds, low, *lists, mark=(7, random.randrange(9)))
        product_outside(bounds, lists[0])
        one_next(bounds, low, lists[0])
        one_search(bounds, low, lists[0])
        one_beside(bounds, low, lists[0])
        one_fit(bounds, low, lists[0])
        ends_of_the_range(bounds, random.choice(["union", "intersection", "difference", "symmetric_difference"]))
        calls += 29
    print("bindings: Python: %d random calls agree with lists of flags" % calls)


# ---- sets of Python, beside `set`


OPERATORS = {"__or__": "union", "__and__": "intersection", "__sub__": "difference", "__xor__": "symmetric_difference"}
COMPARED = ("__le__", "__lt__", "__ge__", "__gt__", "__eq__", "isdisjoint", "issubset", "issuperset")


def random_items(numbers, low):
    """The same set as numbers, ranges, pairs and sets in any order."""
    items = []
    for lower, upper in runs_of(flags_of([(n, n) for n in numbers], low), low):
        cut = random.randrange(lower, upper + 1)
        whole = range(lower, upper + 1)
        forms = [[(lower, cut), [cut, upper]], [(lower, upper)], [whole], [whole[::-1]], list(whole), [set(whole)]]
        items += random.choice(forms + [[IntervalSet(whole)]])
    random.shuffle(items)
    return random.choice([list, tuple, iter])(items)


def combined(kind, first, second, third):
    """The calls that make a set. Returns how many were compared."""
    a, b, c = kind(first), kind(second), kind(third)
    for name, method in OPERATORS.items():
        expected = getattr(first, name)(second)
        assert list(getattr(a, name)(b)) == list(getattr(a, method)(second)) == sorted(expected), (first, second, name)
        sign = getattr(operator, name)
        assert sign(a, second) == sign(first, b) == expected and sign(Changing(a, a.bounds), second) == expected
    for method in ("union", "intersection", "difference"):
        expected = getattr(first, method)(second, third)
        made = set(getattr(a, method)(b, third)), set(getattr(a, method)(sorted(second), c))
        assert made == (expected, expected), (first, second, third, method)
        assert getattr(a, method)() == a
    assert set(a.sums(b)) == {x + y for x in first for y in second}, (first, second)
    least = -COUNT if a.bounds == "i64" else 0
    differences = {x - y for x in first for y in second}
    assert set(a.differences(b, clipped=True)) == {z for z in differences if z >= least}, (first, second)
    try:
        assert set(a.differences(b)) == differences, (first, second)
    except intervallum.SumOutOfRange:
        assert min(differences) < least, (first, second)
    assert ~~a == a and set((~a).intersection(second)) == second - first and not a & ~a, (first, second)
    return 2 * len(OPERATORS) + 9 + 3 + 3


def asked(kind, low, first, second):
    """The queries. Returns how many were compared."""
    a, b, ascending = kind(first), kind(second), sorted(first)
    for name in COMPARED:
        assert getattr(a, name)(b) == getattr(first, name)(second) == getattr(a, name)(second), (first, second, name)
    assert a.overlaps(second) != first.isdisjoint(second)
    assert len(a) == a.size == len(first) and bool(a) == bool(first)
    assert list(a) == ascending and list(reversed(a)) == ascending[::-1]
    runs = list(a.runs())
    assert runs == runs_of(flags_of([(n, n) for n in first], low), low) and len(a.runs()) == len(runs)
    assert list(reversed(a.runs())) == runs[::-1] and a.runs()[:2] == runs[:2] and a.runs()[-1:] == runs[-1:]
    if first:
        assert (a.min(), a.max()) == (ascending[0], ascending[-1]) and a.runs()[0] == runs[0] and runs[-1] in a.runs()
    value = random.randrange(low - 2, low + COUNT + 2)
    below, above = [n for n in first if n <= value], [n for n in first if n >= value]
    assert a.previous_to(value) == max(below, default=None) and a.next_from(value) == min(above, default=None), (first, value)
    run = a.run_at(value)
    assert run == next((run for run in runs if run[0] <= value <= run[1]), None)
    assert (run is not None) == (value in a) == (value in first)
    upper, count = random.randrange(low - 2, low + COUNT + 2), random.randrange(5)
    window = range(max(value, -(2**60) if low < 0 else 0), upper + 1)
    assert set(a.gaps_within(window.start, upper)) == set(window) - first, (first, value, upper)
    assert a.runs_within(value, upper) == [run for run in runs if run[0] <= upper and value <= run[1] and value <= upper]
    fits = [n for n in ascending if n >= value and count and all(n + i in first for i in range(count))]
    assert a.first_fit_from(value, count) == ((fits[0], fits[0] + count - 1) if fits else None), (first, value, count)
    long = [run for run in runs if 0 < count <= run[1] - run[0] + 1]
    best = min(long, key=lambda run: (run[1] - run[0], run[0]), default=None)
    assert a.best_fit(count) == Changing(a, a.bounds).best_fit(count) == (best and (best[0], best[0] + count - 1))
    index = random.randrange(-1, COUNT)
    assert a.rank(value) == sum(n < value for n in first), (first, value)
    assert a.nth(index) == (ascending[index] if 0 <= index < len(ascending) else None), (first, index)
    assert a == eval(repr(a)) == pickle.loads(pickle.dumps(a)) == copy.deepcopy(a) == a.copy() == kind(a)
    assert hash(a) == hash(kind(random_items(first, low))) and (a == b) == ({a: 1}.get(b) == 1)
    return len(COMPARED) + 31


def sets(count):
    """At least as many comparisons with sets of Python, or as many as a minute allows."""
    random.seed(21)
    started, compared = time.time(), 0
    while compared < count and time.time() - started < 60:
        bounds, low = random.choice([("i64", LOW), ("u64", 0)])
        three = [{n for n in range(low, low + COUNT) if random.random() < share} for share in (0.4, random.random(), 0.6)]
        if random.random() < 0.3:
            three[1] = {n for n in three[0] if random.random() < 0.9}

        def kind(items):
            return IntervalSet(random_items(items, low) if isinstance(items, set) else items, bounds=bounds)

        compared += combined(kind, *three) + asked(kind, low, *three[:2])
    print("bindings: Python: %d comparisons with `set` agree" % compared)


# ---- sets and maps that change, beside `set` and `dict`


def edited(made, plain, low):
    """One random edit of both."""
    value, upper = (random.randrange(low, low + COUNT) for _ in range(2))
    numbers = range(value, upper + 1)
    form = random.randrange(8)
    if form == 0:
        made.add(value), plain.add(value)
    elif form == 1:
        made.discard(value), plain.discard(value)
    elif form == 2:
        made.add_run(value, upper), plain.update(numbers)
    elif form == 3:
        made.discard_run(value, upper), plain.difference_update(numbers)
    elif form == 4 and plain:
        assert made.pop() == min(plain)
        plain.remove(min(plain))
    elif form == 5 and plain:
        assert made.pop_last() == max(plain)
        plain.remove(max(plain))
    elif form == 6:
        taken = made.take_first_fit(2)
        assert (taken is None) == (not any(n + 1 in plain for n in plain))
        plain.difference_update(range(taken[0], taken[1] + 1) if taken else ())
    else:
        sign = random.choice([operator.ior, operator.iand, operator.isub, operator.ixor])
        other = random.choice([{value, upper}, IntervalSet(numbers, made.bounds), MutableIntervalSet([(value, upper)], made.bounds), made])
        expected = sign(set(plain), set(other))
        same = made
        made = sign(made, other)
        assert made is same
        plain.clear(), plain.update(expected)


def changing(count):
    if not HAS_HANDLES:
        print("bindings: Python: skipped: sets that change, which the library that is proved has not")
        return
    random.seed(22)
    for _ in range(count):
        bounds, low = random.choice([("i64", LOW), ("u64", 0), ("u64", 2**64 - 1 - COUNT), ("i64", -(2**63) + 1)])
        made, plain = MutableIntervalSet(bounds=bounds), set()
        for _ in range(30):
            edited(made, plain, low)
            value = random.randrange(low, low + COUNT)
            assert made == plain and len(made) == len(plain) and (value in made) == (value in plain), (made, plain)
            assert made.rank(value) == sum(n < value for n in plain) and list(made) == sorted(plain)
            assert made.nth(made.rank(value)) == made.next_from(value) == min((n for n in plain if n >= value), default=None)
            assert made.previous_to(value) == max((n for n in plain if n <= value), default=None)
            assert made.run_at(value) == made.frozen().run_at(value) and made.first_fit(2) == made.frozen().first_fit(2)
            assert made.first_fit_from(value, 2) == made.frozen().first_fit_from(value, 2)
        assert made == pickle.loads(pickle.dumps(made)) == copy.deepcopy(made) == made.copy() and made.copy() is not made
        assert not plain or (made.min(), made.max()) == (min(plain), max(plain))
        assert ~~made == made and not ~made & made and (~made).size == 2**64 - 1 - len(plain)
    empty = MutableIntervalSet()
    for call in (empty.pop, empty.pop_last, lambda: empty.remove(5)):
        raises(KeyError, call)
    raises(OutOfRange, lambda: empty.add(2**63), "9223372036854775808 is outside the range of i64")
    raises(OutOfRange, lambda: empty.add_run(1, 2**70), "is outside the range of i64")
    raises(TypeError, lambda: hash(empty), "unhashable")
    raises(ValueError, empty.min, "the set is empty")
    empty.discard(2**70), empty.discard_run(-(2**70), 2**70)
    # what lies below the range, or above, is no part of it
    for made in (MutableIntervalSet([0, 2**64 - 2], bounds="u64"), MutableIntervalSet([-(2**63) + 1, 2**63 - 1])):
        made.discard_run(-(2**70), made.min() - 1), made.discard_run(made.max() + 1, 2**70)
        assert len(made) == 2 and not made.gaps_within(-(2**70), made.min() - 1) and not made.gaps_within(made.max() + 1, 2**70)
        assert not made.frozen().gaps_within(-(2**70), made.min() - 1) and made.gaps_within(-(2**70), 2**70) == ~made.frozen()
    assert not empty and empty.rank(2**70) == 0 and empty.next_from(2**70) is None and isinstance(empty, collections.abc.MutableSet)
    # a handle lives as long as a call needs it, and ends with its object
    for _ in range(100):
        empty.update(MutableIntervalSet([(5, 9)]), [3])
    assert empty == {3, 5, 6, 7, 8, 9}
    print("bindings: Python: %d sets that change agree with `set`" % count)


def maps(count):
    if not HAS_HANDLES:
        print("bindings: Python: skipped: maps, which the library that is proved has not")
        return
    random.seed(23)
    for _ in range(count):
        bounds, low = random.choice([("i64", LOW), ("u64", 0), ("u64", 2**64 - 1 - COUNT), ("i64", -(2**63) + 1)])
        made, plain = IntervalMap(bounds=bounds), {}
        for step in range(30):
            lower, upper = (random.randrange(low, low + COUNT) for _ in range(2))
            numbers = range(lower, upper + 1)
            # values that are equal and not the same, of which some have no hash
            value = random.choice([["a", step % 3], "b%d" % (step % 2), step % 2, float(step % 2), None])
            form = random.randrange(4)
            if form == 0:
                made.set(lower, upper, value), plain.update((n, value) for n in numbers)
            elif form == 1:
                made.remove(lower, upper)
                plain = {n: held for n, held in plain.items() if n not in numbers}
            elif form == 2:
                is_free = not any(n in plain for n in numbers)
                assert made.set_if_free(lower, upper, value) == is_free
                plain.update((n, value) for n in numbers if is_free)
            else:
                made[lower:upper + 1] = value
                plain.update((n, value) for n in numbers)
            entries = []
            for n in sorted(plain):
                if entries and entries[-1][0][1] == n - 1 and entries[-1][1] == plain[n]:
                    entries[-1] = ((entries[-1][0][0], n), entries[-1][1])
                else:
                    entries.append(((n, n), plain[n]))
            assert list(made) == entries and len(made) == len(entries) and made.size == len(plain), (list(made), entries)
            at = next((entry for entry in entries if entry[0][0] <= lower <= entry[0][1]), None)
            assert made.entry_at(lower) == at and (lower in made) == (at is not None) and made.get(lower, 7) == (at[1] if at else 7)
            assert list(made.overlapping(lower, upper)) == [e for e in entries if lower <= upper and e[0][0] <= upper and lower <= e[0][1]]
            assert made.next_from(lower) == next((e for e in entries if e[0][1] >= lower), None)
            assert made.previous_to(lower) == next((e for e in entries[::-1] if e[0][0] <= lower), None)
            assert made.keys() == set(plain) and made.numbers_with(value) == {n for n in plain if plain[n] == value}
            assert set(made.gaps_within(lower, upper)) == set(numbers) - set(plain)
        assert made == made.copy() == pickle.loads(pickle.dumps(made)) and made.copy() is not made
    many = IntervalMap()
    for n in range(3000):
        many.set(5, 9, "value %d" % n)
    assert list(many) == [((5, 9), "value 2999")] and len(many._values) < 200, len(many._values)
    raises(KeyError, lambda: many[4], "4")
    low = IntervalMap([((0, 3), "low")], bounds="u64")
    low.remove(-5, -1)
    assert len(low) == 1 and not low.gaps_within(-9, -1) and low.first_fit(-9, -1, 1) is None and not list(low.overlapping(-9, -1))
    for wrong in ([(1, 2)], [5], [((1, 2, 3), 4)], {1: 2}):
        raises(TypeError, lambda: IntervalMap(wrong), "an entry is a pair of bounds and a value")
    raises(OutOfRange, lambda: many.set(1, 2**63, 0), "9223372036854775808 is outside the range of i64")
    raises(ValueError, lambda: many.__setitem__(slice(1, 5, 2), 0), "no step")
    many[20] = 1
    del many[:8]
    assert list(many) == [((8, 9), "value 2999"), ((20, 20), 1)] and 8.0 in many and "x" not in many and 2**70 not in many
    many.clear()
    assert not len(many) and many.first_fit(0, 9, 3) == (0, 2) and many.first_fit(0, 1, 3) is None and repr(many) == "IntervalMap([])"
    print("bindings: Python: %d maps agree with `dict`" % count)


# ---- sets of dates


def dates(count):
    random.seed(24)
    first = datetime.date(2026, 1, 1)
    for _ in range(count):
        two = [{first + datetime.timedelta(random.randrange(40)) for _ in range(random.randrange(30))} for _ in range(2)]
        a, b = map(DateSet, two)
        for sign in (operator.or_, operator.and_, operator.sub, operator.xor, operator.le, operator.lt, operator.eq, operator.ge):
            assert sign(a, b) == sign(two[0], two[1]) == sign(a, two[1]), (two, sign)
        assert list(a) == sorted(two[0]) and len(a) == len(two[0]) and hash(a) == hash(frozenset(two[0]))
        assert a == DateSet(a.runs()) == pickle.loads(pickle.dumps(a)) == DateSet([a, set()])
        last = first + datetime.timedelta(39)
        assert set(a.gaps_within(first, last)) == set(DateSet.of(first, last)) - two[0]
        fit = a.first_fit(2)
        assert fit == next(((d, d + datetime.timedelta(1)) for d in a if d + datetime.timedelta(1) in two[0]), None)
    for wrong in ([5], ["2026-01-01"], [datetime.datetime(2026, 1, 1)], [(first, 5)], first):
        raises(TypeError, lambda: DateSet(wrong), "not")
    assert first not in DateSet() and "x" not in a and 5 not in a and datetime.datetime(2026, 1, 1) not in DateSet([first])
    raises(TypeError, lambda: DateSet([(first,)]), "a pair has two bounds")
    print("bindings: Python: %d sets of dates agree with `set`" % count)


# ---- texts and JSON


def forms(count):
    random.seed(25)
    for _ in range(count):
        plain = {n for n in range(-20, 20) if random.random() < 0.5}
        for made in (IntervalSet(plain), Changing(plain)):
            text, form = made.to_text(), made.to_json()
            assert made == type(made).from_text(text) == type(made).from_json(form) == type(made).from_json(form.encode())
            assert [tuple(run) for run in json.loads(form)] == made.runs() and text.count("..") == len(made.runs())
        if HAS_HANDLES:
            entries = IntervalMap(((run), random.choice(["anna", None, 5])) for run in IntervalSet(plain).runs())
            assert IntervalMap.from_json(entries.to_json()) == entries
    assert IntervalSet.from_text("{[5..5][1..2][2..3]}") == {1, 2, 3, 5} and IntervalSet.from_json("null") == set()
    assert IntervalSet([2**64 - 2], bounds="u64").to_text() == "[18446744073709551614..18446744073709551614]"
    for wrong in ("", "[", "[1..2", "[2..1]", "{[1..2]", "[1..2][5..5]", "{1..2}", "[1..2]x", "{[1..2] [5..5]}", "[1,2]", "{[1..x]}"):
        raises(ValueError, lambda: IntervalSet.from_text(wrong), "a run from a lower to an upper bound is wanted")
    raises(TypeError, lambda: IntervalSet.from_text(5), "text is a string, not 5")
    for wrong in ("[[1]]", "[[1,2,3]]", "[[2,1]]", "[1,2]", "[[1.0,2]]", "[[true,2]]", '[["1",2]]'):
        raises(ValueError, lambda: IntervalSet.from_json(wrong), "a run in JSON is a list of a lower and an upper bound")
    raises(ValueError, lambda: IntervalSet.from_json('{"a":1}'), "JSON of a set is a list of runs")
    raises(json.JSONDecodeError, lambda: IntervalSet.from_json("[["))
    raises(OutOfRange, lambda: IntervalSet.from_json("[[-1,0]]", bounds="u64"), "-1 is outside the range of u64")
    print("bindings: Python: %d sets come back from texts and JSON" % count)


# ---- what is no set, and what the error says


class Number:
    """A number that runs code when it is read."""

    def __init__(self, read):
        self.read = read

    def __index__(self):
        return self.read() or 4


def raises(kind, call, told=""):
    try:
        call()
    except kind as error:
        assert type(error) is kind and told in str(error), (told, type(error), str(error))
        return
    raise AssertionError((kind, told))


def misuse():
    a, unsigned = IntervalSet([(1, 5)]), IntervalSet([3], bounds="u64")
    for wrong in ([(5,)], [()], [(1, 2, 3)], [5, (1,)], [[1, 2], []]):
        raises(TypeError, lambda: IntervalSet(wrong), "a pair has two bounds: ")
    for wrong in ("a", 1.5, None):
        told = "is a whole number, not %r" % (wrong,)
        calls = [lambda: IntervalSet([wrong]), lambda: IntervalSet([(1, wrong)]), lambda: IntervalSet([[wrong, 1], 3])]
        calls += [lambda: IntervalSet([{wrong}])]
        calls += [lambda: a.next_from(wrong), lambda: a.previous_to(wrong), lambda: a.run_at(wrong)]
        calls += [lambda: a.rank(wrong), lambda: a.nth(wrong), lambda: a.first_fit(wrong), lambda: a.union([wrong])]
        for call in calls:
            raises(TypeError, call, told)
        named = {"value": lambda: a.rank(wrong), "index": lambda: a.nth(wrong), "count": lambda: a.first_fit(wrong)}
        named.update({"lower": lambda: IntervalSet.of(wrong, 1), "upper": lambda: a.gaps_within(1, wrong), "a member": lambda: IntervalSet([{wrong}])})
        named.update({"a bound": lambda: IntervalSet([(1, wrong)])})
        for name, call in named.items():
            raises(TypeError, call, "%s %s" % (name, told))
    for call in (lambda: IntervalSet(5), lambda: a.union(5), lambda: a.issubset(5), lambda: a.sums(5)):
        raises(TypeError, call, "a set is made of an iterable of numbers, ranges, pairs and sets, not of 5")
    # membership is that of Python's sets
    for value in (1.0, Fraction(2, 1), Decimal(3), True, 4 + 0j, 1.5, "a", "1", None, (1,), float("inf"), float("nan"), 6.0, b"1"):
        assert (value in a) == (value in {1, 2, 3, 4, 5}) == (value in Changing(a)), value
    assert [] not in a and [x for x in ["x", 3, 9.5] if x in a] == [3]
    signed = " is outside the range of i64, from -9223372036854775807 to 9223372036854775807"
    for outside in (2**63, -(2**63), 2**64, -(2**70)):
        wide = min(0, outside), max(0, outside)
        for wrong in ([outside], [(0, 1), wide], [5, [outside, outside]], range(outside, outside + 1)):
            raises(OutOfRange, lambda: IntervalSet(wrong), str(outside) + signed)
        raises(OutOfRange, lambda: a.union([outside]), str(outside) + signed)
        assert outside not in a and a.run_at(outside) is None and a.rank(outside) == (5 if outside > 0 else 0)
        assert a.next_from(outside) == (None if outside > 0 else 1) and a.previous_to(outside) == (5 if outside > 0 else None)
    for outside in (-1, 2**64 - 1, 2**64):
        told = "%d is outside the range of u64, from 0 to 18446744073709551614" % outside
        raises(OutOfRange, lambda: IntervalSet([outside], bounds="u64"), told)
        assert outside not in unsigned
    for wrong in ("i32", 64, None, []):
        raises(ValueError, lambda: IntervalSet(bounds=wrong), "bounds is 'i64' or 'u64', not %r" % (wrong,))
    big = IntervalSet([2**62])
    raises(intervallum.ProductOutOfRange, lambda: big.products([2]), "a product" + signed)
    sum_outside = "9223372036854775812 is a sum" + signed.removeprefix(" is")
    raises(intervallum.SumOutOfRange, lambda: IntervalSet([5]).sums([2**63 - 1]), sum_outside)
    raises(intervallum.SumOutOfRange, lambda: a.differences(~a), "is a difference outside the range of i64")
    raises(intervallum.SumOutOfRange, lambda: unsigned.differences([4]), "-1 is a difference outside the range of u64")
    raises(intervallum.SumOutOfRange, lambda: unsigned.sums([2**64 - 3]), "18446744073709551616 is a sum")
    assert not IntervalSet([5]).sums([2**63 - 1], clipped=True) and not unsigned.differences([4], clipped=True)
    assert a.sums([2**63 - 6]).max() == 2**63 - 1 and a.sums([]) == a.differences([]) == IntervalSet()
    signs = {"|": operator.or_, "&": operator.and_, "-": operator.sub, "^": operator.xor}
    for sign, call in signs.items():
        for two in ((a, [3]), ([3], a), (a, 3), (Changing(a), [3])):
            raises(TypeError, lambda: call(*two), "unsupported operand type(s) for %s: " % sign)
    raises(TypeError, lambda: a | {"x"}, "an item is a whole number, not 'x'")
    raises(OutOfRange, lambda: unsigned | {-1}, "-1 is outside the range of u64")
    assert a & {"x", 3} == {3} and a - {"x", 3} == {1, 2, 4, 5} and not a <= {"x"} and a != {"x"} and a & unsigned == {3}
    raises(TypeError, lambda: a < [1], "'<' not supported between instances of 'IntervalSet' and 'list'")
    raises(OverflowError, lambda: len(~a), "the set has more members than len can return: use size")
    for call in (IntervalSet().min, IntervalSet().max):
        raises(ValueError, call, "the set is empty")
    raises(IndexError, lambda: a.runs()[1])
    raises(TypeError, lambda: hash(a.runs()), "unhashable")
    # a code of the library, which no small set brings about
    raises(intervallum.OutOfMemory, lambda: a._type.checked(-2), "an allocation failed")
    assert a != unsigned and a != [1, 2, 3, 4, 5] and a == {1, 2, 3, 4, 5} == a and a == IntervalSet(a, bounds="u64")
    assert hash(a) == hash(frozenset(a)) and {frozenset(a): 1}[a] == 1 and {a, frozenset(a)} == {a}
    assert repr(IntervalSet(range(0, 60, 3))).count("(") == 21
    assert repr(IntervalSet(range(0, 63, 3))) == "IntervalSet([(0, 0), (3, 3), (6, 6), <15 more runs>, (54, 54), (57, 57), (60, 60)])"
    assert repr(Named([3])) == "Named([(3, 3)])" and IntervalSet.of(1, 5) == a and IntervalSet.union_of([]) == IntervalSet()
    assert a.nth(-1) is a.first_fit(-1) is a.first_fit(0) is None
    assert IntervalSet([(9, 4)]) == IntervalSet() != IntervalSet([0])
    assert IntervalSet([range(9, 2, -3)]) == IntervalSet([9, 6, 3]) and IntervalSet(range(10**15, 0, -1)).runs() == [(1, 10**15)]
    assert IntervalSet([2**64 - 2], bounds="u64").max() == 2**64 - 2
    # the ends of what the library takes: no number is cut to its type, and a list of no pairs may have no address
    assert IntervalSet([2**63 - 1]).next_from(2**63 - 1) == IntervalSet([2**63 - 1]).previous_to(2**70) == 2**63 - 1
    whole = ~IntervalSet()
    assert whole.first_fit(-1) is whole.first_fit(2**64) is None and whole.first_fit(2**64 - 1) == (-(2**63) + 1, 2**63 - 1)
    many = IntervalSet(range(0, 1000, 2))
    none = many - many
    assert none == IntervalSet() and not none.runs() and none | many == many and many - none == many and none <= none
    assert 0 not in none and none.next_from(0) is none.previous_to(0) is none.run_at(0) is none.nth(0) is None and none.rank(1) == 0
    assert hash(none) == hash(IntervalSet()) and ~~none == none and none.sums(many) == none and not none.overlaps(none)
    # a list of bounds that changes while it is read has no more bounds than the library is told of
    # nor other ones, and a pair that reads its own second bound anew is told, too
    changing = [[Number(lambda: changing[1].clear()), 5], [7, 8]]
    raises(TypeError, lambda: IntervalSet(changing), "changed while it was read")
    other = [[Number(lambda: other[1].__setitem__(0, 1)), 5], [7, 8]]
    raises(TypeError, lambda: IntervalSet(other), "changed while it was read")
    itself = [Number(lambda: itself.__setitem__(1, 9)), 5]
    raises(TypeError, lambda: IntervalSet([itself, 3]), "changed while it was read")
    # runs equal sequences of the same pairs alone
    assert a.runs() != [1] and a.runs() != [5] and a.runs() != ["15"] and a.runs() == [[1, 5]] and IntervalSet().runs() == []
    without_numpy(a)
    # nothing changes a set
    for name in ("size", "bounds", "other"):
        raises(AttributeError, lambda: setattr(a, name, 1))
    a.__init__([7])
    assert a.runs() == [(1, 5)] and a is a.copy() is copy.copy(a)
    without_library()
    print("bindings: Python: misuse is told")


class Wrapping(Number):
    """A number of numpy: what is computed with it wraps in its own type."""

    def __eq__(self, other):
        return self.read() % 2**64 == other % 2**64

    def __lt__(self, other):
        return self.read() % 2**63 < other

    __hash__ = None


def without_numpy(a):
    """What arrays of numpy once got wrong, by an array that stands for theirs."""
    least = IntervalSet([(-(2**63) + 5, 0)])
    assert Wrapping(lambda: 2**63 + 5) not in least and Wrapping(lambda: 3) in a
    lent = []
    theirs = types.SimpleNamespace(
        ndarray=type("ndarray", (), {"shape": (1, 2), "ndim": 2, "size": 2}),
        ma=types.SimpleNamespace(isMaskedArray=lambda items: True),
        frombuffer=lambda memory, **words: lent.append(memory) or types.SimpleNamespace(reshape=lambda *shape: shape),
        int64=int,
        uint64=int,
    )
    before, intervallum.numpy = intervallum.numpy, theirs
    try:
        raises(TypeError, lambda: IntervalSet(theirs.ndarray()), "a masked array has no set")
        a.array()
        assert memoryview(lent[0]).readonly
    finally:
        intervallum.numpy = before


def without_library():
    """The errors of an import, which name what is missing and the command that makes it."""
    wrong = {"/no/such/file.so": "there is no shared library /no/such/file.so: ", __file__: "%s cannot be loaded (" % __file__}
    for path, told in wrong.items():
        ended = imported_with(path)
        assert "ImportError: " in ended and told in ended and "`pip install ./bindings/python`" in ended, ended
    # a library without these calls
    ended = imported_with(ctypes.util.find_library("m"))
    assert "is none of this version" in ended and "ivl_normalize_i64" in ended, ended


def imported_with(path):
    environment = {**os.environ, "INTERVALLUM_LIBRARY": path}
    return subprocess.run([sys.executable, "-c", "import intervallum"], env=environment, capture_output=True, text=True).stderr


def header():
    """The types that the module gives to each call are those of the header."""
    pointer, sizes = ctypes.c_void_p, {"size_t": ctypes.c_size_t, "bool": ctypes.c_bool}
    sizes.update({"int64_t": ctypes.c_int64, "uint64_t": ctypes.c_uint64})
    page = open(os.path.join(TOP, "bindings/c/intervallum.h"), encoding="utf-8").read()
    text = re.sub(r"/\*.*?\*/", "", page, flags=re.S)
    found = re.findall(r"(\w+) ivl_(\w+)_([iu]64)\(([^)]*)\);", text)
    for answer, name, bounds, arguments in found:
        call = getattr(intervallum._types[bounds], name)
        expected = [pointer if "*" in one else sizes[one.split()[0]] for one in arguments.split(",")]
        assert call.restype is sizes[answer] and list(call.argtypes) == expected, (name, bounds, call.argtypes)
    assert len(found) == 2 * len(intervallum.SHAPES)
    page = open(os.path.join(TOP, "bindings/c/intervallum_handle_calls.h"), encoding="utf-8").read()
    page = re.sub(r"IVL_OF\((\w+)\)", r"ivl_\1_TYPE", re.sub(r"/\*.*?\*/", "", page, flags=re.S))
    handles = re.findall(r"(\w+) ivl_(\w+)_TYPE\(([^)]*)\);", page)
    of_types = [(answer, name, bounds, arguments) for answer, name, arguments in handles for bounds in ("i64", "u64")]
    for answer, name, bounds, arguments in of_types:
        sizes["IVL_NUMBER"] = sizes["int64_t" if bounds == "i64" else "uint64_t"]
        call = (intervallum._types[bounds].handles or {}).get(name)
        if call is None:
            continue
        expected = [pointer if "*" in one else sizes[one.split()[0]] for one in arguments.split(",")]
        assert call.restype is (None if answer == "void" else sizes[answer]) and list(call.argtypes) == expected, (name, bounds)
    assert len(handles) == len(intervallum.HANDLE_SHAPES)
    found += of_types
    print("bindings: Python: the types of %d calls are those of the header" % len(found))


# ---- threads and processes


def threads(count):
    """Two threads over the same sets, which a call of the library reads while the other thread runs."""
    pairs = [(10 * i, 10 * i + 5) for i in range(1000)]
    shared, other = IntervalSet(pairs), IntervalSet([(lower + 3, upper + 3) for lower, upper in pairs])
    wrong = []

    def answers():
        return shared | other, shared & other, shared - other, shared ^ other, ~shared, shared.size, hash(shared), list(shared.runs())

    told = answers()

    def work(seed):
        draw = random.Random(seed)
        for _ in range(count):
            value = draw.randrange(10000)
            rank = value // 10 * 6 + min(value % 10, 6)
            if answers() != told or (value in shared) != (value % 10 <= 5) or shared.rank(value) != rank:
                wrong.append(value)

    working = [threading.Thread(target=work, args=(seed,)) for seed in range(2)]
    for thread in working:
        thread.start()
    for thread in working:
        thread.join()
    assert not wrong, wrong
    print("bindings: Python: two threads had %d right answers each" % (10 * count))


class Named(IntervalSet):
    """A set of a user's own class, with an attribute."""


def doubled(a):
    return a.sums(a, clipped=True), a.bounds, hash(a)


def processes():
    """Sets that go to other processes and come back, in each form of pickle."""
    given = [IntervalSet(), IntervalSet([(1, 5), 9]), ~IntervalSet([3]), IntervalSet([2**64 - 2, (0, 7)], bounds="u64")]
    for protocol in range(pickle.HIGHEST_PROTOCOL + 1):
        assert pickle.loads(pickle.dumps(given, protocol)) == given
        named = Named([(1, 5)], bounds="u64")
        named.name = "mine"
        back = pickle.loads(pickle.dumps(named, protocol))
        assert (type(back), back, back.bounds, back.name) == (Named, named, "u64", "mine")
    with multiprocessing.get_context("spawn").Pool(2) as pool:
        for a, (made, bounds, told) in zip(given, pool.map(doubled, given)):
            assert made == a.sums(a, clipped=True) and bounds == a.bounds
    print("bindings: Python: sets come back from another process")


# ---- the examples of the module and of the pages


def examples(*pages):
    modules = [intervallum, intervallum._runs, intervallum._dates] + [intervallum._mutable, intervallum._model] * HAS_HANDLES
    failed, tried = map(sum, zip(*map(doctest.testmod, modules)))
    parser, run = doctest.DocTestParser(), doctest.DocTestRunner()
    for page in pages:
        text = open(page, encoding="utf-8").read()
        blocks = re.findall(r"(?ms)^```python\n(.*?)^```$", text)
        inline = [one for one in re.findall(r"`([^`\n]*)`", text) if one.startswith("IntervalSet([")]
        assert blocks or inline, page
        for block in blocks:
            if not HAS_HANDLES and re.search("MutableIntervalSet|IntervalMap|Model", block):
                continue
            # a block without prompts is a program
            if not block.startswith(">>>"):
                exec(block, {})
            run.run(parser.get_doctest(block, {}, page, page, 0))
        for one in inline:
            eval(one, {"IntervalSet": IntervalSet})
    failed += run.failures
    tried += run.tries
    assert tried > 20 and not failed
    assert intervallum.__version__ == open(os.path.join(TOP, "VERSION")).read().strip()
    print("bindings: Python: %d examples in the docs pass" % tried)


# ---- arrays of numpy


def arrays():
    for bounds, kind in (("i64", numpy.int64), ("u64", numpy.uint64)):
        array = numpy.array([[5, 9], [1, 3], [4, 2]], dtype=kind)
        made = IntervalSet(array, bounds=bounds)
        assert made.runs() == [(1, 3), (5, 9)]
        assert made.array().dtype == kind and made.array().tolist() == [[1, 3], [5, 9]]
        assert array.tolist() == [[5, 9], [1, 3], [4, 2]]
        # neither a part with steps nor an array of columns lies in memory as pairs do
        assert IntervalSet(array[::2], bounds=bounds).runs() == [(5, 9)]
        assert IntervalSet(numpy.asfortranarray(array), bounds=bounds) == made
        assert IntervalSet(array[:0], bounds=bounds).array().shape == (0, 2)
        assert IntervalSet(array.astype(numpy.int32), bounds=bounds) == made
        # nor do one that is read from its end, one of another order of bytes, and one that begins at any byte
        unaligned = numpy.frombuffer(b"x" + array.tobytes(), dtype=kind, offset=1).reshape(-1, 2)
        assert not unaligned.flags.aligned
        for other in (array[::-1], array.astype(array.dtype.newbyteorder(">")), unaligned):
            assert IntervalSet(other, bounds=bounds) == made
        members = numpy.array([7, 3, 4, 7, 1], dtype=kind)
        assert IntervalSet(members, bounds=bounds).runs() == [(1, 1), (3, 4), (7, 7)] and not IntervalSet(members[:0], bounds=bounds)
        assert IntervalSet(members.astype(numpy.int8), bounds=bounds) == {1, 3, 4, 7} == Changing(members, bounds=bounds)
        for type_of_values in (numpy.int8, numpy.int64, numpy.uint64):
            asked = numpy.arange(12, dtype=type_of_values).reshape(3, 4)
            assert made.isin(asked).tolist() == [[int(v) in made for v in row] for row in asked]
        assert not made.isin(numpy.array([-1, -5])).any() and not made.isin(numpy.array([2**64 - 1, 2**63], dtype=numpy.uint64)).any()
        assert not (made - made).isin(members).any()
        masked = numpy.ma.masked_array(array, mask=[[0, 0], [1, 1], [0, 0]])
        for wrong in (array[:, :1], array.reshape(3, 2, 1), array.astype(float), masked):
            raises(TypeError, lambda: IntervalSet(wrong, bounds=bounds))
    raises(OutOfRange, lambda: IntervalSet(numpy.array([[0, 2**63 + 5]], dtype=numpy.uint64)), "9223372036854775813 is outside the range of i64")
    raises(OutOfRange, lambda: IntervalSet(numpy.array([[-1, 5]]), bounds="u64"), "-1 is outside the range of u64")
    # a value that wraps in its own type is no member
    assert numpy.uint64(2**63 + 5) not in IntervalSet([(-(2**63) + 5, 0)]) and numpy.int32(3) in IntervalSet([3])
    # no array outlives its memory, and none can be written, also if one asks for it
    made = IntervalSet(array, bounds="u64")
    view = made.array()
    assert view.tolist() == [[1, 3], [5, 9]] and not view.flags.writeable
    raises(ValueError, lambda: setattr(view.flags, "writeable", True))
    assert made.runs() == [(1, 3), (5, 9)]
    print("bindings: Python: arrays of numpy")


# ---- how long calls take, which is printed and not judged


def speed():
    pairs = [(10 * i, 10 * i + 5) for i in range(10**6)]
    started = time.perf_counter()
    runs = list(IntervalSet(pairs).runs())
    took = time.perf_counter() - started
    assert runs == pairs
    first, second = IntervalSet(pairs[:10]), IntervalSet([(lower + 3, upper + 3) for lower, upper in pairs[:10]])
    calls = intervallum._types["i64"]
    room = array_of(calls, [(0, 0)] * 20)
    given = first._at, 10, second._at, 10, ctypes.addressof(room), 20
    united, called = least_time(lambda: first | second), least_time(lambda: calls.union(*given))
    made = least_time(lambda: IntervalSet(pairs[:10]))
    print("bindings: Python: a list of 1,000,000 pairs to a set and back in %.2f s; of 10 to a set in %.1f microseconds;" % (took, made))
    print("bindings: Python: a union of 10 runs with 10 in %.1f microseconds, the library's call in %.1f" % (united, called))


def least_time(call):
    times = []
    for _ in range(20):
        started = time.perf_counter()
        for _ in range(500):
            call()
        times.append((time.perf_counter() - started) / 500)
    return min(times) * 1e6


def models(count):
    """In a file of its own, for what it does with signals."""
    subprocess.run([sys.executable, os.path.join(TOP, "tests/bindings_models.py"), str(count)], check=True)


if __name__ == "__main__":
    calls = {
        "facts": facts, "sets": sets, "fuzz": fuzz, "threads": threads, "arrays": arrays, "misuse": misuse, "changing": changing, "maps": maps, "dates": dates, "forms": forms,
        "processes": processes, "examples": examples, "speed": speed,
        "header": header, "models": models,
    }
    calls[sys.argv[1]](*(int(word) if word.isdigit() else word for word in sys.argv[2:]))
