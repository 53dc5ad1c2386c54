"""What the package does where it is installed: `python3 tests/test_intervallum.py`, or `pytest`, in the folder of its sources.

The repository has more: tests/python there.
"""

import doctest
import importlib
import pickle
import random
import unittest

import intervallum
from intervallum import DateSet, End, IntervalMap, IntervalSet, Model, MutableIntervalSet, OutOfRange

HAS_HANDLES = intervallum._types["i64"].handles is not None


class Sets(unittest.TestCase):
    def test_beside_set(self):
        draw = random.Random(1)
        for _ in range(200):
            two = [{draw.randrange(60) for _ in range(draw.randrange(40))} for _ in range(2)]
            a, b = map(IntervalSet, two)
            self.assertEqual((a | b, a & b, a - b, a ^ b), (two[0] | two[1], two[0] & two[1], two[0] - two[1], two[0] ^ two[1]))
            self.assertEqual((a <= b, a.isdisjoint(b), len(a)), (two[0] <= two[1], two[0].isdisjoint(two[1]), len(two[0])))
            self.assertEqual((pickle.loads(pickle.dumps(a)), IntervalSet.from_json(a.to_json()), IntervalSet.from_text(a.to_text())), (a, a, a))

    def test_out_of_range(self):
        with self.assertRaisesRegex(OutOfRange, "9223372036854775808 is outside the range of i64"):
            IntervalSet([2**63])

    def test_dates(self):
        self.assertEqual(len(DateSet()), 0)

    def test_examples(self):
        names = ["intervallum", "intervallum._runs", "intervallum._dates"]
        for name in names + ["intervallum._mutable", "intervallum._model"] * HAS_HANDLES:
            self.assertEqual(doctest.testmod(importlib.import_module(name)).failed, 0)


@unittest.skipUnless(HAS_HANDLES, "the library has no handles")
class Handles(unittest.TestCase):
    def test_edits(self):
        draw, made, plain = random.Random(2), MutableIntervalSet(), set()
        for _ in range(500):
            number = draw.randrange(60)
            edit = draw.choice(["add", "discard"])
            getattr(made, edit)(number), getattr(plain, edit)(number)
            self.assertEqual((made, len(made)), (plain, len(plain)))

    def test_map(self):
        made = IntervalMap([((1, 5), "anna"), ((3, 4), "bela")])
        self.assertEqual(list(made), [((1, 2), "anna"), ((3, 4), "bela"), ((5, 5), "anna")])

    def test_model(self):
        model = Model()
        x, y = model.variables(2, range(1, 10))
        model.at_most(x, 4, y)
        self.assertEqual(model.count(), (15, End.ALL))
        self.assertEqual({one.numbers for one in model.solutions()}, {(a, b) for a in range(1, 10) for b in range(a + 4, 10)})


if __name__ == "__main__":
    unittest.main()
