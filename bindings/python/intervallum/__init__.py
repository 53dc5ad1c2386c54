"""Sets of whole numbers, by `ctypes` over the calls of a library in which each answer is proved.

A set is an immutable set of its members, as `frozenset` is, and keeps them as sorted runs.

>>> free = IntervalSet([(8, 11), (12, 13)])
>>> free
IntervalSet([(8, 13)])
>>> (free - IntervalSet([(9, 9)])).runs()
Runs([(8, 8), (10, 13)])
>>> 9 in free, len(free), free == IntervalSet([range(8, 14)]), list(free)[:3]
(True, 6, True, [8, 9, 10])
>>> IntervalSet([(-2**63, 0)])
Traceback (most recent call last):
intervallum.OutOfRange: -9223372036854775808 is outside the range of i64, from -9223372036854775807 to 9223372036854775807

The shared library is `libintervallum.so` beside this file, where `pip install` puts it, or the path in the environment variable
`INTERVALLUM_LIBRARY`.
"""

from __future__ import annotations

import bisect
import collections.abc
import ctypes
import importlib
import itertools
import operator
import os
import sys
from array import array as Numbers
from typing import Any, Iterable, Iterator, Literal, Sequence, SupportsIndex, Union

from ._calls import HANDLE_SHAPES, NUMBER, SHAPES, Call, Calls
from ._forms import json_of, pairs_of_json, pairs_of_text, text_of
from ._given import interruptible, whole
from ._runs import Runs, listed

__version__ = "2.0.0"
__all__ = [
    "Best", "Count", "DateSet", "End", "IntervalMap", "IntervalSet", "Model", "MutableIntervalSet", "OutOfMemory", "OutOfRange", "ProductOutOfRange",
    "Runs", "SearchStopped", "Solution", "Solutions", "SumOutOfRange", "Variable",
]


def _optional(name: str) -> Any:
    try:
        return importlib.import_module(name)
    except ImportError:
        return None


numpy = _optional("numpy")

Bounds = Literal["i64", "u64"]
# a number, both bounds of a pair, or the members of a range or a set
Item = Union[SupportsIndex, Sequence[SupportsIndex], range, collections.abc.Set[SupportsIndex]]


class OutOfRange(ValueError):
    """A member is outside the range: -2**63 of i64, 2**64 - 1 of u64, or no value of the type."""


class ProductOutOfRange(OutOfRange):
    """A product of members is outside the range."""


class SumOutOfRange(OutOfRange):
    """A sum or a difference of members is outside the range."""


class OutOfMemory(MemoryError):
    """An allocation failed."""


_HOW = (
    "make one by `pip install ./bindings/python` in the repository, which needs cargo, or the Rattle kit and a C compiler; "
    "or name one in the environment variable INTERVALLUM_LIBRARY"
)


def _load() -> ctypes.CDLL:
    beside = os.path.join(os.path.dirname(os.path.abspath(__file__)), "libintervallum.so")
    path = os.environ.get("INTERVALLUM_LIBRARY", beside)
    try:
        return ctypes.CDLL(path)
    except OSError as error:
        if not os.path.exists(path):
            raise ImportError("there is no shared library %s: %s" % (path, _HOW)) from None
        raise ImportError("the shared library %s cannot be loaded (%s): %s" % (path, error, _HOW)) from None


def _handles_of(library: ctypes.CDLL, name: str, number: type[Any]) -> dict[str, Call] | None:
    """The calls of handles by name, or None for a library that has none."""
    made = {}
    for call, (shape, answer) in HANDLE_SHAPES.items():
        found = getattr(library, "ivl_%s_%s" % (call, name), None)
        if found is None:
            return None
        found.argtypes = [number if kind == NUMBER else kind for kind in shape]
        found.restype = answer
        made[call] = found
    return made


class _Bounds(Calls):
    """The calls of one type of bounds."""

    def __init__(self, library: ctypes.CDLL, name: Bounds, number: type[Any]) -> None:
        class Run(ctypes.Structure):
            _fields_ = [("lower", number), ("upper", number)]

        self.name, self.number, self.run = name, number, Run
        self.is_signed = name == "i64"
        self.limits = (-(2**63), 2**63 - 1) if self.is_signed else (0, 2**64 - 1)
        self.range = (-(2**63) + 1, 2**63 - 1) if self.is_signed else (0, 2**64 - 2)
        self.code: Literal["q", "Q"] = "q" if self.is_signed else "Q"
        self.one_pair = Numbers(self.code, (0, 0))
        for call, (shape, answer) in SHAPES.items():
            try:
                found = getattr(library, "ivl_%s_%s" % (call, name))
            except AttributeError as error:
                raise ImportError("the shared library %s is none of this version: %s" % (library._name, error)) from error
            found.argtypes = [number if kind == NUMBER else kind for kind in shape]
            found.restype = answer
            setattr(self, call, found)
        self.handles = _handles_of(library, name, number)

    def holds(self, value: int) -> bool:
        """Returns whether the number is a value of the type, even one outside the range of sets."""
        low, high = self.limits
        return low <= value <= high

    def outside(self, value: int) -> OutOfRange:
        return OutOfRange("%d is outside the range of %s, from %d to %d" % (value, self.name, *self.range))

    def fitting(self, what: str, least: int, greatest: int) -> None:
        low, high = self.range
        if least < low or high < greatest:
            value = least if least < low else greatest
            raise SumOutOfRange("%d is a %s outside the range of %s, from %d to %d" % (value, what, self.name, low, high))

    def checked(self, told: int) -> int:
        if told == -1:
            # of all values of the type, one is outside the range
            raise self.outside(self.limits[0] if self.is_signed else self.limits[1])
        if told == -3:
            raise ProductOutOfRange("a product is outside the range of %s, from %d to %d" % (self.name, *self.range))
        if told == -5:
            raise SumOutOfRange("a sum or a distance is outside the range of %s, from %d to %d" % (self.name, *self.range))
        if told == -2:
            raise OutOfMemory("an allocation failed")
        if told < 0:
            raise RuntimeError("a fault of the library, code %d" % told)
        return told


_library = _load()
_types = {"i64": _Bounds(_library, "i64", ctypes.c_int64), "u64": _Bounds(_library, "u64", ctypes.c_uint64)}
# calls with as many pairs of runs as this may take a tenth of a second and more
_LONG = 1_000_000


def _type_of(bounds: Bounds) -> _Bounds:
    if not isinstance(bounds, str) or bounds not in _types:
        raise ValueError("bounds is 'i64' or 'u64', not %r" % (bounds,))
    return _types[bounds]


class IntervalSet(collections.abc.Set[int]):
    """A set of whole numbers, made of numbers, ranges, pairs of bounds and sets, in any order.

    A pair has two bounds, both members; a crossed pair adds nothing. `bounds` is "i64" or "u64".

    >>> IntervalSet([(5, 6), (1, 2), (9, 4)]) | IntervalSet([3])
    IntervalSet([(1, 3), (5, 6)])
    >>> IntervalSet([(1, 5)]) & IntervalSet([range(4, 10)])
    IntervalSet([(4, 5)])
    >>> IntervalSet([(1, 5)]) ^ IntervalSet([(4, 9)])
    IntervalSet([(1, 3), (6, 9)])
    >>> ~IntervalSet([(0, 2**64 - 2)], bounds="u64")
    IntervalSet([], bounds='u64')
    >>> list(IntervalSet([(1, 2), (5, 6)])), len(IntervalSet([(1, 2), (5, 6)]))
    ([1, 2, 5, 6], 4)
    >>> (~IntervalSet()).size == 2**64 - 1
    True
    >>> IntervalSet([(1, 2, 3)])
    Traceback (most recent call last):
    TypeError: a pair has two bounds: (1, 2, 3)
    """

    # the bounds of the runs, how many runs there are, and the address for the library, which may be 0 where there is none; and
    # what is computed when it is first asked for: the size, the hash, and the lower bounds with the members below each
    __slots__ = ("_type", "_list", "_count", "_at", "_sized", "_hashed", "_ranked")
    _type: _Bounds
    _list: Numbers[int]
    _count: int
    _at: int
    _sized: int | None
    _hashed: int | None
    _ranked: tuple[Numbers[int], list[int]] | None

    # a set is made here and not in __init__, which could be called again and would change it
    def __new__(cls, items: Iterable[Item] = (), bounds: Bounds = "i64") -> IntervalSet:
        kind = _type_of(bounds)
        held, address, count = _pairs(kind, items)
        made = cls._of(kind, kind.normalize, address, count, room=count)
        del held  # the list stays until the call has read it
        return made

    @classmethod
    def _of(cls, bounds: _Bounds, call: Call, *lists: int, room: int) -> IntervalSet:
        while True:
            out = bounds.one_pair * room
            count = bounds.checked(call(*lists, out.buffer_info()[0], room))
            if count <= room:
                break
            room = count
        del out[2 * count:]
        made = super().__new__(cls)
        made._type, made._list, made._count, made._at = bounds, out, count, out.buffer_info()[0]
        made._sized = made._hashed = made._ranked = None
        return made

    @classmethod
    def of(cls, lower: SupportsIndex, upper: SupportsIndex, bounds: Bounds = "i64") -> IntervalSet:
        """Returns the set of the numbers from `lower` to `upper`, both included.

        >>> IntervalSet.of(1, 5)
        IntervalSet([(1, 5)])
        """
        return cls([(whole(lower, "lower"), whole(upper, "upper"))], bounds=bounds)

    @classmethod
    def from_text(cls, text: str, bounds: Bounds = "i64") -> IntervalSet:
        """Returns the set of a text as `to_text` makes it; its runs may come in any order.

        >>> IntervalSet.from_text("{[1..2][5..5]}"), IntervalSet.from_text("[1..5]"), IntervalSet.from_text("{}")
        (IntervalSet([(1, 2), (5, 5)]), IntervalSet([(1, 5)]), IntervalSet([]))
        """
        return cls(pairs_of_text(text), bounds=bounds)

    def to_text(self) -> str:
        """Returns the runs as a text, the same as from Rust and C++.

        >>> IntervalSet([(1, 2), 5]).to_text(), IntervalSet([(1, 5)]).to_text(), IntervalSet().to_text()
        ('{[1..2][5..5]}', '[1..5]', '{}')
        """
        return text_of(self.runs())

    @classmethod
    def from_json(cls, text: str | bytes, bounds: Bounds = "i64") -> IntervalSet:
        """Returns the set of JSON as `to_json` makes it; `null` has no members, and a run that crosses is a `ValueError`.

        >>> IntervalSet.from_json("[[1, 2], [5, 5]]")
        IntervalSet([(1, 2), (5, 5)])
        """
        return cls(pairs_of_json(text), bounds=bounds)

    def to_json(self) -> str:
        """Returns the runs as JSON, the same as from Rust.

        >>> IntervalSet([(1, 2), 5]).to_json(), IntervalSet().to_json()
        ('[[1,2],[5,5]]', '[]')
        """
        return json_of(self.runs())

    @classmethod
    def union_of(cls, sets: Iterable[Iterable[Item]], bounds: Bounds = "i64") -> IntervalSet:
        """Returns the members of any of the sets.

        >>> IntervalSet.union_of([IntervalSet([3]), {1, 2}, range(8, 10)])
        IntervalSet([(1, 3), (8, 9)])
        """
        return cls(itertools.chain.from_iterable(made.runs() for made in (IntervalSet(one, bounds=bounds) for one in sets)), bounds=bounds)

    def _is_like(self, other: object) -> bool:
        return isinstance(other, IntervalSet) and other._type is self._type

    def _taken(self, other: Iterable[Item]) -> IntervalSet:
        """The set of what a method takes: a set, or an iterable of numbers, ranges, pairs and sets."""
        if isinstance(other, IntervalSet) and other._type is self._type:
            return other
        return IntervalSet(other, bounds=self._type.name)

    def _with(self, call: Call, other: IntervalSet) -> IntervalSet:
        lists = self._at, self._count, other._at, other._count
        return self._of(self._type, call, *lists, room=self._count + other._count)

    def _computed(self, call: Call, other: IntervalSet) -> IntervalSet:
        """What is computed of each pair of runs, which may take long: Ctrl-C does not wait for it."""
        if self._count * other._count < _LONG:
            return self._with(call, other)
        return interruptible(lambda: self._with(call, other))

    def _merged(self, call: Call, others: Iterable[Iterable[Item]]) -> IntervalSet:
        made = self
        for other in others:
            made = made._with(call, self._taken(other))
        return made

    # an operator takes a set of any kind, or a range; what a method takes besides is no set

    def _operand(self, other: object) -> IntervalSet | None:
        """The set that an operator is given, or None if it is given none."""
        if isinstance(other, IntervalSet) and other._type is self._type:
            return other
        return self._taken(other) if isinstance(other, (collections.abc.Set, range)) else None

    def _common(self, other: object) -> IntervalSet | None:
        """Those of its members that are members here: of a set of Python, which may have what is no number."""
        if isinstance(other, (IntervalSet, range)) or not isinstance(other, collections.abc.Set):
            return self._operand(other)
        return IntervalSet([int(value) for value in other if value in self], bounds=self._type.name)

    def __or__(self, other: Any) -> IntervalSet:
        """Returns the members of either set."""
        taken = self._operand(other)
        if taken is None:
            return NotImplemented
        return self._with(self._type.union, taken)

    def __and__(self, other: Any) -> IntervalSet:
        """Returns the members of both sets."""
        taken = self._common(other)
        if taken is None:
            return NotImplemented
        return self._with(self._type.intersection, taken)

    def __sub__(self, other: Any) -> IntervalSet:
        """Returns the members that are not in the other set."""
        taken = self._common(other)
        if taken is None:
            return NotImplemented
        return self._with(self._type.difference, taken)

    def __xor__(self, other: Any) -> IntervalSet:
        """Returns the members of exactly one set."""
        taken = self._operand(other)
        if taken is None:
            return NotImplemented
        return self._with(self._type.symmetric_difference, taken)

    __ror__, __rand__, __rxor__ = __or__, __and__, __xor__

    def __rsub__(self, other: Any) -> IntervalSet:
        taken = self._operand(other)
        if taken is None:
            return NotImplemented
        return taken._with(self._type.difference, self)

    def union(self, *others: Iterable[Item]) -> IntervalSet:
        """Returns the members of any of the sets.

        >>> IntervalSet([(1, 2)]).union([5], range(7, 9))
        IntervalSet([(1, 2), (5, 5), (7, 8)])
        """
        return self._merged(self._type.union, others)

    def intersection(self, *others: Iterable[Item]) -> IntervalSet:
        """Returns the members of all of the sets."""
        return self._merged(self._type.intersection, others)

    def difference(self, *others: Iterable[Item]) -> IntervalSet:
        """Returns the members that are in none of the other sets."""
        return self._merged(self._type.difference, others)

    def symmetric_difference(self, other: Iterable[Item]) -> IntervalSet:
        """Returns the members of exactly one set."""
        return self._merged(self._type.symmetric_difference, [other])

    def sums(self, other: Iterable[Item], *, clipped: bool = False) -> IntervalSet:
        """Returns the sums of a member of each set.

        Raises `SumOutOfRange` if one of them is outside the range; `clipped` leaves such out.

        >>> IntervalSet([(1, 2), (9, 9)]).sums(IntervalSet([(10, 10)]))
        IntervalSet([(11, 12), (19, 19)])
        >>> IntervalSet([(5, 6)]).sums([2**63 - 6], clipped=True)
        IntervalSet([(9223372036854775807, 9223372036854775807)])
        >>> IntervalSet([5, 6]).sums([2**63 - 6])
        Traceback (most recent call last):
        intervallum.SumOutOfRange: 9223372036854775808 is a sum outside the range of i64, from -9223372036854775807 to 9223372036854775807
        """
        taken = self._taken(other)
        if self and taken and not clipped:
            self._type.fitting("sum", self.min() + taken.min(), self.max() + taken.max())
        return self._computed(self._type.sums_within, taken)

    def differences(self, other: Iterable[Item], *, clipped: bool = False) -> IntervalSet:
        """Returns the differences of a member of this set and one of the other.

        Raises `SumOutOfRange` if one of them is outside the range; `clipped` leaves such out.

        >>> IntervalSet([(3, 5)], bounds="u64").differences([3])
        IntervalSet([(0, 2)], bounds='u64')
        >>> IntervalSet([(0, 5)], bounds="u64").differences([3])
        Traceback (most recent call last):
        intervallum.SumOutOfRange: -3 is a difference outside the range of u64, from 0 to 18446744073709551614
        """
        taken = self._taken(other)
        if self and taken and not clipped:
            self._type.fitting("difference", self.min() - taken.max(), self.max() - taken.min())
        return self._computed(self._type.differences_within, taken)

    def products(self, other: Iterable[Item]) -> IntervalSet:
        """Returns, for each pair of runs, the numbers from their least to their greatest product.

        >>> IntervalSet([(1, 2)]).products(IntervalSet([(10, 10)]))
        IntervalSet([(10, 20)])
        >>> IntervalSet([3], bounds="u64").products(IntervalSet([2**63], bounds="u64"))
        Traceback (most recent call last):
        intervallum.ProductOutOfRange: a product is outside the range of u64, from 0 to 18446744073709551614
        """
        return self._computed(self._type.products, self._taken(other))

    def __invert__(self) -> IntervalSet:
        """Returns the complement within the range."""
        return self._of(self._type, self._type.complement, self._at, self._count, room=self._count + 1)

    def __contains__(self, value: object) -> bool:
        """Returns whether a value equals a member: as a set of Python has it, 1.0 equals 1, and a text equals none."""
        try:
            number = operator.index(value)  # type: ignore[arg-type]
        except TypeError:
            found = _as_whole(value)
            if found is None:
                return False
            number = found
        return self._type.holds(number) and bool(self._type.contains_sorted(self._at, self._count, number))

    def __eq__(self, other: object) -> bool:
        # two sets with the same members have the same list of runs
        if isinstance(other, IntervalSet):
            return self._list == other._list
        if isinstance(other, collections.abc.Set):
            return self.size == len(other) and all(value in self for value in other)
        return NotImplemented

    def __hash__(self) -> int:
        if self._hashed is None:
            # that of an equal frozenset, but of so many members that none is expected
            self._hashed = self._hash() if self.size <= 100_000 else hash(self._list.tobytes())
        return self._hashed

    def __le__(self, other: Any) -> bool:
        """Returns whether each member is in the other set."""
        if isinstance(other, IntervalSet) and other._type is self._type:
            return self._is_within(other)
        if not isinstance(other, collections.abc.Set):
            return NotImplemented
        return self.size <= _size(other) and all(value in other for value in self)

    def __ge__(self, other: Any) -> bool:
        """Returns whether each member of the other set is in this one."""
        if isinstance(other, IntervalSet) and other._type is self._type:
            return other._is_within(self)
        if not isinstance(other, collections.abc.Set):
            return NotImplemented
        return self.size >= _size(other) and all(value in self for value in other)

    def __lt__(self, other: Any) -> bool:
        """Returns whether each member is in the other set, which has more."""
        if not isinstance(other, collections.abc.Set):
            return NotImplemented
        return self.size < _size(other) and self <= other

    def __gt__(self, other: Any) -> bool:
        """Returns whether each member of the other set is in this one, which has more."""
        if not isinstance(other, collections.abc.Set):
            return NotImplemented
        return self.size > _size(other) and self >= other

    def _is_within(self, other: IntervalSet) -> bool:
        return bool(self._type.checked(self._type.is_subset(self._at, self._count, other._at, other._count)))

    def issubset(self, other: Iterable[Item]) -> bool:
        """Returns whether each member is in the other set.

        >>> IntervalSet([(1, 2)]).issubset(IntervalSet([(0, 5)])), IntervalSet([(1, 2)]).issubset(range(2))
        (True, False)
        """
        return self._is_within(self._taken(other))

    def issuperset(self, other: Iterable[Item]) -> bool:
        """Returns whether each member of the other set is in this one."""
        return self._taken(other)._is_within(self)

    def overlaps(self, other: Iterable[Item]) -> bool:
        """Returns whether some number is in both sets.

        >>> IntervalSet([(1, 2)]).overlaps(IntervalSet([(3, 5)]))
        False
        """
        taken = self._taken(other)
        return bool(self._type.checked(self._type.overlap(self._at, self._count, taken._at, taken._count)))

    def isdisjoint(self, other: Iterable[Item]) -> bool:
        """Returns whether no number is in both sets."""
        return not self.overlaps(other)

    def next_from(self, value: SupportsIndex) -> int | None:
        """Returns the least member that is at least the value, or None.

        >>> IntervalSet([(1, 2), (5, 6)]).next_from(3), IntervalSet([(1, 2)]).next_from(3)
        (5, None)
        """
        number = whole(value, "value")
        low, high = self._type.limits
        if number > high:
            return None
        found = self._type.number()
        is_there = self._type.next_from_sorted(self._at, self._count, max(number, low), ctypes.addressof(found))
        least: int = found.value
        return least if is_there else None

    def previous_to(self, value: SupportsIndex) -> int | None:
        """Returns the greatest member that is at most the value, or None.

        >>> IntervalSet([(1, 2), (5, 6)]).previous_to(4), IntervalSet([(1, 2)]).previous_to(0)
        (2, None)
        """
        number = whole(value, "value")
        low, high = self._type.limits
        if number < low:
            return None
        found = self._type.number()
        is_there = self._type.previous_to_sorted(self._at, self._count, min(number, high), ctypes.addressof(found))
        greatest: int = found.value
        return greatest if is_there else None

    def run_at(self, value: SupportsIndex) -> tuple[int, int] | None:
        """Returns the run that holds the value as a pair, or None.

        >>> IntervalSet([(1, 2), (5, 6)]).run_at(6), IntervalSet([(1, 2)]).run_at(3)
        ((5, 6), None)
        """
        number = whole(value, "value")
        found = self._type.run()
        if not self._type.holds(number) or not self._type.run_at_sorted(self._at, self._count, number, ctypes.addressof(found)):
            return None
        return found.lower, found.upper

    def _ranks(self) -> tuple[Numbers[int], list[int]]:
        """The lower bounds of the runs, and how many members lie below each and in all."""
        if self._ranked is None:
            sizes = (upper - lower + 1 for lower, upper in self.runs())
            self._ranked = self._list[::2], list(itertools.accumulate(sizes, initial=0))
        return self._ranked

    def rank(self, value: SupportsIndex) -> int:
        """Returns the number of members below the value. Logarithmic, once the first such call has gone over the runs.

        >>> IntervalSet([(1, 2), (5, 6)]).rank(6), IntervalSet([(1, 2)]).rank(0)
        (3, 0)
        """
        number = whole(value, "value")
        lowers, below = self._ranks()
        at = bisect.bisect_right(lowers, number)
        if not at:
            return 0
        # what is not below the value is in the last run that starts there or below, or nowhere
        return below[at] - max(self._list[2 * at - 1] - number + 1, 0)

    def nth(self, index: SupportsIndex) -> int | None:
        """Returns the member with exactly `index` members below it, or None. Logarithmic, as `rank`.

        >>> IntervalSet([(1, 2), (5, 6)]).nth(2), IntervalSet([(1, 2)]).nth(2)
        (5, None)
        """
        left = whole(index, "index")
        lowers, below = self._ranks()
        if not 0 <= left < below[-1]:
            return None
        at = bisect.bisect_right(below, left) - 1
        return lowers[at] + left - below[at]

    def first_fit(self, count: SupportsIndex) -> tuple[int, int] | None:
        """Returns the lowest `count` consecutive members as a pair, or None.

        >>> IntervalSet([(1, 2), (5, 9)]).first_fit(3), IntervalSet([(1, 2)]).first_fit(3)
        ((5, 7), None)
        """
        number = whole(count, "count")
        if not 0 < number < 2**64:
            return None
        found = self._type.run()
        told = self._type.checked(self._type.first_fit(self._at, self._count, number, ctypes.addressof(found)))
        return (found.lower, found.upper) if told else None

    def best_fit(self, count: SupportsIndex) -> tuple[int, int] | None:
        """Returns `count` consecutive members at the start of the shortest run that is long enough, or None.

        >>> IntervalSet([(1, 5), (7, 9), (20, 22)]).best_fit(2)
        (7, 8)
        """
        number = whole(count, "count")
        fitting = ((upper - lower, lower) for lower, upper in self.runs() if 0 < number <= upper - lower + 1)
        found = min(fitting, default=None)
        return None if found is None else (found[1], found[1] + number - 1)

    def first_fit_from(self, value: SupportsIndex, count: SupportsIndex) -> tuple[int, int] | None:
        """Returns the lowest `count` consecutive members from the value on as a pair, or None.

        >>> IntervalSet([(1, 5), (7, 9)]).first_fit_from(4, 2), IntervalSet([(1, 5), (7, 9)]).first_fit_from(5, 2)
        ((4, 5), (7, 8))
        """
        least, number = whole(value, "value"), whole(count, "count")
        runs = ((max(lower, least), upper) for lower, upper in self.runs_within(least, self._type.range[1]))
        return next(((lower, lower + number - 1) for lower, upper in runs if 0 < number <= upper - lower + 1), None)

    def runs_within(self, lower: SupportsIndex, upper: SupportsIndex) -> Runs:
        """Returns the runs that have a number from `lower` to `upper`, as long as they are.

        >>> IntervalSet([(1, 2), (5, 6), (9, 9)]).runs_within(2, 5)
        Runs([(1, 2), (5, 6)])
        """
        low, high = whole(lower, "lower"), whole(upper, "upper")
        places = range(self._count)
        first = bisect.bisect_left(places, low, key=lambda at: self._list[2 * at + 1])
        past = max(bisect.bisect_right(places, high, key=lambda at: self._list[2 * at]), first)
        return Runs(self._list[2 * first : 2 * past] if low <= high else self._list[:0])

    def gaps_within(self, lower: SupportsIndex, upper: SupportsIndex) -> IntervalSet:
        """Returns the numbers from `lower` to `upper` that are no members.

        >>> IntervalSet([(1, 2), (5, 6)]).gaps_within(0, 9)
        IntervalSet([(0, 0), (3, 4), (7, 9)])
        """
        low, high = max(whole(lower, "lower"), self._type.range[0]), min(whole(upper, "upper"), self._type.range[1])
        return IntervalSet([(low, high)] if low <= high else (), bounds=self._type.name) - self

    def min(self) -> int:
        """Returns the least member. `min(s)` is the same, but looks at each member.

        >>> IntervalSet([(5, 6), (1, 2)]).min(), IntervalSet([(5, 6), (1, 2)]).max()
        (1, 6)
        """
        return self._end(0)

    def max(self) -> int:
        """Returns the greatest member."""
        return self._end(-1)

    def _end(self, at: int) -> int:
        if not self._count:
            raise ValueError("the set is empty")
        return self._list[at]

    @property
    def size(self) -> int:
        """The number of members. `len` is the same, but fails above `sys.maxsize`."""
        if self._sized is None:
            found = ctypes.c_uint64()
            self._type.checked(self._type.size(self._at, self._count, ctypes.addressof(found)))
            self._sized = int(found.value)
        return self._sized

    @property
    def bounds(self) -> Bounds:
        """The type of the bounds: "i64" or "u64"."""
        return self._type.name

    def __len__(self) -> int:
        size = self.size
        if size > sys.maxsize:
            raise OverflowError("the set has more members than len can return: use size")
        return size

    def __bool__(self) -> bool:
        return self._count > 0

    def __iter__(self) -> Iterator[int]:
        """Yields the members, ascending."""
        return itertools.chain.from_iterable(range(lower, upper + 1) for lower, upper in self.runs())

    def __reversed__(self) -> Iterator[int]:
        """Yields the members, descending."""
        return itertools.chain.from_iterable(range(upper, lower - 1, -1) for lower, upper in reversed(self.runs()))

    def runs(self) -> Runs:
        """Returns the runs as a sequence of pairs, ascending."""
        return Runs(self._list)

    def array(self) -> Any:
        """Returns the runs as a numpy array of shape (n, 2). It is a copy, and cannot be written."""
        if numpy is None:
            raise ImportError("array() needs numpy, which is not installed")
        kind = numpy.int64 if self._type.is_signed else numpy.uint64
        held = self._list.tobytes() or bytes(16)  # numpy wants a buffer that is not empty
        return numpy.frombuffer(held, dtype=kind, count=2 * self._count).reshape(self._count, 2)

    def isin(self, values: Any) -> Any:
        """Returns for each value of a numpy array of integers whether it is a member, as an array of booleans."""
        if numpy is None:
            raise ImportError("isin() needs numpy, which is not installed")
        given = numpy.asarray(values)
        if given.dtype.kind not in "iu":
            raise TypeError("an array of integers is wanted")
        if given.dtype.kind == "u" and self._type.is_signed and given.dtype.itemsize == 8:
            return (given < numpy.uint64(2**63)) & self.isin(given.astype(numpy.int64))
        if given.dtype.kind == "i" and not self._type.is_signed:
            return (given >= 0) & self.isin(given.astype(numpy.uint64))
        runs = self.array()
        given = given.astype(runs.dtype)
        at = numpy.searchsorted(runs[:, 0], given, side="right")
        return (at > 0) & (given <= numpy.append(runs[:, 1], runs.dtype.type(0))[at - 1]) if self._count else given != given

    def copy(self) -> IntervalSet:
        """Returns the set itself, which never changes."""
        return self

    __copy__ = copy

    def __deepcopy__(self, memo: Any) -> IntervalSet:
        return self

    def __reduce__(self) -> tuple[Any, ...]:
        # a class of the caller's comes back as itself, with what it keeps
        return type(self), (list(self.runs()), self._type.name), getattr(self, "__dict__", None)

    def __repr__(self) -> str:
        last = "" if self._type.is_signed else ", bounds=%r" % self._type.name
        return "%s(%s%s)" % (type(self).__name__, listed(self.runs()), last)


def _as_whole(value: object) -> int | None:
    """The whole number that a value equals which is no whole number by its type, as 1.0 and Fraction(2, 2), or None."""
    if isinstance(value, complex) and not value.imag:
        value = value.real
    try:
        number = int(value)  # type: ignore[call-overload]
        return number if number == value else None
    except (TypeError, ValueError, OverflowError, ArithmeticError):
        return None


def _size(other: collections.abc.Set[Any]) -> int:
    """How many members a set has, which `len` may not be able to tell."""
    return other.size if isinstance(other, IntervalSet) else len(other)


def _pairs(bounds: _Bounds, items: Iterable[Item]) -> tuple[Any, int, int]:
    """Returns what holds the pairs, its address and their number. A contiguous numpy array of the type is not copied."""
    if numpy is not None and isinstance(items, numpy.ndarray):
        return _pairs_of_array(bounds, items)
    if isinstance(items, IntervalSet):
        if items._type is bounds:
            return items, items._at, items._count
        items = items.runs()
    elif isinstance(items, range):
        items = [items]
    try:
        pairs: list[Any] = list(items)
    except TypeError:
        if isinstance(items, collections.abc.Iterable):
            raise
        raise TypeError("a set is made of an iterable of numbers, ranges, pairs and sets, not of %r" % (items,)) from None
    kinds = set(map(type, pairs))
    lists: list[tuple[Any, tuple[Any, ...]]] = []
    # in the usual cases, no item is looked at by itself
    if kinds == {int}:
        pairs = list(zip(pairs, pairs))
    elif not (kinds <= {tuple, list} and set(map(len, pairs)) <= {2}):
        pairs = [pair for item in pairs for pair in _pairs_of_item(item)]
    elif list in kinds:
        lists = [(pair, tuple(pair)) for pair in pairs if type(pair) is list]
        pairs = list(map(tuple, pairs))
    try:
        flat = Numbers(bounds.code, itertools.chain.from_iterable(pairs))
    except OverflowError:
        raise bounds.outside(next(n for pair in pairs for n in map(operator.index, pair) if not bounds.holds(n))) from None
    except TypeError:
        for pair in pairs:
            for bound in pair:
                whole(bound, "a bound")
        raise
    for pair, bounds_before in lists:
        _is_unchanged(pair, bounds_before)
    return flat, flat.buffer_info()[0], len(pairs)


def _is_unchanged(pair: Any, bounds_before: tuple[Any, ...]) -> None:
    """Raises an error if a list of bounds is another one now: reading a bound may run code of its type, which may change the list."""
    if len(pair) != 2 or pair[0] is not bounds_before[0] or pair[1] is not bounds_before[1]:
        raise TypeError("a pair has two bounds: a list of bounds was changed while it was read")


def _pairs_of_item(item: Any) -> Iterable[tuple[int, int]]:
    """The pairs of a number, a range, a set or a pair of bounds."""
    if isinstance(item, IntervalSet):
        return item.runs()
    if isinstance(item, range):
        if item and abs(item.step) == 1:
            return [(min(item[0], item[-1]), max(item[0], item[-1]))]
        return ((number, number) for number in item)
    if isinstance(item, (tuple, list)):
        if len(item) != 2:
            raise TypeError("a pair has two bounds: %r" % (item,))
        lower, upper = item
        pair = whole(lower, "a bound"), whole(upper, "a bound")
        _is_unchanged(item, (lower, upper))
        return [pair]
    if isinstance(item, collections.abc.Set):
        return [(number, number) for number in (whole(one, "a member") for one in item)]
    if numpy is not None and isinstance(item, numpy.ndarray) and item.shape == (2,):
        return [(operator.index(item[0]), operator.index(item[1]))]
    number = whole(item, "an item")
    return [(number, number)]


def _pairs_of_array(bounds: _Bounds, items: Any) -> tuple[Any, int, int]:
    if numpy.ma.isMaskedArray(items):
        raise TypeError("a masked array has no set: say what its masked items are")
    if items.dtype.kind not in "iu" or items.ndim not in (1, 2) or items.shape[1:] not in ((), (2,)):
        raise TypeError("an array of integers of shape (n,) or (n, 2) is wanted")
    kind = numpy.int64 if bounds.is_signed else numpy.uint64
    if items.dtype != kind and items.size:
        for bound in (int(items.min()), int(items.max())):
            if not bounds.holds(bound):
                raise bounds.outside(bound)
    if items.ndim == 1:
        # of members: each run of them as one pair
        members = numpy.unique(items.astype(kind))
        breaks = numpy.flatnonzero(members[1:] - members[:-1] != 1)
        ends = (members, members)
        if len(members):
            ends = members[numpy.append(0, breaks + 1)], members[numpy.append(breaks, -1)]
        items = numpy.stack(ends, axis=1)
    held = numpy.require(items, dtype=kind, requirements=["C", "A"])
    return held, held.ctypes.data, len(held)


# they are made of what is above
from ._dates import DateSet  # noqa: E402
from ._model import Best, Count, End, Model, SearchStopped, Solution, Solutions, Variable  # noqa: E402
from ._mutable import IntervalMap, MutableIntervalSet  # noqa: E402
