"""A solver: variables that have numbers of sets, rules between them, and all solutions, their number, or the best one."""

from __future__ import annotations

import collections.abc
import ctypes
import dataclasses
import enum
from array import array as Numbers
from typing import Any, Iterable, Iterator, NamedTuple, SupportsIndex, Union, overload

from . import Bounds, IntervalSet, Item
from ._given import interruptible, whole
from ._handles import Handle, new

# of a variable: a number, or what a set is made of
Domain = Union[SupportsIndex, Iterable[Item]]


@dataclasses.dataclass(frozen=True, order=True, slots=True)
class Variable:
    """A variable of a model: its index, from 0 in the order in which the variables were added."""

    index: int


class End(enum.Enum):
    """Why a search ended: all solutions were found, or as many as its limit allows, or as many nodes were visited."""

    ALL = 0
    SOLUTIONS = 1
    NODES = 2


class SearchStopped(RuntimeError):
    """A search was told to stop."""


class _Limits(ctypes.Structure):
    _fields_ = [("solutions", ctypes.c_uint64), ("nodes", ctypes.c_uint64)]


class _Task(ctypes.Structure):
    _fields_ = [("variable", ctypes.c_int64), ("length", ctypes.c_uint64)]


class Solution:
    """A number for each variable of a model: `solution[x]` is that of the variable `x`, and `numbers` has all, in their order."""

    __slots__ = ("numbers",)
    numbers: tuple[int, ...]

    def __init__(self, numbers: Iterable[int]) -> None:
        self.numbers = tuple(numbers)

    def __getitem__(self, variable: Variable) -> int:
        return self.numbers[_index(variable)]

    def __eq__(self, other: object) -> bool:
        if not isinstance(other, Solution):
            return NotImplemented
        return self.numbers == other.numbers

    def __hash__(self) -> int:
        return hash(self.numbers)

    def __repr__(self) -> str:
        return "Solution(%r)" % (self.numbers,)


class Solutions(collections.abc.Sequence[Solution]):
    """The solutions that a search found, in no order that is promised, and `end`, why it ended."""

    __slots__ = ("end", "_found", "_count", "_width")
    end: End

    def __init__(self, found: Handle, width: int) -> None:
        self._found, self._width = found, width
        self._count = found.size("count")
        self.end = End(found.call("end"))

    def __len__(self) -> int:
        return self._count

    @overload
    def __getitem__(self, at: SupportsIndex) -> Solution: ...

    @overload
    def __getitem__(self, at: slice) -> list[Solution]: ...

    def __getitem__(self, at: Any) -> Any:
        places = range(self._count)[at]
        return [self._at(place) for place in places] if isinstance(places, range) else self._at(places)

    def _at(self, place: int) -> Solution:
        numbers = _numbers(self._found, self._width)
        self._found.call("at", place, numbers.buffer_info()[0], self._width)
        return Solution(numbers)

    def __repr__(self) -> str:
        return "<%d solutions, end %s>" % (self._count, self.end.name)


class Best(NamedTuple):
    """The best solution, or None if there is none. If it is not finished, a limit ended the search, and there may be a better one."""

    solution: Solution | None
    is_finished: bool


class Count(NamedTuple):
    """How many solutions a search found, and why it ended."""

    number: int
    end: End


class Model:
    """Variables and rules between them, to be solved.

    A variable has one of the numbers of its domain, which is any set. A rule is about the numbers as such: `x + 3 <= y` may hold
    where `x + 3` is outside the range of `bounds`.

    >>> day = Model()                                    # three talks in a room that is free from 9 to 16, but from 12 to 13
    >>> a, b, c = (day.variable(range(9, 17 - hours)) for hours in (2, 1, 3))
    >>> lunch = day.variable(12)
    >>> day.no_overlap([(a, 2), (b, 1), (c, 3), (lunch, 1)])
    >>> day.at_most(a, 2, b)                             # b begins when a is over, or later
    >>> sorted(solution.numbers for solution in day.solutions())
    [(9, 11, 13, 12), (13, 15, 9, 12)]
    >>> first = day.minimize(b).solution
    >>> first[a], first[b], first[c]
    (9, 11, 13)

    A search goes through `nodes` nodes of its tree at most: a node is a choice, or a part of the narrowing between two choices. Ctrl-C
    ends a search with KeyboardInterrupt, and the model is as before.
    """

    __slots__ = ("_model",)

    def __init__(self, bounds: Bounds = "i64") -> None:
        self._model = new(bounds, "solver")

    @property
    def bounds(self) -> Bounds:
        """The type of the numbers: "i64" or "u64"."""
        return self._model.type.name

    # ---- variables

    def variable(self, domain: Domain) -> Variable:
        """Adds a variable, whose domain is a number, a range, a set, or an iterable of these and of pairs of bounds."""
        return self.variables(1, domain)[0]

    def variables(self, count: SupportsIndex, domain: Domain) -> list[Variable]:
        """Adds so many variables with one domain."""
        copies, taken = whole(count, "count"), self._taken(domain)
        if copies < 0:
            raise ValueError("count is at least 0, not %d" % copies)
        first = self._told("variables", copies, taken._at, taken._count)
        return [Variable(first + i) for i in range(copies)]

    def _taken(self, domain: Domain) -> IntervalSet:
        if isinstance(domain, IntervalSet) and domain.bounds == self.bounds:
            return domain
        items: Any = domain if isinstance(domain, collections.abc.Iterable) else [domain]
        return IntervalSet(items, bounds=self.bounds)

    def __len__(self) -> int:
        """Returns the number of variables."""
        return self._model.size("variable_count")

    def domain(self, x: Variable) -> IntervalSet:
        """Returns the domain of a variable."""
        index = _index(x)

        def read(out: int, room: int) -> int:
            return self._told("domain", index, out, room)

        return IntervalSet._of(self._model.type, read, room=self._told("domain", index, None, 0))

    def restrict(self, x: Variable, domain: Domain) -> None:
        """Removes what is not in a set, or what a set is made of, from the domain of a variable."""
        taken = self._taken(domain)
        self._told("restrict", _index(x), taken._at, taken._count)

    # ---- rules

    def at_most(self, x: Variable, by: SupportsIndex, y: Variable) -> None:
        """Requires `x + by <= y`."""
        self._rule("at_most", x, by, y)

    def equals(self, x: Variable, by: SupportsIndex, y: Variable) -> None:
        """Requires `x + by == y`."""
        self._rule("equals", x, by, y)

    def differs(self, x: Variable, by: SupportsIndex, y: Variable) -> None:
        """Requires `x + by != y`."""
        self._rule("differs", x, by, y)

    def _rule(self, name: str, x: Variable, by: SupportsIndex, y: Variable) -> None:
        shift = whole(by, "by")
        if not -(2**63) <= shift < 2**63:
            raise ValueError("by is from -2**63 to 2**63 - 1, not %d" % shift)
        self._told(name, _index(x), shift, _index(y))

    def all_different(self, variables: Iterable[Variable]) -> None:
        """Requires that no two of the variables have the same number."""
        given = _indexes(variables)
        self._told("all_different", given.buffer_info()[0], len(given))

    def sum(self, variables: Iterable[Variable], total: Variable) -> None:
        """Requires that the numbers of the variables add up to that of another one.

        The sums of the first of more than two must be in the range, unless no number is below 0, or none above.
        """
        given = _indexes(variables)
        self._told("sum", given.buffer_info()[0], len(given), _index(total))

    def no_overlap(self, tasks: Iterable[tuple[Variable, SupportsIndex]]) -> None:
        """Requires of tasks, which begin at the numbers of variables and have lengths, that no two overlap.

        The distances of their beginnings must be in the range, once they are shifted to be no less than its least number.
        """
        given = [(_index(variable), whole(length, "length")) for variable, length in tasks]
        for _, length in given:
            if not 0 <= length < 2**64:
                raise ValueError("length is from 0 to 2**64 - 1, not %d" % length)
        listed = (_Task * len(given))(*(_Task(*task) for task in given))
        self._told("no_overlap", ctypes.addressof(listed), len(given))

    # ---- searches

    def solutions(self, most: SupportsIndex | None = None, *, nodes: SupportsIndex = 1_000_000) -> Solutions:
        """Returns solutions, none of them twice: all of them, or `most`, unless the search ends after so many nodes."""
        limits, width = _limits(most, nodes), len(self)
        return Solutions(self._search(lambda: self._made(limits)), width)

    def _made(self, limits: _Limits) -> Handle:
        found = ctypes.c_void_p()
        self._told("solutions", ctypes.addressof(limits), ctypes.addressof(found))
        return Handle(self._model.type, "solutions", found.value or 0)

    def count(self, most: SupportsIndex | None = None, *, nodes: SupportsIndex = 1_000_000) -> Count:
        """Returns how many solutions there are, or how many were found until a limit ended the search.

        >>> model = Model()
        >>> model.all_different(model.variables(3, range(1, 11)))
        >>> model.count()
        Count(number=720, end=<End.ALL: 0>)
        """
        limits, found = _limits(most, nodes), ctypes.c_uint64()
        end = self._search(lambda: self._told("count", ctypes.addressof(limits), ctypes.addressof(found)))
        return Count(found.value, End(end))

    def first(self, *, nodes: SupportsIndex = 1_000_000) -> Best:
        """Returns any solution."""
        return self._best("first", (), None, nodes)

    def minimize(self, x: Variable, most: SupportsIndex | None = None, *, nodes: SupportsIndex = 1_000_000) -> Best:
        """Returns a solution in which the number of a variable is the least that it has in any."""
        return self._best("minimize", (_index(x),), most, nodes)

    def maximize(self, x: Variable, most: SupportsIndex | None = None, *, nodes: SupportsIndex = 1_000_000) -> Best:
        """Returns a solution in which the number of a variable is the greatest that it has in any."""
        return self._best("maximize", (_index(x),), most, nodes)

    def _best(self, name: str, given: tuple[int, ...], most: SupportsIndex | None, nodes: SupportsIndex) -> Best:
        limits, width = _limits(most, nodes), len(self)
        numbers = _numbers(self._model, width)
        address = numbers.buffer_info()[0]
        found = self._search(lambda: self._told(name, *given, ctypes.addressof(limits), address, width, unfinished=True))
        return Best(Solution(numbers) if found > 0 else None, found in (0, 1))

    def stop(self, stops: bool = True) -> None:
        """Lets searches of other threads raise `SearchStopped`, and those that begin; or, if false, no longer."""
        self._told("stop", bool(stops))

    def _search(self, call: Any) -> Any:
        return interruptible(call, self.stop)

    def _told(self, name: str, *given: Any, unfinished: bool = False) -> int:
        told = self._model.told(name, *given)
        if told == -9:
            raise SearchStopped("the search was told to stop")
        if told == -10:
            raise ValueError("a variable is none of the model")
        if told == -11:
            raise ValueError("a rule names a variable twice")
        return told if unfinished and told == -8 else self._model.type.checked(told)

    def copy(self) -> Model:
        """Returns a model of its own with the same variables and rules."""
        made = type(self).__new__(type(self))
        made._model = self._model.made("clone", kind="solver")
        return made

    __copy__ = copy

    def __reduce__(self) -> Any:
        raise TypeError("a model cannot be pickled")

    def __deepcopy__(self, memo: Any) -> Model:
        return self.copy()

    def __repr__(self) -> str:
        return "<Model of %d variables>" % len(self)


def _index(variable: Variable) -> int:
    if not isinstance(variable, Variable):
        raise TypeError("a variable of the model is wanted, not %r" % (variable,))
    return variable.index


def _indexes(variables: Iterable[Variable]) -> Numbers[int]:
    return Numbers("q", map(_index, variables))


def _numbers(handle: Handle, count: int) -> Numbers[int]:
    return Numbers(handle.type.code, bytes(8 * count))


def _limits(most: SupportsIndex | None, nodes: SupportsIndex) -> _Limits:
    solutions = 2**64 - 1 if most is None else whole(most, "most")
    limits = solutions, whole(nodes, "nodes")
    if min(limits) < 0:
        raise ValueError("a limit is at least 0, not %d" % min(limits))
    return _Limits(*(min(limit, 2**64 - 1) for limit in limits))
