"""Sets and maps that change, over the handles of the library."""

from __future__ import annotations

import collections.abc
import ctypes
import itertools
import json
import operator
from typing import Any, Generic, Iterable, Iterator, SupportsIndex, TypeVar

from . import Bounds, IntervalSet, Item, Runs, _as_whole
from ._forms import run_of_json
from ._given import whole
from ._handles import Handle, near, new, window, within

V = TypeVar("V")


class MutableIntervalSet(collections.abc.MutableSet[int]):
    """A set of whole numbers that changes, in pages of runs: an edit is logarithmic, whatever the number of runs.

    >>> free = MutableIntervalSet([(0, 99)])
    >>> free.take_first_fit(8)
    (0, 7)
    >>> free.discard(50); free.add_run(0, 3); free
    MutableIntervalSet([(0, 3), (8, 49), (51, 99)])
    >>> 50 in free, len(free), free.rank(51), free == IntervalSet([(0, 3), (8, 49), (51, 99)])
    (False, 95, 46, True)
    """

    __slots__ = ("_set",)
    __hash__ = None  # type: ignore[assignment]

    def __init__(self, items: Iterable[Item] = (), bounds: Bounds = "i64") -> None:
        self._set = new(bounds, "set")
        if items != ():
            self.update(items)

    @classmethod
    def _of(cls, handle: Handle) -> MutableIntervalSet:
        made = cls.__new__(cls)
        made._set = handle
        return made

    @classmethod
    def _from_iterable(cls, it: Iterable[Any]) -> MutableIntervalSet:
        return cls(it)

    def _taken(self, other: Iterable[Item]) -> IntervalSet:
        if isinstance(other, MutableIntervalSet):
            return other.frozen()
        return other if isinstance(other, IntervalSet) and other._type is self._set.type else IntervalSet(other, bounds=self.bounds)

    def _handle_of(self, other: Iterable[Item]) -> Handle:
        """The handle of a set of the same bounds, or of what a method takes."""
        if isinstance(other, MutableIntervalSet) and other._set.type is self._set.type:
            return other._set
        taken, found = self._taken(other), ctypes.c_void_p()
        handles = self._set.type.handles
        assert handles is not None
        self._set.type.checked(handles["set_of"](taken._at, taken._count, ctypes.addressof(found)))
        return Handle(self._set.type, "set", found.value or 0)

    # ---- edits

    def add(self, value: SupportsIndex) -> None:
        """Adds a number."""
        self._set.call("insert", within(self._set.type, value, "value"))

    def discard(self, value: SupportsIndex) -> None:
        """Removes a number, if it is a member."""
        number = whole(value, "value")
        if self._set.type.holds(number):
            self._set.call("remove", number)

    def add_run(self, lower: SupportsIndex, upper: SupportsIndex) -> None:
        """Adds the numbers from `lower` to `upper`, both included."""
        self._set.call("insert_run", within(self._set.type, lower, "lower"), within(self._set.type, upper, "upper"))

    def discard_run(self, lower: SupportsIndex, upper: SupportsIndex) -> None:
        """Removes the numbers from `lower` to `upper`, both included."""
        self._set.call("remove_run", *window(self._set.type, lower, upper))

    def update(self, *others: Iterable[Item]) -> None:
        """Adds numbers, ranges, pairs and sets."""
        for other in others:
            self._set.call("unite", self._handle_of(other))

    def intersection_update(self, *others: Iterable[Item]) -> None:
        """Removes what is not in each of the other sets."""
        for other in others:
            self._set.call("intersect", self._handle_of(other))

    def difference_update(self, *others: Iterable[Item]) -> None:
        """Removes numbers, ranges, pairs and sets."""
        for other in others:
            self._set.call("subtract", self._handle_of(other))

    def __ior__(self, other: Any) -> MutableIntervalSet:
        return self._changed(self.update, other)

    def __iand__(self, other: Any) -> MutableIntervalSet:
        return self._changed(self.intersection_update, other)

    def __isub__(self, other: Any) -> MutableIntervalSet:
        return self._changed(self.difference_update, other)

    def __ixor__(self, other: Any) -> MutableIntervalSet:
        if not isinstance(other, (collections.abc.Set, range)):
            return NotImplemented
        self._set = self._set.made("symmetric_difference", self._handle_of(other))
        return self

    def _changed(self, change: Any, other: Any) -> MutableIntervalSet:
        if not isinstance(other, (collections.abc.Set, range)):
            return NotImplemented
        change(other)
        return self

    def clear(self) -> None:
        """Removes all members."""
        self._set.call("clear")

    def pop(self) -> int:
        """Removes and returns the least member."""
        return self._popped("pop_first")

    def pop_last(self) -> int:
        """Removes and returns the greatest member."""
        return self._popped("pop_last")

    def _popped(self, name: str) -> int:
        found = self._set.number(name)
        if found is None:
            raise KeyError("the set is empty")
        return found

    def take_first_fit(self, count: SupportsIndex) -> tuple[int, int] | None:
        """Removes the lowest `count` consecutive members and returns them as a pair, or returns None."""
        return self._fit("take_first_fit", count)

    def _fit(self, name: str, count: SupportsIndex, *given: int) -> tuple[int, int] | None:
        number = whole(count, "count")
        return self._set.run(name, *given, number) if 0 < number < 2**64 else None

    # ---- reads

    def __contains__(self, value: object) -> bool:
        number = value if isinstance(value, int) else _as_whole(value)
        return number is not None and self._set.type.holds(number) and self._set.call("contains", number) == 1

    def __len__(self) -> int:
        return self.size

    @property
    def size(self) -> int:
        """The number of members. `len` is the same, but fails above `sys.maxsize`."""
        return self._set.size("size")

    @property
    def bounds(self) -> Bounds:
        """The type of the bounds: "i64" or "u64"."""
        return self._set.type.name

    def __bool__(self) -> bool:
        return not self._set.call("is_empty")

    def frozen(self) -> IntervalSet:
        """Returns the members as an `IntervalSet`."""
        return IntervalSet._of(self._set.type, self._set.runs, room=self._set.size("run_count"))

    def runs(self) -> Runs:
        """Returns the runs as they are, as a sequence of pairs."""
        return self.frozen().runs()

    def __iter__(self) -> Iterator[int]:
        """Yields the members that are there when it begins, ascending."""
        return iter(self.frozen())

    def min(self) -> int:
        """Returns the least member."""
        return self._end("first")

    def max(self) -> int:
        """Returns the greatest member."""
        return self._end("last")

    def _end(self, name: str) -> int:
        found = self._set.number(name)
        if found is None:
            raise ValueError("the set is empty")
        return found

    def next_from(self, value: SupportsIndex) -> int | None:
        """Returns the least member that is at least the value, or None."""
        number = whole(value, "value")
        return None if number > self._set.type.limits[1] else self._set.number("next_from", near(self._set.type, number))

    def previous_to(self, value: SupportsIndex) -> int | None:
        """Returns the greatest member that is at most the value, or None."""
        number = whole(value, "value")
        return None if number < self._set.type.limits[0] else self._set.number("previous_to", near(self._set.type, number))

    def run_at(self, value: SupportsIndex) -> tuple[int, int] | None:
        """Returns the run that holds the value as a pair, or None."""
        number = whole(value, "value")
        return self._set.run("run_at", number) if self._set.type.holds(number) else None

    def rank(self, value: SupportsIndex) -> int:
        """Returns the number of members below the value."""
        number = whole(value, "value")
        return self.size if number > self._set.type.limits[1] else self._set.size("rank", near(self._set.type, number))

    def nth(self, index: SupportsIndex) -> int | None:
        """Returns the member with exactly `index` members below it, or None."""
        number = whole(index, "index")
        return self._set.number("nth", number) if 0 <= number < 2**64 else None

    def first_fit(self, count: SupportsIndex) -> tuple[int, int] | None:
        """Returns the lowest `count` consecutive members as a pair, or None."""
        return self._fit("first_fit", count)

    def first_fit_from(self, value: SupportsIndex, count: SupportsIndex) -> tuple[int, int] | None:
        """Returns the lowest `count` consecutive members from the value on as a pair, or None."""
        return self._fit("first_fit_from", count, near(self._set.type, whole(value, "value")))

    def best_fit(self, count: SupportsIndex) -> tuple[int, int] | None:
        """Returns `count` consecutive members at the start of the shortest run that is long enough, or None."""
        return self._fit("best_fit", count)

    # ---- two sets: as those of `IntervalSet`, over the members at the time

    def __or__(self, other: Any) -> MutableIntervalSet:
        return self._with(operator.or_, other)

    def __and__(self, other: Any) -> MutableIntervalSet:
        return self._with(operator.and_, other)

    def __sub__(self, other: Any) -> MutableIntervalSet:
        return self._with(operator.sub, other)

    def __xor__(self, other: Any) -> MutableIntervalSet:
        return self._with(operator.xor, other)

    __ror__, __rand__, __rxor__ = __or__, __and__, __xor__

    def __rsub__(self, other: Any) -> MutableIntervalSet:
        return self._with(lambda mine, theirs: theirs - mine, other)

    def _with(self, call: Any, other: Any) -> MutableIntervalSet:
        if not isinstance(other, (collections.abc.Set, range)):
            return NotImplemented
        made = call(self.frozen(), other.frozen() if isinstance(other, MutableIntervalSet) else other)
        return self._of(self._handle_of(made))

    def __eq__(self, other: object) -> bool:
        if isinstance(other, MutableIntervalSet) and other._set.type is self._set.type:
            return self._set.call("equal", other._set) == 1
        return self._compared(operator.eq, other)

    def __le__(self, other: Any) -> bool:
        return self._compared(operator.le, other)

    def __lt__(self, other: Any) -> bool:
        return self._compared(operator.lt, other)

    def __ge__(self, other: Any) -> bool:
        return self._compared(operator.ge, other)

    def __gt__(self, other: Any) -> bool:
        return self._compared(operator.gt, other)

    def _compared(self, call: Any, other: object) -> bool:
        if not isinstance(other, collections.abc.Set):
            return NotImplemented
        answer: bool = call(self.frozen(), other.frozen() if isinstance(other, MutableIntervalSet) else other)
        return answer

    def __invert__(self) -> MutableIntervalSet:
        """Returns the complement within the range."""
        return self._of(self._set.made("complement"))

    def isdisjoint(self, other: Iterable[Any]) -> bool:
        """Returns whether no number is in both sets."""
        return not self._set.call("overlap", self._handle_of(other))

    def gaps_within(self, lower: SupportsIndex, upper: SupportsIndex) -> IntervalSet:
        """Returns the numbers from `lower` to `upper` that are no members."""
        return self._of(self._set.made("gaps_within", *window(self._set.type, lower, upper))).frozen()

    def copy(self) -> MutableIntervalSet:
        """Returns a set of its own with the same members."""
        return self._of(self._set.made("clone"))

    __copy__ = copy

    def __deepcopy__(self, memo: Any) -> MutableIntervalSet:
        return self.copy()

    @classmethod
    def from_text(cls, text: str, bounds: Bounds = "i64") -> MutableIntervalSet:
        """Returns the set of a text, as `IntervalSet.from_text`."""
        return cls(IntervalSet.from_text(text, bounds=bounds), bounds=bounds)

    def to_text(self) -> str:
        """Returns the runs as a text, as `IntervalSet.to_text`."""
        return self.frozen().to_text()

    @classmethod
    def from_json(cls, text: str | bytes, bounds: Bounds = "i64") -> MutableIntervalSet:
        """Returns the set of JSON, as `IntervalSet.from_json`."""
        return cls(IntervalSet.from_json(text, bounds=bounds), bounds=bounds)

    def to_json(self) -> str:
        """Returns the runs as JSON, as `IntervalSet.to_json`."""
        return self.frozen().to_json()

    def __reduce__(self) -> tuple[Any, ...]:
        return type(self), (list(self.runs()), self.bounds)

    def __repr__(self) -> str:
        return repr(self.frozen()).replace("IntervalSet", type(self).__name__, 1)


class IntervalMap(Generic[V]):
    """A map from whole numbers to values of any kind: each number has one or none, and neighbours of equal value stand in one entry.

    Equal values are kept once, as keys of a dict are, so that `True` reads as 1 after 1; a value must not change while it is held.
    One without a hash is looked for among all that are held.

    >>> desk = IntervalMap([((8, 17), "anna"), ((12, 13), "bela")])
    >>> desk
    IntervalMap([((8, 11), 'anna'), ((12, 13), 'bela'), ((14, 17), 'anna')])
    >>> desk[12], desk.get(18), 9 in desk, desk.entry_at(15), desk.numbers_with("anna")
    ('bela', None, True, ((14, 17), 'anna'), IntervalSet([(8, 11), (14, 17)]))
    >>> desk[14:18] = "bela"; del desk[10]; len(desk), list(desk)
    (3, [((8, 9), 'anna'), ((11, 11), 'anna'), ((12, 17), 'bela')])
    >>> desk.first_fit(9, 20, 2), desk.set_if_free(17, 20, "cleo"), desk.gaps_within(8, 18)
    ((18, 19), False, IntervalSet([(10, 10), (18, 18)]))
    """

    __slots__ = ("_map", "_numbers", "_values", "_unused")
    __hash__ = None  # type: ignore[assignment]

    def __init__(self, entries: Iterable[tuple[tuple[SupportsIndex, SupportsIndex], V]] = (), bounds: Bounds = "i64") -> None:
        self._map = new(bounds, "map")
        # the library has a number for each value: by the value, if it has a hash, and the values by number
        self._numbers: dict[V, int] = {}
        self._values: list[Any] = []
        self._unused: list[int] = []
        for entry in entries:
            try:
                (lower, upper), value = entry
            except (TypeError, ValueError):
                raise TypeError("an entry is a pair of bounds and a value, ((1, 5), 'anna'), not %r" % (entry,)) from None
            self.set(lower, upper, value)

    def _number(self, value: V) -> int:
        """The number of a value, which an equal one has, too."""
        try:
            known = self._numbers.get(value)
        except TypeError:
            # a value without a hash is looked for among those
            known = next((at for at, held in enumerate(self._values) if held is value or held == value), None)
        if known is not None:
            return known
        if len(self._values) > 2 * self._map.size("entry_count") + 64 and not self._unused:
            self._drop_unused()
        at = self._unused.pop() if self._unused else len(self._values)
        self._values[at : at + 1] = [value]
        try:
            self._numbers[value] = at
        except TypeError:
            pass
        return at

    def _drop_unused(self) -> None:
        """Lets go of the values that no number has."""
        used = {number for _, number in self._numbered()}
        for at, value in enumerate(self._values):
            if at not in used and value is not _GONE:
                self._values[at] = _GONE
                self._unused.append(at)
        self._numbers = {value: at for value, at in self._numbers.items() if at in used}

    def _numbered(self, lower: int | None = None, upper: int | None = None) -> Iterator[tuple[tuple[int, int], int]]:
        """The entries that have a number from `lower` to `upper`, with the numbers of their values."""
        low, high = self._map.type.range
        at: int | None = low if lower is None else lower
        found = self._found()
        while at is not None and self._map.call("next_from", at, ctypes.addressof(found)):
            if upper is not None and found.lower > upper:
                return
            run = found.lower, found.upper
            yield run, found.value
            at = run[1] + 1 if run[1] < high else None

    def _found(self) -> Any:
        return _ENTRIES[self._map.type.name]()

    def _entry(self, name: str, *given: int) -> tuple[tuple[int, int], V] | None:
        found = self._found()
        if not self._map.call(name, *given, ctypes.addressof(found)):
            return None
        return (found.lower, found.upper), self._values[found.value]

    # ---- edits

    def set(self, lower: SupportsIndex, upper: SupportsIndex, value: V) -> None:
        """Gives the numbers from `lower` to `upper`, both included, a value."""
        low, high = within(self._map.type, lower, "lower"), within(self._map.type, upper, "upper")
        self._map.call("insert", low, high, self._number(value))

    def set_if_free(self, lower: SupportsIndex, upper: SupportsIndex, value: V) -> bool:
        """Does this if none of the numbers has a value. Returns whether it did."""
        low, high = within(self._map.type, lower, "lower"), within(self._map.type, upper, "upper")
        return self._map.call("insert_if_free", low, high, self._number(value)) == 1

    def remove(self, lower: SupportsIndex, upper: SupportsIndex) -> None:
        """Takes the values of the numbers from `lower` to `upper`, both included."""
        self._map.call("remove", *window(self._map.type, lower, upper))

    def clear(self) -> None:
        """Takes all values."""
        self._map.call("clear")
        self._numbers, self._values, self._unused = {}, [], []

    def __setitem__(self, key: SupportsIndex | slice, value: V) -> None:
        """Gives a number, or those of a slice without a step, whose end is not included, a value."""
        self.set(*self._ends(key), value)

    def __delitem__(self, key: SupportsIndex | slice) -> None:
        self.remove(*self._ends(key))

    def _ends(self, key: SupportsIndex | slice) -> tuple[int, int]:
        if not isinstance(key, slice):
            number = whole(key, "a number")
            return number, number
        if key.step is not None:
            raise ValueError("a slice of numbers has no step")
        low, high = self._map.type.range
        lower = low if key.start is None else whole(key.start, "the start of a slice")
        return lower, high if key.stop is None else whole(key.stop, "the end of a slice") - 1

    # ---- reads

    def __getitem__(self, number: SupportsIndex) -> V:
        entry = self.entry_at(number)
        if entry is None:
            raise KeyError(number)
        return entry[1]

    def get(self, number: SupportsIndex, default: Any = None) -> Any:
        """Returns the value of a number, or the default."""
        entry = self.entry_at(number)
        return default if entry is None else entry[1]

    def __contains__(self, number: object) -> bool:
        at = number if isinstance(number, int) else _as_whole(number)
        return at is not None and self._map.type.holds(at) and self._map.call("contains", at) == 1

    def entry_at(self, number: SupportsIndex) -> tuple[tuple[int, int], V] | None:
        """Returns the run of a number and its value, or None."""
        at = whole(number, "number")
        return self._entry("entry_at", at) if self._map.type.holds(at) else None

    def next_from(self, number: SupportsIndex) -> tuple[tuple[int, int], V] | None:
        """Returns the first entry that ends at the number or above, or None."""
        at = whole(number, "number")
        return None if at > self._map.type.limits[1] else self._entry("next_from", near(self._map.type, at))

    def previous_to(self, number: SupportsIndex) -> tuple[tuple[int, int], V] | None:
        """Returns the last entry that begins at the number or below, or None."""
        at = whole(number, "number")
        return None if at < self._map.type.limits[0] else self._entry("previous_to", near(self._map.type, at))

    def overlapping(self, lower: SupportsIndex, upper: SupportsIndex) -> Iterator[tuple[tuple[int, int], V]]:
        """Yields the entries that have a number from `lower` to `upper`."""
        low, high = window(self._map.type, lower, upper)
        if low <= high:
            yield from ((run, self._values[number]) for run, number in self._numbered(low, high))

    def __iter__(self) -> Iterator[tuple[tuple[int, int], V]]:
        """Yields the entries, ascending: the run as a pair, and the value."""
        return ((run, self._values[number]) for run, number in self._numbered())

    def __len__(self) -> int:
        """Returns the number of entries."""
        return self._map.size("entry_count")

    @property
    def size(self) -> int:
        """How many numbers have a value."""
        return self._map.size("size")

    @property
    def bounds(self) -> Bounds:
        """The type of the bounds: "i64" or "u64"."""
        return self._map.type.name

    def keys(self) -> IntervalSet:
        """Returns the numbers that have a value."""
        return MutableIntervalSet._of(self._map.made("keys")).frozen()

    def values(self) -> Iterator[V]:
        """Yields the value of each entry."""
        return (value for _, value in self)

    def numbers_with(self, value: V) -> IntervalSet:
        """Returns the numbers that have a value."""
        runs = [run for run, held in self if held == value]
        return IntervalSet(runs, bounds=self.bounds)

    def gaps_within(self, lower: SupportsIndex, upper: SupportsIndex) -> IntervalSet:
        """Returns the numbers from `lower` to `upper` that have no value."""
        return MutableIntervalSet._of(self._map.made("gaps_within", *window(self._map.type, lower, upper))).frozen()

    def first_fit(self, lower: SupportsIndex, upper: SupportsIndex, count: SupportsIndex) -> tuple[int, int] | None:
        """Returns the lowest `count` consecutive numbers from `lower` to `upper` that have no value as a pair, or None."""
        number = whole(count, "count")
        return self._map.run("first_fit", *window(self._map.type, lower, upper), number) if 0 < number < 2**64 else None

    def __eq__(self, other: object) -> bool:
        if not isinstance(other, IntervalMap):
            return NotImplemented
        return len(self) == len(other) and all(mine == theirs for mine, theirs in zip(self, other))

    def copy(self) -> IntervalMap[V]:
        """Returns a map of its own with the same entries."""
        made = type(self)(bounds=self.bounds)
        made._map = self._map.made("clone", kind="map")
        made._numbers, made._values, made._unused = self._numbers.copy(), self._values.copy(), self._unused.copy()
        return made

    __copy__ = copy

    @classmethod
    def from_json(cls, text: str | bytes, bounds: Bounds = "i64") -> IntervalMap[Any]:
        """Returns the map of JSON as `to_json` makes it.

        >>> IntervalMap.from_json('[[[8,11],"anna"],[[12,13],null]]')
        IntervalMap([((8, 11), 'anna'), ((12, 13), None)])
        """
        made: IntervalMap[Any] = cls(bounds=bounds)
        found = json.loads(text)
        if not (isinstance(found, list) and all(isinstance(entry, list) and len(entry) == 2 for entry in found)):
            raise ValueError('JSON of a map is a list of runs and values, as in [[[1,2],"anna"]]')
        for run, value in found:
            made.set(*run_of_json(run), value)
        return made

    def to_json(self) -> str:
        """Returns the entries as JSON, the same as from Rust, if the values have such a form.

        >>> IntervalMap([((8, 11), "anna")]).to_json()
        '[[[8,11],"anna"]]'
        """
        return json.dumps(list(self), separators=(",", ":"))

    def __reduce__(self) -> tuple[Any, ...]:
        return type(self), (list(self), self.bounds)

    def __repr__(self) -> str:
        last = "" if self.bounds == "i64" else ", bounds=%r" % self.bounds
        shown = list(map(repr, itertools.islice(self, 20)))
        more = [] if len(self) <= 20 else ["<%d more entries>" % (len(self) - 20)]
        return "%s([%s]%s)" % (type(self).__name__, ", ".join(shown + more), last)


class _Gone:
    """Stands where a value was let go; it equals nothing else."""


_GONE = _Gone()


def _entry_of(number: type[Any]) -> type[ctypes.Structure]:
    class Entry(ctypes.Structure):
        _fields_ = [("lower", number), ("upper", number), ("value", ctypes.c_uint64)]

    return Entry


_ENTRIES = {"i64": _entry_of(ctypes.c_int64), "u64": _entry_of(ctypes.c_uint64)}
