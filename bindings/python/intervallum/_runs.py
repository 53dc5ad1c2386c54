"""The runs of a set as a sequence."""

from __future__ import annotations

import collections.abc
from array import array as Numbers
from typing import Any, Iterator, SupportsIndex, overload


class Runs(collections.abc.Sequence[tuple[int, int]]):
    """The runs of a set as pairs of bounds, ascending. It equals any sequence of the same pairs.

    A pair is made when it is asked for.

    >>> from intervallum import IntervalSet
    >>> runs = IntervalSet([(5, 6), (1, 2)]).runs()
    >>> len(runs), runs[0], runs[-1], list(reversed(runs)), runs == [(1, 2), (5, 6)]
    (2, (1, 2), (5, 6), [(5, 6), (1, 2)], True)
    """

    __slots__ = ("_flat",)

    def __init__(self, flat: Numbers[int]) -> None:
        self._flat = flat

    def __len__(self) -> int:
        return len(self._flat) // 2

    @overload
    def __getitem__(self, at: SupportsIndex) -> tuple[int, int]: ...

    @overload
    def __getitem__(self, at: slice) -> list[tuple[int, int]]: ...

    def __getitem__(self, at: Any) -> Any:
        places = range(len(self))[at]
        if isinstance(places, range):
            return [(self._flat[2 * place], self._flat[2 * place + 1]) for place in places]
        return self._flat[2 * places], self._flat[2 * places + 1]

    def __iter__(self) -> Iterator[tuple[int, int]]:
        return zip(self._flat[::2], self._flat[1::2])

    def __reversed__(self) -> Iterator[tuple[int, int]]:
        return zip(self._flat[-2::-2], self._flat[::-2])

    def __eq__(self, other: object) -> bool:
        if not isinstance(other, collections.abc.Sequence) or isinstance(other, (str, bytes)):
            return NotImplemented
        pairs = zip(self, other)
        return len(self) == len(other) and all(isinstance(pair, collections.abc.Iterable) and mine == tuple(pair) for mine, pair in pairs)

    def __repr__(self) -> str:
        return "Runs(%s)" % listed(self)


def listed(runs: Runs) -> str:
    """The list of the runs; of more than 20, the first and the last few."""
    if len(runs) <= 20:
        return repr(list(runs))
    shown = [*map(repr, runs[:3]), "<%d more runs>" % (len(runs) - 6), *map(repr, runs[-3:])]
    return "[%s]" % ", ".join(shown)
