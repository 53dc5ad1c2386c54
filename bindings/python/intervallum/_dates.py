"""Sets of dates, as sets of the ordinals of their days."""

from __future__ import annotations

import collections.abc
import datetime
import operator
from typing import Any, Iterable, Iterator, SupportsIndex, Union

from . import IntervalSet
from ._given import whole

Date = datetime.date
# a date, both dates of a pair, or a set of dates
DateItem = Union[Date, tuple[Date, Date], list[Date], collections.abc.Set[Date]]


def _day(value: object) -> int:
    if isinstance(value, Date) and not isinstance(value, datetime.datetime):
        return value.toordinal()
    raise TypeError("a date is wanted, not %r" % (value,))


def _run(run: tuple[int, int] | None) -> tuple[Date, Date] | None:
    return None if run is None else (Date.fromordinal(run[0]), Date.fromordinal(run[1]))


def _days(item: Any) -> Any:
    if isinstance(item, DateSet):
        return item._held
    if isinstance(item, (tuple, list)):
        return tuple(map(_day, item))
    return {_day(date) for date in item} if isinstance(item, collections.abc.Set) else _day(item)


class DateSet(collections.abc.Set[Date]):
    """An immutable set of dates, made of dates, pairs of a first and a last date, and sets, in any order.

    >>> from datetime import date
    >>> june = DateSet([(date(2026, 6, 1), date(2026, 6, 30))])
    >>> free = june - DateSet([date(2026, 6, 3), (date(2026, 6, 8), date(2026, 6, 28))])
    >>> free
    DateSet(['2026-06-01..2026-06-02', '2026-06-04..2026-06-07', '2026-06-29..2026-06-30'])
    >>> len(free), date(2026, 6, 5) in free, free.first_fit(3)
    (8, True, (datetime.date(2026, 6, 4), datetime.date(2026, 6, 6)))
    >>> [str(day) for day in free.gaps_within(date(2026, 6, 1), date(2026, 6, 9))]
    ['2026-06-03', '2026-06-08', '2026-06-09']
    """

    __slots__ = ("_held",)
    _held: IntervalSet

    def __init__(self, items: Iterable[DateItem] = ()) -> None:
        if items is not None and isinstance(items, (Date, str)):
            raise TypeError("a set is made of an iterable of dates, pairs of dates and sets, not of %r" % (items,))
        self._held = items._held if isinstance(items, DateSet) else IntervalSet([_days(item) for item in items])

    @classmethod
    def _of(cls, held: IntervalSet) -> DateSet:
        made = cls.__new__(cls)
        made._held = held
        return made

    @classmethod
    def of(cls, first: Date, last: Date) -> DateSet:
        """Returns the dates from the first to the last, both included."""
        return cls([(first, last)])

    def __contains__(self, value: object) -> bool:
        return isinstance(value, Date) and not isinstance(value, datetime.datetime) and value.toordinal() in self._held

    def __iter__(self) -> Iterator[Date]:
        return map(Date.fromordinal, self._held)

    def __len__(self) -> int:
        return len(self._held)

    def __eq__(self, other: object) -> bool:
        return self._held == other._held if isinstance(other, DateSet) else super().__eq__(other)

    def __hash__(self) -> int:
        return self._hash()

    def __or__(self, other: Any) -> DateSet:
        return self._with(operator.or_, other)

    def __and__(self, other: Any) -> DateSet:
        return self._with(operator.and_, other)

    def __sub__(self, other: Any) -> DateSet:
        return self._with(operator.sub, other)

    def __xor__(self, other: Any) -> DateSet:
        return self._with(operator.xor, other)

    def _with(self, call: Any, other: Any) -> DateSet:
        if not isinstance(other, collections.abc.Set):
            return NotImplemented
        return self._of(call(self._held, DateSet(other)._held))

    __ror__, __rand__, __rxor__ = __or__, __and__, __xor__

    def runs(self) -> list[tuple[Date, Date]]:
        """Returns the runs of days, each as its first and its last date."""
        return [(Date.fromordinal(lower), Date.fromordinal(upper)) for lower, upper in self._held.runs()]

    def run_at(self, date: Date) -> tuple[Date, Date] | None:
        """Returns the run that holds a date, or None."""
        return _run(self._held.run_at(_day(date)))

    def first_fit(self, days: SupportsIndex) -> tuple[Date, Date] | None:
        """Returns the first so many days in a row, as their first and last date, or None."""
        return _run(self._held.first_fit(whole(days, "days")))

    def first_fit_from(self, date: Date, days: SupportsIndex) -> tuple[Date, Date] | None:
        """Returns the first so many days in a row from a date on, or None."""
        return _run(self._held.first_fit_from(_day(date), whole(days, "days")))

    def gaps_within(self, first: Date, last: Date) -> DateSet:
        """Returns the dates from the first to the last that are no members."""
        return self._of(self._held.gaps_within(_day(first), _day(last)))

    def days(self) -> IntervalSet:
        """Returns the ordinals of the dates, as `date.toordinal` has them."""
        return self._held

    def __reduce__(self) -> tuple[Any, ...]:
        return type(self), (self.runs(),)

    def __repr__(self) -> str:
        runs = self.runs()
        shown = ["%s..%s" % run for run in (runs if len(runs) <= 20 else runs[:3])]
        more = "" if len(runs) <= 20 else ", <%d more runs>" % (len(runs) - 3)
        return "%s([%s%s])" % (type(self).__name__, ", ".join(map(repr, shown)), more)
