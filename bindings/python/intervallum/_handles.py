"""Handles of the library, and how what is given to its calls is read."""

from __future__ import annotations

import ctypes
import weakref
from typing import Any, SupportsIndex

from . import Bounds, _Bounds, _type_of
from ._given import whole


class Handle:
    """A handle of the library, which ends with the object, and its calls. A call is given the object, so that it lives as long."""

    __slots__ = ("type", "kind", "_as_parameter_", "_ends", "__weakref__")

    def __init__(self, bounds: _Bounds, kind: str, at: int) -> None:
        self.type, self.kind, self._as_parameter_ = bounds, kind, at
        assert bounds.handles is not None
        self._ends = weakref.finalize(self, bounds.handles[kind + "_free"], at)

    def told(self, name: str, *given: Any) -> int:
        """What a call tells, which may be a code."""
        assert self.type.handles is not None
        return self.type.handles["%s_%s" % (self.kind, name)](self, *given)

    def call(self, name: str, *given: Any) -> int:
        return self.type.checked(self.told(name, *given))

    def number(self, name: str, *given: Any) -> int | None:
        found = self.type.number()
        return found.value if self.call(name, *given, ctypes.addressof(found)) else None

    def run(self, name: str, *given: Any) -> tuple[int, int] | None:
        found = self.type.run()
        return (found.lower, found.upper) if self.call(name, *given, ctypes.addressof(found)) else None

    def size(self, name: str, *given: Any) -> int:
        found = ctypes.c_uint64()
        self.call(name, *given, ctypes.addressof(found))
        return found.value

    def runs(self, out: int, room: int) -> int:
        return self.call("runs", out, room)

    def made(self, name: str, *given: Any, kind: str = "set") -> Handle:
        found = ctypes.c_void_p()
        self.call(name, *given, ctypes.addressof(found))
        return Handle(self.type, kind, found.value or 0)


def new(bounds: Bounds, kind: str) -> Handle:
    made, found = _type_of(bounds), ctypes.c_void_p()
    if made.handles is None:
        raise ImportError("the library has no sets and maps that change, and no solver: the one that Cargo builds has them")
    made.checked(made.handles[kind + "_new"](ctypes.addressof(found)))
    return Handle(made, kind, found.value or 0)


def within(bounds: _Bounds, value: SupportsIndex, name: str) -> int:
    """A number that has to be in the range."""
    number = whole(value, name)
    low, high = bounds.range
    if not low <= number <= high:
        raise bounds.outside(number)
    return number


def near(bounds: _Bounds, number: int) -> int:
    """A number, or the end of the type that is next to it."""
    low, high = bounds.limits
    return min(max(number, low), high)


def window(bounds: _Bounds, lower: SupportsIndex, upper: SupportsIndex) -> tuple[int, int]:
    """The part of an interval that is in the range; that of none is crossed."""
    low, high = max(whole(lower, "lower"), bounds.range[0]), min(whole(upper, "upper"), bounds.range[1])
    return (low, high) if low <= high else (1, 0)
