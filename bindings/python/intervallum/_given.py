"""How arguments are read, and calls that Ctrl-C may end."""

from __future__ import annotations

import operator
import threading
from typing import Any, Callable, TypeVar

R = TypeVar("R")


def whole(value: Any, name: str) -> int:
    """The whole number that an argument is."""
    try:
        return operator.index(value)
    except TypeError:
        if hasattr(value, "__index__"):
            raise
        raise TypeError("%s is a whole number, not %r" % (name, value)) from None


def interruptible(call: Callable[[], R], stop: Callable[[bool], None] | None = None) -> R:
    """Makes a long call of the library in a thread of its own, so that Ctrl-C raises KeyboardInterrupt meanwhile.

    Then the call is told to stop, and has ended; one that cannot be told goes on, and what it makes is dropped.
    """
    if threading.current_thread() is not threading.main_thread():
        return call()
    answers: list[R] = []
    errors: list[BaseException] = []
    has_ended = threading.Event()

    def work() -> None:
        try:
            answers.append(call())
        except BaseException as error:
            errors.append(error)
        finally:
            has_ended.set()

    threading.Thread(target=work, daemon=True).start()
    try:
        has_ended.wait()
    except BaseException:
        if stop is not None:
            stop(True)
            _outlast(has_ended)
            stop(False)
        raise
    if errors:
        raise errors[0]
    return answers[0]


def _outlast(has_ended: threading.Event) -> None:
    """Waits, whatever else is pressed."""
    while not has_ended.is_set():
        try:
            has_ended.wait()
        except KeyboardInterrupt:
            pass
