"""Sets as texts and as JSON, in the forms of the library for Rust."""

from __future__ import annotations

import json
import re
from typing import Any, Iterable

_RUN = re.compile(r"\[(-?\d+)\.\.(-?\d+)\]")


def text_of(runs: Iterable[tuple[int, int]]) -> str:
    shown = ["[%d..%d]" % run for run in runs]
    return shown[0] if len(shown) == 1 else "{%s}" % "".join(shown)


def pairs_of_text(text: str) -> list[tuple[int, int]]:
    if not isinstance(text, str):
        raise TypeError("text is a string, not %r" % (text,))
    is_list = text.startswith("{") and text.endswith("}")
    at, end = int(is_list), len(text) - is_list
    pairs: list[tuple[int, int]] = []
    while at < end or not (is_list or pairs):
        found = _RUN.match(text, at, end) if is_list or not pairs else None
        if found is None or int(found[1]) > int(found[2]):
            raise ValueError("at character %d: a run from a lower to an upper bound is wanted, as in '{[1..2][5..5]}'" % at)
        pairs.append((int(found[1]), int(found[2])))
        at = found.end()
    return pairs


def json_of(runs: Iterable[tuple[int, int]]) -> str:
    return json.dumps(list(runs), separators=(",", ":"))


def pairs_of_json(text: str | bytes) -> list[tuple[int, int]]:
    """The runs of `[[1,2],[5,5]]`, and none of `null`."""
    found = json.loads(text)
    if found is None:
        return []
    if not isinstance(found, list):
        raise ValueError("JSON of a set is a list of runs, as in [[1,2],[5,5]]")
    return list(map(run_of_json, found))


def run_of_json(item: Any) -> tuple[int, int]:
    # True is an int of Python, and no number of JSON
    if not (isinstance(item, list) and len(item) == 2 and all(type(bound) is int for bound in item) and item[0] <= item[1]):
        raise ValueError("a run in JSON is a list of a lower and an upper bound, not %s" % json.dumps(item))
    return item[0], item[1]
