"""Iterables: their items go over together, those of one type at a time."""
from __future__ import annotations

import operator
from collections.abc import Callable, Iterable, Sequence
from typing import Any, List, Protocol, Tuple, Union

from ._errors import FixedError, brief, placed
from ._options import Errors

# So many items are handed over at a time.
PART = 8192
# So few are handed over one by one, where many cannot be at once.
FEW = 16
# What was refused of many: its place, and its code or its error.
Refusals = List[Tuple[int, Union[int, FixedError, TypeError]]]
Found = Tuple[List[Any], Refusals]


class Call(Protocol):
    """What is done with items: with one; and with those of one type at once, which is None where they cannot be."""

    def one(self, item: Any) -> Any: ...
    def many(self, kind: type[Any], items: list[Any]) -> Found | None: ...


def over(given: Iterable[Any], call: Call, errors: Errors) -> list[Any]:
    """What a call finds for each item. Under mask, what is refused is None, and None stays."""
    listed, found = list(given), []
    for start in range(0, len(listed), PART):
        part = listed[start : start + PART]
        values, refusals = found_in(part, call, errors)
        for at, why in refusals:
            if errors is Errors.RAISE or isinstance(why, TypeError):
                raise placed(error_of(why, part[at]), start + at) from None
        found += values
    return found


def error_of(why: int | FixedError | TypeError, item: Any) -> FixedError | TypeError:
    """The error of an item that was refused."""
    return FixedError(why, brief(item)) if isinstance(why, int) else why


def found_in(items: list[Any], call: Call, errors: Errors) -> Found:
    """What a call finds for each item, None where it is refused; and what was refused, in the order of the items."""
    kinds = set(map(type, items))
    if len(kinds) == 1 and (errors is Errors.RAISE or type(None) not in kinds):
        return of_a_kind(kinds.pop(), items, call)
    if errors is Errors.MASK:
        kinds.discard(type(None))
    found: list[Any] = [None] * len(items)
    refusals: Refusals = []
    for kind in kinds:
        places = [at for at, item in enumerate(items) if type(item) is kind]
        values, refused = of_a_kind(kind, [items[at] for at in places], call)
        for at, value in zip(places, values):
            found[at] = value
        refusals += [(places[at], why) for at, why in refused]
    return found, sorted(refusals, key=operator.itemgetter(0))


def of_a_kind(kind: type[Any], items: list[Any], call: Call) -> Found:
    """The same of items of one type: of all at once, or of halves, the smallest item by item."""
    found = call.many(kind, items)
    if found is not None:
        return found
    if len(items) <= FEW:
        return one_by_one(items, call.one)
    middle = len(items) // 2
    lower, upper = of_a_kind(kind, items[:middle], call), of_a_kind(kind, items[middle:], call)
    return lower[0] + upper[0], lower[1] + [(middle + at, why) for at, why in upper[1]]


def one_by_one(items: Iterable[Any], one: Callable[[Any], Any]) -> Found:
    """The same, item by item."""
    found: list[Any] = []
    refusals: Refusals = []
    for at, item in enumerate(items):
        try:
            found.append(one(item))
        except (FixedError, TypeError) as error:
            found.append(None)
            refusals.append((at, error))
    return found, refusals


def coded(found: list[Any], codes: Sequence[int], refused: int) -> Found:
    """What was found, and what was refused by codes."""
    refusals: Refusals = [(at, code) for at, code in enumerate(codes) if code] if refused else []
    for at, _ in refusals:
        found[at] = None
    return found, refusals
