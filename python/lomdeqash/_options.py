"""The words of options, and their codes."""
from __future__ import annotations

import decimal
import enum
import operator
from typing import Literal, TypeVar, Union

from . import _errors, _library


class Policy(enum.Enum):
    """What is done with a number that its format does not hold."""

    CHECKED = "checked"  #: it is refused
    SATURATING = "saturating"  #: it becomes the nearer end
    WRAPPING = "wrapping"  #: it loses its high bits
    SYMMETRIC = "symmetric"  #: it becomes the nearer end but for the lowest number, which counts as out of range itself


class Mode(enum.Enum):
    """How a value between two numbers of a format is rounded."""

    NEAREST = "nearest"  #: to the nearest, ties to even
    FLOOR = "floor"  #: down
    CEIL = "ceil"  #: up
    ZERO = "zero"  #: towards zero
    TIES_AWAY = "ties-away"  #: to the nearest, ties away from zero
    TIES_ZERO = "ties-zero"  #: to the nearest, ties towards zero
    TIES_UP = "ties-up"  #: to the nearest, ties up
    TIES_DOWN = "ties-down"  #: to the nearest, ties down
    AWAY = "away"  #: away from zero

    @classmethod
    def _missing_(cls, value: object) -> Mode | None:
        """The mode that a constant of `decimal` means, such as `ROUND_HALF_UP`."""
        return cls(_OF_DECIMAL[value]) if isinstance(value, str) and value in _OF_DECIMAL else None


class Errors(enum.Enum):
    """What is done with a refused item of many."""

    RAISE = "raise"  #: `FixedError` is raised
    MASK = "mask"  #: it becomes None in a list, and is masked in an array


_OF_DECIMAL = {
    decimal.ROUND_HALF_EVEN: "nearest",
    decimal.ROUND_HALF_UP: "ties-away",
    decimal.ROUND_HALF_DOWN: "ties-zero",
    decimal.ROUND_FLOOR: "floor",
    decimal.ROUND_CEILING: "ceil",
    decimal.ROUND_DOWN: "zero",
    decimal.ROUND_UP: "away",
}

_Option = TypeVar("_Option", Policy, Mode, Errors)
PolicyLike = Union[Policy, Literal["checked", "saturating", "wrapping", "symmetric"]]
ModeWord = Literal["nearest", "ties-away", "ties-zero", "ties-up", "ties-down", "floor", "ceil", "zero", "away"]
DecimalWord = Literal["ROUND_HALF_EVEN", "ROUND_HALF_UP", "ROUND_HALF_DOWN", "ROUND_FLOOR", "ROUND_CEILING",
                      "ROUND_DOWN", "ROUND_UP"]
ModeLike = Union[Mode, ModeWord, DecimalWord]
Raise = Literal["raise", Errors.RAISE]
Mask = Literal["mask", Errors.MASK]
ErrorsLike = Union[Raise, Mask]


def _place(kind: type[_Option], word: _Option | str, code: _errors.Code) -> int:
    """The place of a word among those of its kind, which is its code in C."""
    try:
        return [each.value for each in kind].index(kind(word).value)
    except ValueError:
        words = ", ".join(each.value for each in kind)
        raise _errors.FixedError(code, f"{_errors.brief(word)} is none of {words}") from None


def mode_code(mode: ModeLike) -> int:
    """The code of a mode in C."""
    return _place(Mode, mode, _errors.Code.BAD_MODE)


def reading(radix: int, policy: PolicyLike, mode: ModeLike) -> _library.Reading:
    """How numerals are read."""
    if operator.index(radix) not in (2, 8, 10, 16):
        raise _errors.FixedError(_errors.Code.BAD_RADIX, f"{_errors.brief(radix)} is none of 2, 8, 10, 16")
    codes = _place(Policy, policy, _errors.Code.BAD_POLICY), mode_code(mode)
    return _library.Reading(radix, *codes)
