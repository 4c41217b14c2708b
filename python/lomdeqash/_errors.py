"""Why something was refused."""
from __future__ import annotations

import enum
from fractions import Fraction
from typing import Union

from . import _library

Index = Union[int, "tuple[int, ...]"]


class Code(enum.IntEnum):
    """The codes of the library for C, under the names of its header."""

    OK = 0
    INVALID_DIGIT = 1
    MISPLACED_SIGN = 2
    MISPLACED_UNDERSCORE = 3
    TOO_MANY_POINTS = 4
    TOO_MANY_EXPONENTS = 5
    EXPONENT_INVALID_DIGIT = 6
    EXPONENT_OVERFLOW = 7
    NO_DIGITS = 8
    EXPONENT_NO_DIGITS = 9
    OVERFLOW = 10
    BAD_RADIX = 11
    BAD_FORMAT = 12
    BAD_TARGET = 13
    BAD_POLICY = 14
    BAD_MODE = 15
    BAD_BITS = 16
    NO_ROOM = 17
    BAD_OTHER_BITS = 18
    BAD_PLACES = 19
    BAD_ROUNDING = 20
    BAD_WORD = 21
    BAD_ROWS = 22
    BAD_NOTATION = 23
    BAD_WIDTH = 24
    BAD_FILL = 25
    BAD_ALIGN = 26
    NOT_FINITE = 27


class FixedError(ValueError):
    """An item or an option was refused.

    `code` says why, `message` says it in the library's words, and `given` shows the item. Where it was one of many,
    `index` is the place of the first that was refused: a number, or a tuple in an array of several dimensions.

    >>> from lomdeqash import Format
    >>> try:
    ...     Format("I4F4").read(["1.5", "1.5.", "9"])
    ... except FixedError as error:
    ...     print(error, error.code.name, error.index, sep="; ")
    more than one point found in string: '1.5.' at 1; TOO_MANY_POINTS; 1
    """

    __module__ = "lomdeqash"  # as a traceback shows it

    def __init__(self, code: int, given: str = "", index: Index | None = None) -> None:
        super().__init__(code, given, index)
        self.code = Code(code)
        self.given = given
        self.index = index

    @property
    def message(self) -> str:
        """The library's message of the code."""
        return _library.message(self.code)

    def __str__(self) -> str:
        place = "" if self.index is None else f" at {self.index}"
        return self.message + (f": {self.given}" if self.given else "") + place


class FixedTypeError(TypeError):
    """An item of many is of no type that the call takes. `index` is its place, as that of a `FixedError`."""

    __module__ = "lomdeqash"

    def __init__(self, message: str, index: Index) -> None:
        super().__init__(message, index)
        self.message = message
        self.index = index

    def __str__(self) -> str:
        return f"{self.message} at {self.index}"


def placed(error: FixedError | TypeError, index: Index) -> FixedError | FixedTypeError:
    """The error of one item as that of an item of many."""
    if isinstance(error, FixedError):
        return FixedError(error.code, error.given, index)
    return FixedTypeError(str(error), index)


def brief(given: object) -> str:
    """An item as an error shows it, cut at 40 characters."""
    if isinstance(given, tuple):
        return f"({', '.join(map(brief, given))})"
    if isinstance(given, (str, bytes, bytearray)):
        given = given[:40]
    elif isinstance(given, int) and given.bit_length() > 128:
        return f"a number of {given.bit_length()} bits"
    elif isinstance(given, Fraction) and max(given.numerator.bit_length(), given.denominator.bit_length()) > 128:
        return f"Fraction({brief(given.numerator)}, {brief(given.denominator)})"
    return repr(given)[:42]
