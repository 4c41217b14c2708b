"""How far numerals are from the numbers that are read from them, and the format to choose for them."""
from __future__ import annotations

import operator
from collections.abc import Iterable
from decimal import Decimal
from fractions import Fraction
from typing import TYPE_CHECKING, Any, Union

from ._errors import Code, FixedError
from ._format import Format, is_array, is_one

if TYPE_CHECKING:
    from ._format import Array
    from ._numerals import Numeral

WIDTHS = 8, 16, 32, 64


def fit(
    numerals: Numeral | Iterable[Numeral] | Array,
    width: int | None = None,
    *,
    error: Union[str, int, float, Decimal, Fraction, None] = None,
    signed: bool = False,
    radix: int = 10,
    whole: int = 0,
    beyond: bool = False,
) -> Format:
    """Chooses a format for numerals. It is signed if one of them is below zero or `signed` is true.

    With a width it is the finest format of that width that holds each numeral, rounded to the nearest. With an error it
    is the finest format of the least width (8, 16, 32 or 64, or only the given one) in which each numeral is off by at
    most the error. Numbers between two numerals then are in range too, but may be off by half an ulp.

    The fraction is at most as long as the width and leaves at least `whole` whole bits, the sign bit among them. With
    `beyond` it has up to 64 bits, whatever the width.

    `FixedError` names the first numeral that is too great for each format of the width. `ValueError`: no format is
    within the error, or the width has fewer bits than `whole`.

    >>> from lomdeqash import fit
    >>> fit(["0.5", "-3.2"], 16), fit([0.1, 100], error=0.01)
    (Format('I3F13'), Format('U7F9'))
    >>> fit(["0.5", "-3.2"], 16).greatest_error(["0.5", "-3.2"])
    Fraction(1, 20480)
    >>> fit(["0.5"], 16, signed=True, whole=1), fit(["0.00031"], 16, beyond=True)
    (Format('I1F15'), Format('U-11F27'))
    """
    if width is None and error is None:
        raise ValueError("a format is chosen by a width, an error or both")
    if beyond and whole:
        raise ValueError("whole counts bits of the width, and beyond allows fractions without any")
    given: Any = numerals if is_array(numerals) or is_one(numerals) else list(numerals)  # type: ignore[arg-type]
    bound = None if error is None else Fraction(error)
    widths = WIDTHS if width is None else (operator.index(width),)
    least = operator.index(whole)
    if not 0 <= least <= widths[-1]:
        raise ValueError(f"no format of {widths[-1]} bits has {least} whole bits")
    # each width with its longest fraction
    choices = [(it, 64 if beyond else it - least) for it in widths if it >= least]
    if is_array(given):
        from . import _arrays

        try:
            return chosen(_arrays.ends_of(given), given, bound, choices, signed, radix)
        except FixedError:
            pass  # the item is named below
    return chosen(given, given, bound, choices, signed, radix)


def chosen(
    ends: Any, given: Any, bound: Fraction | None, choices: list[tuple[int, int]], signed: bool, radix: int
) -> Format:
    """The format for the given numerals. `ends` are all of them, or two that the others are between."""
    is_signed = signed or is_below_zero(ends, radix)
    greatest = choices[-1][0]
    for width, longest in choices:
        try:
            form = finest(ends, is_signed, width, longest, radix)
        except FixedError as refused:
            if refused.code is not Code.OVERFLOW or width == greatest:
                raise
        else:
            if bound is None or form.greatest_error(given, radix=radix) <= bound:
                return form
    raise ValueError(f"no format of {greatest} bits is off by at most {float(bound or 0)}")


def is_below_zero(given: Any, radix: int) -> bool:
    """Whether a numeral is below zero, also if it rounds to zero."""
    floors: Any = Format("I64F0").read(given, radix=radix, policy="saturating", mode="floor")
    if isinstance(floors, list):
        return min(floors, default=0) < 0
    return bool(floors < 0) if is_one(floors) else bool((floors < 0).any())


def finest(given: Any, is_signed: bool, width: int, longest: int, radix: int) -> Format:
    """The finest format with a fraction of up to `longest` bits that holds each numeral. What one holds, the shorter
    ones hold."""

    def of(frac: int) -> Format:
        return Format(f"{'I' if is_signed else 'U'}{width - frac}F{frac}")

    def holds(frac: int) -> bool:
        try:
            of(frac).read(given, radix=radix)
        except FixedError as refused:
            if refused.code is not Code.OVERFLOW:
                raise
            return False
        return True

    of(0).read(given, radix=radix)
    low, high = 0, longest + 1
    while high - low > 1:
        middle = (low + high) // 2
        low, high = (middle, high) if holds(middle) else (low, middle)
    return of(low)
