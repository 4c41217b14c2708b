"""What the calls must answer, worked out with fractions alone, and strategies that make their inputs."""
from __future__ import annotations

import math
from collections.abc import Callable
from fractions import Fraction
from typing import Literal, NamedTuple

from hypothesis import strategies as st
from lomdeqash import FixedError, Format

ModeWord = Literal["nearest", "ties-away", "ties-zero", "ties-up", "ties-down", "floor", "ceil", "zero", "away"]
PolicyWord = Literal["checked", "saturating", "wrapping", "symmetric"]
HALF = Fraction(1, 2)
ROUND: dict[ModeWord, Callable[[Fraction], int]] = {
    "nearest": round,
    "ties-away": lambda value: math.floor(value + HALF) if value >= 0 else math.ceil(value - HALF),
    "ties-zero": lambda value: math.ceil(value - HALF) if value >= 0 else math.floor(value + HALF),
    "ties-up": lambda value: math.floor(value + HALF),
    "ties-down": lambda value: math.ceil(value - HALF),
    "away": lambda value: math.ceil(value) if value >= 0 else math.floor(value),
    "floor": math.floor,
    "ceil": math.ceil,
    "zero": math.trunc,
}
POLICIES: tuple[PolicyWord, ...] = ("checked", "saturating", "wrapping", "symmetric")
DIGITS = {2: "01", 8: "01234567", 10: "0123456789", 16: "0123456789abcdefABCDEF"}


def is_format(word: str) -> bool:
    """Whether the library has the format."""
    try:
        return bool(Format(word))
    except FixedError:
        return False


WIDTHS = [width for width in range(1, 65) if is_format(f"U{width}F0")]


def format_of(is_signed: bool, width: int, frac: int) -> Format:
    return Format(f"{'I' if is_signed else 'U'}{width - frac}F{frac}")


@st.composite
def formats(draw: st.DrawFn) -> Format:
    width = draw(st.sampled_from(WIDTHS))
    return format_of(draw(st.booleans()), width, draw(st.integers(0, width) | st.integers(0, 64)))


@st.composite
def formats_with_bits(draw: st.DrawFn) -> tuple[Format, int]:
    form = draw(formats())
    return form, draw(bits_of(form))


def bits_of(form: Format) -> st.SearchStrategy[int]:
    return st.integers(form.min_bits, form.max_bits)


class Numeral(NamedTuple):
    """A numeral, its radix and its value."""

    text: str
    radix: int
    value: Fraction


@st.composite
def numerals(draw: st.DrawFn) -> Numeral:
    radix = draw(st.sampled_from((2, 8, 10, 16)))
    digits = st.text(DIGITS[radix], max_size=draw(st.sampled_from((3, 12, 40))))
    whole, fraction = draw(digits), draw(digits)
    if not whole and not fraction:
        whole = "1"
    text = draw(st.sampled_from(("", "+", "-"))) + whole + ("." if fraction or draw(st.booleans()) else "") + fraction
    value = Fraction(int(whole + fraction, radix), radix ** len(fraction)) * (-1 if text[0] == "-" else 1)
    marks = ("" if radix == 10 else "pP") + ("@" if radix == 16 else "eE@")
    mark = draw(st.sampled_from(("", *marks)))
    if mark:
        power = draw(st.integers(-70, 70))
        text += mark + str(power)
        value *= Fraction(2 if mark in "pP" else radix) ** power
    return Numeral(text, radix, value)


@st.composite
def values_near(draw: st.DrawFn, form: Format) -> Fraction:
    """A value at or near a half of an ulp."""
    halves = draw(st.integers(2 * form.min_bits - 4, 2 * form.max_bits + 4))
    beside = draw(st.sampled_from([Fraction(0), Fraction(0), Fraction(1, 10**40), Fraction(-1, 3)]))
    return (halves + beside) / (2 << form.frac)


def image(form: Format, number: int, policy: PolicyWord) -> int | None:
    """What a policy makes of a number."""
    low = -form.max_bits if policy == "symmetric" and form.min_bits < 0 else form.min_bits
    if low <= number <= form.max_bits:
        return number
    if policy == "checked":
        return None
    if policy in ("saturating", "symmetric"):
        return low if number < low else form.max_bits
    return form.min_bits + (number - form.min_bits) % (1 << form.width)


def read(form: Format, value: Fraction, policy: PolicyWord = "checked", mode: ModeWord = "nearest") -> int | None:
    return image(form, ROUND[mode](value * (1 << form.frac)), policy)


def value(form: Format, bits: int) -> Fraction:
    return Fraction(bits, 1 << form.frac)
