"""The format for numerals and the greatest error, against fractions."""
from __future__ import annotations

from decimal import Decimal
from fractions import Fraction
from typing import Any

import model
import pytest
from hypothesis import given
from hypothesis import strategies as st
from lomdeqash import Code, FixedError, FixedTypeError, Format, fit
from model import ModeWord, Numeral, format_of, formats, numerals

modes = st.sampled_from(list(model.ROUND))
values = st.one_of(
    st.floats(-1e6, 1e6),
    st.integers(-300, 300),
    st.fractions(-300, 300),
    st.decimals(-300, 300),
    st.sampled_from([0.5, -0.5, 127.5, 128.0, -128.5, 5e-324, -1e-300]),
)


def error_of(form: Format, value: Fraction, mode: ModeWord = "nearest") -> Fraction | None:
    """How far a value is from the number that is read; None if that is out of range."""
    bits = model.read(form, value, mode=mode)
    return None if bits is None else abs(value - model.value(form, bits))


def best(
    items: list[Fraction],
    is_signed: bool,
    widths: tuple[int, ...],
    bound: Fraction | None,
    whole: int = 0,
    beyond: bool = False,
) -> Format | None:
    """Each format is tried on each value."""
    for width in widths:
        for frac in range(64 if beyond else width - whole, -1, -1):
            errors = [error_of(format_of(is_signed, width, frac), value) for value in items]
            if all(each is not None and (bound is None or each <= bound) for each in errors):
                return format_of(is_signed, width, frac)
    return None


@given(formats(), st.lists(values, max_size=8), modes)
def test_the_greatest_error(form: Format, items: list[Any], mode: ModeWord) -> None:
    errors = [error_of(form, Fraction(item), mode) for item in items]
    held = [item for item, error in zip(items, errors) if error is not None]
    assert form.greatest_error(held, mode=mode) == max((each for each in errors if each is not None), default=0)
    for item in held:
        assert form.greatest_error(item, mode=mode) == error_of(form, Fraction(item), mode)
    if None in errors:
        with pytest.raises(FixedError) as found:
            form.greatest_error(items, mode=mode)
        assert (found.value.code, found.value.index) == (Code.OVERFLOW, errors.index(None))


@given(formats(), st.lists(numerals(), max_size=8), modes)
def test_the_greatest_error_of_texts(form: Format, given_: list[Numeral], mode: ModeWord) -> None:
    for radix in (2, 8, 10, 16):
        held = [it for it in given_ if it.radix == radix and error_of(form, it.value, mode) is not None]
        wanted = max((error_of(form, it.value, mode) or Fraction(0) for it in held), default=0)
        texts = [it.text for it in held]
        assert form.greatest_error(texts, radix=radix, mode=mode) == wanted
        assert form.greatest_error([text.encode() for text in texts], radix=radix, mode=mode) == wanted


def test_numerals_far_below_every_number() -> None:
    form, least = Format("I4F4"), Fraction(1, 10**1000)
    for text, radix in (("1e-2000000000", 10), ("-1@-2000000000", 16), ("1p-2000000000", 2), ("-1e-99999", 8)):
        assert form.greatest_error([text], radix=radix) == least
        assert form.greatest_error([text], radix=radix, mode="away") == Fraction(1, 16) - least
    assert form.greatest_error([Decimal("1e-99999999999")]) == least
    assert form.greatest_error(["0e2000000000", Decimal("0e99999999")]) == 0
    assert form.greatest_error("0." + "0" * 5000 + "1e4999") == Fraction(1, 100)


@given(st.lists(values, max_size=8), st.sampled_from([8, 16, 24, 33, 64]), st.booleans())
def test_the_format_of_a_width(items: list[Any], width: int, signed: bool) -> None:
    fractions = list(map(Fraction, items))
    is_signed = signed or any(value < 0 for value in fractions)
    wanted = best(fractions, is_signed, (width,), None)
    if wanted is None:
        with pytest.raises(FixedError) as found:
            fit(items, width, signed=signed)
        whole = format_of(is_signed, width, 0)
        first = next(at for at, value in enumerate(fractions) if error_of(whole, value) is None)
        assert (found.value.code, found.value.index) == (Code.OVERFLOW, first)
    else:
        assert fit(items, width, signed=signed) == wanted == fit(iter(items), width, signed=signed)


@given(st.lists(values, max_size=4), st.sampled_from([None, 16, 40]), st.fractions(0, 1))
def test_the_format_within_an_error(items: list[Any], width: int | None, bound: Fraction) -> None:
    fractions, widths = list(map(Fraction, items)), (8, 16, 32, 64) if width is None else (width,)
    wanted = best(fractions, any(value < 0 for value in fractions), widths, bound)
    if wanted is None:
        with pytest.raises(ValueError):
            fit(items, width, error=bound)
    else:
        assert fit(items, width, error=bound) == wanted


@given(st.lists(values, max_size=4), st.sampled_from([8, 16, 40]), st.integers(0, 20), st.booleans())
def test_whole_bits_and_fractions_beyond_the_width(items: list[Any], width: int, whole: int, beyond: bool) -> None:
    fractions = list(map(Fraction, items))
    options: dict[str, Any] = {"beyond": True} if beyond else {"whole": whole}
    is_signed = any(value < 0 for value in fractions)
    wanted = None if whole > width and not beyond else best(fractions, is_signed, (width,), None, **options)
    if wanted is None:
        with pytest.raises(ValueError):
            fit(items, width, **options)
    else:
        assert fit(items, width, **options) == wanted
    bound = Fraction(1, 1000)
    wanted = best(fractions, is_signed, (8, 16, 32, 64), bound, **options)
    if wanted is None:
        with pytest.raises(ValueError):
            fit(items, error=bound, **options)
    else:
        assert fit(items, error=bound, **options) == wanted


def test_taps_below_every_number_of_the_width() -> None:
    taps = ["0.00031", "0.00052", "0.00031"]
    short, long = fit(taps, 16), fit(taps, 16, beyond=True)
    assert (short, f"{float(short.greatest_error(taps)):.1e}") == (Format("U0F16"), "4.8e-06")
    assert (long, f"{float(long.greatest_error(taps)):.1e}") == (Format("U-10F26"), "5.8e-09")
    wrong: list[Any] = [{"whole": 17}, {"whole": -1}, {"whole": 1, "beyond": True}]
    for options in wrong:
        with pytest.raises(ValueError):
            fit(taps, 16, **options)


def test_edges() -> None:
    assert fit(["0.5", "-3.2"], 16) == Format("I3F13") == fit(["0.8", "-3.3"], 16, radix=16)
    assert fit([1, 0.25], error=0) == fit(["1", "0.25"], error="0") == Format("U1F7")
    assert fit("3.2", 8) == Format("U2F6") and fit(-0.0, 8) == Format("U0F8") == fit([], 8)
    assert fit(-1e-300, 8) == Format("I0F8") and fit([127.25], 8, signed=True, error=Fraction(1, 4)) == Format("I8F0")


@pytest.mark.parametrize(
    ("items", "kind", "index"),
    [(["1", "x"], FixedError, 1), ([1.0, float("nan")], FixedError, 1), (["1", None], FixedTypeError, 1)],
)
def test_what_is_refused(items: list[Any], kind: Any, index: int) -> None:
    calls: list[Any] = [Format("I8F8").greatest_error, lambda it: fit(it, 16), lambda it: fit(it, error=0.1)]
    for call in calls:
        with pytest.raises(kind) as found:
            call(items)
        assert found.value.index == index


def test_options_that_are_none() -> None:
    wrong: list[Any] = [{}, {"width": 0}, {"width": 65}, {"error": -1}, {"error": "x"}, {"error": float("nan")}]
    for options in wrong:
        with pytest.raises(ValueError):
            fit([1], **options)
    with pytest.raises(TypeError):
        fit([1], 8.0)  # type: ignore[arg-type]
