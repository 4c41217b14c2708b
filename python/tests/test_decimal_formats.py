"""Decimal formats, against `decimal` and `fractions`."""
from __future__ import annotations

import copy
import decimal
import pickle
from decimal import Decimal
from fractions import Fraction
from typing import Any

import pytest
from hypothesis import given
from hypothesis import strategies as st

import model
from lomdeqash import Code, FixedError, Format
from test_modes import OF_DECIMAL

WIDE = decimal.Context(prec=200, Emax=decimal.MAX_EMAX, Emin=decimal.MIN_EMIN)
CENTS = Format("D2")
PLACES = st.integers(0, 18)
MODES: st.SearchStrategy[model.ModeWord] = st.sampled_from(list(model.ROUND))
POLICIES: st.SearchStrategy[model.PolicyWord] = st.sampled_from(model.POLICIES)


def image(number: int, policy: model.PolicyWord) -> tuple[int, bool] | None:
    """The bits under a policy, and whether the number is out of range; None where it is refused."""
    bits = model.image(CENTS, number, policy)
    return None if bits is None else (bits, bits != number)


def read(places: int, numeral: Any, policy: model.PolicyWord, mode: model.ModeWord) -> tuple[int, bool] | None:
    """What the package reads, alone and as an item of two, which is the same."""
    form = Format(f"D{places}")
    found: Any = None
    bits, flags = form.read([numeral, numeral], policy=policy, mode=mode, overflowed=True, errors="mask")
    try:
        found = form.read(numeral, policy=policy, mode=mode, overflowed=True)
    except FixedError as error:
        assert error.code is Code.OVERFLOW
    assert bits == [found and found[0]] * 2 and flags == [found and found[1]] * 2
    return found  # type: ignore[no-any-return]


@st.composite
def texts(draw: st.DrawFn, places: int) -> str:
    """A numeral: any, or at or near half a unit, and many near the ends of 64 bits."""
    if draw(st.booleans()):
        return str(draw(st.decimals(allow_nan=False, allow_infinity=False)))
    near = draw(st.sampled_from((0, 10**18, 2**63, 2**64, 10**30)))
    halves = draw(st.sampled_from((1, -1))) * 2 * near + draw(st.integers(-9, 9))
    tail = draw(st.sampled_from(("", "0" * 90, "0" * 90 + "1")))
    whole, fraction = divmod(abs(halves) * 5, 10 ** (places + 1))
    return f"{'-' if halves < 0 else ''}{whole}.{fraction:0{places + 1}}{tail}"


@given(st.data(), PLACES, POLICIES, st.sampled_from(list(OF_DECIMAL)))
def test_reads_as_decimal_rounds(data: st.DataObject, places: int, policy: model.PolicyWord, mode: Any) -> None:
    text = data.draw(texts(places))
    units = Decimal(text).scaleb(places, WIDE)
    wanted = image(int(units.to_integral_value(OF_DECIMAL[mode], WIDE)), policy) if abs(units) < 10**150 else None
    if wanted or policy == "checked":
        assert read(places, text, policy, mode) == wanted
        assert read(places, Decimal(text), policy, mode) == wanted


@given(PLACES, POLICIES, MODES, st.fractions() | st.floats(allow_nan=False, allow_infinity=False) | st.integers())
def test_numbers(places: int, policy: model.PolicyWord, mode: model.ModeWord, number: Any) -> None:
    wanted = image(model.ROUND[mode](Fraction(number) * 10**places), policy)
    assert read(places, number, policy, mode) == wanted


@given(st.data(), PLACES, POLICIES, MODES)
def test_numbers_near_halves(data: st.DataObject, places: int, policy: model.PolicyWord, mode: model.ModeWord) -> None:
    near = data.draw(st.sampled_from((0, 2**63, 2**66, 10**60))) * data.draw(st.sampled_from((1, -1)))
    beside = data.draw(st.sampled_from((Fraction(0), Fraction(1, 10**50), Fraction(-1, 3))))
    value = (Fraction(data.draw(st.integers(-9, 9)), 2) + near + beside) / 10**places
    assert read(places, value, policy, mode) == image(model.ROUND[mode](value * 10**places), policy)


@given(PLACES, model.bits_of(CENTS))
def test_texts_and_values(places: int, bits: int) -> None:
    form, exact = Format(f"D{places}"), Decimal((bits < 0, tuple(map(int, str(abs(bits)))), -places))
    assert form.text(bits) == f"{exact:f}" and form.text([bits] * 2) == [f"{exact:f}"] * 2
    assert form.read(form.text(bits)) == bits and len(form.text(bits)) <= form.text_size(None)
    assert form.value(bits).as_tuple() == exact.as_tuple() and form.value([bits]) == [exact]
    assert form.value(bits, Fraction) == Fraction(exact) and form.value(bits, float) == float(exact)


def test_a_table_of_money() -> None:
    written = ["1.005", "1.015", "2.675", "-0.005", "1e2", "92233720368547758.07"]
    assert CENTS.read(written, mode="ties-away") == [101, 102, 268, -1, 10000, 2**63 - 1]
    assert CENTS.read(written) == [100, 102, 268, 0, 10000, 2**63 - 1]
    assert CENTS.read(2.675, mode="ties-away") == 267  # the float is less than what was written
    assert CENTS.text([5, -5, 0, -12345]) == ["0.05", "-0.05", "0.00", "-123.45"]
    assert sum(CENTS.value([10, 20])) == Decimal("0.30")


def test_formats() -> None:
    assert repr(Format("d18")) == "Format('D18')" and str(CENTS) == "D2" and Format(CENTS) == CENTS
    assert (CENTS.places, CENTS.width, CENTS.is_signed, CENTS.frac) == (2, 64, True, 0)
    assert CENTS.ulp == Decimal("0.01") and Format("I4F4").places is None
    assert pickle.loads(pickle.dumps(CENTS)) == copy.deepcopy(CENTS) == CENTS != Format("D3")
    assert CENTS != Format("I64F0") and sorted([Format("D10"), CENTS]) == [CENTS, Format("D10")]
    assert {CENTS: 1}[Format("D2")] == 1
    for word in ("D19", "D02", "D", "D-1", "D2 ", "D\u0662"):
        with pytest.raises(FixedError, match="bad format word"):
            Format(word)


@pytest.mark.parametrize(
    "call, code",
    [
        (lambda: CENTS.read("1", radix=16), Code.BAD_RADIX),
        (lambda: CENTS.read("1", target="I8F0"), Code.BAD_FORMAT),
        (lambda: Format("I8F0").read("1", target="D2"), Code.BAD_FORMAT),
        (lambda: CENTS.convert(1, "I8F0"), Code.BAD_FORMAT),
        (lambda: Format("I8F0").convert(1, CENTS), Code.BAD_FORMAT),
        (lambda: CENTS.enclose("1"), Code.BAD_FORMAT),
        (lambda: CENTS.compare(1, 2), Code.BAD_FORMAT),
        (lambda: Format("I8F0").compare(1, 2, "D2"), Code.BAD_FORMAT),
        (lambda: CENTS.text(2**63), Code.BAD_BITS),
        (lambda: CENTS.read("1,5"), Code.INVALID_DIGIT),
        (lambda: CENTS.read(["1", "1e17"]), Code.OVERFLOW),
        (lambda: CENTS.read(float("nan")), Code.NOT_FINITE),
        (lambda: CENTS.read([Decimal("Infinity")], policy="wrapping"), Code.NOT_FINITE),
    ],
)
def test_refused(call: Any, code: Code) -> None:
    with pytest.raises(FixedError) as caught:
        call()
    assert caught.value.code is code


def test_greatest_error() -> None:
    assert CENTS.greatest_error(["1.005", "2"]) == Fraction(1, 200)
    assert CENTS.greatest_error(0.125) == Fraction(1, 200)
    assert CENTS.greatest_error([]) == 0


def test_other_refusals() -> None:
    with pytest.raises(ValueError, match="all of its places"):
        CENTS.text(1, places=2)
    with pytest.raises(TypeError):
        CENTS.read(["1", object()])  # type: ignore[list-item]
    with pytest.raises(TypeError):
        sorted([CENTS, Format("I8F0")])


def test_long_decimals_wrap() -> None:
    long = Decimal(10**1001 + 7)
    assert CENTS.read(long, policy="wrapping") == 700 and Format("I32F0").read(long, policy="wrapping") == 7
    assert CENTS.read(Decimal("1e2000"), policy="wrapping") == 0
    assert CENTS.read(Decimal("-1e2000"), policy="saturating") == CENTS.min_bits
    assert CENTS.read(Decimal("-1e-2000"), mode="away") == -1


def test_arrays() -> None:
    np = pytest.importorskip("numpy")
    for given_ in (["1.5", "-2"], [b"1.5", b"-2"], [1.5, -2.0], np.array([1.5, -2], np.longdouble),
                   np.array([1.5, -2], np.float16), np.array([Decimal("1.5"), -2], object)):
        found = CENTS.read(np.array(given_))
        assert found.dtype == CENTS.dtype == np.int64 and found.tolist() == [150, -200]
    for kind in ("int8", "uint64", "int64", "bool"):
        ends = [True, False] if kind == "bool" else [np.iinfo(kind).max, np.iinfo(kind).min]
        bits, flags = CENTS.read(np.array([ends], kind), policy="wrapping", overflowed=True)
        numbers = [image(100 * int(end), "wrapping") for end in ends]
        assert [bits.tolist(), flags.tolist()] == [[[it and it[at] for it in numbers]] for at in (0, 1)]
    masked = CENTS.read(np.array(["1", "x", "1e18"]), errors="mask")
    assert masked.tolist() == [100, None, None]
    table = np.arange(-600, 600).reshape(20, 60)
    assert CENTS.text(table).dtype == "U21" and CENTS.read(CENTS.text(table)).tolist() == table.tolist()
    assert CENTS.text(table, dtype="S")[0, 0] == b"-6.00"
    assert CENTS.value(table)[0, 0] == Decimal("-6.00") and CENTS.value(table, float)[0, 1] == -5.99
    with pytest.raises(FixedError, match="at 1"):
        CENTS.read(np.array([1.0, np.inf]))


def test_a_series() -> None:
    pandas = pytest.importorskip("pandas")
    prices = pandas.Series(["1.005", None], index=["a", "b"], dtype="string")
    cents = CENTS.read(prices, mode="ties-away", errors="mask")
    assert cents["a"] == 101 and cents.isna().tolist() == [False, True] and cents.index.tolist() == ["a", "b"]
