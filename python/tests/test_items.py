"""Calls for one item and for iterables, against fractions."""
from __future__ import annotations

import itertools
import math
from collections.abc import Callable
from decimal import Decimal
from fractions import Fraction
from typing import Any

import model
import pytest
from hypothesis import given
from hypothesis import strategies as st
from lomdeqash import Code, FixedError, Format, Mode, Policy
from model import ModeWord, Numeral, PolicyWord, formats, formats_with_bits, numerals, values_near

modes, policies = st.sampled_from(list(model.ROUND)), st.sampled_from(model.POLICIES)


@given(formats(), numerals(), policies, modes)
def test_reading(form: Format, numeral: Numeral, policy: PolicyWord, mode: ModeWord) -> None:
    wanted = model.read(form, numeral.value, policy, mode)
    assert form.read([numeral.text], radix=numeral.radix, policy=policy, mode=mode, errors="mask") == [wanted]
    found = form.read(
        [numeral.text.encode()], radix=numeral.radix, policy=Policy(policy), mode=Mode(mode), errors="mask"
    )
    assert found == [wanted]


@given(st.data(), formats(), policies, modes)
def test_reading_near_ties(data: st.DataObject, form: Format, policy: PolicyWord, mode: ModeWord) -> None:
    value = data.draw(values_near(form))
    wanted = [model.read(form, value, policy, mode)]
    assert form.read([value], policy=policy, mode=mode, errors="mask") == wanted
    if value.denominator & (value.denominator - 1) == 0:
        count = value.denominator.bit_length()
        exact = f"{value.numerator * 5 ** count * 2 ** count // value.denominator}e-{count}"
        assert form.read([exact, Decimal(exact)], policy=policy, mode=mode, errors="mask") == wanted * 2


@given(
    formats(),
    st.one_of(
        st.integers(),
        st.floats(allow_nan=False, allow_infinity=False),
        st.fractions(),
        st.decimals(allow_nan=False, allow_infinity=False),
    ),
    policies,
    modes,
)
def test_numbers_come_in_by_their_exact_value(
    form: Format, number: int | float | Fraction | Decimal, policy: PolicyWord, mode: ModeWord
) -> None:
    assert form.read([number], policy=policy, mode=mode, errors="mask") == [
        model.read(form, Fraction(number), policy, mode)
    ]


@given(formats(), formats(), numerals(), policies, modes, modes)
def test_reading_into_a_target(
    form: Format, target: Format, numeral: Numeral, policy: PolicyWord, mode: ModeWord, target_mode: ModeWord
) -> None:
    wanted = model.read(form, numeral.value, policy, mode)
    if wanted is not None:
        wanted = model.read(target, model.value(form, wanted), policy, target_mode)
    found = form.read(
        [numeral.text],
        radix=numeral.radix,
        policy=policy,
        mode=mode,
        target=target,
        target_mode=target_mode,
        errors="mask",
    )
    assert found == [wanted]


@given(formats_with_bits(), formats(), policies, modes)
def test_converting(pair: tuple[Format, int], target: Format, policy: PolicyWord, mode: ModeWord) -> None:
    form, bits = pair
    wanted = model.read(target, model.value(form, bits), policy, mode)
    assert form.convert([bits], target, policy=policy, target_mode=mode, errors="mask") == [wanted]


@given(formats_with_bits())
def test_the_text_reads_back_and_is_shortest(pair: tuple[Format, int]) -> None:
    form, bits = pair
    text = form.text(bits)
    assert form.read(text) == bits == round(Fraction(text) * (1 << form.frac))
    places = len(text.partition(".")[2])
    if places:
        ulp, near = Fraction(1, 1 << form.frac), Fraction(10) ** (places - 1)
        shorter = Fraction(round(model.value(form, bits) * near), int(near))
        assert round(shorter / ulp) != bits
    nearest = round(abs(model.value(form, bits)) * 10**places)
    assert abs(Fraction(text)) * 10**places == nearest


@given(formats_with_bits(), st.integers(0, 64))
def test_places(pair: tuple[Format, int], places: int) -> None:
    form, bits = pair
    text = form.text(bits, places=places)
    assert Fraction(text) * 10**places == round(model.value(form, bits) * 10**places)
    assert len(text.partition(".")[2]) == places and text.startswith("-") == (bits < 0)


@given(formats_with_bits())
def test_values_are_exact(pair: tuple[Format, int]) -> None:
    form, bits = pair
    exact = model.value(form, bits)
    assert Fraction(form.value(bits)) == form.value(bits, Fraction) == exact
    assert form.value(bits, float) == float(exact)
    assert form.read([form.value(bits), form.value(bits, Fraction)]) == [bits, bits]
    assert form.read(float(exact), policy="saturating") == model.read(form, Fraction(float(exact)), "saturating")


@given(formats_with_bits(), formats_with_bits())
def test_order_is_that_of_the_values(left: tuple[Format, int], right: tuple[Format, int]) -> None:
    (form, bits), (other, others) = left, right
    a, b = model.value(form, bits), model.value(other, others)
    assert form.compare(bits, others, other) == (a > b) - (a < b)
    assert form.compare(bits, bits) == 0


@given(formats(), numerals())
def test_enclosures(form: Format, numeral: Numeral) -> None:
    low, high = math.floor(numeral.value * (1 << form.frac)), math.ceil(numeral.value * (1 << form.frac))
    is_held = form.min_bits <= low and high <= form.max_bits
    wanted = [(low, high) if is_held else None]
    assert form.enclose([numeral.text], radix=numeral.radix, errors="mask") == wanted
    assert form.enclose([numeral.value], errors="mask") == wanted


def test_iterables() -> None:
    form = Format("I4F4")
    listed: list[str | int | float] = ["1", 2, 0.5]
    assert form.read(listed) == form.read(tuple(listed)) == form.read(iter(listed)) == [16, 32, 8]
    assert form.read([]) == form.convert([], "I8F8") == form.compare([], []) == [] and form.text([]) == []
    assert form.compare([1, 2], [2, 2]) == [-1, 0] and form.compare([1, 2], 2) == [-1, 0] and form.compare(2, 1) == 1
    with pytest.raises(ValueError, match="2 numbers are compared with 1"):
        form.compare([1, 2], [1])


@given(
    st.data(),
    formats(),
    st.lists(
        st.one_of(
            st.text("0123456789.-e \0\u0661", max_size=8),
            st.binary(max_size=4),
            st.integers(),
            st.floats(),
            st.decimals(),
            st.fractions(),
            st.booleans(),
            st.none(),
        ),
        max_size=40,
    ),
    policies,
    modes,
)
def test_a_list_is_its_items_one_by_one(
    data: st.DataObject, form: Format, items: list[Any], policy: PolicyWord, mode: ModeWord
) -> None:
    def alone(item: Any) -> Any:
        try:
            return None if item is None else form.read(item, policy=policy, mode=mode, overflowed=True)
        except FixedError:
            return None

    pairs = [alone(item) for item in items]
    bits, is_out = form.read(items, policy=policy, mode=mode, overflowed=True, errors="mask")
    assert list(zip(bits, is_out)) == [pair or (None, None) for pair in pairs]
    assert form.read(items, policy=policy, mode=mode, errors="mask") == bits
    target = data.draw(formats())
    moved = [pair and form.convert([pair[0]], target, policy=policy, errors="mask")[0] for pair in pairs]
    assert form.read(items, policy=policy, mode=mode, target=target, errors="mask") == moved


@given(formats(), numerals(), policies, modes)
def test_whether_a_number_was_out_of_range(
    form: Format, numeral: Numeral, policy: PolicyWord, mode: ModeWord
) -> None:
    bits, is_out = form.read(
        [numeral.text], radix=numeral.radix, policy=policy, mode=mode, overflowed=True, errors="mask"
    )
    wanted = model.read(form, numeral.value, policy, mode)
    held = model.read(form, numeral.value, "checked", mode)
    assert (bits, is_out) == ([wanted], [None if wanted is None else held != wanted])


def test_symmetric_leaves_out_the_lowest_number() -> None:
    for width, signed in itertools.product(range(1, 7), (True, False)):
        for frac in range(width + 1):
            form = Format(f"{'I' if signed else 'U'}{width - frac}F{frac}")
            most = 2 ** (width - 1) - 1 if signed else 2**width - 1
            least = -most if signed else 0
            numbers = range(-2 * most - 3, 2 * most + 4)
            wanted = [min(max(number, least), most) for number in numbers]
            out = [not least <= number <= most for number in numbers]
            values = [Fraction(number, 2**frac) for number in numbers]
            assert form.read(values, policy="symmetric", overflowed=True) == (wanted, out)
            bits = list(range(form.min_bits, form.max_bits + 1))
            kept = [max(number, least) for number in bits]
            assert form.convert(bits, form, policy="symmetric") == kept


def test_overflows_of_either_step_are_told() -> None:
    form = Format("I8F8")
    numerals_ = ["1", "9", "200"]
    found = form.read(numerals_, policy="saturating", target="I4F4", overflowed=True)
    assert found == ([16, 127, 127], [False, True, True])
    assert [form.read(it, policy="saturating", target="I4F4", overflowed=True) for it in numerals_] == list(zip(*found))
    assert form.convert([256, 2304], "I4F4", policy="wrapping", overflowed=True) == ([16, -112], [False, True])
    assert form.convert(2304, "I4F4", policy="wrapping", overflowed=True) == (-112, True)


def test_decimals_of_long_exponents() -> None:
    form = Format("I4F4")
    great, small = Decimal("7e3000000000"), Decimal("-7e-3000000000")
    for given_ in ([great], [Decimal(1), great]):
        with pytest.raises(FixedError) as found:
            form.read(given_)
        assert found.value.code is Code.OVERFLOW
    listed = [great, great.copy_negate(), small, small.copy_negate(), Decimal("0e3000000000"), Decimal(1)]
    assert form.read(listed, policy="saturating", mode="floor") == [127, -128, -1, 0, 0, 16]
    assert form.read(listed, policy="wrapping", mode="ceil") == [0, 0, 0, 1, 0, 16]
    assert form.enclose(listed[2:4]) == [(-1, 0), (0, 1)]


@pytest.mark.parametrize("count", [1, 1023, 1024, 1025, 3000, 9000])
def test_long_lists(count: int) -> None:
    for form in (Format("I1F15"), Format("U32F32")):
        bits = [(at * 0x9E3779B97F4A7C15) % (1 << form.width) + form.min_bits for at in range(count)]
        texts = form.text(bits)
        assert texts == [form.text(each) for each in bits] and form.read(texts) == bits
        assert form.read([text + "0" * 50 if "." in text else text for text in texts]) == bits
        with pytest.raises(FixedError) as found:
            form.read([*texts[:-1], "1\0"])
        assert found.value.index == count - 1
        assert form.text([*bits[:-1], 1 << 64], errors="mask") == [*texts[:-1], None]


def test_numbers_without_end_or_of_great_size() -> None:
    form = Format("I16F16")
    endless: list[float | Decimal] = [float("nan"), float("-inf"), Decimal("NaN"), Decimal("-Infinity"), Decimal("sNaN")]
    for number in endless:
        lists: list[list[float | Decimal]] = [[number], [1.5, Decimal(1), number]]
        for items in lists:
            calls: list[Callable[[Any], Any]] = [form.read, form.enclose]
            for call in calls:
                with pytest.raises(FixedError) as found:
                    call(items)
                assert (found.value.code, found.value.index) == (Code.NOT_FINITE, len(items) - 1)
        with pytest.raises(FixedError) as found:
            form.read(number, policy="saturating")
        assert found.value.code is Code.NOT_FINITE
    assert form.read(Decimal("1e2000000000"), policy="saturating") == form.max_bits
    assert form.read([10**5000, -(2**20000)], policy="saturating") == [form.max_bits, form.min_bits]
    assert form.read(["1e2147483647", "1e-2147483648", "0e2147483647"], policy="saturating") == [form.max_bits, 0, 0]
    assert form.read("0" * 100_000 + "1") == 65536


@pytest.mark.parametrize(
    ("text", "radix", "code"),
    [
        ("1x", 10, Code.INVALID_DIGIT),
        ("", 10, Code.NO_DIGITS),
        (".", 10, Code.NO_DIGITS),
        ("1-", 10, Code.MISPLACED_SIGN),
        ("1.2.", 10, Code.TOO_MANY_POINTS),
        ("1e1e", 10, Code.TOO_MANY_EXPONENTS),
        ("1e1.", 10, Code.EXPONENT_INVALID_DIGIT),
        ("1e2147483648", 10, Code.EXPONENT_OVERFLOW),
        ("1e", 10, Code.EXPONENT_NO_DIGITS),
        ("9", 10, Code.OVERFLOW),
        ("1_0", 10, Code.INVALID_DIGIT),
        ("1\0", 10, Code.INVALID_DIGIT),
        ("\u0661", 10, Code.INVALID_DIGIT),
        ("1\udc80", 10, Code.INVALID_DIGIT),
        ("1e\u00e9", 10, Code.EXPONENT_INVALID_DIGIT),
        ("1", 3, Code.BAD_RADIX),
        ("1", 2**32 + 10, Code.BAD_RADIX),
        ("1", -1, Code.BAD_RADIX),
    ],
)
def test_causes(text: str, radix: int, code: Code) -> None:
    forms: list[str | bytes] = [text, text.encode("utf-8", "surrogatepass")]
    for given_ in forms:
        with pytest.raises(FixedError) as found:
            Format("I4F4").read(given_, radix=radix)
        assert found.value.code is code and found.value.index is None
