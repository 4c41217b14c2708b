"""Refusals: their codes, words and places, and what is no error of data."""
from __future__ import annotations

import pathlib
import pickle
import re
from collections.abc import Callable
from decimal import Decimal
from fractions import Fraction
from typing import Any

import pytest
from lomdeqash import Code, Errors, FixedError, FixedTypeError, Format

FORM = Format("I4F4")
CALLS: list[Callable[[Any], Any]] = [
    FORM.text,
    FORM.value,
    lambda it: FORM.value(it, float),
    lambda it: FORM.convert(it, "I8F8"),
    lambda it: FORM.compare(it, 0),
    lambda it: FORM.compare(0, it),
]
HEADER = pathlib.Path(__file__).parents[2] / "include" / "fixed.h"


@pytest.mark.skipif(not HEADER.exists(), reason="the header is not beside the tests")
def test_codes_are_those_of_the_header() -> None:
    codes = HEADER.read_text(encoding="utf-8").partition("enum fixed_code {")[2].partition("};")[0]
    found = re.findall(r"^  FIXED_([A-Z_]+) = (\d+)", codes, re.M)
    assert dict(found).items() <= {code.name: str(code.value) for code in Code}.items()


def test_each_code_has_its_own_message() -> None:
    assert len({FixedError(code).message for code in Code}) == len(Code)


def test_the_first_refused_item_is_named() -> None:
    with pytest.raises(FixedError) as found:
        FORM.read(["1", "2x", "3x"])
    error = found.value
    assert (error.code, error.index, error.given) == (Code.INVALID_DIGIT, 1, "'2x'")
    assert str(error) == "invalid digit found in string: '2x' at 1" and isinstance(error, ValueError)
    again = pickle.loads(pickle.dumps(error))
    assert (again.code, again.index, str(again)) == (error.code, error.index, str(error))


def test_a_target_refuses_in_the_order_of_the_items() -> None:
    with pytest.raises(FixedError) as found:
        FORM.read(["1", "7", "x"], target="I2F6")
    assert (found.value.code, found.value.index) == (Code.OVERFLOW, 1)


def test_a_long_item_is_cut() -> None:
    with pytest.raises(FixedError) as found:
        FORM.read("9" * 10**6)
    assert len(str(found.value)) < 80
    with pytest.raises(FixedError) as found:
        FORM.text(1 << 10**6)
    assert len(str(found.value)) < 80


def test_masking() -> None:
    assert FORM.read(["1", "x", None], errors="mask") == [16, None, None]
    assert FORM.text([16, 999, None], errors=Errors.MASK) == ["1", None, None]
    assert FORM.value([16, 999], errors="mask") == [Decimal(1), None]
    assert FORM.compare([1, None, 999], 1, errors="mask") == [0, None, None]
    with pytest.raises(FixedError):
        FORM.read("x", errors="mask")


def test_an_item_of_no_such_type_has_its_index() -> None:
    calls: list[tuple[Callable[[], Any], int]] = [
        (lambda: FORM.read(["1", None]), 1),  # type: ignore[list-item]
        (lambda: FORM.read([*["1"] * 10_000, None, "x"]), 10_000),  # type: ignore[list-item]
        (lambda: FORM.text([1, 2, 2.5]), 2),  # type: ignore[list-item]
        (lambda: FORM.compare([1, None], 2), 1),  # type: ignore[list-item]
        (lambda: FORM.read(["1", object()], errors="mask"), 1),  # type: ignore[call-overload]
    ]
    for call, index in calls:
        with pytest.raises(FixedTypeError) as found:
            call()
        assert found.value.index == index and str(found.value).endswith(f" at {index}")
        assert str(pickle.loads(pickle.dumps(found.value))) == str(found.value)
    with pytest.raises(FixedError) as error:
        FORM.read(["1", float("nan")])
    assert error.value.index == 1


def test_the_first_of_errors_of_two_kinds_is_raised() -> None:
    cases: list[tuple[list[Any], Any]] = [
        (["1", "x", None], FixedError),
        (["1", None, "x"], FixedTypeError),
        ([1, 1e9, None], FixedError),
    ]
    for items, kind in cases:
        with pytest.raises(kind) as found:
            FORM.read(items)
        assert found.value.index == 1


def test_a_long_number_is_shown_by_its_size() -> None:
    long = Fraction(10**5000 + 1, 3)
    lists: list[list[int | Fraction]] = [[long], [1, long]]
    for items in lists:
        with pytest.raises(FixedError) as found:
            FORM.read(items)
        assert found.value.given == "Fraction(a number of 16610 bits, 3)" and found.value.code is Code.OVERFLOW
    assert FORM.read([1, long], errors="mask") == [16, None]
    with pytest.raises(FixedError) as found:
        FORM.compare([1], [10**5000])
    assert found.value.given == "a number of 16610 bits" and found.value.index == 0


@pytest.mark.parametrize("bits", [128, -129, 1 << 64, -(1 << 64), (1 << 64) - 1, 10**100])
def test_bits_that_are_none(bits: int) -> None:
    for call in CALLS:
        with pytest.raises(FixedError) as found:
            call(bits)
        assert found.value.code in (Code.BAD_BITS, Code.BAD_OTHER_BITS)


@pytest.mark.parametrize(
    ("options", "code"),
    [
        ({"policy": "chekced"}, Code.BAD_POLICY),
        ({"policy": None}, Code.BAD_POLICY),
        ({"mode": "up"}, Code.BAD_MODE),
        ({"mode": []}, Code.BAD_MODE),
        ({"target": "I8F08"}, Code.BAD_WORD),
        ({"target": "I8F8", "target_mode": 1}, Code.BAD_MODE),
    ],
)
def test_options_that_are_none(options: dict[str, Any], code: Code) -> None:
    with pytest.raises(FixedError) as found:
        FORM.read("1", **options)
    assert found.value.code is code


@pytest.mark.parametrize("item", [None, 1j, object(), [], {}, memoryview(b"1")])
def test_what_is_no_numeral_and_no_number(item: Any) -> None:
    with pytest.raises(TypeError):
        FORM.read([item])


@pytest.mark.parametrize("item", [None, 1.0, "1", b"1", Decimal(1)])
def test_what_is_no_bits(item: Any) -> None:
    for call in CALLS:
        with pytest.raises(TypeError):
            call(item)


def test_other_wrong_options() -> None:
    form: Any = FORM
    wrong: list[tuple[type[Exception], Callable[[], Any]]] = [
        (ValueError, lambda: form.read("1", errors="ignore")),
        (FixedError, lambda: form.text(1, places=65)),
        (FixedError, lambda: form.text(1, places=-1)),
        (ValueError, lambda: form.text(1, dtype="O")),
        (TypeError, lambda: form.text(1, places=1.0)),
        (TypeError, lambda: form.value(1, int)),
        (TypeError, lambda: form.read("1", radix="10")),
        (TypeError, lambda: form.read("1", radix=10.0)),
        (TypeError, lambda: form.read("1", target=8)),
    ]
    for kind, call in wrong:
        with pytest.raises(kind):
            call()
