"""Columns of pandas: a Series gives a Series of its index and name, and what is missing is refused or stays missing."""
from __future__ import annotations

from decimal import Decimal
from fractions import Fraction
from typing import Any

import pytest
from hypothesis import given
from hypothesis import strategies as st
from lomdeqash import Code, FixedError, FixedTypeError, Format, fit
from model import formats

np = pytest.importorskip("numpy")
pandas: Any = pytest.importorskip("pandas")

FORM = Format("I4F4")
INDEX = ["a", "b", "c"]
COLUMNS = [
    (["1", "2.5", "-3"], object),
    (["1", "2.5", "-3"], "string"),
    (["1", "2.5", "-3"], "category"),
    ([1.0, 2.5, -3.0], "float64"),
    ([1.0, 2.5, -3.0], "Float64"),
    ([1.0, 2.5, -3.0], "category"),
    ([Decimal(1), 2.5, "-3"], object),
]


def series(items: list[Any], dtype: Any) -> Any:
    return pandas.Series(items, index=INDEX, name="gain", dtype=dtype)


def same(found: Any, wanted: list[Any], dtype: str) -> None:
    assert isinstance(found, pandas.Series) and found.name == "gain" and list(found.index) == INDEX
    assert str(found.dtype) == dtype and [None if item is pandas.NA else item for item in found] == wanted


@pytest.mark.parametrize(("items", "dtype"), COLUMNS)
def test_columns(items: list[Any], dtype: Any) -> None:
    bits = FORM.read(series(items, dtype))
    same(bits, [16, 40, -48], "int8")
    for end in FORM.enclose(series(items, dtype)):
        same(end, [16, 40, -48], "int8")
    same(FORM.text(bits), ["1", "2.5", "-3"], "string")
    same(FORM.value(bits), [Decimal(1), Decimal("2.5"), Decimal(-3)], "object")
    same(FORM.value(bits, float), [1.0, 2.5, -3.0], "float64")
    same(FORM.convert(bits, "U8F8", policy="saturating"), [256, 640, 0], "uint16")
    same(FORM.compare(bits, 16), [0, 1, -1], "int8")
    same(FORM.compare(series([16, 16, 16], "Int64"), bits), [0, -1, 1], "int8")
    assert FORM.read(series(items, dtype).array).tolist() == [16, 40, -48]


@pytest.mark.parametrize("dtype", ["int16", "Int16", "UInt8", "boolean", "category", object])
def test_columns_of_bits(dtype: Any) -> None:
    bits = series([1, 0, 1], dtype)
    same(FORM.read(bits), [16, 0, 16], "int8")
    same(FORM.text(bits), ["0.06", "0", "0.06"], "string")


@pytest.mark.parametrize(("items", "dtype"), COLUMNS)
def test_what_is_missing(items: list[Any], dtype: Any) -> None:
    column = series([items[0], None, items[2]], dtype)
    with pytest.raises((FixedError, FixedTypeError)) as error:
        FORM.read(column)
    refused: Any = error.value
    assert refused.index == 1
    bits = FORM.read(column, errors="mask")
    same(bits, [16, None, -48], "Int8")
    same(FORM.text(bits, errors="mask"), ["1", None, "-3"], "string")
    same(FORM.value(bits, errors="mask"), [Decimal(1), None, Decimal(-3)], "object")
    same(FORM.value(bits, float, errors="mask"), [1.0, None, -3.0], "Float64")
    same(FORM.convert(bits, "I8F8", errors="mask"), [256, None, -768], "Int16")
    same(FORM.compare(bits, 16, errors="mask"), [0, None, -1], "Int8")


def test_refused_items_and_those_out_of_range() -> None:
    column = series(["9", "x", "1"], "string")
    with pytest.raises(FixedError) as error:
        FORM.read(column, policy="saturating")
    assert (error.value.code, error.value.index, error.value.given) == (Code.INVALID_DIGIT, 1, "'x'")
    bits, is_out = FORM.read(column, policy="saturating", errors="mask", overflowed=True)
    same(bits, [127, None, 16], "Int8")
    same(is_out, [True, None, False], "boolean")


def test_series_of_two_indexes_are_not_compared() -> None:
    with pytest.raises(ValueError, match="different indexes"):
        FORM.compare(pandas.Series([1, 2]), pandas.Series([1, 2], index=[1, 2]))


def test_a_column_of_no_categories() -> None:
    column = series([None, None, None], "category")
    same(FORM.read(column, errors="mask"), [None] * 3, "Int8")


@given(formats(), st.lists(st.one_of(st.none(), st.floats(), st.text("0123456789.-e", max_size=9)), max_size=20))
def test_a_column_is_read_as_a_list_is(form: Format, items: list[Any]) -> None:
    wanted = form.read(items, policy="saturating", errors="mask")
    for dtype in (object, "category"):
        found = form.read(pandas.Series(items, dtype=dtype), policy="saturating", errors="mask")
        assert [None if item is pandas.NA else item for item in found] == wanted


@pytest.mark.parametrize(("items", "dtype"), COLUMNS)
def test_a_format_for_a_column(items: list[Any], dtype: Any) -> None:
    column = series(items, dtype)
    assert fit(column, 8) == Format("I3F5") and fit(column, error=0) == Format("I3F5")
    assert Format("I8F0").greatest_error(column) == Fraction(1, 2)
    with pytest.raises((FixedError, FixedTypeError)) as error:
        fit(series([items[0], None, items[2]], dtype), 8)
    refused: Any = error.value
    assert refused.index == 1
