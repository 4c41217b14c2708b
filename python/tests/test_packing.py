"""Texts packed into rows: the module in C and the same in Python, and what lists give with each."""
from __future__ import annotations

import sys
from collections.abc import Iterator
from decimal import Decimal
from typing import Any

import pytest
from hypothesis import given
from hypothesis import strategies as st
from lomdeqash import FixedError, FixedTypeError, Format, _rows
from model import formats

packing = pytest.importorskip("lomdeqash._packing")

FORM = Format("I4F4")
texts = st.one_of(
    st.text(max_size=9), st.text("0123456789.-e", max_size=200), st.text("\0\n5\x7f\x80\ud800", max_size=4)
)
pieces = st.one_of(st.binary(max_size=9), st.sampled_from([b"\0", b"1\n2", b"\xff", b"0" * 128, b"0" * 129]))


def rows(items: list[Any], size: int) -> bytes:
    """Each item's bytes, and zeros."""
    return b"".join((it.encode() if isinstance(it, str) else it).ljust(size, b"\0") for it in items)


@given(
    st.one_of(st.lists(texts, min_size=1, max_size=20), st.lists(pieces, min_size=1, max_size=20)), st.integers(0, 140)
)
def test_rows(items: list[Any], limit: int) -> None:
    packed, without = packing.rows_of(items, limit), _rows.rows_of(items, limit)
    if packed is not None:
        data, size = packed
        assert size == max(1, *(len(it.encode() if isinstance(it, str) else it) for it in items))
        assert data == rows(items, size)
    if without is not None:
        assert packed == without or limit == 0


def test_what_cannot_be_a_row() -> None:
    for items in (["1\0"], [b"\0"], ["\ud800"], ["1", 1], ["1", None], [b"1", 2.0], [bytearray(b"1")], ["1" * 10]):
        assert packing.rows_of(items, 9) is None
    assert packing.rows_of([], 9) == (b"", 1) and packing.rows_of([""], 9) == (b"\0", 1)
    assert packing.rows_of(["1", b"23"], 9) == (b"1\x0023", 2) and packing.rows_of(["\xe4"], 9) == (b"\xc3\xa4", 2)
    for arguments in ((("1",), 9), ("1", 9), (["1"],), (["1"], "9"), (["1"], 1 << 70)):
        with pytest.raises((TypeError, OverflowError)):
            packing.rows_of(*arguments)


def test_nothing_is_kept() -> None:
    """The counts of references are as they were, whether items are packed or not."""
    lists: list[list[Any]] = [["1" * 50, b"2" * 50], ["1" * 50, 3.5, "\ud800"]]
    for items in lists:
        counts = [sys.getrefcount(each) for each in (*items, None)]
        for _ in range(1000):
            packing.rows_of(items, 128)
        assert all(abs(sys.getrefcount(each) - count) < 500 for each, count in zip((*items, None), counts))


@pytest.fixture(params=["in C", "in Python"])
def packer(request: Any, monkeypatch: pytest.MonkeyPatch) -> Iterator[str]:
    if request.param == "in Python":
        monkeypatch.setattr(_rows, "_packing", None)
    yield request.param


def outcome(form: Format, items: list[Any], **how: Any) -> tuple[Any, ...]:
    """What a list gives, or its error."""
    try:
        return (form.read(items, **how),)
    except (FixedError, FixedTypeError) as error:
        return type(error), getattr(error, "code", None), error.index, str(error)


LISTS: list[list[Any]] = [
    ["1", "2", "x", "3x"],
    ["1", "2", "\0", "3x"],
    ["1", "2", "1\n2", "3x"],
    ["1", "\xe4", "\ud800"],
    ["1", "0" * 500 + "2", "y"],
    ["1", None, "y"],
    [b"1", b"\xff", b"\0"],
    [*["1"] * 9000, "8", "x"],
    [*["1"] * 9000, float("nan")],
    [Decimal(1), Decimal("NaN")],
    [Decimal(1), Decimal("1e-9999999999"), Decimal("1e9999999999")],
]


def test_errors_and_their_indexes_are_the_same(packer: str) -> None:
    wanted = [
        ("invalid digit found in string: 'x' at 2", 2),
        ("invalid digit found in string: '\\x00' at 2", 2),
        ("invalid digit found in string: '1\\n2' at 2", 2),
        ("invalid digit found in string: '\xe4' at 1", 1),
        ("invalid digit found in string: 'y' at 2", 2),
        ("a numeral is a text or a number, not NoneType at 1", 1),
        ("invalid digit found in string: b'\\xff' at 1", 1),
        ("overflow: '8' at 9000", 9000),
    ]
    for items, (message, index) in zip(LISTS, wanted):
        assert outcome(FORM, items)[2:] == (index, message)
    for items in LISTS[8:]:
        assert outcome(FORM, items)[2] == len(items) - 1


@given(formats(), st.lists(st.one_of(texts, pieces, st.decimals(), st.floats(), st.none()), max_size=20))
def test_lists_give_the_same(form: Format, items: list[Any]) -> None:
    options: list[dict[str, Any]] = [{}, {"policy": "saturating", "errors": "mask", "overflowed": True}]
    for how in options:
        found = outcome(form, items, **how)
        with pytest.MonkeyPatch.context() as patch:
            patch.setattr(_rows, "_packing", None)
            assert outcome(form, items, **how) == found
