"""Whatever is handed over, a call answers, or raises one of three errors."""
from __future__ import annotations

from decimal import Decimal
from typing import Any

import pytest
from hypothesis import given, settings
from hypothesis import strategies as st
from lomdeqash import FixedError, Format
from model import formats

np = pytest.importorskip("numpy")

items = st.one_of(
    st.text(max_size=30),
    st.text("0123456789.+-eEpP@ab", max_size=30),
    st.binary(max_size=30),
    st.integers(),
    st.floats(),
    st.fractions(),
    st.decimals(),
    st.none(),
    st.booleans(),
    st.complex_numbers(),
    st.builds(object),
    st.just(Decimal("sNaN")),
    st.integers(-(1 << 65), 1 << 65),
    st.sampled_from(
        [np.int8(-1), np.uint64(2**64 - 1), np.float16("nan"), np.longdouble("inf"), np.datetime64("NaT")]
    ),
)
dtypes = st.sampled_from(
    [
        "S",
        "S0",
        "S3",
        "U",
        "U0",
        ">U5",
        "O",
        "?",
        "i1",
        ">i8",
        "u8",
        "f2",
        ">f4",
        "f8",
        "longdouble",
        "c16",
        "M8[s]",
        "V3",
        "S1,i4",
    ]
)


class Shown:
    """An array that is not printed where a case fails: not every one can be."""

    def __init__(self, array: Any) -> None:
        self.array = array


@st.composite
def arrays(draw: st.DrawFn) -> Shown:
    """An array of any bytes, with any layout."""
    dtype = draw(dtypes)
    if dtype == "O":
        flat = np.empty(draw(st.integers(0, 5)), object)
        flat[:] = draw(st.lists(items, min_size=flat.size, max_size=flat.size))
    else:
        size = max(np.dtype(dtype).itemsize, 1) if dtype not in ("S", "U") else 4
        kind = np.dtype(dtype if dtype not in ("S", "U") else f"{dtype}{4 if dtype == 'S' else 1}")
        count = draw(st.integers(0, 6))
        flat = (
            np.frombuffer(draw(st.binary(min_size=size * count, max_size=size * count)), kind)
            if kind.itemsize
            else np.zeros(count, kind)
        )
    flat = flat[:: draw(st.sampled_from([1, -1, 2]))]
    if draw(st.booleans()):
        flat = flat.reshape(draw(st.sampled_from([(-1, 1), (1, -1)])))
    return Shown(np.ma.array(flat, mask=draw(st.booleans())) if draw(st.booleans()) else flat)


given_things = st.one_of(items, st.lists(items, max_size=5), arrays())
words = st.one_of(
    st.sampled_from(["checked", "saturating", "wrapping", "nearest", "floor", "ceil", "zero", "raise", "mask"]), items
)


@settings(max_examples=1000)
@given(formats(), st.data())
def test_nothing_crashes(form: Format, data: st.DataObject) -> None:
    def some() -> Any:
        found = data.draw(given_things)
        return found.array if isinstance(found, Shown) else found

    call = data.draw(st.sampled_from(["read", "text", "value", "convert", "enclose", "compare", "format"]))
    options: dict[str, Any] = {"errors": data.draw(st.sampled_from(["raise", "mask"]))}
    if call in ("read", "convert"):
        options |= data.draw(st.dictionaries(st.sampled_from(["policy", "target_mode"]), words, max_size=1))
    if call in ("read", "enclose"):
        options |= data.draw(
            st.dictionaries(st.just("radix"), st.one_of(st.sampled_from([2, 8, 10, 16]), items), max_size=1)
        )
    try:
        if call == "format":
            Format(data.draw(st.one_of(items, st.from_regex(r"[IUiu][0-9]{1,3}F[0-9]{1,3}"))))
        elif call == "convert":
            form.convert(some(), data.draw(st.one_of(formats(), st.text(max_size=5))), **options)
        elif call == "compare":
            form.compare(some(), some(), data.draw(formats()), **options)
        else:
            getattr(form, call)(some(), **options)
    except (FixedError, TypeError, ValueError):
        pass
