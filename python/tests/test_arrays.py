"""Arrays of numpy: every dtype and layout gives what the same items give one by one."""
from __future__ import annotations

import math
from collections.abc import Callable
from decimal import Decimal
from fractions import Fraction
from typing import Any

import model
import pytest
from hypothesis import given
from hypothesis import strategies as st
from lomdeqash import Code, FixedError, FixedTypeError, Format, fit
from model import ModeWord, PolicyWord, formats, numerals, read, value

np = pytest.importorskip("numpy")

FORM = Format("I4F4")
CALLS: list[Callable[[Any], Any]] = [
    FORM.text,
    FORM.value,
    lambda it: FORM.convert(it, "I8F8"),
    lambda it: FORM.compare(it, 0),
]
policies, modes = st.sampled_from(model.POLICIES), st.sampled_from(list(model.ROUND))
TEXTS = ["1.5", "-2", "+.0625", "7.9375", "1e-1", "0", "-8", "3."]
LAYOUTS: dict[str, Callable[[Any], Any]] = {
    "plain": lambda a: a,
    "strided": lambda a: np.repeat(a, 3)[::3],
    "backwards": lambda a: a[::-1],
    "of two dimensions": lambda a: a.reshape(2, 4),
    "in the order of Fortran": lambda a: np.asfortranarray(a.reshape(2, 4)),
    "transposed": lambda a: a.reshape(2, 2, 2).T,
    "one repeated": lambda a: np.broadcast_to(a[0], (2, 3)),
    "of size zero": lambda a: a[:0],
    "of size zero, two dimensions": lambda a: a[:0].reshape(0, 5),
    "without a dimension": lambda a: a[0:1].reshape(()),
    "read-only": lambda a: np.frombuffer(a.tobytes(), a.dtype) if a.dtype != object else a,
    "unaligned": lambda a: np.frombuffer(b"x" + a.tobytes(), np.uint8)[1:].view(a.dtype) if a.dtype != object else a,
    "bytes in the other order": lambda a: a.astype(a.dtype.newbyteorder()) if a.dtype != object else a,
    "a field of records": lambda a: np.array(list(zip(a, a)), dtype=[("a", "S1"), ("b", a.dtype)])["b"],
}
TYPES = ["S", "U", "S6", "U16", object, "f2", "f4", "f8", "longdouble"]
INTEGERS = ["i1", "i2", "i4", "i8", "u1", "u2", "u4", "u8", object]


def same(found: Any, wanted: list[Any], form: Format, shape: tuple[int, ...]) -> None:
    """An array of the format's type, and of the items wanted; or its one item."""
    assert found.dtype == form.dtype and found.shape == shape
    assert found.reshape(-1).tolist() == wanted


@pytest.mark.parametrize("layout", LAYOUTS)
@pytest.mark.parametrize("dtype", TYPES)
def test_numerals(dtype: Any, layout: str) -> None:
    given_ = LAYOUTS[layout](np.array(TEXTS).astype(dtype))
    items = given_.reshape(-1).tolist()
    all_options: list[dict[str, Any]] = [
        {"mode": "ceil"},
        {"policy": "wrapping", "target": "U0F8", "target_mode": "ceil"},
        {"policy": "saturating", "target": "I16F48"},
    ]
    for options in all_options:
        target = Format(options.get("target", FORM))
        same(FORM.read(given_, **options), FORM.read(items, **options), target, given_.shape)
    found = FORM.enclose(given_)
    for at, each in enumerate(found):
        same(each, [pair[at] for pair in FORM.enclose(items)], FORM, given_.shape)


@pytest.mark.parametrize("layout", LAYOUTS)
@pytest.mark.parametrize("dtype", INTEGERS)
def test_bits(dtype: Any, layout: str) -> None:
    given_ = LAYOUTS[layout](np.array([0, 1, 2, 16, 51, 64, 100, 127]).astype(dtype))
    items = given_.reshape(-1).tolist()
    for places in (None, 0, 2, 30):
        for kind in "US":
            found = np.asarray(FORM.text(given_, places=places, dtype=kind))  # type: ignore[call-overload]
            assert found.shape == given_.shape and found.dtype.kind == kind
            assert found.astype("U").reshape(-1).tolist() == FORM.text(items, places=places)
    for value_kind in (Decimal, Fraction, float):
        found = np.asarray(FORM.value(given_, value_kind))
        assert found.shape == given_.shape and found.reshape(-1).tolist() == FORM.value(items, value_kind)
    for mode in model.ROUND:
        same(
            FORM.convert(given_, "U6F2", target_mode=mode),
            FORM.convert(items, "U6F2", target_mode=mode),
            Format("U6F2"),
            given_.shape,
        )
    same(FORM.read(given_, policy="wrapping"), FORM.read(items, policy="wrapping"), FORM, given_.shape)
    found = np.asarray(FORM.compare(given_, 51))
    assert found.dtype == np.int8 and found.reshape(-1).tolist() == FORM.compare(items, 51)


@given(formats(), st.lists(numerals().filter(lambda it: it.radix == 16), max_size=20), policies, modes)
def test_texts_of_any_format(form: Format, listed: list[model.Numeral], policy: PolicyWord, mode: ModeWord) -> None:
    wanted = [model.read(form, each.value, policy, mode) for each in listed]
    for dtype in ("S", "U", object):
        given_ = np.array([each.text for each in listed], dtype)
        found = form.read(given_, radix=16, policy=policy, mode=mode, errors="mask")
        assert found.dtype == form.dtype and found.tolist() == wanted


@given(formats(), st.lists(st.floats(), max_size=20), policies, modes)
def test_floats_of_any_format(form: Format, listed: list[float], policy: PolicyWord, mode: ModeWord) -> None:
    found = form.read(np.array(listed, np.float64), policy=policy, mode=mode, errors="mask")
    assert found.tolist() == form.read(listed, policy=policy, mode=mode, errors="mask")


@given(formats(), st.data(), policies, modes)
def test_floats_of_whole_parts_of_an_ulp(
    form: Format, data: st.DataObject, policy: PolicyWord, mode: ModeWord
) -> None:
    most = 2 ** min(form.width + 1, 53)
    parts = data.draw(st.lists(st.tuples(st.integers(-most, most), st.integers(-9, 66)), max_size=20))
    listed = [math.ldexp(number, -form.frac - bits) for number, bits in parts]
    wanted = [model.read(form, Fraction(number), policy, mode) for number in listed]
    assert form.read(np.array(listed, np.float64), policy=policy, mode=mode, errors="mask").tolist() == wanted
    short = np.array(listed, np.float32)
    wanted = [model.read(form, Fraction(number), policy, mode) for number in short.tolist()]
    assert form.read(short, policy=policy, mode=mode, errors="mask").tolist() == wanted


@given(formats(), st.data(), policies)
def test_integers_of_any_format(form: Format, data: st.DataObject, policy: PolicyWord) -> None:
    dtype = data.draw(st.sampled_from(INTEGERS[:-1]))
    ends = np.iinfo(dtype)
    listed = data.draw(st.lists(st.integers(int(ends.min), int(ends.max)), max_size=20))
    given_ = np.array(listed, dtype)
    assert form.read(given_, policy=policy, errors="mask").tolist() == form.read(listed, policy=policy, errors="mask")
    calls: list[Callable[[Any], Any]] = [
        lambda it: form.text(it, errors="mask"),
        lambda it: form.value(it, errors="mask"),
        lambda it: form.value(it, Fraction, errors="mask"),
        lambda it: form.value(it, float, errors="mask"),
        lambda it: form.convert(it, "I8F24", errors="mask"),
        lambda it: form.convert(it, "U1F7", target_mode="ceil", errors="mask"),
    ]
    for call in calls:
        assert call(given_).tolist() == call(listed)


@given(formats(), formats(), policies, modes, st.data())
def test_bits_of_any_format(
    form: Format, target: Format, policy: PolicyWord, mode: ModeWord, data: st.DataObject
) -> None:
    listed = data.draw(st.lists(model.bits_of(form), max_size=20))
    given_ = np.array(listed, form.dtype)
    assert form.text(given_).tolist() == form.text(listed)
    assert form.read(form.text(given_)).tolist() == form.read(form.text(given_, dtype="S")).tolist() == listed
    assert form.read(form.value(given_)).tolist() == form.read(form.value(given_, Fraction)).tolist() == listed
    assert form.value(given_, float).tolist() == form.value(listed, float)
    found = form.convert(given_, target, policy=policy, target_mode=mode, errors="mask")
    wanted = form.convert(listed, target, policy=policy, target_mode=mode, errors="mask")
    assert found.dtype == target.dtype and found.tolist() == wanted
    ends = np.array([form.min_bits, form.max_bits], form.dtype)
    assert form.text(ends).tolist() == form.text(ends.tolist())


def test_more_than_a_block() -> None:
    bits = np.arange(-32768, 32768).astype(np.int16)
    form = Format("I1F15")
    texts = form.text(bits)
    assert (form.read(texts) == bits).all() and (form.read(texts[::-1].astype("S20")) == bits[::-1]).all()
    assert texts.dtype == "U8" and texts[[0, 1, 32767, 32768, 65535]].tolist() == [
        "-1",
        "-0.99997",
        "-0.00003",
        "0",
        "0.99997",
    ]
    with pytest.raises(FixedError) as found:
        form.read(np.where(bits == 32000, "x", texts))
    assert found.value.index == 32768 + 32000


def test_errors_by_index() -> None:
    for dtype in ("S", "U", object):
        given_ = np.array(["1", "2", "x", "1.2.3", "9", "4"], dtype)
        with pytest.raises(FixedError) as found:
            FORM.read(given_)
        assert (found.value.code, found.value.index) == (Code.INVALID_DIGIT, 2) and "x" in found.value.given
        with pytest.raises(FixedError) as found:
            FORM.read(given_.reshape(2, 3))
        assert found.value.index == (0, 2)
        masked = FORM.read(given_, errors="mask")
        assert masked.mask.tolist() == [False, False, True, True, True, False] and masked.tolist() == [
            16,
            32,
            None,
            None,
            None,
            64,
        ]
        assert masked.data.tolist() == [16, 32, 0, 0, 0, 64]
    with pytest.raises(FixedError) as found:
        FORM.read(np.array("x"))
    assert found.value.index is None
    with pytest.raises(FixedError) as found:
        FORM.read(np.array(["1", "7", "x"]), target="I2F6")
    assert (found.value.code, found.value.index) == (Code.OVERFLOW, 1)
    assert FORM.read(np.array(["1", "7", "x"]), target="I2F6", errors="mask").tolist() == [64, None, None]


def test_masked_arrays_stay_masked() -> None:
    given_ = np.ma.array(["1", "x", "2", "y"], mask=[False, True, False, True])
    found = FORM.read(given_)
    assert isinstance(found, np.ma.MaskedArray) and found.tolist() == [16, None, 32, None]
    assert FORM.text(found).tolist() == ["1", None, "2", None]
    assert FORM.convert(found, "I8F0").tolist() == [1, None, 2, None]
    assert FORM.compare(found, 16).tolist() == [0, None, 1, None] and FORM.compare(16, found).tolist() == [
        0,
        None,
        -1,
        None,
    ]
    low, high = FORM.enclose(given_)
    assert low.tolist() == high.tolist() == [16, None, 32, None]
    with pytest.raises(FixedError) as error:
        FORM.read(np.ma.array(["1", "x", "2", "y"], mask=[False, True, False, False]))
    assert error.value.index == 3
    objects = np.array(["1", None, 2.5], object)
    assert FORM.read(objects, errors="mask").tolist() == [16, None, 40]
    assert FORM.read(np.ma.array(objects, mask=[0, 1, 0])).tolist() == [16, None, 40]


@pytest.mark.parametrize("text", ["1\0002", "\0", "\0001", "1\0\0\0002", "1e\0005", "12\u0661", "\u20ac1", "1\x80"])
def test_bytes_that_are_no_digits_within_texts(text: str) -> None:
    with pytest.raises(FixedError) as found:
        FORM.read(text + "x")
    for given_ in (
        np.array(["1", text + "x", "22222"]),
        np.array([b"1", (text + "x").encode(), b"22222"]),
        np.array(["1", text + "x"], object),
    ):
        with pytest.raises(FixedError) as error:
            FORM.read(given_)
        assert (error.value.code, error.value.index) == (found.value.code, 1)


def test_texts_end_at_their_last_byte_that_is_not_zero() -> None:
    assert FORM.read(np.array([b"1", b"2.5\0\0", b""], "S8"), errors="mask").tolist() == [16, 40, None]
    assert FORM.read(np.array(["", ""]), errors="mask").tolist() == [None, None]
    assert (
        FORM.read(np.zeros(2, "S0"), errors="mask").tolist()
        == FORM.read(np.zeros(2, "U0"), errors="mask").tolist()
        == [None, None]
    )


@pytest.mark.parametrize(
    "given_", [np.array([1j]), np.array(["2020-01-01"], "M8[D]"), np.zeros(1, "V4"), np.zeros(1, "S1,S1")]
)
def test_arrays_of_no_numerals(given_: Any) -> None:
    calls: list[Callable[[Any], Any]] = [FORM.read, FORM.enclose]
    for call in calls:
        with pytest.raises(TypeError):
            call(given_)


@pytest.mark.parametrize("given_", [np.array([1.0]), np.array(["1"]), np.array([None]), np.array([1.0], object)])
def test_arrays_of_no_bits(given_: Any) -> None:
    for call in CALLS:
        with pytest.raises(TypeError):
            call(given_)


def test_flags_are_whole_numbers() -> None:
    assert FORM.read(np.array([True, False])).tolist() == FORM.read([True, False]) == [16, 0]
    assert FORM.text(np.array([True, False])).tolist() == FORM.text([True, False]) == ["0.06", "0"]


def test_numbers_of_numpy_are_single_items() -> None:
    for item in (
        np.float32(0.5),
        np.float64(0.5),
        np.longdouble(0.5),
        np.float16(0.5),
        np.str_("0.5"),
        np.bytes_(b"0.5"),
    ):
        assert FORM.read(item) == 8 and type(FORM.read(item)) is int
    assert FORM.read(np.int8(3)) == 48 and FORM.text(np.uint64(3)) == "0.2"
    assert FORM.read([np.longdouble("nan"), np.float32("inf")], errors="mask") == [None, None]


def test_ends_of_longdouble() -> None:
    ends = np.finfo(np.longdouble)
    given_ = np.array(
        [ends.max, ends.min, ends.tiny, -ends.tiny, np.nextafter(np.longdouble(0), np.longdouble(1))], np.longdouble
    )
    assert FORM.read(given_, policy="saturating", mode="ceil").tolist() == [127, -128, 1, 0, 1]
    third = np.longdouble(1) / 3
    assert Format("U0F64").read(np.array([third])).tolist() == [
        round(Fraction(*map(int, third.as_integer_ratio())) * 2**64)
    ]


def test_characters_that_are_none() -> None:
    given_ = np.array([0x31, 0xFFFFFFFF, 0x110000], np.uint32).view("U1")
    with pytest.raises(FixedError) as found:
        FORM.read(given_)
    assert (found.value.code, found.value.index) == (Code.INVALID_DIGIT, 1)
    assert FORM.read(given_, errors="mask").tolist() == [16, None, None]
    with pytest.raises(TypeError):
        FORM.compare(1, given_)


def test_values_of_numpys_floats() -> None:
    found = FORM.value(np.array([1, 2], np.int8), np.float64)
    assert found.dtype == np.float64 and found.tolist() == [0.0625, 0.125]
    for each in (FORM.value(1, np.float64), *FORM.value([1], np.float64)):
        assert type(each) is np.float64 and each == 0.0625
    with pytest.raises(TypeError):
        FORM.value(1, np.int64)


@pytest.mark.parametrize("dtype", ["S", "U", object, "f4", "f8", "i2"])
def test_arrays_say_what_was_out_of_range(dtype: Any) -> None:
    given_ = np.array([[1, 9], [-200, 7]]).astype(dtype)
    bits, is_out = FORM.read(given_, policy="saturating", overflowed=True)
    assert bits.tolist() == [[16, 127], [-128, 112]] and bits.dtype == np.int8
    assert is_out.tolist() == [[False, True], [True, False]] and is_out.dtype == np.bool_
    bits, is_out = FORM.read(given_, policy="saturating", target="I2F6", overflowed=True)
    assert bits.tolist() == [[64, 127], [-128, 127]] and is_out.tolist() == [[False, True], [True, True]]
    bits, is_out = Format("I12F4").convert(np.array([16, 2000]), "I4F4", policy="wrapping", overflowed=True)
    assert bits.tolist() == [16, -48] and is_out.tolist() == [False, True]


@pytest.mark.parametrize("dtype", ["f2", "f4", ">f8", "longdouble", object])
def test_floats_that_are_not_finite(dtype: Any) -> None:
    given_ = np.array([0.5, np.nan, -np.inf]).astype(dtype)
    calls: list[Callable[[Any], Any]] = [FORM.read, FORM.enclose, lambda it: FORM.read(it, target="I8F8")]
    for call in calls:
        with pytest.raises(FixedError) as found:
            call(given_)
        assert (found.value.code, found.value.index) == (Code.NOT_FINITE, 1)
    assert FORM.read(given_, policy="saturating", errors="mask").tolist() == [8, None, None]
    assert [FORM.read([item], errors="mask") for item in given_] == [[8], [None], [None]]


def test_objects_of_other_types_have_their_index() -> None:
    for given_, index in ((np.array(["1", None], object), 1), (np.array([["1", 2], [None, 3]], object), (1, 0))):
        with pytest.raises(FixedTypeError) as found:
            FORM.read(given_)
        assert found.value.index == index
    with pytest.raises(FixedError) as error:
        FORM.read(np.array([1, np.nan]))
    assert error.value.index == 1


def test_long_bits_are_shown_by_their_size() -> None:
    calls: list[Callable[[], Any]] = [
        lambda: FORM.text(np.array([1, 10**5000], object)),
        lambda: FORM.compare(np.array([1, 1]), 10**5000),
    ]
    for call in calls:
        with pytest.raises(FixedError) as found:
            call()
        assert found.value.given == "a number of 16610 bits"
    with pytest.raises(FixedError) as found:
        FORM.read(np.array([1, Fraction(10**5000, 3)], object))
    assert (found.value.index, found.value.given) == (1, "Fraction(a number of 16610 bits, 3)")


def test_order_of_arrays() -> None:
    left, right = np.array([[-1], [0], [1]], np.int8), np.array([0, 1], np.int8)
    assert FORM.compare(left, right).tolist() == [[-1, -1], [0, -1], [1, 0]]
    assert Format("U0F64").compare([2**64 - 1], np.array([1]), "U64F0").tolist() == [-1]
    with pytest.raises(FixedError) as found:
        FORM.compare(left.astype(int) * 200, right)
    assert (found.value.code, found.value.index) == (Code.BAD_BITS, (0, 0))


@given(st.data(), formats(), modes)
def test_the_greatest_error_of_floats(data: st.DataObject, form: Format, mode: ModeWord) -> None:
    span = float(form.max_bits) / 2**form.frac * 1.1
    floats = st.floats(-span, span)
    halves = st.integers(-200, 200).map(lambda half: half / (2 << form.frac))
    drawn = data.draw(st.lists(st.one_of(floats, halves, halves.map(lambda half: half * (1 + 2**-52))), max_size=8))
    items: list[float] = [item for item in drawn if read(form, Fraction(item), mode=mode) is not None]
    wanted = form.greatest_error(items, mode=mode)
    assert wanted == max((abs(Fraction(x) - value_of(form, x, mode)) for x in items), default=0)
    for dtype in ("f8", ">f8", "longdouble", object):
        array = np.array(items, dtype)
        assert form.greatest_error(array, mode=mode) == wanted == form.greatest_error(array[::-1], mode=mode)
        masked = np.ma.MaskedArray(np.append(array, [np.nan]), mask=[*[False] * len(items), True])
        assert form.greatest_error(masked, mode=mode) == wanted


def value_of(form: Format, item: float, mode: ModeWord) -> Fraction:
    bits = read(form, Fraction(item), mode=mode)
    assert bits is not None
    return value(form, bits)


@pytest.mark.parametrize("layout", LAYOUTS)
@pytest.mark.parametrize("dtype", TYPES)
def test_a_format_for_an_array(dtype: Any, layout: str) -> None:
    given_ = LAYOUTS[layout](np.array(TEXTS).astype(dtype))
    items = given_.reshape(-1).tolist()
    form = fit(items, 16, signed=True)
    assert fit(given_, 16, signed=True) == form and fit(given_, error=0.001) == fit(items, error=0.001)
    assert form.greatest_error(given_) == form.greatest_error(items)


@pytest.mark.parametrize("dtype", INTEGERS)
def test_a_format_for_integers(dtype: Any) -> None:
    form, given_ = Format("U7F9"), np.array([0, 100], dtype)
    assert fit(given_, 16) == form and form.greatest_error(given_) == 0


def test_what_a_fit_of_an_array_refuses() -> None:
    with pytest.raises(FixedError) as found:
        fit(np.array([[1.0, 2.0], [3.0, 300.0]]), 8)
    assert (found.value.code, found.value.index) == (Code.OVERFLOW, (1, 1))
    with pytest.raises(FixedError) as found:
        FORM.greatest_error(np.array([1.0, np.nan]))
    assert (found.value.code, found.value.index) == (Code.NOT_FINITE, 1)
    assert fit(np.ma.MaskedArray([1.0, 300.0], mask=[False, True]), 8) == Format("U1F7")
    assert fit(np.ma.MaskedArray([-1.0], mask=[True]), 8) == Format("U0F8") == fit(np.array([]), 8)
