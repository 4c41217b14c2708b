"""Whole arrays of numpy, by the library's calls over rows.

A zero byte within a text is refused, as in a ``str``: the calls end a text there, and numpy only at the last zeros.
"""
from __future__ import annotations

from collections.abc import Callable, Iterator
from dataclasses import replace
from fractions import Fraction
from typing import TYPE_CHECKING, Any, NamedTuple, Protocol

import numpy as np
from numpy.typing import NDArray

from . import _library, _lists, _numerals, _pandas
from ._errors import Code, FixedError, Index, brief, placed
from ._library import Reading
from ._options import Errors, ModeLike

if TYPE_CHECKING:
    from . import _calls
    from ._format import Format

Array = NDArray[Any]
Bytes = NDArray[np.uint8]
Words = NDArray[np.int64]
Codes = NDArray[np.uint32]
Flags = NDArray[np.bool_]

# So many rows, and no more than so many bytes of them, are handed over at a time: they stay in a processor's cache.
BLOCK, BLOCK_SIZE = 8192, 1 << 18
# `fixed_number` of the header.
NUMBER = np.dtype([("bits", np.int64), ("overflowed", np.uint32)], align=True)
# The code of an item that is of no type that a call takes.
NO_CODE = 2**32 - 1


class Whole(NamedTuple):
    """What a call finds in a flat array: one array or a pair, with zeros for what is refused; and a code for each item,
    or None where nothing is refused. Faults are errors that say more than a code."""

    found: tuple[Array, ...]
    codes: Codes | None
    faults: dict[int, FixedError | TypeError] = {}


class Call(_lists.Call, Protocol):
    """What is done with items, and with a flat array of other things than objects; and the types of what it finds."""

    @property
    def dtypes(self) -> tuple[Any, ...]: ...
    def whole(self, flat: Array) -> Whole: ...


def dtype_of(form: Format) -> np.dtype[Any]:
    """The smallest integers of a format's sign that hold its width."""
    width = next(each for each in (8, 16, 32, 64) if form.width <= each)
    return np.dtype(f"{'int' if form.is_signed else 'uint'}{width}")


def over(given: Any, call: Call, errors: Errors) -> Any:
    """What a call finds in an array, in the array's shape; what is masked is not handed over and stays so."""
    if _pandas.is_column(given):
        return _pandas.like(given, over(_pandas.array_of(given, errors), call, errors))
    data, is_masked = np.asarray(given), errors is Errors.MASK or isinstance(given, np.ma.MaskedArray)
    return over_items(data, hidden(given, data, errors), is_masked, call, errors)


def over_items(data: Array, is_hidden: Flags | None, is_masked: bool, call: Call, errors: Errors) -> Any:
    """The same of items of which some are hidden; what is found is masked, or nothing of it is."""
    flat = data.reshape(-1)
    places = None if is_hidden is None else np.flatnonzero(~is_hidden)
    items = flat if places is None else flat[places]
    whole = of_objects(items.tolist(), call, errors) if items.dtype.kind in "OT" else call.whole(items)
    refused = np.zeros(0, np.intp) if whole.codes is None else np.flatnonzero(whole.codes)
    raise_first(whole, refused, items, errors, lambda at: index_in(data, at if places is None else places[at]))
    mask = np.zeros(flat.size if is_masked else 0, np.bool_) if is_hidden is None else is_hidden
    if is_masked:
        mask[refused if places is None else places[refused]] = True

    def shaped(part: Array) -> Any:
        if places is not None:
            part, found_there = np.zeros(flat.size, part.dtype), part
            part[places] = found_there
        whole_part = part.reshape(data.shape)
        return masked_array(whole_part, mask.reshape(data.shape)) if is_masked else whole_part[()]

    parts = tuple(map(shaped, whole.found))
    return parts if len(parts) > 1 else parts[0]


def raise_first(
    whole: Whole, refused: Array, items: Array, errors: Errors, index_of: Callable[[int], Index | None]
) -> None:
    """Raises the error of the first item that ends the call: with errors masked only one of another type does."""
    ends: Any = refused
    if errors is Errors.MASK:
        ends = [at for at in whole.faults if isinstance(whole.faults[at], TypeError)]
    for at in map(int, ends[:1]):
        codes: Any = whole.codes
        error = whole.faults.get(at) or FixedError(int(codes[at]), shown(items[at : at + 1]))
        index = index_of(at)
        raise error if index is None else placed(error, index)


def index_in(data: Array, at: int) -> Index | None:
    """The index of a place in a flat array: a number, a tuple, or None in an array without a dimension."""
    index = tuple(map(int, np.unravel_index(at, data.shape)))
    return index[0] if len(index) == 1 else index or None


def masked_array(items: Array, mask: Flags) -> Any:
    return np.ma.MaskedArray(items, mask=mask.copy())  # type: ignore[no-untyped-call]


def hidden(given: Any, data: Array, errors: Errors) -> Flags | None:
    """Which items of a flat array are masked, or None where those are masked; None where none is."""
    is_masked, may_be_none = isinstance(given, np.ma.MaskedArray), errors is Errors.MASK and data.dtype.kind == "O"
    if not is_masked and not may_be_none:
        return None
    flags = np.zeros(data.size, np.bool_)
    if is_masked:
        flags |= np.ma.getmaskarray(given).reshape(-1)  # type: ignore[no-untyped-call]
    if may_be_none:
        flags |= np.fromiter((item is None for item in data.reshape(-1)), np.bool_, data.size)
    return flags if flags.any() else None


def shown(item: Array) -> str:
    """An array's one item as an error shows it."""
    try:
        return brief(item.tolist()[0])
    except (SystemError, ValueError):  # numpy has texts that are none of Python's
        return "a text of no characters"


def of_objects(items: list[Any], call: Call, errors: Errors) -> Whole:
    """What a call finds in objects, as in a list."""
    found: list[Any] = []
    codes: Any = np.zeros(len(items), np.uint32)
    faults: dict[int, FixedError | TypeError] = {}
    for start in range(0, len(items), _lists.PART):
        values, refusals = _lists.found_in(items[start : start + _lists.PART], call, errors)
        found += values
        for at, why in refusals:
            codes[start + at] = why if isinstance(why, int) else getattr(why, "code", NO_CODE)
            if not isinstance(why, int):
                faults[start + at] = why
    is_found = codes == 0
    values = [each for each in found if each is not None] if faults or codes.any() else found
    columns: list[Any] = list(zip(*values)) if len(call.dtypes) > 1 and values else [values] * len(call.dtypes)
    parts = tuple(np.zeros(len(items), dtype) for dtype in call.dtypes)
    for part, column in zip(parts, columns):
        part[... if is_found.all() else is_found] = column
    return Whole(parts, None if is_found.all() else codes, faults)


def blocks(flat: Array) -> Iterator[tuple[slice, Array]]:
    """The parts of an array, each in one piece of memory and in this machine's byte order, and their places."""
    native = flat.dtype.newbyteorder("=")
    count = max(1, min(BLOCK, BLOCK_SIZE // max(1, flat.itemsize)))
    for start in range(0, flat.size, count):
        part = slice(start, start + count)
        yield part, np.ascontiguousarray(flat[part], dtype=native)


class Gathered:
    """The codes of all blocks, which are gathered from the first that refuses something on."""

    def __init__(self, size: int) -> None:
        self.size = size
        self.block = np.empty(min(size, BLOCK), np.uint32)
        self.address = self.block.ctypes.data
        self.codes: Codes | None = None

    def take(self, part: slice, count: int, refused: int) -> None:
        if refused:
            if self.codes is None:
                self.codes = np.zeros(self.size, np.uint32)
            self.codes[part] = self.block[:count]


def first(codes: Codes | None, later: Codes | None) -> Codes | None:
    """The codes of two steps."""
    if codes is None or later is None:
        return later if codes is None else codes
    return np.where(codes != 0, codes, later)


def zeroed(found: Array, codes: Codes | None) -> Array:
    """What was found, with zeros where something was refused."""
    if codes is not None:
        found[codes != 0] = np.zeros(1, found.dtype)
    return found


def numbers(flat: Array, form: Format, is_flagged: bool, hand_over: Callable[[Array, int, int], int]) -> Whole:
    """The numbers that a call over rows leaves in a format: it takes a block, an address for them and one for codes."""
    bits, codes = np.empty(flat.size, dtype_of(form)), Gathered(flat.size)
    flags = np.empty(flat.size, np.bool_) if is_flagged else None
    records = np.empty(min(flat.size, BLOCK), NUMBER)
    for part, items in blocks(flat):
        codes.take(part, len(items), hand_over(items, records.ctypes.data, codes.address))
        bits[part] = records["bits"][: len(items)]
        if flags is not None:
            flags[part] = records["overflowed"][: len(items)]
    return Whole((bits,) if flags is None else (bits, flags), codes.codes)


# ---- numerals


def read(call: _calls.Read, flat: Array) -> Whole:
    """The bits of numerals in the format, or moved on to another."""
    found = numerals(call, flat)
    if not call.move:
        return found
    moved = convert(replace(call.move, is_flagged=call.is_flagged), found.found[0])
    codes = first(found.codes, moved.codes)
    if call.is_flagged:
        return Whole((zeroed(moved.found[0], codes), zeroed(found.found[1] | moved.found[1], codes)), codes)
    return Whole((zeroed(moved.found[0], codes),), codes)


def numerals(call: _calls.Read, flat: Array) -> Whole:
    form, how, kind = call.form, call.how, flat.dtype.kind
    if form.places is not None and kind in "biuf":
        if kind == "f":
            return of_objects(list(flat), call, Errors.RAISE)
        flat, kind = flat.astype(np.int8 if kind == "b" else flat.dtype).astype("S"), "S"
    if kind in "biu":
        words = flat.astype(np.int64 if kind == "i" else np.uint64).view(np.int64)
        return converted(words, _library.CFormat(kind == "i", 64, 0), form, how, call.is_flagged)
    if kind in "SU":
        return read_rows(call, flat, how, text_rows)
    if kind == "f":
        return read_long_floats(call, flat) if flat.itemsize > 8 else read_floats(call, flat)
    raise TypeError(f"an array of numerals is of texts or numbers, not {flat.dtype}")


def read_rows(call: _calls.Read, flat: Array, how: Reading, rows_of: Callable[[Array], Bytes]) -> Whole:
    """What the library reads of the rows that are made of each block."""

    def hand_over(items: Array, records: int, codes: int) -> int:
        rows = rows_of(items)
        return _library.read_rows(rows.ctypes.data, rows.shape[1], len(rows), call.form.c_format, how, records, codes)

    return numbers(flat, call.form, call.is_flagged, hand_over)


def text_rows(items: Array) -> Bytes:
    """Texts as rows of bytes. A character above 127 becomes some byte above it: neither is a digit."""
    if items.dtype.itemsize == 0:
        return np.zeros((items.size, 1), np.uint8)
    if items.dtype.kind == "S":
        return without_holes(items.view(np.uint8).reshape(items.size, -1))
    return without_holes(np.minimum(items.view(np.uint32).reshape(items.size, -1), 255).astype(np.uint8))


def without_holes(rows: Bytes) -> Bytes:
    """Rows that have another byte that is no digit for each zero byte within a text, where the library would end it."""
    is_text = rows.reshape(-1) != 0
    goes_on = is_text[1:] > is_text[:-1]
    goes_on[rows.shape[1] - 1 :: rows.shape[1]] = False
    if not goes_on.any():
        return rows
    has_later = np.logical_or.accumulate(rows[:, ::-1] != 0, axis=1)[:, ::-1]
    return np.where(has_later & (rows == 0), np.uint8(255), rows)


def read_floats(call: _calls.Read, flat: Array) -> Whole:
    """What the library reads of floats of at most 8 bytes."""

    def hand_over(items: Array, records: int, codes: int) -> int:
        given = items.itemsize, items.ctypes.data, len(items), call.form.c_format, call.how
        return _library.read_floats(*given, records, codes)

    return numbers(flat.astype(np.float32) if flat.itemsize < 4 else flat, call.form, call.is_flagged, hand_over)


def read_long_floats(call: _calls.Read, flat: Array) -> Whole:
    """What the library reads of longer floats: as floats of 8 bytes those that are such, and the others one by one."""
    with np.errstate(all="ignore"):
        short = flat.astype(np.float64)
    whole = read_floats(call, short)
    places = np.flatnonzero((short != flat) & (flat == flat))
    if not places.size:
        return whole
    others = of_objects(list(flat[places]), replace(call, move=None), Errors.RAISE)
    codes = np.zeros(flat.size, np.uint32) if whole.codes is None else whole.codes
    codes[places] = 0 if others.codes is None else others.codes
    for part, other in zip(whole.found, others.found):
        part[places] = other
    return Whole(whole.found, codes)


def compressed(items: Any) -> Array:
    """What is not masked, as a flat array."""
    flat: Array = np.ma.compressed(items)  # type: ignore[no-untyped-call]
    return flat


def ends_of(given: Any) -> Any:
    """The least and the greatest of numbers, between which are the others; other items as they are."""
    items = _pandas.array_of(given, Errors.RAISE) if _pandas.is_column(given) else given
    data = compressed(items)
    return [data.min(), data.max()] if data.dtype.kind in "iuf" and data.size else given


def greatest_error(given: Any, form: Format, radix: int, mode: ModeLike) -> Fraction:
    """The greatest distance of a numeral to the number that is read from it."""
    items = _pandas.array_of(given, Errors.RAISE) if _pandas.is_column(given) else given
    bits, data = compressed(form.read(items, radix=radix, mode=mode)), compressed(items)
    if data.dtype.kind == "f" and data.itemsize <= 8 and form.places is None:
        return greatest_distance(data.astype(np.float64), np.ldexp(bits.astype(np.float64), -form.frac))
    flat = data if data.dtype.kind == "f" else data.tolist()
    return _numerals.greatest_distance(flat, bits.tolist(), radix, form.scale)


def greatest_distance(values: Array, others: Array) -> Fraction:
    """The greatest distance of two floats, exactly: their difference as a float and, by Knuth's sum of two, what it was
    rounded by. A number that is read from a float is a float: of one with bits above 2^53, reading rounds nothing."""
    if not values.size:
        return Fraction(0)
    apart = values - others
    shift = apart - values
    rest = (values - (apart - shift)) - (others + shift)
    far = np.abs(apart)
    most = far.max()
    return Fraction(float(most)) + Fraction(float(np.copysign(rest, rest * apart)[far == most].max()))


def enclose(call: _calls.Enclose, flat: Array) -> Whole:
    """The bits below and above numerals."""
    low, high = numerals(call.down, flat), numerals(call.up, flat)
    codes = first(low.codes, high.codes)
    return Whole((zeroed(low.found[0], codes), zeroed(high.found[0], codes)), codes)


# ---- bits


def expect_integers(given: Array) -> None:
    """Raises where an array is not of whole numbers, nor of objects, which are tried one by one."""
    if given.dtype.kind not in "biuO":
        raise TypeError(f"bits are integers, not {given.dtype}")


def words_of(form: Format, flat: Array) -> tuple[Words, Codes | None]:
    """Bits as C takes them, and a code for each. Those that are none of the format are 0."""
    expect_integers(flat)
    own = flat.astype(np.int64 if flat.dtype.kind == "i" else np.uint64)
    if flat.dtype == form.dtype and form.width == 8 * flat.itemsize:
        return own.view(np.int64), None
    ends = np.iinfo(own.dtype)
    is_bad = (own < max(form.min_bits, int(ends.min))) | (own > min(form.max_bits, int(ends.max)))
    codes = np.where(is_bad, np.uint32(Code.BAD_BITS), np.uint32(0)) if is_bad.any() else None
    return zeroed(own, codes).view(np.int64), codes


def text(call: _calls.Text, flat: Array) -> Whole:
    """The texts of bits."""
    words, codes = words_of(call.form, flat)
    (dtype,), form = call.dtypes, call.form
    size = np.dtype(dtype).itemsize // np.dtype(f"{call.dtype}1").itemsize
    found = np.empty(flat.size, dtype)
    letters = found.view(np.uint8 if call.dtype == "S" else np.uint32).reshape(-1, size)
    rows, ends = np.empty((min(flat.size, BLOCK), size + 1), np.uint8), Gathered(flat.size)
    for part, items in blocks(words):
        to = rows.ctypes.data, size + 1, ends.address
        _library.print_rows(items.ctypes.data, len(items), form.c_format, call.to_places, *to)
        letters[part] = rows[: len(items), :size]
    return Whole((zeroed(found, codes),), codes)


def value(call: _calls.Value, flat: Array) -> Whole:
    """The exact values of bits as objects, or the nearest floats."""
    words, codes = words_of(call.form, flat)
    if call.form.places is not None or not issubclass(call.kind, float):
        own = words if call.form.is_signed else words.view(np.uint64)
        return Whole((zeroed(of_objects(own.tolist(), call, Errors.RAISE).found[0], codes),), codes)
    found, ends = np.empty(flat.size), Gathered(flat.size)
    for part, items in blocks(words):
        given = items.ctypes.data, len(items), call.form.c_format, found[part].ctypes.data
        _library.floats_of_rows(*given, ends.address)
    return Whole((zeroed(found, codes),), codes)


def convert(call: _calls.Convert, flat: Array) -> Whole:
    """Bits of one format as those of another."""
    words, codes = words_of(call.source, flat)
    found = converted(words, call.source.c_format, call.target, call.how, call.is_flagged)
    both = first(codes, found.codes)
    return Whole(tuple(zeroed(part, both) for part in found.found), both)


def converted(words: Words, source: _library.CFormat, target: Format, how: Reading, is_flagged: bool) -> Whole:
    """What the library converts of each block."""

    def hand_over(items: Array, records: int, codes: int) -> int:
        return _library.convert_rows(items.ctypes.data, len(items), source, target.c_format, how, records, codes)

    return numbers(words, target, is_flagged, hand_over)


def compare(bits: Any, others: Any, call: _calls.Compare, errors: Errors) -> Any:
    """The order of two arrays, item by item, as numpy brings them into one shape."""
    columns = [given for given in (bits, others) if _pandas.is_column(given)]
    if columns:
        left, right = (_pandas.array_of(it, errors) if _pandas.is_column(it) else it for it in (bits, others))
        return _pandas.like(_pandas.of_one_index(columns), compare(left, right, call, errors))
    left, right = (given if hasattr(given, "dtype") else integers(given) for given in (bits, others))
    expect_integers(left)
    expect_integers(right)
    flags = [np.zeros(each.shape, np.bool_) for each in (left, right)]
    for flag, given in zip(flags, (left, right)):
        is_hidden = hidden(given, np.asarray(given), errors)
        if is_hidden is not None:
            flag |= is_hidden.reshape(given.shape)
    is_masked = errors is Errors.MASK or any(isinstance(given, np.ma.MaskedArray) for given in (left, right))
    left, right = np.broadcast_arrays(np.asarray(left), np.asarray(right))
    mask = np.broadcast_to(flags[0] | flags[1], left.shape).reshape(-1)
    return over_items(pairs_of(left, right), mask.copy() if mask.any() else None, is_masked, call, errors)


def integers(given: Any) -> Array:
    """An array of whole numbers of Python, of objects where they are too long for another."""
    found = np.asarray(given)
    return found if found.dtype.kind in "biu" else np.asarray(given, object)


def pairs_of(left: Array, right: Array) -> Array:
    """Two arrays of one shape as one of pairs."""
    if "O" not in (left.dtype.kind, right.dtype.kind):
        pairs = np.empty(left.shape, [("left", left.dtype), ("right", right.dtype)])
        pairs["left"], pairs["right"] = left, right
        return pairs
    objects = np.empty(left.shape, object)
    objects.reshape(-1)[:] = list(zip(left.reshape(-1).tolist(), right.reshape(-1).tolist()))
    return objects


def orders(call: _calls.Compare, flat: Array) -> Whole:
    """The order of pairs of bits."""
    left, codes = words_of(call.left, flat["left"])
    right, right_codes = words_of(call.right, flat["right"])
    if right_codes is not None:
        right_codes[right_codes != 0] = Code.BAD_OTHER_BITS
    codes = first(codes, right_codes)
    found, ends, block = np.empty(flat.size, np.int8), Gathered(flat.size), np.empty(min(flat.size, BLOCK), np.int32)
    for part, items in blocks(left):
        others = np.ascontiguousarray(right[part])
        given = items.ctypes.data, call.left.c_format, others.ctypes.data, call.right.c_format, len(items)
        _library.compare_rows(*given, block.ctypes.data, ends.address)
        found[part] = block[: len(items)]
    return Whole((zeroed(found, codes),), codes)
