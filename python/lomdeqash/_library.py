"""The shared library: where it is, and its calls. No other module of the package calls it.

What the header leaves to the caller is seen to here and in what the callers of this module test first: pointers name
what is there, and whole numbers fit their C types, since ctypes cuts those that do not. Each gives the code first.
"""
from __future__ import annotations

import ctypes
import os
import pathlib
from ctypes import POINTER, byref, c_char_p, c_double, c_int32, c_int64, c_size_t, c_uint32, c_void_p
from typing import Any, NamedTuple

ABI = 1
TEXT_SIZE, PLACES_SIZE, MESSAGE_SIZE, WORD_SIZE = 49, 87, 48, 9


class CFormat(ctypes.Structure):
    """A format, ``fixed_format`` of the header."""

    _fields_ = [("is_signed", c_uint32), ("width", c_uint32), ("frac", c_uint32)]


class CDecimal(CFormat):
    """A decimal format by its places. Its width is 0, so that a call for binary formats refuses it."""

    places: int

    def __init__(self, places: int) -> None:
        super().__init__(0, 0, 0)
        self.places = places


class CNumber(ctypes.Structure):
    """Bits, and whether a number on the way was out of its format: ``fixed_number`` of the header."""

    _fields_ = [("bits", c_int64), ("overflowed", c_uint32)]


class CEnclosure(ctypes.Structure):
    """The bits below and above a value, ``fixed_enclosure`` of the header."""

    _fields_ = [("lo", c_int64), ("hi", c_int64)]


class Reading(NamedTuple):
    """How numerals are read: their radix, and the codes of a policy and a mode, by which bits are converted as well."""

    radix: int
    policy: int
    mode: int


class Places(NamedTuple):
    """How many places a text has, and the code of the mode that rounds it."""

    places: int
    mode: int


# An address and a count; and an address, a count of bytes, and how many of them a row has.
_SLICE = (c_void_p, c_size_t)
_TEXTS = (c_void_p, c_size_t, c_size_t)
_CALLS: dict[str, tuple[Any, ...]] = {
    "fixed_read_text": (c_char_p, c_size_t, c_uint32, CFormat, c_uint32, c_uint32, POINTER(CNumber)),
    "fixed_print_bits": (c_int64, CFormat, c_void_p, c_size_t, POINTER(c_size_t)),
    "fixed_print_places_mode": (c_int64, CFormat, c_uint32, c_uint32, c_char_p, c_size_t, POINTER(c_size_t)),
    "fixed_convert_bits_mode": (c_int64, CFormat, CFormat, c_uint32, c_uint32, POINTER(CNumber)),
    "fixed_compare_bits": (c_int64, CFormat, c_int64, CFormat, POINTER(c_int32)),
    "fixed_enclose_text": (c_char_p, c_size_t, c_uint32, CFormat, POINTER(CEnclosure)),
    "fixed_format_of_word": (c_char_p, c_size_t, POINTER(CFormat)),
    "fixed_word_of_format": (CFormat, c_char_p, c_size_t, POINTER(c_size_t)),
    "fixed_message": (c_uint32, c_char_p, c_size_t, POINTER(c_size_t)),
    "fixed_abi": (),
    "fixed_version": (),
    "fixed_read_rows": (*_TEXTS, c_uint32, CFormat, c_uint32, c_uint32, *_SLICE, *_SLICE, POINTER(c_size_t)),
    "fixed_print_rows": (*_SLICE, CFormat, *_TEXTS, *_SLICE, POINTER(c_size_t)),
    "fixed_convert_rows": (*_SLICE, CFormat, CFormat, c_uint32, c_uint32, *_SLICE, *_SLICE, POINTER(c_size_t)),
    "fixed_read_double": (c_double, CFormat, c_uint32, c_uint32, POINTER(CNumber)),
    "fixed_read_doubles": (*_SLICE, CFormat, c_uint32, c_uint32, *_SLICE, *_SLICE, POINTER(c_size_t)),
    "fixed_read_floats": (*_SLICE, CFormat, c_uint32, c_uint32, *_SLICE, *_SLICE, POINTER(c_size_t)),
    "fixed_double_of_bits": (c_int64, CFormat, POINTER(c_double)),
    "fixed_doubles_of_bits": (*_SLICE, CFormat, *_SLICE, *_SLICE, POINTER(c_size_t)),
    "fixed_print_places_rows": (*_SLICE, CFormat, c_uint32, c_uint32, *_TEXTS, *_SLICE, POINTER(c_size_t)),
    "fixed_read_decimal": (c_char_p, c_size_t, c_uint32, c_uint32, c_uint32, POINTER(CNumber)),
    "fixed_print_decimal": (c_int64, c_uint32, c_char_p, c_size_t, POINTER(c_size_t)),
    "fixed_read_decimal_rows": (*_TEXTS, c_uint32, c_uint32, c_uint32, *_SLICE, *_SLICE, POINTER(c_size_t)),
    "fixed_print_decimal_rows": (*_SLICE, c_uint32, *_TEXTS, *_SLICE, POINTER(c_size_t)),
    "fixed_compare_rows": (*_SLICE, CFormat, *_SLICE, CFormat, *_SLICE, *_SLICE, POINTER(c_size_t)),
}


def _load() -> ctypes.CDLL:
    """The library that LIBFIXED names, or the one inside this package, or the system's."""
    inside = pathlib.Path(__file__).with_name("libfixed.so.1")
    path = os.environ.get("LIBFIXED") or (str(inside) if inside.exists() else "libfixed.so.1")
    try:
        library = ctypes.CDLL(path)
    except OSError as error:
        raise ImportError(f"the shared library was not found; LIBFIXED may name it: {error}") from error
    for name, types in _CALLS.items():
        if not hasattr(library, name):
            raise ImportError(f"{path} is older than this package: it has no {name}")
        call = getattr(library, name)
        call.argtypes, call.restype = types, c_uint32
    if library.fixed_abi() != ABI:
        raise ImportError(f"{path} has another layout than this package: {library.fixed_abi()}, not {ABI}")
    return library


_C = _load()


def read_text(text: bytes, form: CFormat, how: Reading) -> tuple[int, int, bool]:
    """The code and the bits of a numeral in a format, and whether it was out of range."""
    number = CNumber()
    if isinstance(form, CDecimal):
        code = _C.fixed_read_decimal(text, len(text), form.places, how.policy, how.mode, byref(number))
    else:
        code = _C.fixed_read_text(text, len(text), how.radix, form, how.policy, how.mode, byref(number))
    return code, number.bits, number.overflowed != 0


def read_double(value: float, form: CFormat, how: Reading) -> tuple[int, int, bool]:
    """The same of a float."""
    number = CNumber()
    code = _C.fixed_read_double(value, form, how.policy, how.mode, byref(number))
    return code, number.bits, number.overflowed != 0


def double_of_bits(bits: int, form: CFormat) -> tuple[int, float]:
    """The code and the float nearest to the value of bits."""
    value = c_double()
    code = _C.fixed_double_of_bits(bits, form, byref(value))
    return code, value.value


def print_bits(bits: int, form: CFormat) -> tuple[int, str]:
    """The code and the shortest decimal that reads back as the bits; in a decimal format, one with all places."""
    out, count = ctypes.create_string_buffer(TEXT_SIZE), c_size_t()
    if isinstance(form, CDecimal):
        code = _C.fixed_print_decimal(bits, form.places, out, TEXT_SIZE, byref(count))
    else:
        code = _C.fixed_print_bits(bits, form, out, TEXT_SIZE, byref(count))
    return code, out.value.decode("ascii")


def print_places(bits: int, form: CFormat, places: int, mode: int) -> tuple[int, str]:
    """The code and the decimal of that many places, 0 to 64, rounded in a mode."""
    out, count = ctypes.create_string_buffer(PLACES_SIZE), c_size_t()
    code = _C.fixed_print_places_mode(bits, form, places, mode, out, PLACES_SIZE, byref(count))
    return code, out.value.decode("ascii")


def convert_bits(bits: int, source: CFormat, target: CFormat, how: Reading) -> tuple[int, int, bool]:
    """The code and the bits of the target, and whether the number was out of its range."""
    number = CNumber()
    code = _C.fixed_convert_bits_mode(bits, source, target, how.policy, how.mode, byref(number))
    return code, number.bits, number.overflowed != 0


def compare_bits(left: int, left_form: CFormat, right: int, right_form: CFormat) -> tuple[int, int]:
    """The code and the order, -1, 0 or 1, of the values of bits of two formats."""
    order = c_int32()
    code = _C.fixed_compare_bits(left, left_form, right, right_form, byref(order))
    return code, order.value


def enclose_text(text: bytes, radix: int, form: CFormat) -> tuple[int, int, int]:
    """The code and the bits between which the value of a numeral lies."""
    ends = CEnclosure()
    code = _C.fixed_enclose_text(text, len(text), radix, form, byref(ends))
    return code, ends.lo, ends.hi


def format_of_word(word: bytes) -> tuple[int, CFormat]:
    """The code and the format of a word such as I1F15."""
    form = CFormat()
    code = _C.fixed_format_of_word(word, len(word), byref(form))
    return code, form


def word_of_format(form: CFormat) -> str:
    """The word of a format that is one."""
    out, count = ctypes.create_string_buffer(WORD_SIZE), c_size_t()
    _C.fixed_word_of_format(form, out, WORD_SIZE, byref(count))
    return out.value.decode("ascii")


def version() -> int:
    """The version of the library: that of its second part in hundreds, of its first in ten thousands."""
    return int(_C.fixed_version())


def message(code: int) -> str:
    """The message of a code."""
    out, count = ctypes.create_string_buffer(MESSAGE_SIZE), c_size_t()
    _C.fixed_message(code, out, MESSAGE_SIZE, byref(count))
    return out.value.decode("ascii")


# The calls over rows take addresses of arrays: of `count` rows of `size` bytes, of int64 bits, of floats, of records of
# a CNumber, of int32 orders, and of uint32 codes, one for each row. Each gives how many of the rows were refused.


def _over_rows(name: str, *given: Any) -> int:
    refused = c_size_t()
    code = getattr(_C, name)(*given, byref(refused))
    if code:
        raise RuntimeError(message(code))
    return refused.value


def read_rows(rows: int | bytes, size: int, count: int, form: CFormat, how: Reading, numbers: int, codes: int) -> int:
    """Reads a numeral from each row."""
    texts, left = (rows, size * count, size), (how.policy, how.mode, numbers, count, codes, count)
    if isinstance(form, CDecimal):
        return _over_rows("fixed_read_decimal_rows", *texts, form.places, *left)
    return _over_rows("fixed_read_rows", *texts, how.radix, form, *left)


def read_floats(
    size: int, values: int | bytes, count: int, form: CFormat, how: Reading, numbers: int, codes: int
) -> int:
    """Reads each of some floats of 4 or 8 bytes."""
    name = "fixed_read_floats" if size == 4 else "fixed_read_doubles"
    return _over_rows(name, values, count, form, how.policy, how.mode, numbers, count, codes, count)


def floats_of_rows(bits: int, count: int, form: CFormat, values: int, codes: int) -> int:
    """The floats of 8 bytes nearest to the values of bits."""
    return _over_rows("fixed_doubles_of_bits", bits, count, form, values, count, codes, count)


def print_rows(bits: int, count: int, form: CFormat, to_places: Places | None, rows: int, size: int, codes: int) -> int:
    """Prints each of the bits into a row: the shortest decimal, or one with a count of places; or all of a format's."""
    to = rows, size * count, size, codes, count
    if isinstance(form, CDecimal):
        return _over_rows("fixed_print_decimal_rows", bits, count, form.places, *to)
    if to_places is None:
        return _over_rows("fixed_print_rows", bits, count, form, *to)
    return _over_rows("fixed_print_places_rows", bits, count, form, *to_places, *to)


def compare_rows(
    left: int, left_form: CFormat, right: int, right_form: CFormat, count: int, orders: int, codes: int
) -> int:
    """The order of each of some bits and of others."""
    given = left, count, left_form, right, count, right_form
    return _over_rows("fixed_compare_rows", *given, orders, count, codes, count)


def convert_rows(
    bits: int, count: int, source: CFormat, target: CFormat, how: Reading, numbers: int, codes: int
) -> int:
    """Converts each of the bits, by the policy and the mode."""
    given = bits, count, source, target, how.policy, how.mode
    return _over_rows("fixed_convert_rows", *given, numbers, count, codes, count)
