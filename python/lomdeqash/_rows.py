"""Many items of Python at once: they go over to the library as one buffer, and its answers come back as one.

There is no extension module, so one wheel serves every Python 3 on a platform. A module in C with a call for each item was
measured: it takes 0.4 of the time for texts and floats, and 0.6 for decimals, most of which is Python's own text of a decimal.
"""
from __future__ import annotations

import functools
import operator
import struct
from array import array
from collections.abc import Sequence
from typing import TYPE_CHECKING, Any, NamedTuple

from . import _library
from ._library import CFormat, Places, Reading

try:
    from . import _packing
except ImportError:  # these are the sources, or no compiler was there when the package was built
    _packing = None  # type: ignore[assignment]

if TYPE_CHECKING:
    Words = array[int]

# The longest text that is read as a row.
ROW_SIZE = 128
INTEGERS = CFormat(True, 64, 0)


class Numbers(NamedTuple):
    """What a call over rows leaves: records of a CNumber, each two words long; a code for each; how many are not 0."""

    records: Words
    codes: Words
    refused: int

    def words(self) -> Words:
        """The bits as C has them."""
        return self.records[::2]

    def bits(self, is_signed: bool) -> list[int]:
        """The bits of a signed or unsigned format."""
        words = self.words()
        return words.tolist() if is_signed else array("Q", words.tobytes()).tolist()

    def overflowed(self) -> list[bool]:
        """Whether each number was out of range."""
        return list(map(bool, array("I", self.records.tobytes())[2::4]))

    def then(self, later: Numbers) -> Numbers:
        """What a later call left of these numbers, with the codes and the overflows of both."""
        records = later.records[:]
        records[1::2] = array("q", map(operator.or_, self.records[1::2], later.records[1::2]))
        return Numbers(records, first(self.codes, later.codes), self.refused + later.refused)


def first(codes: Words, later: Words) -> Words:
    """The codes of two calls."""
    return array("I", [code or other for code, other in zip(codes, later)])


def _address(buffer: array[Any]) -> int:
    return buffer.buffer_info()[0]


def _room(count: int) -> tuple[Words, Words]:
    """Records and codes of zeros."""
    return array("q", bytes(16 * count)), array("I", bytes(4 * count))


def words_of(items: Sequence[Any], is_signed: bool) -> Words | None:
    """Whole numbers as C takes those of a sign rule; None where one of them is another thing or longer than 64 bits."""
    kind = "q" if is_signed else "Q"
    try:
        return array(kind, struct.pack(f"{len(items)}{kind}", *items))
    except struct.error:
        return None


def read_texts(texts: list[Any], form: CFormat, how: Reading) -> Numbers | None:
    """Reads texts of str or of bytes. None where one of them cannot be a row: it is long, or has a zero byte; without
    the module in C also a newline, or another character than ASCII's."""
    packed = _packing.rows_of(texts, ROW_SIZE) if _packing else rows_of(texts, ROW_SIZE)
    if packed is None:
        return None
    (rows, size), (records, codes) = packed, _room(len(texts))
    refused = _library.read_rows(rows, size, len(texts), form, how, _address(records), _address(codes))
    return Numbers(records, codes, refused)


def rows_of(texts: list[Any], limit: int) -> tuple[bytes, int] | None:
    """Texts as rows of one size, filled with zero bytes, and that size."""
    joined = b"\n".join(texts) if isinstance(texts[0], bytes) else "\n".join(texts).encode("utf-8", "replace")
    pieces = [] if b"\0" in joined or not joined.isascii() else joined.split(b"\n")
    size = max(map(len, pieces), default=0) or 1
    return None if size > limit or len(pieces) != len(texts) else (_packer(size, len(texts)).pack(*pieces), size)


@functools.lru_cache(maxsize=64)
def _packer(size: int, count: int) -> struct.Struct:
    """Fills rows of a size with zero bytes."""
    return struct.Struct(f"{size}s" * count)


def read_floats(items: Sequence[Any], form: CFormat, how: Reading) -> Numbers:
    """Reads floats."""
    values, (records, codes) = struct.pack(f"{len(items)}d", *items), _room(len(items))
    given = 8, values, len(items), form, how
    return Numbers(records, codes, _library.read_floats(*given, _address(records), _address(codes)))


def floats_of(words: Words, form: CFormat) -> tuple[list[Any], Words, int]:
    """The floats nearest to the values of bits; a code for each; how many are not 0."""
    values, codes = array("d", bytes(8 * len(words))), array("I", bytes(4 * len(words)))
    refused = _library.floats_of_rows(_address(words), len(words), form, _address(values), _address(codes))
    return values.tolist(), codes, refused


def orders_of(left: Words, left_form: CFormat, right: Words, right_form: CFormat) -> tuple[list[Any], Words, int]:
    """The order of bits and of others; a code for each; how many are not 0."""
    orders, codes = array("i", bytes(4 * len(left))), array("I", bytes(4 * len(left)))
    given = _address(left), left_form, _address(right), right_form, len(left)
    refused = _library.compare_rows(*given, _address(orders), _address(codes))
    return orders.tolist(), codes, refused


def convert(words: Words, source: CFormat, target: CFormat, how: Reading) -> Numbers:
    """Converts bits."""
    records, codes = _room(len(words))
    given = _address(words), len(words), source, target, how
    return Numbers(records, codes, _library.convert_rows(*given, _address(records), _address(codes)))


def texts_of(words: Words, form: CFormat, to_places: Places | None, size: int) -> tuple[list[Any], Words, int]:
    """The texts of bits, none longer than `size`; a code for each; how many are not 0."""
    count, size = len(words), size + 1
    rows, codes = array("B", bytes(size * count)), array("I", bytes(4 * count))
    refused = _library.print_rows(_address(words), count, form, to_places, _address(rows), size, _address(codes))
    return _split(rows, size, refused), codes, refused


def _split(rows: array[Any], size: int, refused: int) -> list[str]:
    """The texts of rows, each with a zero byte at its end. Those that were refused have none."""
    text = rows.tobytes().decode("ascii")
    if not refused:
        return list(filter(None, text.split("\0")))
    return [text[start : start + size].rstrip("\0") for start in range(0, len(text), size)]
