"""What each method of a format does: with one item, with many of one type, and with an array.

One refused item alone raises, whatever ``errors`` says: there is nothing to mask it in, and its type stays its type.
"""
from __future__ import annotations

from dataclasses import dataclass
from decimal import Decimal
from fractions import Fraction
from typing import TYPE_CHECKING, Any

from . import _library, _rows
from ._errors import Code, FixedError, brief
from ._library import Places, Reading
from ._lists import Found, coded
from ._numerals import float_of

if TYPE_CHECKING:
    from . import _arrays
    from ._format import Format


def expect(code: int, item: Any) -> None:
    """Raises what a code says of an item."""
    if code:
        raise FixedError(code, brief(item))


def expect_binary(what: str, *forms: Format) -> None:
    """Raises if one of the formats of a call is a decimal format."""
    for form in forms:
        if form.places is not None:
            raise FixedError(Code.BAD_FORMAT, f"{form.word!r} is a decimal format, and {what} takes binary formats")


def base_of(kind: type[Any]) -> type[Any] | None:
    """Whether items of a type are str, bytes or float; those of numpy are as well, and no other subclass."""
    bases = (base for base in (str, bytes, float) if issubclass(kind, base))
    return next((base for base in bases if kind is base or kind.__module__ == "numpy"), None)


def listed(numbers: _rows.Numbers, form: Format, is_flagged: bool) -> Found:
    """Numbers of a format as bits, or as pairs with whether each was out of range."""
    bits: list[Any] = numbers.bits(form.is_signed)
    return coded(list(zip(bits, numbers.overflowed())) if is_flagged else bits, numbers.codes, numbers.refused)


@dataclass(frozen=True)
class Read:
    """Numerals to bits of a format, or of the target of a move; with a flag, to pairs with whether a number was out of
    range."""

    form: Format
    how: Reading
    move: Convert | None
    is_flagged: bool

    def __post_init__(self) -> None:
        if self.form.places is not None and self.how.radix != 10:
            raise FixedError(Code.BAD_RADIX, f"{self.how.radix}: {self.form.word!r} reads decimals, of radix 10")

    @property
    def dtypes(self) -> tuple[Any, ...]:
        target = self.move.target if self.move else self.form
        return (target.dtype, bool) if self.is_flagged else (target.dtype,)

    def one(self, item: Any) -> Any:
        value = float_of(item) if self.form.places is None else None
        if value is None:
            text, base = self.form.numeral_of(item, self.how.radix)
            code, bits, is_out = _library.read_text(text, self.form.c_format, self.how._replace(radix=base))
        else:
            code, bits, is_out = _library.read_double(value, self.form.c_format, self.how)
        expect(code, item)
        own = self.form.bits_of_c(bits)
        if self.move:
            own, is_out_later = self.move.flagged(own, item)
            is_out |= is_out_later
        return (own, is_out) if self.is_flagged else own

    def many(self, kind: type[Any], items: list[Any]) -> Found | None:
        numbers, target = self.numbers(kind, items), self.form
        if numbers and self.move:
            numbers, target = numbers.then(self.move.numbers(numbers.words())), self.move.target
        return listed(numbers, target, self.is_flagged) if numbers else None

    def numbers(self, kind: type[Any], items: list[Any]) -> _rows.Numbers | None:
        """What the library reads of items of one type; None where they cannot go over at once."""
        form, how = self.form.c_format, self.how
        if base_of(kind) in (str, bytes):
            return _rows.read_texts(items, form, how)
        if kind is not Decimal and self.form.places is not None:
            words = _rows.words_of(items, True) if hasattr(kind, "__index__") else None
            return _rows.read_texts(list(map(str, words)), form, how) if words else None
        if base_of(kind) is float or float_of(items[0]) is not None:
            return _rows.read_floats(items, form, how)
        if kind is Decimal:
            numbers = _rows.read_texts(list(map(str, items)), form, how._replace(radix=10))
            # What is not finite, or has an exponent of more than 32 bits, goes over by itself.
            is_none = numbers and numbers.refused and {Code.INVALID_DIGIT, Code.EXPONENT_OVERFLOW} & set(numbers.codes)
            return None if is_none else numbers
        if hasattr(kind, "__index__"):
            words = _rows.words_of(items, True)
            return _rows.convert(words, _rows.INTEGERS, form, how) if words else None
        return None

    def whole(self, flat: _arrays.Array) -> _arrays.Whole:
        from . import _arrays

        return _arrays.read(self, flat)


@dataclass(frozen=True)
class Convert:
    """Bits of one format to those of another; with a flag, to pairs as those of Read."""

    source: Format
    target: Format
    how: Reading
    is_flagged: bool = False

    def __post_init__(self) -> None:
        expect_binary("a conversion", self.source, self.target)

    @property
    def dtypes(self) -> tuple[Any, ...]:
        return (self.target.dtype, bool) if self.is_flagged else (self.target.dtype,)

    def one(self, item: Any) -> Any:
        pair = self.flagged(self.source.own_bits(item), item)
        return pair if self.is_flagged else pair[0]

    def flagged(self, bits: int, item: Any) -> tuple[int, bool]:
        """The bits in the target, and whether the number was out of its range; an error shows the item."""
        code, found, is_out = _library.convert_bits(bits, self.source.c_format, self.target.c_format, self.how)
        expect(code, item)
        return self.target.bits_of_c(found), is_out

    def numbers(self, words: _rows.Words) -> _rows.Numbers:
        return _rows.convert(words, self.source.c_format, self.target.c_format, self.how)

    def many(self, kind: type[Any], items: list[Any]) -> Found | None:
        words = _rows.words_of(items, self.source.is_signed)
        return listed(self.numbers(words), self.target, self.is_flagged) if words else None

    def whole(self, flat: _arrays.Array) -> _arrays.Whole:
        from . import _arrays

        return _arrays.convert(self, flat)


@dataclass(frozen=True)
class Text:
    """Bits to their texts, in arrays of `dtype`, which is ``U`` or ``S``."""

    form: Format
    places: int | None
    mode: int
    dtype: str

    def __post_init__(self) -> None:
        if self.places is not None and self.form.places is not None:
            raise ValueError(f"a text of {self.form.word!r} always has all of its places")

    @property
    def dtypes(self) -> tuple[Any, ...]:
        return (f"{self.dtype}{self.form.text_size(self.places)}",)

    @property
    def to_places(self) -> Places | None:
        return None if self.places is None else Places(self.places, self.mode)

    def one(self, item: Any) -> str:
        bits, form = self.form.own_bits(item), self.form.c_format
        if self.places is None:
            code, text = _library.print_bits(bits, form)
        else:
            code, text = _library.print_places(bits, form, self.places, self.mode)
        expect(code, item)
        return text

    def many(self, kind: type[Any], items: list[Any]) -> Found | None:
        words, size = _rows.words_of(items, self.form.is_signed), self.form.text_size(self.places)
        return coded(*_rows.texts_of(words, self.form.c_format, self.to_places, size)) if words else None

    def whole(self, flat: _arrays.Array) -> _arrays.Whole:
        from . import _arrays

        return _arrays.text(self, flat)


@dataclass(frozen=True)
class Value:
    """Bits to their values, of a kind."""

    form: Format
    kind: type[Any]

    @property
    def dtypes(self) -> tuple[Any, ...]:
        return (float if issubclass(self.kind, float) else object,)

    def one(self, item: Any) -> Any:
        bits = self.form.own_bits(item)
        if self.kind is Decimal:
            return self.form.decimal_of(bits)
        if self.kind is Fraction:
            return Fraction(bits, self.form.scale)
        if self.form.places is not None:
            return self.kind(bits / self.form.scale)
        code, found = _library.double_of_bits(bits, self.form.c_format)
        expect(code, item)
        return self.kind(found)

    def many(self, kind: type[Any], items: list[Any]) -> Found | None:
        is_binary = self.form.places is None
        words = _rows.words_of(items, self.form.is_signed) if is_binary and base_of(self.kind) is float else None
        if not words:
            return None
        values, codes, refused = _rows.floats_of(words, self.form.c_format)
        return coded(values if self.kind is float else list(map(self.kind, values)), codes, refused)

    def whole(self, flat: _arrays.Array) -> _arrays.Whole:
        from . import _arrays

        return _arrays.value(self, flat)


@dataclass(frozen=True)
class Enclose:
    """Numerals to the bits below and above: what reading down and reading up give, where both are in range."""

    form: Format
    down: Read
    up: Read

    def __post_init__(self) -> None:
        expect_binary("an enclosure", self.form)

    @property
    def dtypes(self) -> tuple[Any, ...]:
        return self.form.dtype, self.form.dtype

    def one(self, item: Any) -> tuple[int, int]:
        if float_of(item) is not None:
            return self.down.one(item), self.up.one(item)
        text, base = self.form.numeral_of(item, self.down.how.radix)
        code, low, high = _library.enclose_text(text, base, self.form.c_format)
        expect(code, item)
        return self.form.bits_of_c(low), self.form.bits_of_c(high)

    def many(self, kind: type[Any], items: list[Any]) -> Found | None:
        lower, upper = self.down.numbers(kind, items), self.up.numbers(kind, items)
        if not lower or not upper:
            return None
        codes, is_signed = _rows.first(lower.codes, upper.codes), self.form.is_signed
        return coded(list(zip(lower.bits(is_signed), upper.bits(is_signed))), codes, lower.refused + upper.refused)

    def whole(self, flat: _arrays.Array) -> _arrays.Whole:
        from . import _arrays

        return _arrays.enclose(self, flat)


@dataclass(frozen=True)
class Compare:
    """Pairs of bits of two formats to their order."""

    left: Format
    right: Format

    def __post_init__(self) -> None:
        expect_binary("a comparison", self.left, self.right)

    @property
    def dtypes(self) -> tuple[Any, ...]:
        return ("int8",)

    def one(self, pair: Any) -> int:
        bits, others = self.left.own_bits(pair[0]), self.right.own_bits(pair[1], Code.BAD_OTHER_BITS)
        code, order = _library.compare_bits(bits, self.left.c_format, others, self.right.c_format)
        expect(code, pair)
        return order

    def many(self, kind: type[Any], items: list[Any]) -> Found | None:
        left = _rows.words_of([pair[0] for pair in items], self.left.is_signed)
        right = _rows.words_of([pair[1] for pair in items], self.right.is_signed)
        return coded(*_rows.orders_of(left, self.left.c_format, right, self.right.c_format)) if left and right else None

    def whole(self, flat: _arrays.Array) -> _arrays.Whole:
        from . import _arrays

        return _arrays.orders(self, flat)
