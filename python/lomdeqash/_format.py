"""Formats, and all that is done with their numbers."""
from __future__ import annotations

import operator
import re
from collections.abc import Iterable
from dataclasses import dataclass, field
from decimal import Decimal
from fractions import Fraction
from numbers import Number
from typing import TYPE_CHECKING, Any, Literal, TypeVar, Union, overload

from . import _library, _lists
from ._calls import Compare, Convert, Enclose, Read, Text, Value, base_of, expect
from ._errors import Code, FixedError, brief
from ._numerals import Numeral, decimal_of, greatest_distance, numeral_of, numeral_to_places
from ._options import Errors, ErrorsLike, Mask, Mode, ModeLike, PolicyLike, Raise, mode_code, reading

if TYPE_CHECKING:
    from . import _arrays
    from numpy import dtype, float64
    from numpy.typing import NDArray

    Array = NDArray[Any]
    Many = Union[Iterable[int], Array]

FormatLike = Union["Format", str]
_DECIMAL_WORD = re.compile("[Dd](0|[1-9]|1[0-8])")
_Value = TypeVar("_Value", Decimal, Fraction, float, "float64")


# Of each method's forms the first that fits is meant: a text is an iterable of texts as well, and so may an array be.
@dataclass(frozen=True, init=False, repr=False, order=True)
class Format:
    """A format: ``I`` (signed) or ``U`` (unsigned), the count of whole bits, ``F``, and the count of fraction bits,
    together 1 to 64. The whole bits may be fewer than zero: ``I-9F25`` has 16 bits, in steps of 2^-25.

    ARM's names are taken as well, in which the sign bit is one of the whole bits: ``Q15`` is ``I1F15``, ``UQ8.8`` is
    ``U8F8``; and those of other tools: ``ap_fixed<16,1>``, ``sfixed(0 downto -15)``, ``fi(_,1,16,15)``,
    ``numerictype(1,16,15)``, ``sfix16_En15``. Formats are hashable, and ordered by width, then unsigned before signed,
    then by fraction length.

    ``D0`` to ``D18`` are decimal formats, for money: their bits count units of that many `places`, in 64 bits with a
    sign. They have `read`, `text` and `value`, and are ordered among themselves.

    >>> Format("q15"), Format("ap_fixed<16,1>").width, Format("I1F15").frac
    (Format('I1F15'), 16, 15)
    >>> Format("I4F4").min_bits, Format("I4F4").max_bits, Format("I4F4").ulp
    (-128, 127, Decimal('0.0625'))
    >>> Format("D2").read("1.005", mode="ties-away"), Format("D2").text(-101), Format("D2").value(-110)
    (101, '-1.01', Decimal('-1.10'))

    Each method takes one item and gives one value; or an iterable, and gives a list; or a numpy array, and gives an
    array of its shape. What is refused raises `FixedError`. With ``errors="mask"`` a refused item of many becomes None,
    or is masked in an array, and what was None or masked stays so; one item alone raises always.
    """

    width: int
    is_signed: bool
    frac: int
    places: int | None  #: of a decimal format
    c_format: _library.CFormat = field(compare=False)

    def __new__(cls, word: FormatLike) -> Format:
        if cls is Format and _DECIMAL_WORD.fullmatch(_text_of(word)):
            return object.__new__(DecimalFormat)
        return object.__new__(cls)

    def __init__(self, word: FormatLike) -> None:
        text = _text_of(word)
        code, given = _library.format_of_word(text.encode("utf-8", "replace"))
        expect(code, word)
        self._set(c_format=given)
        self._set(width=given.width, is_signed=bool(given.is_signed), frac=given.frac, places=None)

    def _set(self, **fields: object) -> None:
        for name, value in fields.items():
            object.__setattr__(self, name, value)

    def __reduce__(self) -> tuple[type[Format], tuple[str]]:
        return Format, (self.word,)

    def __repr__(self) -> str:
        return f"Format({self.word!r})"

    def __str__(self) -> str:
        return self.word

    @property
    def word(self) -> str:
        """The format's name."""
        return _library.word_of_format(self.c_format)

    @property
    def min_bits(self) -> int:
        """The bits of the least number."""
        return -(1 << (self.width - 1)) if self.is_signed else 0

    @property
    def max_bits(self) -> int:
        """The bits of the greatest number."""
        return (1 << (self.width - self.is_signed)) - 1

    @property
    def ulp(self) -> Decimal:
        """The distance of two neighbours."""
        return self.decimal_of(1)

    @property
    def scale(self) -> int:
        """The bits of 1, if the format has it: what bits are divided by."""
        return 1 << self.frac

    @property
    def dtype(self) -> dtype[Any]:
        """The numpy type of the format's bits: the smallest integers of its sign that hold its width."""
        from . import _arrays

        return _arrays.dtype_of(self)

    @overload
    def read(self, numerals: Numeral, *,  # type: ignore[misc]
             radix: int = ..., policy: PolicyLike = ..., mode: ModeLike = ..., target: FormatLike | None = ...,
             target_mode: ModeLike = ...,
             overflowed: Literal[False] = ..., errors: ErrorsLike = ...) -> int: ...
    @overload
    def read(self, numerals: Numeral, *,  # type: ignore[misc]
             radix: int = ..., policy: PolicyLike = ..., mode: ModeLike = ..., target: FormatLike | None = ...,
             target_mode: ModeLike = ...,
             overflowed: Literal[True], errors: ErrorsLike = ...) -> tuple[int, bool]: ...
    @overload
    def read(self, numerals: Array, *,  # type: ignore[misc]
             radix: int = ..., policy: PolicyLike = ..., mode: ModeLike = ..., target: FormatLike | None = ...,
             target_mode: ModeLike = ...,
             overflowed: Literal[False] = ..., errors: ErrorsLike = ...) -> Array: ...
    @overload
    def read(self, numerals: Array, *,  # type: ignore[misc]
             radix: int = ..., policy: PolicyLike = ..., mode: ModeLike = ..., target: FormatLike | None = ...,
             target_mode: ModeLike = ...,
             overflowed: Literal[True], errors: ErrorsLike = ...) -> tuple[Array, Array]: ...
    @overload
    def read(self, numerals: Iterable[Numeral], *,
             radix: int = ..., policy: PolicyLike = ..., mode: ModeLike = ..., target: FormatLike | None = ...,
             target_mode: ModeLike = ...,
             overflowed: Literal[False] = ..., errors: Raise = ...) -> list[int]: ...
    @overload
    def read(self, numerals: Iterable[Numeral], *,
             radix: int = ..., policy: PolicyLike = ..., mode: ModeLike = ..., target: FormatLike | None = ...,
             target_mode: ModeLike = ...,
             overflowed: Literal[True], errors: Raise = ...) -> tuple[list[int], list[bool]]: ...
    @overload
    def read(self, numerals: Iterable[Numeral | None], *,
             radix: int = ..., policy: PolicyLike = ..., mode: ModeLike = ..., target: FormatLike | None = ...,
             target_mode: ModeLike = ...,
             overflowed: Literal[False] = ..., errors: Mask) -> list[int | None]: ...
    @overload
    def read(self, numerals: Iterable[Numeral | None], *,
             radix: int = ..., policy: PolicyLike = ..., mode: ModeLike = ..., target: FormatLike | None = ...,
             target_mode: ModeLike = ...,
             overflowed: Literal[True], errors: Mask) -> tuple[list[int | None], list[bool | None]]: ...

    def read(
        self,
        numerals: Any,
        *,
        radix: int = 10,
        policy: PolicyLike = "checked",
        mode: ModeLike = "nearest",
        target: FormatLike | None = None,
        target_mode: ModeLike = "floor",
        overflowed: bool = False,
        errors: ErrorsLike = "raise",
    ) -> Any:
        """The bits of numerals: texts in the radix, or numbers of Python or numpy by their exact value.

        With a target, each is rounded to this format by `mode`, and the result to the target by `target_mode`. With
        `overflowed`, a second result says which were out of range, and so at an end or wrapped. Numbers that are bits
        already are none of these: they go to `text`, `value` or `convert`.

        >>> form = Format("I4F4")
        >>> form.read("3.14"), form.read("c.8p-2", radix=16), form.read(0.1, mode="ceil")
        (50, 50, 2)
        >>> form.read("2.75", target="I8F0")
        2
        >>> form.read(["9", "-9"], policy="saturating"), form.read(["1", "one", "9"], errors="mask")
        ([127, -128], [16, None, None])
        >>> form.read(["9", "1"], policy="saturating", overflowed=True)
        ([127, 16], [True, False])
        """
        how = reading(radix, policy, mode)
        move = None if target is None else Convert(self, Format(target), reading(radix, policy, target_mode))
        return _parted(_apply(numerals, Read(self, how, move, bool(overflowed)), errors), overflowed)

    @overload
    def text(self, bits: int, *, places: int | None = ..., mode: ModeLike = ..., errors: ErrorsLike = ...) -> str: ...
    @overload
    def text(self, bits: Array, *,  # type: ignore[misc]
             places: int | None = ..., mode: ModeLike = ..., dtype: Literal["U", "S"] = ...,
             errors: ErrorsLike = ...) -> Array: ...
    @overload
    def text(self, bits: Iterable[int], *, places: int | None = ..., mode: ModeLike = ...,
             errors: Raise = ...) -> list[str]: ...
    @overload
    def text(self, bits: Iterable[int | None], *, places: int | None = ..., mode: ModeLike = ...,
             errors: Mask) -> list[str | None]: ...

    def text(self, bits: Any, *, places: int | None = None, mode: ModeLike = Mode.NEAREST, dtype: str = "U",
             errors: ErrorsLike = "raise") -> Any:
        """The shortest decimals that read back as the bits; or with `places`, decimals of that many, rounded in the mode.

        An array of texts is of str (`dtype` is ``U``) or of bytes (``S``).

        >>> Format("I1F15").text([10922, -32768]), Format("I1F15").text(10922, places=2)
        (['0.3333', '-1'], '0.33')
        >>> import decimal
        >>> Format("I4F4").text([2, -2], places=2, mode=decimal.ROUND_HALF_UP)
        ['0.13', '-0.13']
        """
        if places is not None and not 0 <= operator.index(places) <= 64:
            raise FixedError(Code.BAD_PLACES, brief(places))
        mode_is = mode_code(mode)
        if places is None and mode_is != mode_code(Mode.NEAREST):
            raise ValueError("a mode rounds nothing where no places are given")
        if dtype not in ("U", "S"):
            raise ValueError("an array of texts has dtype 'U' or 'S'")

        return _apply(bits, Text(self, places, mode_is, dtype), errors)

    @overload
    def value(self, bits: int, *, errors: ErrorsLike = ...) -> Decimal: ...
    @overload
    def value(self, bits: int, kind: type[_Value], *, errors: ErrorsLike = ...) -> _Value: ...
    @overload
    def value(self, bits: Array,  # type: ignore[misc]
              kind: type[Decimal | Fraction | float | float64] = ..., *, errors: ErrorsLike = ...) -> Array: ...
    @overload
    def value(self, bits: Iterable[int], *, errors: Raise = ...) -> list[Decimal]: ...
    @overload
    def value(self, bits: Iterable[int | None], *, errors: Mask) -> list[Decimal | None]: ...
    @overload
    def value(self, bits: Iterable[int], kind: type[_Value], *, errors: Raise = ...) -> list[_Value]: ...
    @overload
    def value(self, bits: Iterable[int | None], kind: type[_Value], *, errors: Mask) -> list[_Value | None]: ...

    def value(self, bits: Any, kind: type[Any] = Decimal, *, errors: ErrorsLike = "raise") -> Any:
        """The exact values of bits, as Decimal or Fraction; or as float or numpy.float64, exact up to 53 bits and else
        the nearest.

        >>> form = Format("I4F4")
        >>> form.value(51), form.value(51, Fraction), form.value([51, -1], float)
        (Decimal('3.1875'), Fraction(51, 16), [3.1875, -0.0625])
        """
        if kind not in (Decimal, Fraction) and base_of(kind) is not float:
            raise TypeError("a value is of kind Decimal, Fraction, float or numpy.float64")
        return _apply(bits, Value(self, kind), errors)

    @overload
    def convert(self, bits: int, target: FormatLike, *,
                policy: PolicyLike = ..., target_mode: ModeLike = ...,
                overflowed: Literal[False] = ..., errors: ErrorsLike = ...) -> int: ...
    @overload
    def convert(self, bits: int, target: FormatLike, *,
                policy: PolicyLike = ..., target_mode: ModeLike = ...,
                overflowed: Literal[True], errors: ErrorsLike = ...) -> tuple[int, bool]: ...
    @overload
    def convert(self, bits: Array, target: FormatLike, *,  # type: ignore[misc]
                policy: PolicyLike = ..., target_mode: ModeLike = ...,
                overflowed: Literal[False] = ..., errors: ErrorsLike = ...) -> Array: ...
    @overload
    def convert(self, bits: Array, target: FormatLike, *,  # type: ignore[misc]
                policy: PolicyLike = ..., target_mode: ModeLike = ...,
                overflowed: Literal[True], errors: ErrorsLike = ...) -> tuple[Array, Array]: ...
    @overload
    def convert(self, bits: Iterable[int], target: FormatLike, *,
                policy: PolicyLike = ..., target_mode: ModeLike = ...,
                overflowed: Literal[False] = ..., errors: Raise = ...) -> list[int]: ...
    @overload
    def convert(self, bits: Iterable[int], target: FormatLike, *,
                policy: PolicyLike = ..., target_mode: ModeLike = ...,
                overflowed: Literal[True], errors: Raise = ...) -> tuple[list[int], list[bool]]: ...
    @overload
    def convert(self, bits: Iterable[int | None], target: FormatLike, *,
                policy: PolicyLike = ..., target_mode: ModeLike = ...,
                overflowed: Literal[False] = ..., errors: Mask) -> list[int | None]: ...
    @overload
    def convert(self, bits: Iterable[int | None], target: FormatLike, *,
                policy: PolicyLike = ..., target_mode: ModeLike = ...,
                overflowed: Literal[True], errors: Mask) -> tuple[list[int | None], list[bool | None]]: ...

    def convert(
        self,
        bits: Any,
        target: FormatLike,
        *,
        policy: PolicyLike = "checked",
        target_mode: ModeLike = "floor",
        overflowed: bool = False,
        errors: ErrorsLike = "raise",
    ) -> Any:
        """The bits of the same values in another format, rounded by `target_mode`; `overflowed` as in `read`.

        >>> form = Format("I4F4")
        >>> form.convert([51, -51], "I8F0"), form.convert(-51, "I8F0", target_mode="zero")
        ([3, -4], -3)
        """
        move = Convert(self, Format(target), reading(10, policy, target_mode), bool(overflowed))
        return _parted(_apply(bits, move, errors), overflowed)

    @overload
    def enclose(self, numerals: Numeral, *,  # type: ignore[misc]
                radix: int = ..., errors: ErrorsLike = ...) -> tuple[int, int]: ...
    @overload
    def enclose(self, numerals: Array, *,  # type: ignore[misc]
                radix: int = ..., errors: ErrorsLike = ...) -> tuple[Array, Array]: ...
    @overload
    def enclose(self, numerals: Iterable[Numeral], *,
                radix: int = ..., errors: Raise = ...) -> list[tuple[int, int]]: ...
    @overload
    def enclose(self, numerals: Iterable[Numeral | None], *,
                radix: int = ..., errors: Mask) -> list[tuple[int, int] | None]: ...

    def enclose(self, numerals: Any, *, radix: int = 10, errors: ErrorsLike = "raise") -> Any:
        """The bits of the greatest number not above a numeral and of the least not below it; of an array, two arrays.

        >>> Format("I4F4").enclose("3.14"), Format("I4F4").enclose(3.125)
        ((50, 51), (50, 50))
        """
        down, up = (Read(self, reading(radix, "checked", mode), None, False) for mode in (Mode.FLOOR, Mode.CEIL))
        return _apply(numerals, Enclose(self, down, up), errors)

    @overload
    def compare(self, bits: int, others: int, other: FormatLike | None = ..., *, errors: ErrorsLike = ...) -> int: ...
    @overload
    def compare(self, bits: Array,  # type: ignore[misc]
                others: Many | int, other: FormatLike | None = ..., *, errors: ErrorsLike = ...) -> Array: ...
    @overload
    def compare(self, bits: Many | int,  # type: ignore[misc]
                others: Array, other: FormatLike | None = ..., *, errors: ErrorsLike = ...) -> Array: ...
    @overload
    def compare(self, bits: Iterable[int],
                others: Iterable[int] | int, other: FormatLike | None = ..., *, errors: Raise = ...) -> list[int]: ...
    @overload
    def compare(self, bits: Iterable[int | None],
                others: Iterable[int | None] | int, other: FormatLike | None = ..., *,
                errors: Mask) -> list[int | None]: ...

    def compare(self, bits: Any, others: Any, other: FormatLike | None = None, *, errors: ErrorsLike = "raise") -> Any:
        """-1, 0 or 1: the values of bits are less than those of others, of this or another format, equal or greater.

        >>> Format("I4F4").compare(51, 3, "I8F0"), Format("I4F4").compare([47, 48], 3, "I8F0")
        (1, [-1, 0])
        """
        call, how = Compare(self, self if other is None else Format(other)), Errors(errors)
        if is_array(bits) or is_array(others):
            from . import _arrays

            return _arrays.compare(bits, others, call, how)
        if is_one(bits) and is_one(others):
            return call.one((bits, others))
        pairs = _pairs(bits, others)
        return _lists.over((None if None in pair else pair for pair in pairs) if how is Errors.MASK else pairs, call, how)

    def greatest_error(self, numerals: Numeral | Iterable[Numeral] | Array, *, radix: int = 10,
                       mode: ModeLike = "nearest") -> Fraction:
        """The greatest distance of a numeral to the number that is read from it, exactly; 0 of no numerals.

        What is masked has none. A numeral nearer to zero than 10 to the power of -1000 counts as that.

        >>> Format("I4F4").greatest_error(["3.14", 0.5])
        Fraction(3, 200)
        """
        if is_array(numerals):
            from . import _arrays

            return _arrays.greatest_error(numerals, self, radix, mode)
        if is_one(numerals):
            bits: Any = self.read(numerals, radix=radix, mode=mode)
            return greatest_distance([numerals], [bits], radix, self.scale)
        items: list[Any] = list(numerals)  # type: ignore[arg-type]
        return greatest_distance(items, self.read(items, radix=radix, mode=mode), radix, self.scale)

    def decimal_of(self, bits: int) -> Decimal:
        """The exact value of bits."""
        return decimal_of(bits, self.frac)

    def numeral_of(self, item: Any, radix: int) -> tuple[bytes, int]:
        """The bytes and the radix of a numeral that the format reads as the given text or number."""
        return numeral_of(item, radix, self.frac)

    def text_size(self, places: int | None) -> int:
        """A length that no text of the format is above: so many places tell all its numbers apart."""
        greatest = max(self.max_bits, -self.min_bits) >> self.frac
        if places is None:
            places = len(str((1 << self.frac) - 1)) if self.frac else 0
        return self.is_signed + len(str(greatest + 1)) + (places > 0) + places

    def bits_of_c(self, bits: int) -> int:
        """Bits as C gives them, in the range of the format."""
        return bits if self.is_signed else bits & (1 << 64) - 1

    def own_bits(self, item: Any, code: Code = Code.BAD_BITS) -> int:
        """An item that is bits of the format."""
        bits = operator.index(item)
        if not self.min_bits <= bits <= self.max_bits:
            raise FixedError(code, brief(bits))
        return bits


class DecimalFormat(Format):
    """A decimal format. None of its bits is one of a binary fraction."""

    places: int

    def __init__(self, word: FormatLike) -> None:
        places = int(_text_of(word)[1:])
        self._set(width=64, is_signed=True, frac=0, places=places, c_format=_library.CDecimal(places))

    @property
    def word(self) -> str:
        """The format's name."""
        return f"D{self.places}"

    @property
    def scale(self) -> int:
        """The bits of 1."""
        return 10**self.places  # type: ignore[no-any-return]

    def decimal_of(self, bits: int) -> Decimal:
        """The exact value of bits, with all places."""
        return Decimal(f"{bits}e-{self.places}")

    def numeral_of(self, item: Any, radix: int) -> tuple[bytes, int]:
        """The bytes and the radix of a numeral that the format reads as the given text or number."""
        return numeral_to_places(item, self.places), 10

    def text_size(self, places: int | None) -> int:
        """A length that no text of the format is above."""
        return len(str(self.min_bits)) + (self.places > 0)


def _text_of(word: FormatLike) -> str:
    """The word of a format."""
    if isinstance(word, Format):
        return word.word
    if not isinstance(word, str):
        raise TypeError(f"a format is a word such as 'I1F15', not {type(word).__name__}")
    return word


def is_array(given: Any) -> bool:
    """Whether numpy takes it as an array; numbers and texts of numpy are single items."""
    return hasattr(given, "__array__") and not isinstance(given, (str, bytes, Number))


def is_one(given: Any) -> bool:
    return isinstance(given, (str, bytes, bytearray)) or not isinstance(given, Iterable)


def _apply(given: Any, call: _arrays.Call, errors: ErrorsLike) -> Any:
    """What a call finds for an item, an iterable or an array."""
    how = Errors(errors)
    if is_array(given):
        from . import _arrays

        return _arrays.over(given, call, how)
    return call.one(given) if is_one(given) else _lists.over(given, call, how)


def _parted(found: Any, is_parted: bool) -> Any:
    """A list of pairs as a pair of lists, if that is asked for."""
    if not is_parted or not isinstance(found, list):
        return found
    return [pair and pair[0] for pair in found], [pair and pair[1] for pair in found]


def _pairs(left: Any, right: Any) -> Iterable[tuple[Any, Any]]:
    """The items of two iterables of one length, side by side; or of one, each with the one item that the other is."""
    if is_one(right):
        return ((each, right) for each in left)
    if is_one(left):
        return ((left, each) for each in right)
    lefts, rights = list(left), list(right)
    if len(lefts) != len(rights):
        raise ValueError(f"{len(lefts)} numbers are compared with {len(rights)}")
    return zip(lefts, rights)
