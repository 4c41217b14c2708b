"""Every rounding mode, by its word and by its constant of `decimal`."""
from __future__ import annotations

import decimal
from typing import Any

import pytest

from lomdeqash import FixedError, Format

# mypy knows the constants of decimal as any str.
OF_DECIMAL: dict[Any, Any] = {
    "nearest": decimal.ROUND_HALF_EVEN,
    "ties-away": decimal.ROUND_HALF_UP,
    "ties-zero": decimal.ROUND_HALF_DOWN,
    "floor": decimal.ROUND_FLOOR,
    "ceil": decimal.ROUND_CEILING,
    "zero": decimal.ROUND_DOWN,
    "away": decimal.ROUND_UP,
}
NUMERALS = ["2.5", "3.5", "-2.5", "-3.5", "2.4", "2.6", "-2.4", "-2.6", "2", "-2"]


@pytest.mark.parametrize("word", OF_DECIMAL)
def test_reading(word: Any) -> None:
    wanted = [int(decimal.Decimal(each).quantize(decimal.Decimal(1), OF_DECIMAL[word])) for each in NUMERALS]
    assert Format("I8F0").read(NUMERALS, mode=word) == wanted
    assert Format("I8F0").read(NUMERALS, mode=OF_DECIMAL[word]) == wanted


@pytest.mark.parametrize(
    "word, wanted",
    [("ties-up", [3, 4, -2, -3, 2, 3, -2, -3, 2, -2]), ("ties-down", [2, 3, -3, -4, 2, 3, -2, -3, 2, -2])],
)
def test_reading_up_and_down(word: Any, wanted: list[int]) -> None:
    assert Format("I8F0").read(NUMERALS, mode=word) == wanted


@pytest.mark.parametrize("word", OF_DECIMAL)
def test_places(word: Any) -> None:
    bits = range(-128, 128)
    wanted = [f"{(decimal.Decimal(each) / 16).quantize(decimal.Decimal('0.1'), OF_DECIMAL[word]):f}" for each in bits]
    assert Format("I4F4").text(bits, places=1, mode=OF_DECIMAL[word]) == wanted


def test_refused() -> None:
    unknown: Any = decimal.ROUND_05UP
    with pytest.raises(FixedError):
        Format("I8F0").read("1", mode=unknown)
    with pytest.raises(ValueError, match="places"):
        Format("I8F0").text(1, mode="floor")
