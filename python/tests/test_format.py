"""Formats as values of Python."""
from __future__ import annotations

import copy
import pickle
from decimal import Decimal

import lomdeqash
import pytest
from hypothesis import given
from lomdeqash import Code, FixedError, Format, _library
from model import formats


@given(formats())
def test_a_format_is_its_name(form: Format) -> None:
    assert eval(repr(form)) == form == Format(str(form)) == Format(form) == Format(form.word.lower())
    assert pickle.loads(pickle.dumps(form)) == form == copy.deepcopy(form)
    assert {form: 1}[Format(form.word)] == 1


@pytest.mark.parametrize(
    ("word", "name"),
    [
        ("Q15", "I1F15"),
        ("q31", "I1F31"),
        ("Q8.8", "I8F8"),
        ("UQ8.8", "U8F8"),
        ("q1.7", "I1F7"),
        ("i1f15", "I1F15"),
        ("ap_fixed<16,1>", "I1F15"),
        ("ap_fixed<16, -9>", "I-9F25"),
        ("ap_ufixed<8,0>", "U0F8"),
        ("sfixed(0 downto -15)", "I1F15"),
        ("ufixed(-10 downto -25)", "U-9F25"),
        ("fi(_,1,16,15)", "I1F15"),
        ("fi(_, 0, 16, 16)", "U0F16"),
        ("numerictype(1,16,15)", "I1F15"),
        ("numerictype(0, 64, 0)", "U64F0"),
        ("sfix16_En15", "I1F15"),
        ("ufix8", "U8F0"),
    ],
)
def test_names_of_other_tools(word: str, name: str) -> None:
    assert Format(word).word == name


@pytest.mark.parametrize(
    "word",
    [
        "",
        "I",
        "I8",
        "F8",
        "I8F08",
        "I08F8",
        "I65F0",
        "I0F0",
        "U40F30",
        "I-0F8",
        "I-8F8",
        "I-1F65",
        "Q-1.9",
        "I1F15 ",
        "S1F15",
        "Q",
        "Q8.",
        "Q0.8",
        "Q0.15",
        "UQ8",
        "uq15",
        "s1.15",
        "ap_fixed<16,17>",
        "ap_fixed<16,01>",
        "AP_FIXED<16,1>",
        "sfixed(7 downto 1)",
        "sfixed(-15 downto 0)",
        "fi(_,2,16,15)",
        "fi(_,1, 16,15)",
        "numerictype(1,65,0)",
        "sfix16_E3",
        "sfix16_En65",
        "sfix0",
        "\u0661",
        "I\u0664F\u0664",
        "I8F8\n",
        "I" + "9" * 999 + "F0",
    ],
)
def test_a_word_that_is_none(word: str) -> None:
    with pytest.raises(FixedError) as found:
        Format(word)
    assert found.value.code is Code.BAD_WORD


def test_a_fraction_longer_than_the_width() -> None:
    form = Format("i-9f25")
    assert (form.word, form.width, form.frac, form.min_bits, form.max_bits) == ("I-9F25", 16, 25, -32768, 32767)
    assert (form.read("0.0005"), form.text(16777), form.value(-32768)) == (16777, "0.0005", Decimal("-0.0009765625"))
    with pytest.raises(FixedError) as found:
        form.read("0.0009765625")
    assert found.value.code is Code.OVERFLOW


def test_order() -> None:
    words = ["U8F0", "U0F8", "I8F0", "U16F0", "I1F15"]
    assert sorted(map(Format, reversed(words))) == list(map(Format, words))
    assert Format("I4F4") != object()
    with pytest.raises(TypeError):
        assert Format("I4F4") < "I4F4"  # type: ignore[operator]


def test_a_format_stays() -> None:
    with pytest.raises(AttributeError):
        Format("I4F4").frac = 3  # type: ignore[misc]


def test_the_version_is_that_of_the_library() -> None:
    numbers = [int(part) for part in lomdeqash.__version__.split(".")]
    assert numbers[0] * 10_000 + numbers[1] * 100 + numbers[2] == _library.version()


def test_a_format_is_a_word() -> None:
    with pytest.raises(TypeError):
        Format(8)  # type: ignore[arg-type]
