#!/usr/bin/env python3
"""Every rounding mode of `fixed`, against fractions and against Python's own decimals.

Every numeral of up to three digits and two places, with either sign, is read into every format of a width from 1 to 6 and a
fraction of 0 to 12 bits under each policy; every bit pattern of widths 1 to 10 is printed to 0, 1 and 2 places; and ties, and one
digit beside them, with 60 digits, into formats of any width. It shares no code with the program.

    modes.py --compare PROGRAM [--count N] [--seed S]   runs PROGRAM convert, and compares; N ties
"""
import decimal
import itertools
import math
import sys
from fractions import Fraction

from harness import main, run

MODES = ("nearest", "ties-away", "ties-zero", "ties-up", "ties-down", "floor", "ceil", "zero", "away")
POLICIES = ("checked", "saturating", "wrapping")
# What Python's decimals call a mode; they have no ties-up and no ties-down.
OF_DECIMAL = {
    "nearest": decimal.ROUND_HALF_EVEN, "ties-away": decimal.ROUND_HALF_UP, "ties-zero": decimal.ROUND_HALF_DOWN, "floor": decimal.ROUND_FLOOR,
    "ceil": decimal.ROUND_CEILING, "zero": decimal.ROUND_DOWN, "away": decimal.ROUND_UP,
}
# How many ties a run has.
TIES = 400


def whole(value, mode):
    """The whole number that a fraction is rounded to."""
    below, above = math.floor(value), math.ceil(value)
    if mode == "floor" or mode == ("zero" if value >= 0 else "away"):
        return below
    if mode == "ceil" or mode == ("zero" if value < 0 else "away"):
        return above
    if value - below != above - value:
        return below if value - below < above - value else above
    if mode == "nearest":
        return below if below % 2 == 0 else above
    if mode in ("ties-up", "ties-down"):
        return above if mode == "ties-up" else below
    return above if (value >= 0) == (mode == "ties-away") else below


def ends(signed, width):
    return (-(1 << width - 1), (1 << width - 1) - 1) if signed else (0, (1 << width) - 1)


def word_of(signed, width, frac):
    return f"{'I' if signed else 'U'}{width - frac}F{frac}"


def formats(widths, fracs=None):
    """The formats of these widths with fractions of these lengths, up to the width if none are given."""
    return [(signed, width, frac) for width in widths for signed in (False, True) for frac in fracs or range(width + 1)]


def converted(tally, program, words, lines, wanted):
    """Compares what `fixed convert` writes for these lines."""
    found = run(program, ["convert", *words], "".join(f"{line}\n" for line in lines).encode()).stdout.decode().splitlines()
    tally.all_same(found, wanted, [f"convert {' '.join(words)} of {line}" for line in lines])


def numerals():
    """All of up to three digits and two places, and their values."""
    for number in range(1000):
        for places in range(3):
            digits = str(number).rjust(places + 1, "0")
            text = digits[:-places] + "." + digits[-places:] if places else digits
            if sum(digit.isdigit() for digit in text) <= 3:
                for sign in ("", "-"):
                    yield sign + text, Fraction(sign + text)


def image(policy, low, high, number):
    """What a policy makes of a whole number, in bits."""
    if low <= number <= high:
        return str(number)
    if policy == "checked":
        return "error: overflow"
    return str(max(low, min(high, number)) if policy == "saturating" else (number - low) % (high - low + 1) + low)


def read_all(tally, program):
    """Every numeral into every format of widths 1 to 6 and fractions of 0 to 12 bits, in every mode, under every policy."""
    texts, values = zip(*numerals())
    for frac, mode in itertools.product(range(13), MODES):
        numbers = [whole(value * (1 << frac), mode) for value in values]
        for (signed, width, _), policy in itertools.product(formats(range(1, 7), [frac]), POLICIES):
            low, high = ends(signed, width)
            words = [word_of(signed, width, frac), "--mode", mode, "--policy", policy, "--print", "bits"]
            converted(tally, program, words, texts, [image(policy, low, high, number) for number in numbers])


def placed(bits, frac, places, mode):
    """Bits to a count of places: by Python's decimals where these have the mode."""
    with decimal.localcontext() as context:
        context.prec = 60
        value = decimal.Decimal(bits) / (1 << frac)
        if mode in OF_DECIMAL:
            return f"{value.quantize(decimal.Decimal(1).scaleb(-places), OF_DECIMAL[mode]):f}"
        number = abs(whole(Fraction(bits, 1 << frac) * 10**places, mode))
        text = str(number).rjust(places + 1, "0")
        return ("-" if bits < 0 else "") + (text[:-places] + "." + text[-places:] if places else text)


def print_all(tally, program):
    """Every bit pattern of widths 1 to 10, to 0, 1 and 2 places, in every mode."""
    for signed, width, frac in formats(range(1, 11)):
        low, high = ends(signed, width)
        lines = list(range(low, high + 1))
        for mode, places in itertools.product(MODES, range(3)):
            # A word without a sign is read in two's complement.
            words = [word_of(signed, width, frac), "--from", "bits", "--places", str(places), "--places-mode", mode]
            converted(tally, program, words, [bits % (1 << width) for bits in lines], [placed(bits, frac, places, mode) for bits in lines])


def ties(pick, count):
    """Numerals of 60 digits that are ties of a format, and one digit beside them."""
    frac = pick.randrange(46)
    width = pick.randrange(1, 65)
    signed = pick.random() < 0.5
    texts = []
    for _ in range(count):
        number = 2 * pick.randrange(-(1 << 12), 1 << 12) + 1
        digits = abs(number) * 10**50 // (1 << frac + 1) * 10 + pick.choice((-1, 0, 0, 1))
        text = str(digits).rjust(60, "0")
        texts.append(("-" if number < 0 else "") + text[:-51] + "." + text[-51:])
    return (signed, width, frac), texts


def tie_all(tally, program, pick, runs):
    for _ in range(runs):
        (signed, width, frac), texts = ties(pick, TIES)
        low, high = ends(signed, width)
        for mode in MODES:
            wanted = [str(max(low, min(high, whole(Fraction(text) * (1 << frac), mode)))) for text in texts]
            words = [word_of(signed, width, frac), "--mode", mode, "--policy", "saturating", "--print", "bits"]
            converted(tally, program, words, texts, wanted)


def compare(program, pick, given, tally):
    read_all(tally, program)
    print_all(tally, program)
    tie_all(tally, program, pick, given.count)


if __name__ == "__main__":
    sys.exit(main(__doc__, compare, "roundings compared", 20))
