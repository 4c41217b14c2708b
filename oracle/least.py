#!/usr/bin/env python3
"""An independent answer to every input of least_tool, worked out with whole numbers alone.

Each numeral is a fraction, and each of the 248 formats is tried on it.

    least.py [RADIX] < numerals     writes the answer
    least.py --compare PROGRAM      makes seeded inputs, hands them to PROGRAM, and compares
"""
import sys
from fractions import Fraction

from harness import main, run
from reference import RADIX, WIDTHS, WORDS, Refused, ends, parts_of

MOST = 1_048_576
FORMATS = [(signed, width, frac) for width in WIDTHS for signed in (False, True) for frac in range(width + 1)]


def word(shape):
    return f"{'I' if shape[0] else 'U'}{shape[1] - shape[2]}F{shape[2]}"


def value_of(text, radix):
    """The numeral's value; None where it is far from every format's."""
    sign, whole, fraction, two, exponent = parts_of(text, radix)
    mantissa = int((whole + fraction) or b"0", radix)
    if mantissa == 0:
        return Fraction(0)
    far = 8 * (len(whole) + len(fraction)) + 4096
    if abs(exponent) > far:
        return None
    return sign * Fraction(mantissa, radix ** len(fraction)) * Fraction(2 if two else radix) ** exponent


def holds(shape, value):
    """Whether the value is a whole number of the format's ulps, and that number in range."""
    if value is None:
        return False
    ulps = value * (1 << shape[2])
    low, high = ends(shape)
    return ulps.denominator == 1 and low <= ulps <= high


def answer(data, radix):
    """What is written for an input, and the status."""
    lines = data.split(b"\n")
    if not lines[-1]:
        lines.pop()
    places = [0] * len(FORMATS)
    seen = {}
    for place, line in enumerate(lines, 1):
        if line not in seen:
            try:
                value = value_of(line, radix)
            except Refused as why:
                return f"error: line {place}: {WORDS[str(why)]}\n", 1
            seen[line] = [holds(shape, value) for shape in FORMATS]
            for at, held in enumerate(seen[line]):
                if not held and not places[at]:
                    places[at] = place
    refuted = next((at for at, place in enumerate(places) if not place), len(FORMATS))
    head = "none" if refuted == len(FORMATS) else f"least {word(FORMATS[refuted])}"
    rest = [f"{word(FORMATS[at])} line {places[at]}" for at in range(refuted)]
    return "\n".join([head, *rest]) + "\n", 0


def numeral_for(pick, radix):
    """A numeral that some formats hold, now and then one that none does, or no numeral."""
    digits = b"0123456789abcdef"[:radix]
    if pick.randrange(60) == 0:
        return pick.choice((b"", b"x", b".", b"1e", b"--1", b"1..2"))
    width = pick.choice((4, 8, 8, 16, 32, 64, 65))
    frac = pick.choice((0, 0, 1, 2, pick.randrange(width + 1)))
    bits = pick.choice((0, 1, (1 << width) - 1, 1 << (width - 1), pick.randrange(1 << width)))
    whole, rest = divmod(bits, 1 << frac)
    text = b""
    while whole:
        text = digits[whole % radix : whole % radix + 1] + text
        whole //= radix
    text = text or b"0"
    if rest or pick.randrange(4) == 0:
        text += b"."
    while rest:
        rest *= radix
        digit, rest = divmod(rest, 1 << frac)
        text += digits[digit : digit + 1]
    if pick.randrange(30) == 0:
        text += pick.choice((b"1", b"3", digits[-1:]))
    if pick.randrange(12) == 0:
        text += (b"@" if radix == 16 else b"e") + str(pick.choice((0, 1, 2, -1, 40, -40, 2**31 - 1, -(2**31)))).encode()
    return pick.choice((b"", b"", b"", b"-", b"+")) + text


def input_for(pick, radix):
    kinds = [numeral_for(pick, radix) for _ in range(pick.choice((0, 1, 2, 3, 10, 40)))]
    lines = [pick.choice(kinds) for _ in range(pick.choice((1, 2, 5, 60)))] if kinds else []
    data = b"\n".join(lines)
    return data + pick.choice((b"", b"\n")) if lines else b""


def compare(program, pick, given, tally):
    for _ in range(given.count):
        radix = pick.choice((2, 8, 10, 10, 10, 16))
        words = [str(radix)] if radix != 10 or pick.randrange(2) else []
        data = input_for(pick, radix)
        if len(data) <= MOST:
            ran = run(program, words, data)
            tally.same((ran.stdout.decode(), ran.returncode), answer(data, radix), (words, data))


def arguments(words):
    words.add_argument("radix", nargs="?", default="10", choices=("2", "8", "10", "16"))


def answer_alone(given):
    return answer(sys.stdin.buffer.read(), RADIX[given.radix.encode()])


if __name__ == "__main__":
    sys.exit(main(__doc__, compare, "inputs compared", 500, answer_alone, arguments))
