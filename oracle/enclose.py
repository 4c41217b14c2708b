#!/usr/bin/env python3
"""An independent answer to every line of enclose_tool, worked out with whole numbers alone.

A line is `RADIX FORMAT NUMERAL`. The lower end is the greatest whole number of ulps that is not above the numeral's value,
the upper end the least that is not below it: each is read in its own mode, and neither is derived from the other.

    enclose.py < lines            writes the answers
    enclose.py --compare PROGRAM  makes seeded lines, hands them to PROGRAM, and compares
"""
import sys

from harness import by_line, each_line, main
from reference import LONGEST, RADIX, WIDTHS, WORDS, Refused, ends, format_of, numeral_for, read_number, shortest


def answer(line):
    """The answer to a line, as text."""
    if len(line) > LONGEST:
        return "error: line too long"
    fields = line.split(b" ", 2)
    if len(fields) < 3:
        return "error: missing field"
    radix = RADIX.get(fields[0])
    if radix is None:
        return "error: bad radix"
    shape = format_of(fields[1])
    if shape is None:
        return "error: bad format"
    frac = shape[2]
    try:
        low = read_number(fields[2], radix, frac, "floor")
        high = read_number(fields[2], radix, frac, "ceil")
    except Refused as why:
        return f"error: {WORDS[str(why)]}"
    least, greatest = ends(shape)
    if not (least <= low and high <= greatest):
        return f"error: {WORDS['Overflow']}"
    verdict = "exact" if low == high else "wide"
    return f"{shortest(low, frac)} {low} {shortest(high, frac)} {high} {verdict}"


def word(shape):
    return f"{'I' if shape[0] else 'U'}{shape[1] - shape[2]}F{shape[2]}".encode()


def near_an_end(pick, shape, radix):
    """A number of ulps next to an end of the range or to zero, with or without a little more."""
    bits = pick.choice((*ends(shape), 0)) + pick.randrange(-2, 3)
    sign, size = (b"-" if bits < 0 else b""), abs(bits)
    whole, rest = divmod(size, 1 << shape[2])
    text = b""
    while whole:
        text = b"0123456789abcdef"[whole % radix : whole % radix + 1] + text
        whole //= radix
    text = (text or b"0") + b"."
    while rest:
        rest *= radix
        digit, rest = divmod(rest, 1 << shape[2])
        text += b"0123456789abcdef"[digit : digit + 1]
    return sign + text + pick.choice((b"", b"", b"000", b"0001"))


def line_for(pick):
    width = pick.choice(WIDTHS)
    shape = (pick.random() < 0.5, width, pick.choice((0, width, pick.randrange(width + 1))))
    radix = pick.choice((2, 8, 10, 10, 16))
    numeral = near_an_end(pick, shape, radix) if pick.randrange(3) == 0 else numeral_for(pick, radix, shape)
    fields = [str(radix).encode(), word(shape), numeral]
    if pick.randrange(40) == 0:
        fields[pick.randrange(2)] = pick.choice((b"", b"7", b"I8F08", b"U24F0", b"010"))
    if pick.randrange(60) == 0:
        fields.pop()
    return b" ".join(fields)


def compare(program, pick, given, tally):
    lines = [line_for(pick) for _ in range(given.count)]
    each_line(tally, program, [], [line for line in lines if line and b"\n" not in line], answer)


if __name__ == "__main__":
    sys.exit(main(__doc__, compare, "lines compared", 20_000, lambda given: by_line(answer)))
