#!/usr/bin/env python3
"""An independent sorter of columns of mixed formats, worked out with whole numbers alone.

It follows the rules in man/columns_tool.1 and shares no code with the program: values are compared as fractions of whole numbers.

    columns.py < column            writes the column in order, or its first fault
    columns.py --compare PROGRAM   makes seeded columns, hands them to PROGRAM one by one, and compares
"""
import sys
from fractions import Fraction

from harness import main, run
from reference import WIDTHS, WORDS, Refused, digits_for, ends, format_of, read_number, shortest

LONGEST = 1_048_576
WIDTH = 24


class Faulty(Exception):
    """The first fault of a column: its line and its message."""


def cell_of(line):
    """Format word, format and bits of a line: spaces, a numeral, a space, a format word."""
    numeral, space, word = line.lstrip(b" ").partition(b" ")
    if not space:
        raise Refused("missing field")
    shape = format_of(word)
    if shape is None:
        raise Refused("bad format")
    try:
        bits = read_number(numeral, 10, shape[2], "nearest")
    except Refused as refused:
        raise Refused(WORDS[str(refused)]) from None
    low, high = ends(shape)
    if not low <= bits <= high:
        raise Refused(WORDS["Overflow"])
    return word.decode(), shape, bits


def cells_of(data):
    """The cells of a column, in the order of its lines."""
    lines = data.split(b"\n")
    if not lines[-1]:
        lines.pop()
    cells = []
    for number, line in enumerate(lines, 1):
        try:
            cells.append(cell_of(line))
        except Refused as refused:
            raise Faulty(f"error: line {number}: {refused}\n") from None
    return cells


def key(cell):
    """By exact value, then by format: width, unsigned before signed, fraction length."""
    _, (signed, width, frac), bits = cell
    return Fraction(bits, 1 << frac), width, signed, frac


def column(cells):
    """The text of cells, each number flushed right."""
    return "".join(f"{shortest(bits, shape[2]):>{WIDTH}} {word}\n" for word, shape, bits in cells)


def answer(data):
    """What is written for an input, and the status."""
    if len(data) > LONGEST:
        return "", 6
    try:
        return column(sorted(cells_of(data), key=key)), 0
    except Faulty as fault:
        return str(fault), 1


# ---- seeded columns for a comparison


def word_of(shape):
    signed, width, frac = shape
    return f"{'I' if signed else 'U'}{width - frac}F{frac}"


def shape_for(pick):
    width = pick.choice(WIDTHS)
    return pick.random() < 0.5, width, pick.choice((0, width, pick.randrange(width + 1)))


def numeral_for(pick, shape):
    """A numeral near a number of the format; now and then any bytes."""
    if pick.randrange(150) == 0:
        return bytes(pick.choice(b"0189eE@.+-_xp") for _ in range(pick.randrange(6)))
    low, high = ends(shape)
    bits = pick.choice((pick.randrange(low, high + 1), pick.randrange(max(low, -40), min(high, 40) + 1)))
    text = shortest(bits, shape[2]).encode()
    kind = pick.randrange(6)
    if kind == 0 and b"." in text:
        text += digits_for(pick, 10, 2)
    elif kind == 1:
        text += b"e0"
    elif kind == 2 and not text.startswith(b"-"):
        text = b"+" + text
    elif kind == 3 and pick.randrange(20) == 0:
        text += b"e9"
    return text


def line_for(pick, shapes):
    shape = pick.choice(shapes)
    fields = [numeral_for(pick, shape), word_of(shape).encode()]
    if pick.randrange(150) == 0:
        fields[1] = pick.choice((b"", b"U24F0", b"I8F08", b"I4F4 ", b" I4F4"))
    if pick.randrange(200) == 0:
        fields.pop()
    return b" " * pick.choice((0, 0, 1, 21)) + b" ".join(fields)


def column_for(pick):
    shapes = [shape_for(pick) for _ in range(pick.randrange(1, 6))]
    lines = [line_for(pick, shapes) for _ in range(pick.choice((0, 1, 3, 12, 40)))]
    lines += [pick.choice(lines) for _ in range(pick.randrange(4)) if lines]
    return b"\n".join(lines) + (b"\n" if pick.randrange(2) else b"")


def compare(program, pick, given, tally):
    kept = 0
    for _ in range(given.count):
        data = column_for(pick)
        wanted, status = answer(data)
        ran = run(program, [], data)
        kept += status == 0
        tally.same((ran.stdout.decode(), ran.returncode), (wanted, status), data)
    print(f"{kept} columns without a fault")


if __name__ == "__main__":
    sys.exit(main(__doc__, compare, "columns compared", 2000, lambda given: answer(sys.stdin.buffer.read())))
