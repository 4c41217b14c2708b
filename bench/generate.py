#!/usr/bin/env python3
"""Writes seeded inputs for the benchmark.

    generate.py KIND [--lines 100000] [--seed 1] [--digits 6] [--format U16F16] [--repeat]

Lines of fixed_tool:
    typical   decimal numerals of 3 to 12 digits into U16F16, I32F32, I4F4 and U0F64 under the three policies
    radix     numerals of all four radices with exponents after `p` and `@`
    long      decimal numerals of 1,000 digits
Inputs of single calls:
    numerals  decimal numerals with --digits fraction digits that --format holds
    bits      bits of --format, evenly spread
    values    the same numbers in decimal, for C
Inputs of the further programs:
    enclose   lines of enclose_tool, with the numerals of typical, into I32F32
    plain     the numerals of typical alone
    zeros     `0` on each line
    constants entries of constants_tool
    cells     lines of columns_tool, in one format
With --repeat the first line is written each time.
"""
import argparse
import random
import sys

# A format's name, whether it is signed, its width and its fraction length in bits.
FORMATS = {"U16F16": (False, 32, 16), "I32F32": (True, 64, 32), "I4F4": (True, 8, 4), "U0F64": (False, 64, 64)}
POLICIES = ("checked", "saturating", "wrapping")
DIGITS = "0123456789abcdef"


def spelled(pick, radix, count):
    return "".join(pick.choice(DIGITS[:radix]) for _ in range(count))


def frame(pick, radix, numeral):
    source, target = pick.choice(list(FORMATS)), pick.choice(list(FORMATS))
    return f"{radix} {source} {target} {pick.choice(POLICIES)} {numeral}"


def typical_numeral(pick):
    count = pick.randrange(3, 13)
    whole = pick.randrange(0, min(count, 5))
    sign = "-" if pick.randrange(8) == 0 else ""
    return sign + spelled(pick, 10, whole) + "." + spelled(pick, 10, count - whole)


def typical(pick, _given):
    # (the numeral is drawn before the frame, so that a seed gives the lines it always gave)
    numeral = typical_numeral(pick)
    return frame(pick, 10, numeral)


def radix(pick, _given):
    base = pick.choice((2, 8, 10, 16))
    count = pick.randrange(3, 13)
    whole = pick.randrange(0, count)
    mark = "@" if base == 10 or pick.randrange(2) else "p"
    exponent = pick.randrange(-6, 7)
    numeral = f"{spelled(pick, base, whole)}.{spelled(pick, base, count - whole)}{mark}{exponent}"
    return frame(pick, base, numeral)


def long(pick, _given):
    whole = pick.randrange(0, 6)
    return frame(pick, 10, spelled(pick, 10, whole) + "." + spelled(pick, 10, 1000 - whole))


def numerals(pick, given):
    signed, width, frac = FORMATS[given.format]
    most = 1 << max(0, width - frac - signed)
    whole = str(pick.randrange(min(most, 10_000)))
    sign = "-" if signed and pick.randrange(2) else ""
    return f"{sign}{whole}.{spelled(pick, 10, given.digits)}" if given.digits else sign + whole


def bits(pick, given):
    signed, width, _ = FORMATS[given.format]
    low = -(1 << (width - 1)) if signed else 0
    return str(low + pick.randrange(1 << width))


def values(pick, given):
    return repr(int(bits(pick, given)) / 2 ** FORMATS[given.format][2])


def enclose(pick, _given):
    return f"10 I32F32 {typical_numeral(pick)}"


def constants(pick, given):
    given.entry += 1
    return f"N{given.entry} = {pick.randrange(8)}.{spelled(pick, 10, pick.randrange(1, 7))} U16F16"


def cells(pick, _given):
    return f"{pick.randrange(60_000)}.{spelled(pick, 10, 4)} U16F16"


KINDS = {
    "typical": typical, "radix": radix, "long": long, "numerals": numerals, "bits": bits, "values": values,
    "enclose": enclose,
    "plain": lambda pick, _given: typical_numeral(pick), "zeros": lambda _pick, _given: "0",
    "constants": constants, "cells": cells,
}


def main():
    words = argparse.ArgumentParser(description=__doc__.split("\n", maxsplit=1)[0])
    words.add_argument("kind", choices=sorted(KINDS))
    words.add_argument("--lines", type=int, default=100_000)
    words.add_argument("--seed", type=int, default=1)
    words.add_argument("--digits", type=int, default=6)
    words.add_argument("--format", choices=sorted(FORMATS), default="U16F16")
    words.add_argument("--repeat", action="store_true")
    words.add_argument("--bytes", type=int, help="stop before the line that would pass this many bytes")
    given = words.parse_args()
    given.entry = 0
    pick = random.Random(f"{'bits' if given.kind == 'values' else given.kind} {given.seed}")
    make = KINDS[given.kind]
    line, size = None, 0
    for _ in range(given.lines):
        line = line if line and given.repeat else make(pick, given)
        size += len(line) + 1
        if given.bytes and size > given.bytes:
            break
        sys.stdout.write(line + "\n")


if __name__ == "__main__":
    main()
