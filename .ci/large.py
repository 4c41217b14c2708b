#!/usr/bin/env python3
"""Runs the programs over inputs whose answers are too long to be written in a case file.

    large.py [--built FOLDER]
"""
import os
import struct
import sys

TOP = os.path.dirname(os.path.dirname(os.path.abspath(__file__)))
sys.path.insert(0, f"{TOP}/oracle")

from harness import Tally, built_option, program, run  # noqa: E402

LONGEST = 1_048_576
# Lines of a list that no format holds: each format, and the line that it does not hold.
EVERY = [f"{letter}{width - frac}F{frac}" for width in (8, 16, 32, 64) for letter in "UI" for frac in range(width + 1)]
DIGITS = (b"1", b"123456789012345678901234567890123456789012345")
EXPONENTS = range(2_147_482_648, 2_147_483_648)
WRAPPING = ["convert", "U8F0", "-p", "wrapping", "--print", "all"]
KEEP = ["convert", "I4F12", "--words", "--keep"]
SEVEN = b"given     7\ntext      7\nbits      7\nhex       0x07\nvalue     7\n\n"
REFUSED = b"fixed: fields refused: 1, the first in record 2, line 2, column 1, 'x': invalid digit found in string, byte 1, 'x'\n"


def exponents(line, sign):
    """A thousand exponents at an end of their range, of a short and of a long numeral."""
    return b"".join(line % (digits + b"e" + sign + str(exponent).encode()) for digits in DIGITS for exponent in EXPONENTS)


def no_format(line):
    """What is said of a list that no format holds, by a line that none holds."""
    return b"none\n" + "".join(f"{it} line {line}\n" for it in EVERY).encode()


# For each program: words, input, status and output, and what standard error says if it is known.
RUNS = {
    "fixed": (
        # words of a text: the longest that is kept, and one that is longer
        (KEEP, b"x" * 524_288 + b" 1.0\n", 0, b"x" * 524_288 + b" 1\n"),
        ([*KEEP, "all"], b"9" * 524_288 + b"," + b"9" * 524_289 + b" 1.0\n", 1, b"9" * 524_288 + b",error 1\n"),
        (["convert", "U8F0", "--words", "--keep"], (b"x" * 1_023 + b" ") * 3_000, 0, (b"x" * 1_023 + b" ") * 3_000),
        (["convert", "U8F0", "--words"], b"1," * 600_000 + b"\n" + b"0" * 900_000 + b"7", 0, b"1," * 600_000 + b"\n7"),
        # a line that is too long is shown in part
        (["bits", "U8F0"], b"0" * (LONGEST + 1) + b"\n7\n", 1, b"given     " + b"0" * 1_024 + b"\nerror: line too long\n\n" + SEVEN),
        (["bits", "--json", "U8F0"], b"0" * (LONGEST + 1) + b"\n\"\\\x7f\r\r\n", 1,
         b'{"given":"' + b"0" * 768 + b'","refused":"line too long"}\n'
         b'{"given":"\\"\\\\\\u007f\\u000d","refused":"invalid digit found in string"}\n'),
        # many words, with one that is none at last
        (["pack", "U1F0"], b"1\n" * 10_000, 0, b"\x01" * 10_000),
        (["pack", "--from", "f64", "U8F0"], b"\0" * 80_008, 0, b"\0" * 10_001),
        (["pack", "--from", "f32", "I64F0"], struct.pack("<f", -1) * 3_000, 0, b"\xff" * 24_000),
        (["unpack", "--to", "f64", "U1F0"], b"\0\1" * 5_000 + b"\2\1", 1, struct.pack("<2d", 0, 1) * 5_000),
        (["unpack", "U8F0"], b"\n" * 5_000, 0, b"10\n" * 5_000),
        (["repack", "U1F0", "U1F0"], b"\0\1" * 5_000, 0, b"\0\1" * 5_000),
        # exponents at the ends of their range, of a numeral that stands alone in its line
        (WRAPPING, exponents(b"%s\n", b"-"), 0, b"0 0 fits\n" * 2_000),
        (WRAPPING, exponents(b"%s\n", b""), 0, b"0 0 overflowed\n" * 2_000),
        # a record of the greatest length, lines that are empty and count for nothing, a line that is passed over, a long header
        (["column", "1", "U8F0"], b"1," + b"x" * (LONGEST - 2) + b"\n2,b\n", 0, b"1," + b"x" * (LONGEST - 2) + b"\n2,b\n"),
        (["column", "1", "U8F0"], b"\n" * (2 * LONGEST) + b"7.4\n", 0, b"\n" * (2 * LONGEST) + b"7\n"),
        (["column", "1", "U8F0", "--skip", "1"], b"x" * 3_000_000 + b"\n7.4\n", 0, b"x" * 3_000_000 + b"\n7\n"),
        (["column", "1", "U8F0", "--header"], b"a" * 5000 + b"\nx\n", 1, b"a" * 5000 + b"\nerror: invalid digit found in string\n", REFUSED),
        (["column", "1", "U8F0", "--into", "n" * 1024, "--header"], b"v\n7.4\n", 0, b"v," + b"n" * 1024 + b"\n7.4,7\n"),
    ),
    "fixed_tool": (
        # exponents at the ends of i32 take no time
        ([], b"".join(b"10 U8F0 U8F0 checked 1e-%d\n" % e for e in range(2_147_482_649, 2_147_483_649)), 0, b"0 0 fits\n" * 1_000),
        ([], exponents(b"10 U8F0 U8F0 wrapping %s\n", b""), 0, b"0 0 overflowed\n" * 2_000),
        ([], exponents(b"10 U8F0 U8F0 wrapping %s\n", b"-"), 0, b"0 0 fits\n" * 2_000),
    ),
    "least_tool": (
        (["10"], b"0.1\n", 0, no_format(1)),
        (["10"], b"0\n0.1\n", 0, no_format(2)),
        (["16"], b"ffffffffffffffff.8\n", 0, no_format(1)),
    ),
}


def main():
    built, tally = built_option(__doc__), Tally()
    for name, runs in RUNS.items():
        path = program(name, built)
        if path is None:
            print(f"{name} is not built, and so it was not run over large inputs")
            continue
        for words, given, status, output, *told in runs:
            ran = run(path, words, given)
            is_told = [ran.stderr] == told if told else ran.stderr.startswith(b"fixed: ") if status else ran.stderr == b""
            is_right = (ran.returncode, ran.stdout) == (status, output) and is_told
            tally.check(is_right, f"{name} {words!r:.80} {given[:40]!r}: {ran.returncode}, {ran.stdout!r:.200}, {ran.stderr!r:.200}")
    return tally.end("answers to large inputs")


if __name__ == "__main__":
    sys.exit(main())
