#!/usr/bin/env python3
"""Compares formats of every width from 1 to 64, over the library for C, with whole-number arithmetic.

    widths.py --compare LIBRARY [--count N] [--seed S] [--widest N]

LIBRARY is the path of libfixed.so. Every bit pattern of every format of up to `--widest` bits (12), and of up to 8 bits where the fraction
is longer than the width, reads back from its shortest text and from its exact one, and these are what the reference prints. At both
ends of every width a numeral is read at the end, at half an ulp and an ulp past it, under each policy in each mode. And N seeded
numerals are read, printed and moved over all 8,320 formats.
"""
import ctypes
import itertools
import sys
from ctypes import POINTER, c_char_p, c_int64, c_size_t, c_uint32

from harness import main
from library import BAD_FORMAT, MODE_NAMES, POLICIES, Format, Library, answered, brought, for_c, moved, number_of, places_text
from reference import ends, numeral_for, read_number, shortest

ROOM = 87
ALL = [(signed, width, frac) for width in range(1, 65) for signed in (False, True) for frac in range(65)]


class Widths(Library):
    """The calls of the library that read and print, too."""

    def __init__(self, path):
        super().__init__(path)
        calls = ctypes.CDLL(path)
        self.calls["fixed_print_bits"] = call = calls.fixed_print_bits
        call.argtypes, call.restype = (c_int64, Format, c_char_p, c_size_t, POINTER(c_size_t)), c_uint32

    def read(self, text, shape, radix=10, policy=0, mode=0):
        return self.number("fixed_read_text", text, len(text), radix, Format(*map(int, shape)), policy, mode)

    def printed(self, bits, shape):
        return self.text("fixed_print_bits", ROOM, bits, Format(*map(int, shape)))

    def exact(self, bits, shape):
        return self.text("fixed_print_places", ROOM, bits, Format(*map(int, shape)), shape[2])

    def moved(self, bits, shape, target, policy, mode):
        return self.number("fixed_convert_bits_mode", bits, Format(*map(int, shape)), Format(*map(int, target)), policy, mode)


def read_right(text, shape, radix=10, policy=0, mode=0):
    return answered(lambda: brought(policy, shape, read_number(text, radix, shape[2], MODE_NAMES[mode])))


def patterns(tally, library, widest):
    """Every bit pattern of every format of up to so many bits."""
    for shape in ALL:
        if shape[1] > (widest if shape[2] <= shape[1] else min(widest, 8)):
            continue
        low, high = ends(shape)
        for number in range(low, high + 1):
            text, value = library.printed(number, shape), library.exact(number, shape)
            right = [(0, shortest(number, shape[2]).encode()), (0, places_text(number, shape[2], shape[2], "nearest").encode())]
            is_right = [text, value] == right and all(library.read(it[1], shape) == (0, (number, 0)) for it in (text, value))
            tally.check(is_right, f"a bit pattern printed and read back: {(shape, number, text, value)}")


def width_ends(tally, library):
    """Numerals at the ends of every width under each policy in each mode."""
    for signed, width, frac in ALL:
        if frac not in (0, width // 2, width, (width + 64) // 2, 64):
            continue
        shape = signed, width, frac
        for end, way in zip(ends(shape), (-1, 1)):
            for half_ulps in (0, 1, 2, 3, 2 << width):
                text = places_text(2 * end + way * half_ulps, frac + 1, frac + 1, "nearest").encode()
                for policy, mode in itertools.product(range(len(POLICIES)), range(len(MODE_NAMES))):
                    found, right = library.read(text, shape, 10, policy, mode), read_right(text, shape, 10, policy, mode)
                    tally.same(found, right, (shape, text, policy, mode))


def seeded(tally, library, pick, count):
    """Seeded numerals, each read into a format, printed, and moved to another; all formats come in turn."""
    for i in range(count):
        shape, target = ALL[i % len(ALL)], pick.choice(ALL)
        radix, policy, mode = pick.choice((2, 8, 10, 10, 16)), pick.randrange(len(POLICIES)), pick.randrange(4)
        text = numeral_for(pick, radix, shape)
        found = library.read(text, shape, radix, policy, mode)
        is_right = found == read_right(text, shape, radix, policy, mode)
        if is_right and found[1]:
            bits = found[1][0]
            number = number_of(bits, shape)
            is_right = (library.printed(bits, shape) == (0, shortest(number, shape[2]).encode())
                        and library.exact(bits, shape) == (0, places_text(number, shape[2], shape[2], "nearest").encode())
                        and library.moved(bits, shape, target, policy, mode) == answered(
                            lambda: brought(policy, target, moved(number, shape[2], target[2], MODE_NAMES[mode]))))
        tally.check(is_right, f"a numeral read, printed and moved: {(shape, target, text, radix, policy, mode)}")


def none_past(tally, library):
    """Widths of 0 and of more than 64 bits are no formats, nor is a fraction of more than 64 bits."""
    for shape in [(True, 0, 0), (True, 0, 25), (False, 65, 0), (True, 128, 8), *((False, width, 65) for width in range(1, 65))]:
        tally.same(library.printed(for_c(shape, 0), shape)[0], BAD_FORMAT, shape)


def compare(path, pick, given, tally):
    library = Widths(path)
    patterns(tally, library, given.widest)
    width_ends(tally, library)
    seeded(tally, library, pick, given.count)
    none_past(tally, library)


def arguments(words):
    words.add_argument("--widest", type=int, default=12)


if __name__ == "__main__":
    sys.exit(main(__doc__, compare, "bit patterns, numerals and formats compared", 20_000, arguments=arguments))
