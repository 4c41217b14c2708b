#!/usr/bin/env python3
"""Compares the calls of the library for C that read floats, give doubles, or print and compare rows with exact fractions.

    floats.py --compare LIBRARY [--shapes N] [--count N] [--seed S]

LIBRARY is the path of libfixed.so. Every exponent of binary64 and binary32 is read with the least, the greatest, a half and random
fractions and both signs, in N formats for each mode and policy, once by rows and some of it by the single call. A float's value is
that of Python's `struct` and `fractions`, and the double of a number is what Python's division of whole numbers gives, which rounds to
the nearest, ties to even.
"""
import ctypes
import itertools
import struct
import sys
from ctypes import POINTER, byref, c_char_p, c_double, c_float, c_int32, c_int64, c_size_t, c_uint32
from fractions import Fraction

from harness import main
from library import (BAD_FORMAT, BAD_MODE, BAD_POLICY, BAD_ROWS, MODE_NAMES, NO_ROOM, POLICIES, Format, Number, answered, bits_for,
                     brought, compare, is_format, number_of, of, print_places, shape_for, wanted)
from reference import rounded

BAD_BITS, NOT_FINITE = 16, 27
LAYOUTS = {"double": ("<Q", "<d", 52, 11, c_double), "float": ("<I", "<f", 23, 8, c_float)}


def floats_of(pick, name):
    """Every exponent of a layout with telling fractions and both signs, as bits: infinities and NaNs are those of the last."""
    _, _, places, exponent_bits, _ = LAYOUTS[name]
    for exponent in range(1 << exponent_bits):
        fractions = {0, 1, (1 << places) - 1, 1 << (places - 1), pick.getrandbits(places), pick.getrandbits(places)}
        for fraction in sorted(fractions | {1 << pick.randrange(places)}):
            for sign in (0, 1):
                yield (sign << exponent_bits | exponent) << places | fraction


def value_of(name, bits):
    """The exact value of a float and its sign, or None."""
    whole, real, places, exponent_bits, _ = LAYOUTS[name]
    if bits >> places & ((1 << exponent_bits) - 1) == (1 << exponent_bits) - 1:
        return None
    return bits >> (places + exponent_bits), Fraction(struct.unpack(real, struct.pack(whole, bits))[0])


def read(value, shape, policy, mode):
    wanted(is_format(shape), BAD_FORMAT)
    wanted(policy < len(POLICIES), BAD_POLICY)
    wanted(mode < len(MODE_NAMES), BAD_MODE)
    wanted(value is not None, NOT_FINITE)
    negative, exact = value
    ulps = rounded(bool(negative), abs(exact.numerator) << shape[2], exact.denominator, MODE_NAMES[mode])
    return brought(policy, shape, -ulps if negative else ulps)


def double(bits, shape):
    wanted(is_format(shape), BAD_FORMAT)
    number = number_of(bits, shape)
    wanted(number is not None, BAD_BITS)
    return struct.unpack("<Q", struct.pack("<d", number / (1 << shape[2])))[0]


class Rows:
    """The calls over rows, each as its codes and what it left."""

    def __init__(self, path):
        self.calls = ctypes.CDLL(path)
        codes = POINTER(c_uint32), c_size_t, POINTER(c_size_t)
        for name, types in {
            "fixed_read_double": (c_double, Format, c_uint32, c_uint32, POINTER(Number)),
            "fixed_read_doubles": (c_char_p, c_size_t, Format, c_uint32, c_uint32, POINTER(Number), c_size_t, *codes),
            "fixed_read_floats": (c_char_p, c_size_t, Format, c_uint32, c_uint32, POINTER(Number), c_size_t, *codes),
            "fixed_double_of_bits": (c_int64, Format, POINTER(c_double)),
            "fixed_doubles_of_bits": (POINTER(c_int64), c_size_t, Format, POINTER(c_double), c_size_t, *codes),
            "fixed_print_places_rows": (POINTER(c_int64), c_size_t, Format, c_uint32, c_uint32, c_char_p, c_size_t, c_size_t, *codes),
            "fixed_compare_rows": (POINTER(c_int64), c_size_t, Format, POINTER(c_int64), c_size_t, Format, POINTER(c_int32), c_size_t, *codes),
        }.items():
            getattr(self.calls, name).argtypes = types
            getattr(self.calls, name).restype = c_uint32

    def call(self, name, count, out, *given):
        """What the call returns, its codes, the count of refused rows, and what it left in `out`."""
        codes, refused = (c_uint32 * (count + 1))(), c_size_t(77)
        code = getattr(self.calls, name)(*given, codes, count, byref(refused))
        return code, list(codes)[:count], refused.value, out


def fits(found, right, none, item):
    """Whether rows are what a reference gives for each: `item` takes what was left for a row."""
    code, codes, refused, out = found
    return (code, codes, refused) == (0, [one for one, _ in right], sum(1 for one, _ in right if one)) and [item(out[i]) for i in range(len(right))] == [
        none if one else what for one, what in right]


def try_reading(pick, rows, name, shapes, tally):
    """Compares what each float of a layout is read as."""
    bits = list(floats_of(pick, name))
    values, packed, count = [value_of(name, each) for each in bits], struct.pack(f"<{len(bits)}{LAYOUTS[name][0][1]}", *bits), len(bits)
    for mode, policy in itertools.product(range(len(MODE_NAMES) + 1), range(len(POLICIES) + 1)):
        for _ in range(shapes if mode < len(MODE_NAMES) and policy < len(POLICIES) else 1):
            shape, out = shape_for(pick), (Number * count)()
            right = [answered(read, value, shape, policy, mode) for value in values]
            found = rows.call(f"fixed_read_{name}s", count, out, packed, count, of(shape), policy, mode, out, count)
            is_right = fits(found, right, (0, 0), lambda number: (number.bits, number.overflowed))
            tally.check(is_right, f"differs: {(name, shape, policy, mode)}", count)
            if name == "double":
                tally.check(not singles_differ(pick, rows, bits, right, shape, policy, mode), f"differs alone: {(shape, policy, mode)}", 0)


def singles_differ(pick, rows, bits, right, shape, policy, mode):
    """Whether the single call gives some of these doubles otherwise."""
    for i in pick.sample(range(len(bits)), 50):
        out = Number(99, 99)
        code = rows.calls.fixed_read_double(struct.unpack("<d", struct.pack("<Q", bits[i]))[0], of(shape), policy, mode, byref(out))
        if (code, (out.bits, out.overflowed)) != (right[i][0], right[i][1] or (99, 99)):
            print("differs:", hex(bits[i]), shape, policy, mode)
            return True
    return False


def try_doubles(pick, rows):
    """Doubles of bits, by rows and one by one, and for up to 53 bits read back."""
    shape, count = shape_for(pick), pick.randrange(6)
    given = [bits_for(pick, shape) for _ in range(count)]
    right = [answered(double, bits, shape) for bits in given]
    out = (c_double * (count + 1))(*[9.0] * (count + 1))
    found = rows.call("fixed_doubles_of_bits", count, out, (c_int64 * (count + 1))(*given), count, of(shape), out, count)
    agree = fits(found, right, 0, lambda real: struct.unpack("<Q", struct.pack("<d", real))[0])
    for bits, (code, what) in zip(given, right):
        one, back = c_double(9.0), Number()
        agree &= rows.calls.fixed_double_of_bits(bits, of(shape), byref(one)) == code
        agree &= struct.pack("<d", one.value) == (struct.pack("<d", 9.0) if code else struct.pack("<Q", what))
        if code == 0 and shape[1] <= 53:
            mode = pick.randrange(len(MODE_NAMES))
            agree &= rows.calls.fixed_read_double(one.value, of(shape), 0, mode, byref(back)) == 0 and (back.bits, back.overflowed) == (bits, 0)
    return (shape, given), agree


def try_orders(pick, rows):
    shape, other, count = shape_for(pick), shape_for(pick), pick.randrange(6)
    left, right = [bits_for(pick, shape) for _ in range(count)], [bits_for(pick, other) for _ in range(count)]
    out, array = (c_int32 * (count + 1))(*[9] * (count + 1)), c_int64 * (count + 1)
    found = rows.call("fixed_compare_rows", count, out, array(*left), count, of(shape), array(*right), count, of(other), out, count)
    return (shape, other, left, right), fits(found, [answered(compare, a, shape, b, other) for a, b in zip(left, right)], 0, int)


def try_places(pick, rows):
    shape, size, places, count = shape_for(pick), pick.choice((0, 1, 8, 20, 87)), pick.choice((0, 2, 3, 19, 64, 65)), pick.randrange(6)
    mode = pick.randrange(10)
    given = [bits_for(pick, shape) for _ in range(count)]
    out = ctypes.create_string_buffer(b"\xaa" * (size * count + 1), size * count + 1)
    found = rows.call("fixed_print_places_rows", count, out, (c_int64 * (count + 1))(*given), count, of(shape), places, mode, out, size * count, size)
    codes, texts = [], b""
    for bits in given:
        code, text = answered(print_places, bits, shape, places, mode)
        code = NO_ROOM if code == 0 and len(text) > size else code
        codes.append(code)
        texts += b"\xaa" * size if code else text.ljust(size, b"\0")
    return (shape, size, places, given), found[:3] == (0, codes, sum(map(bool, codes))) and out.raw[:-1] == texts


def try_sizes(pick, rows):
    """Sizes that are not those of the rows are refused, and nothing is written."""
    shape, count = of((True, 16, 8)), pick.randrange(1, 5)
    less, ints, numbers, reals = count - 1, (c_int64 * count)(), (Number * count)(), (c_double * count)(*[9.0] * count)
    found = [
        rows.call("fixed_read_doubles", count, numbers, bytes(8 * count), less, shape, 0, 0, numbers, count),
        rows.call("fixed_read_floats", count, numbers, bytes(4 * count), count, shape, 0, 0, numbers, less),
        rows.call("fixed_doubles_of_bits", count, reals, ints, less, shape, reals, count),
        rows.call("fixed_compare_rows", count, reals, ints, count, shape, ints, less, shape, (c_int32 * count)(), count),
        rows.call("fixed_print_places_rows", count, reals, ints, count, shape, 2, 0, ctypes.create_string_buffer(count), count, 2),
    ]
    return (count,), all(one[:3] == (BAD_ROWS, [0] * count, 77) for one in found) and list(reals) == [9.0] * count


def compare_calls(path, pick, given, tally):
    rows = Rows(path)
    for name in LAYOUTS:
        try_reading(pick, rows, name, given.shapes, tally)
    for _ in range(given.count):
        called, agree = pick.choice((try_doubles, try_orders, try_places, try_sizes))(pick, rows)
        tally.check(agree, f"differs: {called}")


def arguments(words):
    words.add_argument("--shapes", type=int, default=3)


if __name__ == "__main__":
    sys.exit(main(__doc__, compare_calls, "floats and calls over rows compared", 20_000, arguments=arguments))
