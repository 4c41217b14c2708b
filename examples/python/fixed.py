"""The library from Python, over ctypes: LIBFIXED names the shared library, or it is found by its name."""
import ctypes
import os
from ctypes import c_char_p, c_int32, c_int64, c_size_t, c_uint32

LIBRARY = ctypes.CDLL(os.environ.get("LIBFIXED", "libfixed.so.1"))
CHECKED, SATURATING, WRAPPING = 0, 1, 2
NEAREST, FLOOR, CEIL, ZERO = 0, 1, 2, 3


class Format(ctypes.Structure):
    """A format: whether it is signed, its width in bits, and how many of them are after the point."""

    _fields_ = [("is_signed", c_uint32), ("width", c_uint32), ("frac", c_uint32)]


class Number(ctypes.Structure):
    """Bits, and whether a number on the way was out of its format."""

    _fields_ = [("bits", c_int64), ("overflowed", c_uint32)]


POINTER = ctypes.POINTER
for name, types in {
    "fixed_read_text": (c_char_p, c_size_t, c_uint32, Format, c_uint32, c_uint32, POINTER(Number)),
    "fixed_print_bits": (c_int64, Format, c_char_p, c_size_t, POINTER(c_size_t)),
    "fixed_compare_bits": (c_int64, Format, c_int64, Format, POINTER(c_int32)),
    "fixed_message": (c_uint32, c_char_p, c_size_t, POINTER(c_size_t)),
}.items():
    call = getattr(LIBRARY, name)
    call.argtypes, call.restype = types, c_uint32


class FixedError(ValueError):
    """A call was refused; `code` says why."""

    def __init__(self, code):
        out, count = ctypes.create_string_buffer(48), c_size_t()
        LIBRARY.fixed_message(code, out, 48, ctypes.byref(count))
        super().__init__(out.value.decode())
        self.code = code


def checked(code):
    """Raises what a code says."""
    if code:
        raise FixedError(code)


def read(text, form, radix=10, policy=CHECKED, mode=NEAREST):
    """The bits of a numeral in a format, and whether it overflowed."""
    given, number = text.encode(), Number()
    checked(LIBRARY.fixed_read_text(given, len(given), radix, form, policy, mode, ctypes.byref(number)))
    return number.bits, bool(number.overflowed)


def show(bits, form):
    """The shortest decimal that reads back as the bits."""
    out, count = ctypes.create_string_buffer(49), c_size_t()
    checked(LIBRARY.fixed_print_bits(bits, form, out, 49, ctypes.byref(count)))
    return out.value.decode()


def main():
    i16f16 = Format(1, 32, 16)
    print(read("3.14159", i16f16), show(205887, i16f16))
    try:
        read("1.75.", i16f16)
    except FixedError as error:
        print(error)


if __name__ == "__main__":
    main()
