#!/usr/bin/env python3
"""An independent writer of constants files, worked out with whole numbers alone.

It follows the rules in man/constants_tool.1 and shares no code with the program: a literal's value is a fraction of whole numbers
without a bound, and its text is built digit by digit from the bits.

    constants.py [FORM [GUARD]] < file  writes the file in its one canonical form, as a C header (c) or as Rust (rust), or its
                                        first fault
    constants.py --compare PROGRAM      makes seeded files, hands them to PROGRAM one by one in each form, and compares
"""
import re
import sys

from harness import main, run
from reference import DIGITS, WIDTHS, WORDS, Refused, digits_for, ends, format_of, rounded, separators, shortest

LONGEST = 1_048_576
NAME = re.compile(rb"[A-Za-z_][A-Za-z0-9_]{0,63}\Z")
PREFIXES = {b"0b": 2, b"0o": 8, b"0x": 16}
# What <stdint.h> names: types, their ends and widths, and macros of constants.
KINDS = [*(f"{size}{width}" for size in ("", "_LEAST", "_FAST") for width in WIDTHS), "PTR", "MAX"]
STDINT = {
    *(f"{sign}int{kind.lower()}_t" for sign in ("", "u") for kind in KINDS),
    *(f"INT{kind}_{end}" for kind in KINDS for end in ("MIN", "MAX", "WIDTH")),
    *(f"UINT{kind}_{end}" for kind in KINDS for end in ("MAX", "WIDTH")),
    *(f"{kind}_{end}" for kind in ("PTRDIFF", "SIG_ATOMIC", "WCHAR", "WINT") for end in ("MIN", "MAX", "WIDTH")),
    *(f"{sign}INT{kind}_C" for sign in ("", "U") for kind in (*WIDTHS, "MAX")),
    "SIZE_MAX", "SIZE_WIDTH",
}
# What no constant may be named in a language: its keywords, and for C what the header that it includes names.
RESERVED = {
    "c": set(
        """alignas alignof asm auto bool break case char const constexpr continue default defined do double else enum extern false
        float for goto if inline int long nullptr register restrict return short signed sizeof static static_assert struct switch
        thread_local true typedef typeof typeof_unqual union unsigned void volatile while _Alignas _Alignof _Atomic _BitInt _Bool
        _Complex _Decimal128 _Decimal32 _Decimal64 _Generic _Imaginary _Noreturn _Static_assert _Thread_local""".split()
    ) | STDINT,
    "rust": set(
        """_ abstract as async await become box break const continue crate do dyn else enum extern false final fn for gen if impl in
        let loop macro match mod move mut override priv pub ref return self Self static struct super trait true try type typeof
        unsafe unsized use virtual where while yield""".split()
    ),
}
MESSAGES = WORDS | {"MisplacedUnderscore": "misplaced underscore found in string"}


def literal_parts(rest, radix):
    """Whole digits, fraction digits, kind of separator and exponent of what follows a literal's sign and prefix."""
    by_radix, by_two = separators(radix)
    digits = DIGITS[:radix] + DIGITS[:radix].upper()
    whole, fraction, exponent_digits = bytearray(), bytearray(), bytearray()
    part, separator, exponent_sign, signed = whole, b"", 1, False
    for byte in rest:
        in_exponent = part is exponent_digits
        if byte == 0x5F:
            if not part:
                raise Refused("MisplacedUnderscore")
        elif in_exponent and byte in b"0123456789":
            part.append(byte)
            if not -(2**31) <= exponent_sign * int(part) < 2**31:
                raise Refused("ExpOverflow")
        elif not in_exponent and byte in digits:
            part.append(byte)
        elif byte in b"+-":
            if not in_exponent or part or signed:
                raise Refused("MisplacedSign")
            exponent_sign, signed = (-1 if byte == 0x2D else 1), True
        elif byte in by_radix or byte in by_two:
            if in_exponent:
                raise Refused("TooManyExp")
            part, separator = exponent_digits, bytes([byte])
        elif byte == 0x2E and part is whole:
            part = fraction
        elif byte == 0x2E and part is fraction:
            raise Refused("TooManyPoints")
        else:
            raise Refused("ExpInvalidDigit" if in_exponent else "InvalidDigit")
    if not whole and not fraction:
        raise Refused("NoDigits")
    if separator and not exponent_digits:
        raise Refused("ExpNoDigits")
    by_two_scaled = bool(separator) and separator in by_two
    return bytes(whole), bytes(fraction), by_two_scaled, exponent_sign * int(exponent_digits or b"0")


def literal_bits(text, shape):
    """The bits of a literal in a format."""
    negative = shape[0] and text[:1] == b"-"
    rest = text[1:] if negative else text
    radix = PREFIXES.get(rest[:2], 10)
    if radix != 10:
        rest = rest[2:].lstrip(b"_")
    whole, fraction, is_by_two, exponent = literal_parts(rest, radix)
    mantissa = int((whole + fraction) or b"0", radix)
    if mantissa == 0:
        return 0
    # an exponent far outside of every format changes no answer
    most = 8 * (len(whole) + len(fraction)) + 4096
    exponent = max(-most, min(exponent, most))
    num, den = mantissa << shape[2], radix ** len(fraction)
    base = 2 if is_by_two else radix
    if exponent >= 0:
        num *= base**exponent
    else:
        den *= base**-exponent
    bits = (-1 if negative else 1) * rounded(negative, num, den, "nearest")
    low, high = ends(shape)
    if not low <= bits <= high:
        raise Refused("Overflow")
    return bits


def hexadecimal(bits, frac):
    """The exact value of the bits in hexadecimal, with the prefix."""
    whole, rest = divmod(abs(bits), 1 << frac)
    text = ("-" if bits < 0 else "") + f"0x{whole:x}"
    if rest:
        places = -(-frac // 4)
        text += "." + f"{rest << (4 * places - frac):0{places}x}".rstrip("0")
    return text


class Faulty(Exception):
    """The first fault of a file: its line and its message."""


def entry_of(line, lines_of_names, reserved):
    """The name, format word, format and bits of a line."""
    fields = line.split(b" ", 3)
    if len(fields) < 4:
        raise Refused("missing field")
    name, equals, literal, word = fields
    if not NAME.match(name) or name.decode() in reserved:
        raise Refused("bad name")
    if equals != b"=":
        raise Refused("missing equals sign")
    shape = format_of(word)
    if shape is None:
        raise Refused("bad format")
    try:
        bits = literal_bits(literal, shape)
    except Refused as refused:
        raise Refused(MESSAGES[str(refused)]) from None
    if name in lines_of_names:
        raise Refused(f"duplicate of line {lines_of_names[name]}")
    return name.decode(), word.decode(), shape, bits


def entries_of(data, reserved=frozenset()):
    """The entries of a file, of which none has a reserved name."""
    lines = data.split(b"\n")
    if not lines[-1]:
        lines.pop()
    entries, lines_of_names = [], {}
    for number, line in enumerate(lines, 1):
        if not line or line[:1] == b"#":
            continue
        try:
            entry = entry_of(line, lines_of_names, reserved)
        except Refused as refused:
            raise Faulty(f"error: line {number}: {refused}\n") from None
        lines_of_names[entry[0].encode()] = number
        entries.append(entry)
    return entries


def canonical(entries):
    """The one canonical text of entries."""
    return "".join(f"{name} = {hexadecimal(bits, shape[2])} {word}\n" for name, word, shape, bits in entries)


def number_of_c(shape, bits):
    """Bits as an expression of C: a macro of <stdint.h> takes no minus and nothing past the type's range."""
    macro = f"{'' if shape[0] else 'U'}INT{shape[1]}_C"
    if bits >= 0:
        return f"{macro}(0x{bits:x})"
    if bits == -(1 << (shape[1] - 1)):
        return f"(-{macro}(0x{-bits - 1:x}) - 1)"
    return f"(-{macro}(0x{-bits:x}))"


def header(entries, guard):
    """A C header of entries."""
    lines = [f"#define {name} {number_of_c(shape, bits)} /* {word}, {shortest(bits, shape[2])} */\n" for name, word, shape, bits in entries]
    text = "#include <stdint.h>\n\n" + "".join(lines)
    return f"#ifndef {guard}\n#define {guard}\n\n{text}\n#endif\n" if guard else text


def rust(entries):
    """Entries as Rust."""
    lines = []
    for name, word, _, bits in entries:
        kind = f"fixed::types::{word}"
        lines.append(f"pub const {name}: {kind} = {kind}::from_bits({'-' if bits < 0 else ''}0x{abs(bits):x});\n")
    return "".join(lines)


def answer(data, form="", guard=""):
    """What is written for an input in a form, and the status."""
    if len(data) > LONGEST:
        return "", 6
    try:
        entries = entries_of(data, RESERVED.get(form, set()) | {guard})
        return {"": canonical, "c": lambda es: header(es, guard), "rust": rust}[form](entries), 0
    except Faulty as fault:
        return str(fault), 1


# ---- seeded files for a comparison


def literal_for(pick, shape):
    """A literal, mostly one that is in range."""
    if pick.randrange(60) == 0:
        return bytes(pick.choice(b"019afeEpP@.+-_xbo") for _ in range(pick.randrange(8)))
    radix, prefix = pick.choice(((10, b""), (10, b""), (2, b"0b"), (8, b"0o"), (16, b"0x")))
    low, high = ends(shape)
    most = high >> shape[2]
    whole = b""
    number = pick.randrange(0, most + 1) >> pick.choice((0, 0, 3, 8))
    while number or not whole:
        number, digit = divmod(number, radix)
        whole = DIGITS[digit : digit + 1] + whole
    fraction = digits_for(pick, radix, pick.randrange(0, pick.choice((3, 8, 30))))
    text = whole + (b"." + fraction if fraction or pick.randrange(3) == 0 else b"")
    if pick.randrange(4) == 0:
        by_radix, by_two = separators(radix)
        mark = pick.choice((by_radix + by_two).decode()).encode()
        text += mark + str(pick.randrange(-4, pick.choice((1, 1, 1, 3)))).encode()
    if pick.randrange(3) == 0:
        # after a digit an underscore is passed over; anywhere it may be out of place
        at = 1 if pick.randrange(8) else pick.randrange(len(text) + 1)
        text = text[:at] + b"_" * pick.randrange(1, 3) + text[at:]
    sign = b"-" if low < 0 and pick.randrange(2) else pick.choice((b"",) * 60 + (b"-", b"+"))
    return sign + prefix + text


def type_shape(pick):
    """A format of as many bits as an integer type has."""
    width = pick.choice(WIDTHS)
    return pick.random() < 0.5, width, pick.choice((0, width, pick.randrange(width + 1)))


def line_for(pick, names, shape=None):
    """A line, mostly a literal of a format, of any where none is given."""
    kind = pick.randrange(30)
    if kind < 2:
        return pick.choice((b"", b"# ", b"#", b"# A = 1 U8F0"))
    shape = shape or type_shape(pick)
    width = shape[1]
    word = f"{'I' if shape[0] else 'U'}{width - shape[2]}F{shape[2]}".encode()
    fields = [names.pop(), b"=", literal_for(pick, shape), word]
    if pick.randrange(60) == 0:
        fields[pick.randrange(4)] = pick.choice((b"", b"9A", b"A", b"==", b"U24F0", b"I8F08", b"A" * 65, b"B.C"))
    if pick.randrange(120) == 0:
        fields.pop()
    return b" ".join(fields)


def file_for(pick):
    names = [f"{pick.choice('ABCxyz_')}{pick.randrange(10**6)}_{at}".encode() for at in range(60)]
    for words in RESERVED.values():
        names[pick.randrange(60)] = pick.choice(sorted(words)).encode()
    lines = [line_for(pick, names) for _ in range(pick.randrange(0, 12))]
    if lines and pick.randrange(5) == 0:
        lines.append(pick.choice(lines))
    return b"\n".join(lines) + (b"\n" if pick.randrange(2) else b"")


def compare(program, pick, given, tally):
    kept = 0
    for at in range(given.count):
        data = file_for(pick)
        for words in ((("c",), ("c", "GUARD_H"), ("rust",))[at % 3], ()):
            ran, (wanted, status) = run(program, words, data), answer(data, *words)
            tally.same((ran.stdout.decode(), ran.returncode), (wanted, status), (words, data))
        kept += status == 0
        if status == 0 and wanted:
            tally.same(run(program, [], ran.stdout).stdout, ran.stdout, "what is written, written anew")
    print(f"{kept} files without a fault")


def arguments(words):
    words.add_argument("form", nargs="?", default="", choices=("", "c", "rust"))
    words.add_argument("guard", nargs="?", default="")


if __name__ == "__main__":
    sys.exit(main(__doc__, compare, "answers about files compared", 2000, lambda given: answer(sys.stdin.buffer.read(), given.form, given.guard), arguments))
