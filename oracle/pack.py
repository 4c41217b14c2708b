#!/usr/bin/env python3
"""Independent answers to `fixed pack`, `fixed unpack` and `fixed repack`, in formats of any width.

It works with whole numbers alone and shares no code with the program. A float's value is that of Python's `struct` and `fractions`.

    pack.py --compare PROGRAM [--count N] [--seed S]   runs PROGRAM on seeded lines, words and floats, and compares
    with --floats N also                               on N floats: every exponent, extreme and random fractions, both signs;
                                                      and on N words of every width to floats and back
"""
import struct
import sys
from fractions import Fraction

from convert import laid_out, layout_for, moved, numeral_of
from harness import main, run
from reference import WORDS, Refused, image, numeral_for, read_number, rounded, shortest
from show import WORD_REFUSALS, word_for, word_number

# How many lines or words a run has at most.
LINES = 400
POLICIES = ("checked", "saturating", "wrapping", "symmetric")
MODES = ("nearest", "floor", "ceil", "zero")
ALL_MODES = (*MODES, "ties-away", "ties-zero", "ties-up", "ties-down", "away")
# For each layout of floats: bytes, bits of the fraction and of the exponent, and how `struct` names it.
LAYOUTS = {"f64": (8, 52, 11, "d"), "f32": (4, 23, 8, "f")}


def length_of(shape):
    """How many bytes a word of a format has."""
    return -(-shape[1] // 8)


def lines_of(data):
    """The lines of an input."""
    lines = data.split(b"\n")
    return lines if lines[-1] else lines[:-1]


def packed(data, read, causes, shape, endian, layout=(False, False, "")):
    """The words of the lines before the first that is refused, and that line's number and cause, or None. `read` gives the bits of a
    line's numeral or word; a skipped line has no word."""
    words = bytearray()
    for place, line in enumerate(lines_of(data), 1):
        text = numeral_of(line, layout)
        if text is None:
            continue
        try:
            bits = read(text)
        except Refused as why:
            return bytes(words), (place, causes[str(why)])
        words += (bits % (1 << shape[1])).to_bytes(length_of(shape), endian)
    return bytes(words), None


def unpacked(data, shape, target, policy, target_mode, endian):
    """The lines of an input's words with all of each answer, whether a word is refused, and how many bytes are left over."""
    count = length_of(shape)
    lines, is_refused = [], False
    for start in range(0, len(data) - count + 1, count):
        number = int.from_bytes(data[start : start + count], endian)
        if number >= 1 << shape[1]:
            lines.append(f"error: {WORD_REFUSALS['wide']}")
            is_refused = True
            continue
        signed = number - (1 << shape[1]) if shape[0] and number >> (shape[1] - 1) else number
        try:
            bits, is_out = image(policy, target, moved(signed, shape[2], target[2], target_mode))
            lines.append(f"{shortest(bits, target[2])} {bits} {'overflowed' if is_out else 'fits'}")
        except Refused as why:
            lines.append(f"error: {WORDS[str(why)]}")
            is_refused = True
    return "".join(line + "\n" for line in lines).encode(), is_refused, len(data) % count


def repacked(data, shape, target, policy, target_mode, endian, endian_out):
    """The words of the target before the first word that is refused, that word's number and cause, or None, and the bytes left over."""
    count, words = length_of(shape), bytearray()
    for place, start in enumerate(range(0, len(data) - count + 1, count), 1):
        number = int.from_bytes(data[start : start + count], endian)
        if number >= 1 << shape[1]:
            return bytes(words), (place, WORD_REFUSALS["wide"]), 0
        signed = number - (1 << shape[1]) if shape[0] and number >> (shape[1] - 1) else number
        try:
            bits = image(policy, target, moved(signed, shape[2], target[2], target_mode))[0]
        except Refused as why:
            return bytes(words), (place, WORDS[str(why)]), 0
        words += (bits % (1 << target[1])).to_bytes(length_of(target), endian_out)
    return bytes(words), None, len(data) % count


def shape_for(pick):
    width = pick.choice((8, 16, 32, 64, pick.randrange(1, 65)))
    return pick.random() < 0.5, width, pick.choice((0, width, pick.randrange(width + 1), pick.randrange(65)))


def word_of(shape):
    return f"{'I' if shape[0] else 'U'}{shape[1] - shape[2]}F{shape[2]}"


def input_for(pick, radix, shape):
    """Lines of numerals, rarely one that is none, with a newline at the end or without."""
    lines = [numeral_for(pick, radix, shape) for _ in range(pick.randrange(LINES))]
    lines = [line.replace(b"\n", b"") or b"0" for line in lines]
    return b"\n".join(lines) + (b"\n" if pick.random() < 0.5 else b"")


def clean_for(pick, shape):
    """Lines of numbers of a format, by their exact values."""
    low, high = (-(1 << shape[1] - 1), (1 << shape[1] - 1) - 1) if shape[0] else (0, (1 << shape[1]) - 1)
    numbers = [pick.choice((low, high, pick.randint(low, high))) for _ in range(pick.randrange(1, LINES))]
    return "".join(shortest(number, shape[2]) + "\n" for number in numbers).encode()


def packing_for(pick, radix, shape):
    """How lines are packed, their bits or the numbers of their numerals: how they are read, the causes of a refusal, and the words."""
    if pick.random() < 0.3:
        return lambda text: word_number(text, shape, radix), WORD_REFUSALS, ["--from", "bits"]
    policy, mode = pick.choice(POLICIES), pick.choice(MODES)
    return lambda text: image(policy.encode(), shape, read_number(text, radix, shape[2], mode))[0], WORDS, ["-p", policy, "-m", mode]


def pack_once(program, pick):
    """A run of pack, and a message where it differs."""
    radix, shape, endian = pick.choice((2, 8, 10, 10, 16)), shape_for(pick), pick.choice(("little", "big"))
    read, causes, named = packing_for(pick, radix, shape)
    layout, laid = layout_for(pick) if pick.random() < 0.5 else ((False, False, ""), [])
    if causes is WORD_REFUSALS:
        low, count = (1 << shape[1] - 1 if shape[0] else 0), pick.randrange(LINES)
        lines = [str(pick.getrandbits(shape[1]) - low).encode() if radix == 10 else word_for(pick, shape) for _ in range(count)]
        data = b"".join(line + b"\n" for line in lines)
    else:
        data = clean_for(pick, shape) if pick.random() < 0.3 else input_for(pick, radix, shape)
    if laid:
        data = b"\n".join(laid_out(pick, line) for line in data.split(b"\n"))
    words = ["pack", word_of(shape), "-r", str(radix), *named, *laid, "--endian", endian]
    ran = run(program, words, data)
    wanted, refused = packed(data, read, causes, shape, endian, layout)
    if (ran.stdout, ran.returncode) != (wanted, 1 if refused else 0):
        return f"{' '.join(words)}, {data[:80]!r}: {ran.stdout[:40]!r}, status {ran.returncode}, not {wanted[:40]!r}"
    if refused and not (f"line {refused[0]}, ".encode() in ran.stderr and refused[1].encode() in ran.stderr):
        return f"{' '.join(words)}: {ran.stderr!r} does not name line {refused[0]}: {refused[1]}"
    return None


def words_for(pick, shape, endian):
    """Random bytes, mostly words of a format."""
    data = bytearray(pick.randbytes(pick.randrange(8 * LINES)))
    if pick.random() < 0.8:
        count, over = length_of(shape), 8 * length_of(shape) - shape[1]
        for place in range(0 if endian == "big" else count - 1, len(data), count):
            data[place] &= 255 >> over
        del data[len(data) - len(data) % count :]
    return bytes(data)


def unpack_once(program, pick):
    """A run of unpack, and a message where it differs."""
    shape, target, policy, mode = shape_for(pick), shape_for(pick), pick.choice(POLICIES), pick.choice(MODES)
    endian = pick.choice(("little", "big"))
    data = words_for(pick, shape, endian)
    words = ["unpack", word_of(shape), word_of(target), "-p", policy, "--target-mode", mode, "--endian", endian, "--print", "all"]
    ran = run(program, words, data)
    wanted, refused, over = unpacked(data, shape, target, policy.encode(), mode, endian)
    if (ran.stdout, ran.returncode) != (wanted, 1 if refused or over else 0):
        return f"{' '.join(words)}, {data[:40]!r}: {ran.stdout[:80]!r}, status {ran.returncode}, not {wanted[:80]!r}"
    if over and f"bytes left over: {over}\n".encode() not in ran.stderr:
        return f"{' '.join(words)}: {ran.stderr!r} does not name {over} bytes"
    return None


def repack_once(program, pick):
    """A run of repack, and of unpack and pack in its place, and a message where one differs."""
    shape, target, policy, mode = shape_for(pick), shape_for(pick), pick.choice(POLICIES), pick.choice(MODES)
    endian, endian_out = pick.choice(("little", "big")), pick.choice(("little", "big"))
    data = words_for(pick, shape, endian)
    named = [word_of(shape), word_of(target), "-p", policy, "--target-mode", mode, "--endian", endian]
    words = ["repack", *named, "--endian-out", endian_out]
    ran = run(program, words, data)
    wanted, refused, over = repacked(data, shape, target, policy.encode(), mode, endian, endian_out)
    if (ran.stdout, ran.returncode) != (wanted, 1 if refused or over else 0):
        return f"{' '.join(words)}, {data[:40]!r}: {ran.stdout[:40]!r}, status {ran.returncode}, not {wanted[:40]!r}"
    if refused and not (f"word {refused[0]}, ".encode() in ran.stderr and refused[1].encode() in ran.stderr):
        return f"{' '.join(words)}: {ran.stderr!r} does not name word {refused[0]}: {refused[1]}"
    texts = run(program, ["unpack", *named], data).stdout
    by_text = run(program, ["pack", word_of(target), "--endian", endian_out], texts).stdout
    return None if by_text == wanted else f"{' '.join(words)}: by texts the words are {by_text[:40]!r}, not {wanted[:40]!r}"


def back_once(program, pick):
    """What is packed is unpacked to the texts of the numbers."""
    shape, endian = shape_for(pick), pick.choice(("little", "big"))
    data = clean_for(pick, shape)
    words = run(program, ["pack", word_of(shape), "--endian", endian], data).stdout
    texts = run(program, ["unpack", word_of(shape), "--endian", endian], words).stdout
    return None if texts == data else f"{word_of(shape)} {endian}: {data[:80]!r} comes back as {texts[:80]!r}"


def float_words(data, layout, shape, policy, mode, endian):
    """The words of the floats before the first that is refused, that float's number and cause, or None, and the bytes left over."""
    size, places, exponent_bits, real = LAYOUTS[layout]
    words = bytearray()
    for place, start in enumerate(range(0, len(data) - size + 1, size), 1):
        part = data[start : start + size]
        bits = int.from_bytes(part, endian)
        if bits >> places & ((1 << exponent_bits) - 1) == (1 << exponent_bits) - 1:
            return bytes(words), (place, "not a finite number"), 0
        value = abs(Fraction(struct.unpack(("<" if endian == "little" else ">") + real, part)[0]))
        is_negative = bits >> (places + exponent_bits) == 1
        ulps = rounded(is_negative, value.numerator << shape[2], value.denominator, mode)
        try:
            word = image(policy, shape, -ulps if is_negative else ulps)[0]
        except Refused as why:
            return bytes(words), (place, WORDS[str(why)]), 0
        words += (word % (1 << shape[1])).to_bytes(length_of(shape), endian)
    return bytes(words), None, len(data) % size


def float_for(pick, layout, exponent=None):
    """The bits of a float with this exponent, or any, and a telling fraction."""
    _, places, exponent_bits, _ = LAYOUTS[layout]
    exponent = pick.randrange(1 << exponent_bits) if exponent is None else exponent
    fraction = pick.choice((0, 1, (1 << places) - 1, 1 << (places - 1), 1 << pick.randrange(places), pick.getrandbits(places), pick.getrandbits(places)))
    return (pick.getrandbits(1) << exponent_bits | exponent) << places | fraction


def near_for(pick, layout, shape):
    """The bits of a float near the range of a format, and near a half of a step of it."""
    number = Fraction(pick.getrandbits(shape[1] + 1), 1 << (shape[2] + 1)) * pick.choice((1, -1))
    return int.from_bytes(struct.pack("<" + LAYOUTS[layout][3], float(number)), "little")


def floats_differ(program, pick, bits, layout, policy, mode, cut):
    """A run of pack over these floats and `cut` bytes more, and a message where it differs."""
    shape, endian = shape_for(pick), pick.choice(("little", "big"))
    bits = bits(shape)
    data = b"".join(each.to_bytes(LAYOUTS[layout][0], endian) for each in bits) + b"\0" * cut
    words = ["pack", "--from", layout, word_of(shape), "-p", policy, "-m", mode, "--endian", endian]
    ran = run(program, words, data)
    wanted, refused, over = float_words(data, layout, shape, policy.encode(), mode, endian)
    if (ran.stdout, ran.returncode) != (wanted, 1 if refused or over else 0):
        return f"{' '.join(words)}, {data[:80]!r}: {ran.stdout[:40]!r}, status {ran.returncode}, not {wanted[:40]!r}"
    if refused and not (f"float {refused[0]}, bytes ".encode() in ran.stderr and refused[1].encode() in ran.stderr):
        return f"{' '.join(words)}: {ran.stderr!r} does not name float {refused[0]}: {refused[1]}"
    if over and f"bytes left over: {over},".encode() not in ran.stderr:
        return f"{' '.join(words)}: {ran.stderr!r} does not name {over} bytes"
    return None


def floats_once(program, pick):
    """A run of pack over a few floats, some not finite, and a message where it differs."""
    layout, policy, mode = pick.choice(tuple(LAYOUTS)), pick.choice(POLICIES), pick.choice(ALL_MODES)

    def bits(shape):
        return [float_for(pick, layout) if pick.random() < 0.02 else near_for(pick, layout, shape) for _ in range(pick.randrange(LINES))]

    return floats_differ(program, pick, bits, layout, policy, mode, pick.randrange(LAYOUTS[layout][0]) if pick.random() < 0.3 else 0)


def nearest_bits(number, layout):
    """The bits of the float nearest to a fraction, ties to even. Python's own quotient of whole numbers is the nearest double; a float of
    single precision is the nearest of its neighbors."""
    size, _, _, real = LAYOUTS[layout]
    near = number.numerator / number.denominator
    if size == 8:
        return int.from_bytes(struct.pack("<d", near), "little")
    start = int.from_bytes(struct.pack("<f", near), "little")
    some = {bits for bits in (start - 1, start, start + 1) if bits & 0x7FFFFFFF < 0x7F800000 and bits >= 0}
    return min(some, key=lambda bits: (abs(Fraction(struct.unpack("<" + real, bits.to_bytes(4, "little"))[0]) - number), bits % 2))


def words_differ(program, shape, layout, endian, words, cut):
    """A run of unpack to floats over these words and `cut` bytes more, and of pack back if each is exact, and a message where one differs."""
    signed, width, frac = shape
    size = length_of(shape)
    data = b"".join(each.to_bytes(size, endian) for each in words) + b"\0" * cut
    wanted, refused = b"", None
    for place, word in enumerate(words, 1):
        if word >> width:
            refused = place
            break
        number = word - (1 << width) if signed and word >> (width - 1) else word
        wanted += nearest_bits(Fraction(number, 1 << frac), layout).to_bytes(LAYOUTS[layout][0], endian)
    called = ["unpack", "--to", layout, word_of(shape), "--endian", endian]
    ran = run(program, called, data)
    if (ran.stdout, ran.returncode) != (wanted, 1 if refused or cut else 0):
        return f"{' '.join(called)}, {data[:80]!r}: {ran.stdout[:40]!r}, status {ran.returncode}, not {wanted[:40]!r}"
    if refused and f"word {refused}, bytes ".encode() not in ran.stderr:
        return f"{' '.join(called)}: {ran.stderr!r} does not name word {refused}"
    if cut and not refused and f"within a word, bytes left over: {cut},".encode() not in ran.stderr:
        return f"{' '.join(called)}: {ran.stderr!r} does not name {cut} bytes"
    if refused or cut or width > LAYOUTS[layout][1] + 1:
        return None
    back = run(program, ["pack", "--from", layout, word_of(shape), "--endian", endian], ran.stdout)
    return None if (back.stdout, back.returncode) == (data, 0) else f"{' '.join(called)}: {data[:80]!r} comes back as {back.stdout[:80]!r}"


def float_back_once(program, pick):
    """A run of unpack to a few floats, and back, and a message where it differs."""
    shape, layout, endian = shape_for(pick), pick.choice(tuple(LAYOUTS)), pick.choice(("little", "big"))
    words = [pick.getrandbits(shape[1]) for _ in range(pick.randrange(LINES))]
    if words and shape[1] % 8 and pick.random() < 0.3:
        words[pick.randrange(len(words))] |= 1 << shape[1]
    return words_differ(program, shape, layout, endian, words, pick.randrange(length_of(shape)) if pick.random() < 0.3 else 0)


def compare_words(program, pick, count, tally):
    """Words of every width to floats and back: the ends of the range, ties of 53 and 24 bits, and random ones."""
    runs = [(width, layout) for width in range(1, 65) for layout in LAYOUTS]
    for width, layout in runs:
        ends = [0, 1, (1 << width) - 1, 1 << (width - 1), (1 << (width - 1)) - 1]
        ties = [((pick.getrandbits(width) | 1 << (width - 1)) >> low | 1) << low & ((1 << width) - 1) for low in range(width)]
        words = ends + ties + [pick.getrandbits(pick.randrange(1, width + 1)) for _ in range(-(-count // len(runs)))]
        shape = (pick.random() < 0.5, width, pick.randrange(width + 1))
        wrong = words_differ(program, shape, layout, pick.choice(("little", "big")), words, 0)
        tally.check(wrong is None, wrong, len(words))


def compare_floats(program, pick, count, tally):
    """Every exponent of both layouts in turn, in each mode, and in each policy that refuses no number."""
    runs = [(layout, policy, mode) for layout in LAYOUTS for policy in POLICIES[1:] for mode in ALL_MODES]
    for layout, policy, mode in runs:
        finite = (1 << LAYOUTS[layout][2]) - 1
        bits = [float_for(pick, layout, i % finite) for i in range(-(-count // len(runs)))]
        wrong = floats_differ(program, pick, lambda shape, bits=bits: bits, layout, policy, mode, 0)
        tally.check(wrong is None, wrong, len(bits))


def compare(program, pick, given, tally):
    for i in range(given.count):
        wrong = (pack_once, unpack_once, repack_once, back_once, floats_once, float_back_once)[i % 6](program, pick)
        tally.check(wrong is None, wrong)
    if given.floats:
        compare_floats(program, pick, given.floats, tally)
        compare_words(program, pick, given.floats, tally)


def arguments(words):
    words.add_argument("--floats", type=int, default=0)


if __name__ == "__main__":
    sys.exit(main(__doc__, compare, "inputs packed, unpacked or repacked", 1000, arguments=arguments))
