#!/usr/bin/env python3
"""Compares `fixed` with fixed_tool, with Python's fractions of the bits that it writes, with floats of signals, and with its own commands.

    agree.py [--built FOLDER]
"""
import json
import math
import os
import random
import re
import struct
import subprocess
import sys
import tempfile
from decimal import Decimal
from fractions import Fraction

TOP = os.path.dirname(os.path.dirname(os.path.abspath(__file__)))
sys.path.insert(0, f"{TOP}/oracle")

from fit import answer as fit_answer  # noqa: E402
from harness import Tally, built_option, program, run  # noqa: E402
from show import are_said, bits_object, show_object  # noqa: E402

# How `fixed convert` is compared with fixed_tool: radix, source, target, policy, mode.
SETTINGS = (
    ("10", "I16F16", "I8F8", "checked", "nearest"), ("10", "U0F64", "U0F8", "saturating", "ceil"),
    ("10", "I32F32", "I16F0", "wrapping", "floor"), ("2", "U8F8", "I4F4", "checked", "zero"),
    ("8", "I0F16", "I16F16", "saturating", "nearest"), ("16", "U16F16", "U32F32", "wrapping", "ceil"),
    ("16", "I4F4", "U8F0", "checked", "floor"), ("10", "I1F63", "I4F4", "checked", "nearest"),
)
# How many numerals are compared with each.
NUMERALS = 12_500


def numeral(random, radix):
    """A numeral of the radix, or nearly one."""
    digits = "0123456789abcdefABCDEF"[: {"2": 2, "8": 8, "10": 10, "16": 22}[radix]]
    text = random.choice(("", "", "-", "+"))
    text += "".join(random.choices(digits, k=random.choice((0, 1, 2, 3, 6, 20)))) + random.choice((".", ".", ""))
    text += "".join(random.choices(digits, k=random.choice((0, 1, 4, 9, 30))))
    if random.random() < 0.2:
        text += random.choice("@p" if radix == "16" else "e@") + str(random.randint(-40, 40))
    if random.random() < 0.03:
        text = text[: random.randint(0, len(text))] + random.choice(("x", " ", "_", "\u00e9")) + text[len(text) // 2:]
    return text


def answers(path, words, given):
    """The lines that a run writes."""
    return run(path, words, given).stdout.decode().splitlines()


def each(tally, got, wanted, what):
    """Counts each line of two lists."""
    tally.check(len(got) == len(wanted), f"{what}: {len(got)} lines, not {len(wanted)}")
    for one, other in zip(got, wanted):
        tally.same(one, other, what)


def with_tool(tally, path, tool):
    """`fixed convert` answers as fixed_tool does, with the same status."""
    source = random.Random(1)
    for radix, first, second, policy, mode in SETTINGS:
        numerals = [numeral(source, radix) for _ in range(NUMERALS)]
        lines = "".join(f"{radix} {first} {second} {policy}/{mode} {text}\n" for text in numerals).encode()
        words = ["convert", first, second, "--radix", radix, "--policy", policy, "--mode", mode, "--print", "all"]
        ends = "\r\n" if mode == "nearest" else "\n"
        one, other = run(path, words, "".join(text + ends for text in numerals).encode()), run(tool, [], lines)
        tally.same(one.returncode, other.returncode, f"{words}: the status")
        each(tally, one.stdout.split(b"\n"), other.stdout.split(b"\n"), f"{words}")


def exact_decimal(bits, frac):
    """The value of bits in a decimal that ends."""
    sign, whole = ("-" if bits < 0 else ""), abs(bits) * 10**frac // 2**frac
    digits = str(whole).rjust(frac + 1, "0")
    return sign + (f"{digits[:-frac]}.{digits[-frac:]}".rstrip("0").rstrip(".") if frac else digits)


def rounded_decimal(bits, frac, places):
    """The value of bits rounded to a count of places, ties to even."""
    digits = str(round(Fraction(abs(bits) * 10**places, 2**frac))).rjust(places + 1, "0")
    return ("-" if bits < 0 else "") + (f"{digits[:-places]}.{digits[-places:]}" if places else digits)


def part_of(answer, target, words):
    """What is written of an answer `TEXT BITS VERDICT` by options; a fault whole."""
    if answer.startswith("error: "):
        return answer
    bits, frac = int(answer.split(" ")[1]), int(target.split("F")[1])
    width = int(target[1:].split("F")[0]) + frac
    digits = f"{bits & (2**width - 1):0{width // 4}x}"
    if words[0] == "--places":
        return rounded_decimal(bits, frac, int(words[1]))
    return {"bits": str(bits), "hex": "0x" + digits, "readmemh": digits, "value": exact_decimal(bits, frac), "text": answer.split(" ")[0]}[words[1]]

def parts(tally, path):
    """Each part of an answer is what Python's fractions give of its bits."""
    source = random.Random(2)
    asked = [["--print", part] for part in ("text", "bits", "hex", "readmemh", "value")] + [["--places", str(n)] for n in (0, 1, 3, 17, 64)]
    for radix, first, second, policy, mode in SETTINGS:
        given = "".join(numeral(source, radix) + "\n" for _ in range(250)).encode()
        words = ["convert", "-r", radix, "-p", policy, "-m", mode, first, second]
        whole = answers(path, [*words, "--print", "all"], given)
        for option in asked:
            each(tally, answers(path, [*words, *option], given), [part_of(answer, second, option) for answer in whole], f"{words} {option}")


def signals():
    """The taps of a low-pass filter and a sine that reaches both ends, as floats."""
    taps = [math.sin(math.pi * k / 4) / (math.pi * k) if k else 0.25 for k in range(-31, 32)]
    taps = [tap * (0.54 + 0.46 * math.cos(math.pi * k / 31)) for tap, k in zip(taps, range(-31, 32))]
    return taps, [math.sin(2 * math.pi * k / 256) for k in range(256)]

def of_signals(tally, path):
    """Bits of filter taps and of a sine in Q15 and Q31 are what rounding and clipping floats gives (a float times a power of two is
    exact), and the formats of `fixed fit` are those of its reference."""
    for values in signals():
        given = "".join(f"{Decimal(value):f}\n" for value in values).encode()
        for frac in (15, 31):
            shown = answers(path, ["convert", f"I1F{frac}", "--policy", "saturating", "--print", "bits"], given)
            each(tally, shown, [str(max(-(2**frac), min(2**frac - 1, round(value * 2.0**frac)))) for value in values], f"a signal in I1F{frac}")
        for width in (1, 8, 12, 16, 32, 64):
            shown = run(path, ["fit", "--width", str(width), "--why"], given).stdout.decode()
            tally.same(shown, fit_answer(given, width, False, 10, True)[0], f"fit --width {width}")


def repacked(tally, path):
    """Words of Q23 to the nearest words of Q15, ties to even, as the help says: at once, or by the text of Q15."""
    source = random.Random(3)
    words = [source.randrange(-(2**23), 2**23 - 128) for _ in range(20_000)] + [-(2**23), -129, -128, -127, 127, 128, 129, 383, 384, 385]
    given = b"".join((word % 2**24).to_bytes(3, "little") for word in words)
    wanted = b"".join((round(Fraction(word, 256)) % 2**16).to_bytes(2, "little") for word in words)
    texts = run(path, ["unpack", "Q23", "Q15", "--target-mode", "nearest"], given).stdout
    tally.same(run(path, ["pack", "Q15"], texts).stdout, wanted, "words of Q23 as texts of Q15")
    tally.same(run(path, ["repack", "Q23", "Q15", "--target-mode", "nearest"], given).stdout, wanted, "words of Q23 as words of Q15")


def objects(tally, path):
    """Objects of JSON for words and for lines: Python reads each, with the members that the reference has."""
    odd = bytes(byte for byte in range(1, 256) if byte != 10) * 4
    cases = (
        (["show", "I16F16"], (b"1e-300", b"-.5", b"3.14159", b"", b"x", b"." + b"7" * 2_000, b"7" * 2_000, odd),
         lambda text: show_object(b"I16F16", text)),
        (["show", "U8F0", "--radix", "16", "--policy", "saturating"], (b"ff", b"fff", b"-1.8", b"p"),
         lambda text: show_object(b"U8F0", text, 16, b"saturating")),
        (["bits", "I4F8", "--swap", "--field", "11:0"], (b"0x801e0000", b"-1", b"0x\xc3\xa9"),
         lambda text: bits_object(b"I4F8", text, 10, 0, True)),
    )
    for words, texts, say in cases:
        said = [say(text) for text in texts]
        short = [text.decode() for text in texts if text != odd]
        for more, given, wanted in (([], b"\n".join(texts) + b"\n", said), (["--", *short], b"", said[: len(short)])):
            ran = run(path, [*words, "--json", *more], given)
            is_right = are_said(ran.stdout, wanted) and ran.returncode == int(any("refused" in each for each in wanted))
            tally.check(is_right, f"{words} --json: status {ran.returncode}, {ran.stdout!r:.400}, not {wanted!r:.400}")


TALLY = re.compile(
    r"(?:numeral|word|float)s: (\d+), exact: (\d+), rounded: (\d+), overflowed: (\d+)(?: \(the first in (\w+) (\d+)\))?"
    r", refused: (\d+)(?: \(the first in (\w+) (\d+)\))?(?:; the first overflowed in line (\d+), column ('.*?'|\d+))?"
    r"(?:; the first refused in line (\d+), column ('.*?'|\d+))?$")
GREATEST = re.compile(r"greatest error in (\w+) (\d+): (.*), in ulps: (.*)$")
MEANS = re.compile(r"mean error in ulps: (.*), RMS: (.*) \(rounded to six digits\)$")


def first_of(name, number, line, column):
    """Where the first numeral of an outcome is, from the text of a report."""
    if name is None:
        return None
    place = {name: int(number), **({"line": int(line)} if line else {})}
    return place | ({"name": column[1:-1]} if (column or "").startswith("'") else {"column": int(column)} if column else {})


def report_facts(file, lines):
    """The object that says what these lines of a report say."""
    found = next(filter(None, map(TALLY.search, lines)))
    count, exact, rounded, overflowed, *first, refused = found.groups()[:7]
    last = found.groups()[7:]
    greatest = next(filter(None, map(GREATEST.search, lines)), None)
    means = next(filter(None, map(MEANS.search, lines)), None)
    return {
        "file": file, "count": int(count), "exact": int(exact), "rounded": int(rounded), "overflowed": int(overflowed), "refused": int(refused),
        "first_overflowed": first_of(*first, *last[2:4]), "first_refused": first_of(*last[:2], *last[4:6]),
        "greatest_error": {greatest[1]: int(greatest[2]), "error": greatest[3], "ulps": greatest[4]} if greatest else None,
        "mean_ulps": means and means[1], "rms_ulps": means and means[2],
    }


def without_number(said):
    """An object without the numbers of columns that it also names, which the text of a report does not have."""
    return {key: {name: it for name, it in value.items() if name != "column" or "name" not in value} if isinstance(value, dict) else value
            for key, value in said.items()}


def reports(tally, path):
    """`--report=json` says of each input what `--report` says in text, and all else is the same."""
    lines = b"0.1\n300\n1\nx\n-1e-30\n" + b"0." + b"3" * 2000 + b"\n"
    table = b'h,"a ""b\xc3\xa9"\n0.1,300\nx,1\n"1\n",-300\n'
    floats = struct.pack("<4d", 0.1, 300.0, -1.0, 1e-30)
    cases = (
        (["convert", "I8F8"], lines), (["convert", "I8F8", "I4F4", "-p", "saturating", "--trim"], lines), (["convert", "U8F0"], b""),
        (["convert", "I8F8", "--from", "bits"], b"1\n70000\n"), (["convert", "I8F8", "--words", "--keep", "all"], lines + b"1,2 0.3,x"),
        (["column", "1,2", "I8F8", "--policy", "wrapping"], table), (["column", "--all", "I8F8", "-H", "-p", "saturating", "--keep"], table),
        (["json", ".v[]", "I8F8", "-p", "saturating"], b'{"v":[0.1,1]}\n{"v":[300,"x",1]}\n1\n{"v":["-1e-30"]}\n'),
        (["column", "1", "I8F8"], b'1\n"2'), (["pack", "--from", "f64", "I8F8", "-p", "saturating"], floats),
        (["pack", "--from", "f64", "I8F8"], floats), (["repack", "I8F8", "I4F4", "-p", "wrapping"], floats),
        (["repack", "I8F8", "I4F4"], b"\0\1\0\x20\3"),
    )
    names = ("-", "plain", 'a "b" \\ c', "\u00e9\u4e2d", "tab\tline\n\x7f\u0085")
    with tempfile.TemporaryDirectory() as folder:
        for words, given in cases:
            for name in names:
                if name != "-":
                    with open(os.path.join(folder, name), "wb") as file:
                        file.write(given)
                of_text, of_object = (subprocess.run([path, *words, option, "--", name], input=given, capture_output=True, cwd=folder, check=False)
                                      for option in ("--report", "--report=json"))
                told = of_text.stderr.decode().splitlines()
                said = [it for it in of_object.stderr.decode().splitlines() if it.startswith("{")]
                rest = [it for it in of_object.stderr.decode().splitlines() if not it.startswith("{")]
                wanted = report_facts(name, told)
                tally.same([without_number(json.loads(it)) for it in said], [wanted], f"{words} --report=json {name!r}")
                kept = [it for it in told if not any(known.search(it) for known in (TALLY, GREATEST, MEANS))]
                tally.same((of_object.stdout, of_object.returncode, rest), (of_text.stdout, of_text.returncode, kept), f"{words}: beside the report")


def stored(tally, tool):
    """Each line of the stored run of fixed_tool alone: the status says a fault exactly where its answer does."""
    with open(f"{TOP}/crates/fixed_tool/stdin", "rb") as lines, open(f"{TOP}/crates/fixed_tool/stdout", "rb") as kept:
        for line, answer in zip(lines, kept):
            ran = run(tool, [], line)
            wanted = (int(answer.startswith(b"error: ")), answer, b"")
            tally.same((ran.returncode, ran.stdout, ran.stderr), wanted, f"fixed_tool, the line {line!r}")


def main():
    built, tally = built_option(__doc__), Tally()
    path, tool = program("fixed", built), program("fixed_tool", built)
    if path and tool:
        with_tool(tally, path, tool)
    if path:
        for check in (parts, of_signals, repacked, objects, reports):
            check(tally, path)
        with open(f"{TOP}/packaging/VERSION", "rb") as file:
            tally.same(run(path, ["--version"]).stdout, b"fixed " + file.read().strip() + b"\n", "fixed --version")
    if tool:
        stored(tally, tool)
    return tally.end("answers of fixed and fixed_tool compared")


if __name__ == "__main__":
    sys.exit(main())
