#!/usr/bin/env python3
"""Runs the programs with little memory and with little stack, and measures what long inputs take.

    memory.py [--built FOLDER]
"""
import math
import os
import resource
import struct
import subprocess
import sys
import tempfile

TOP = os.path.dirname(os.path.dirname(os.path.abspath(__file__)))
sys.path[:0] = [f"{TOP}/oracle", f"{TOP}/bench"]

from devices import LONG  # noqa: E402
from harness import Tally, built_option, program, run  # noqa: E402
from timing import peak  # noqa: E402

# Words and an input for which a program needs some memory.
FIRST = {
    "fixed": (["convert", "I16F16"], b"3.14159\n-2.5\r\n"),
    "fixed_tool": ([], b"10 I16F16 I16F16 checked 3.14159\n"),
    "enclose_tool": ([], b"10 I4F4 3.14\n10 U7F1 0.5\n"),
    "least_tool": ([], b"0.5\n3\n"),
    "constants_tool": ([], b"A = 0b_111e-2 I4F4\n"),
    "columns_tool": ([], b"0.5 U7F1\n-1 I8F0\n"),
}
# Words and an input for which a program takes more memory as it goes on.
GROWING = {"least_tool": ([], b"0.1\n" * 50_000), **{name: LONG[name] for name in ("constants_tool", "columns_tool")}}
# How many bytes of stack a process of `fixed` has, whatever its command.
STACK = 256 * 1024
NUMERAL = b"0." + b"1" * 1_000
# Words and an input for each command of `fixed`, with what takes most of it.
STACKS = (
    *((["convert", "I16F16", "I8F8", *words], NUMERAL + b"\n-1.5\nx\n") for words in (
        [], ["--print", "all"], ["--trim", "--skip-blank"], ["--report"], ["--words"], ["--words", "--report"], ["--places", "64"])),
    (["convert", "I16F16", "--report", "--radix", "16"], NUMERAL + b"\n300\n"),
    (["column", "1", "I8F8", "--report"], b"1.5,2\n" + NUMERAL + b",x\nx,1\n"),
    (["column", "1-2", "I8F8", "--into", "b"], b"1.5,2\n"),
    (["column", "a", "I8F8", "--header", "--into", "b", "--keep"], b"a,c\n1.5,2\nx,1\n"),
    (["json", "." + "[0]" * 128, "I16F16"], b"[" * 128 + NUMERAL + b"]" * 128 + b"\nx\n"),
    (["json", ".a[]", "I16F16", "--print", "all", "--keep"], b'{"a":[' + NUMERAL + b',"x"]}\n' + b"[" * 129 + b"\n"),
    *(([command, "I1F63", *form, *words], given) for command, word in (("show", NUMERAL), ("bits", b"0x7f")) for form in ([], ["--json"])
      for words, given in (([word.decode()], b""), ([], word + b"\nx\n"))),
    (["show", "I16F16", "--json", "--policy", "wrapping", "--radix", "2", "1" * 300 + "." + "1" * 1_000], b""),
    (["show", "I16F16", "--policy", "wrapping", "1" * 1_000 + "e-1099"], b""),
    (["format", "I0F64", "--json"], b""),
    (["format", "I0F64"], b""),
    (["lines"], b"10 I16F16 I16F16 checked " + NUMERAL + b"\n"),
    (["enclose"], b"10 I16F16 " + NUMERAL + b"\n"),
    (["least"], NUMERAL + b"\n1\n"),
    (["fit", "--width", "16", "--why"], NUMERAL + b"\n-1\n"),
    (["fit", "--error", "2^-1000", "--any", "--why"], NUMERAL + b"\n-1\n"),
    (["fit", "--error", "0.001", "--range", "--why", "-10", "10"], b""),
    (["pack", "I16F16"], NUMERAL + b"\nx\n"),
    (["pack", "--from", "f64", "I16F16", "--report", "-p", "saturating"], struct.pack("<4d", 1e-300, 1e300, 0.1, math.inf)),
    (["unpack", "U1F0"], b"\1\0" * 2_000 + b"\2"),
    (["unpack", "--to", "f32", "U63F0"], (b"\xff" * 7 + b"\x7f") * 2_000 + b"\xff" * 9),
    (["repack", "U63F0", "I1F63", "--report", "-p", "saturating"], (b"\xff" * 7 + b"\x7f") * 2_000 + b"\xff" * 9),
    (["constants"], b"A = 0x1.8 I4F4\n" * 2),
    (["constants", "c"], b"A = 0x1.8 I4F4\n"),
    (["constants", "array-c", "--name", "h"], b"A = 0x1.8 I4F4\n"),
    (["constants", "mif", "--numerals", "I1F63"], NUMERAL + b"\n"),
    (["sort"], b"0.5 U7F1\n-1 I8F0\n"),
    (["--help"], b""),
    (["convert", "--help"], b""),
)
# Texts that would take much memory if they were kept: for `fixed column` long fields, long lines, many fields, records without an end;
# for `fixed json` long lines and one without an end.
LONGEST = 1_048_576
LARGE = (
    (["column", "1", "U8F0"], b"1," + b"x" * 60_000 + b"\n", 500),
    (["column", "2", "U8F0"], b'"' + b'""' * 65_000 + b'",1\n', 200),
    (["column", "1", "U8F0"], b"1" + b"," * (LONGEST - 1) + b"\n", 100),
    (["column", "1", "U8F0", "--header"], b"1" + b"," * (LONGEST - 1) + b"\n", 100),
    (["column", "1", "U8F0"], b'1,"' + b"\n" * 30_000_000, 1),
    (["column", "1", "U8F0"], b"," * 30_000_000, 1),
    (["column", "1", "U8F0"], b"1" * 30_000_000, 1),
    (["json", ".a", "U8F0"], b'{"a":1,"b":"' + b"x" * 1_000_000 + b'"}\n', 30),
    (["json", ".[]", "U8F0"], b"[" + b"1," * 500_000 + b"1]\n", 3),
    (["json", ".a", "U8F0"], b'{"a":1,"b":"' + b"x" * 30_000_000, 1),
)
# `fixed json` keeps a line, its answer, and what reads JSON.
MOST_KIB = {"column": 4_096, "json": 6_144}


def limited(kind, most):
    """Leaves a process this many bytes: of memory, or of stack."""
    return lambda: resource.setrlimit(kind, (most, most))


def refused(tally, name, path, words, given, most):
    """A run that finds too little memory writes nothing, and says so in one line."""
    ran = run(path, words, given, preexec_fn=limited(resource.RLIMIT_DATA, most))
    is_told = ran.stderr.startswith(b"%s: " % name.encode()) and ran.stderr.count(b"\n") == 1
    if name != "fixed":
        is_told = ran.stderr == f"{name}: there is no memory, lines answered: 0\n".encode()
    tally.check((ran.returncode, ran.stdout) == (5, b"") and is_told, f"{name} {words}, {most} bytes of memory: {ran}")


def growing(tally, name, path, words, given):
    """Runs with more and more memory, until there is enough: each run that finds too little writes nothing."""
    whole, refusals = run(path, words, given), 0
    for most in range(600_000, 64_000_000, 100_000):
        ran = run(path, words, given, stderr=subprocess.DEVNULL, preexec_fn=limited(resource.RLIMIT_DATA, most))
        if (ran.returncode, ran.stdout) == (whole.returncode, whole.stdout):
            break
        refusals += 1
        is_right = (ran.returncode, ran.stdout) == (5, b"")
        tally.check(is_right, f"{name}, {most} bytes of memory: status {ran.returncode}, {len(ran.stdout)} bytes written")
    tally.check(refusals >= 5, f"{name}: only {refusals} runs found too little memory")


def stacks(tally, path):
    """Each command of `fixed` ends within little stack as without a limit."""
    for words, given in STACKS:
        wanted, got = (run(path, words, given, **how) for how in ({}, {"preexec_fn": limited(resource.RLIMIT_STACK, STACK)}))
        tally.same(*((it.returncode, it.stdout, it.stderr) for it in (got, wanted)), f"fixed {words!r:.80}, a small stack")


def large(tally, path):
    """`fixed column` and `json` take little memory, whatever the text, and say when there is none."""
    refused(tally, "fixed", path, ["column", "1", "U8F0"], b"1" + b"," * (LONGEST - 1) + b"\n", 1_500_000)
    refused(tally, "fixed", path, ["json", ".a", "U8F0"], b'{"a":1}\n', 1_500_000)
    for words, part, times in LARGE:
        with tempfile.NamedTemporaryFile() as given:
            for _ in range(times):
                given.write(part)
            given.flush()
            most, wanted = peak([path, *words], given.name), MOST_KIB[words[0]]
        tally.check(most <= wanted, f"fixed {words} {part[:20]!r}: {most} KiB of memory, and at most {wanted} are wanted")


def main():
    built, tally = built_option(__doc__), Tally()
    for name, (words, given) in FIRST.items():
        path = program(name, built)
        if path is None:
            print(f"{name} is not built, and so its memory was not limited")
            continue
        refused(tally, name, path, words, given, 600_000)
        if name == "fixed_tool":
            # These words need memory for nothing but themselves.
            refused(tally, name, path, ["self", "5"], b"", 180_000)
        if name in GROWING:
            growing(tally, name, path, *GROWING[name])
        if name == "fixed":
            stacks(tally, path)
            large(tally, path)
    return tally.end("runs with little memory or stack, or of long inputs")


if __name__ == "__main__":
    sys.exit(main())
