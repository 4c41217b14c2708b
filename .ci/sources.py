#!/usr/bin/env python3
"""Compiles what constants_tool writes, in C and in Rust, and compares the numbers with the bits.

    sources.py [--built FOLDER]
"""
import os
import re
import shutil
import subprocess
import sys
import tempfile

TOP = os.path.dirname(os.path.dirname(os.path.abspath(__file__)))
sys.path.insert(0, f"{TOP}/oracle")

from harness import Tally, built_option, program, run  # noqa: E402

# A literal, its format, the type of C and the bits: the ends of each width, and values between them.
NUMBERS = (
    ("1.75", "I4F4", "int8", 28), ("-3.1875", "I4F4", "int8", -51), ("-8", "I4F4", "int8", -128), ("7.9375", "I4F4", "int8", 127),
    ("255", "U8F0", "uint8", 255), ("-0.5", "I0F16", "int16", -32768), ("-1", "I16F0", "int16", -1), ("0x0.ffff", "U0F16", "uint16", 65535),
    ("-0x8000", "I16F16", "int32", -(2**31)), ("0x7fff.ffff", "I16F16", "int32", 2**31 - 1), ("0xffff.ffff", "U16F16", "uint32", 2**32 - 1),
    ("-0x80000000", "I32F32", "int64", -(2**63)), ("-0.5", "I32F32", "int64", -(2**31)), ("0x7fffffffffffffff", "I64F0", "int64", 2**63 - 1),
    ("0xffffffffffffffff", "U64F0", "uint64", 2**64 - 1), ("0", "U0F64", "uint64", 0),
)
LINES = "".join(f"N{i} = {literal} {word}\n" for i, (literal, word, _, _) in enumerate(NUMBERS)).encode()
BITS = "".join(f"{bits}\n" for _, _, _, bits in NUMBERS).encode()


def written(path, data):
    with open(path, "wb") as file:
        file.write(data)


def shown_by(folder, commands):
    """What the program `main` of a folder prints, once these commands have made it; None where one fails."""
    if any(subprocess.run(command, check=False, cwd=folder).returncode for command in commands):
        return None
    ran = subprocess.run([f"{folder}/main"], stdout=subprocess.PIPE, check=False)
    return ran.stdout if ran.returncode == 0 else None


def main_of_c():
    """A program that includes the header twice and prints its numbers, each of its own type."""
    yield '#include "numbers.h"\n#include "numbers.h"\n#include <inttypes.h>\n#include <stdio.h>\nint main(void) {\n'
    for i, (_, _, kind, _) in enumerate(NUMBERS):
        yield f"    {kind}_t n{i} = N{i};\n    if (n{i} != N{i}) return 1;\n"
        yield f'    printf("%" {"PRIu64" if kind[0] == "u" else "PRId64"} "\\n", ({"u" * (kind[0] == "u")}int64_t) N{i});\n'
    yield "    return 0;\n}\n"


def header(tally, path):
    """A header, as gcc reads it."""
    with tempfile.TemporaryDirectory() as folder:
        written(f"{folder}/numbers.h", run(path, ["c", "NUMBERS_H"], LINES).stdout)
        written(f"{folder}/main.c", "".join(main_of_c()).encode())
        gcc = ["gcc", "-std=c11", "-pedantic-errors", "-Wall", "-Wextra", "-Werror", "-o", "main", "main.c"]
        tally.same(shown_by(folder, [gcc]), BITS, f"a header of {len(NUMBERS)} numbers")


def reserved(tally, path):
    """No macro that <stdint.h> defines, as gcc has it, names a constant of a header."""
    listed = [subprocess.run(["gcc", "-std=c11", "-dM", "-E", "-"], input=given, stdout=subprocess.PIPE, check=True).stdout
              for given in (b"#include <stdint.h>\n", b"")]
    own, every = ({re.match(rb"#define (\w+)", line).group(1) for line in text.splitlines()} for text in reversed(listed))
    for name in sorted(it for it in every - own if not it.startswith(b"_")):
        ran = run(path, ["c"], name + b" = 1 U8F0\n")
        tally.same((ran.returncode, ran.stdout, ran.stderr), (1, b"error: line 1: bad name\n", b""), f"{name} of <stdint.h>")


def types_of_rust():
    """A stub of the types that the lines of Rust name."""
    yield "pub mod types {\n"
    for word, kind in sorted({(word, kind.replace("uint", "u").replace("int", "i")) for _, word, kind, _ in NUMBERS}):
        yield (f"    pub struct {word}({kind});\n    impl {word} {{\n        pub const fn from_bits(bits: {kind}) -> Self "
               f"{{ Self(bits) }}\n        pub const fn to_bits(&self) -> {kind} {{ self.0 }}\n    }}\n")
    yield "}\n"


def rust(tally, path):
    """Lines of Rust, against the stub."""
    if shutil.which("rustc") is None:
        print("rustc is not here, and so the lines of Rust were not compiled")
        return
    with tempfile.TemporaryDirectory() as folder:
        written(f"{folder}/numbers.rs", run(path, ["rust"], LINES).stdout)
        written(f"{folder}/fixed.rs", "".join(types_of_rust()).encode())
        shown = "".join(f'    println!("{{}}", N{i}.to_bits());\n' for i in range(len(NUMBERS)))
        written(f"{folder}/main.rs", f'include!("numbers.rs");\nfn main() {{\n{shown}}}\n'.encode())
        library = ["rustc", "--edition=2021", "--crate-type=rlib", "-o", "libfixed.rlib", "fixed.rs"]
        of_main = ["rustc", "--edition=2021", "-Dwarnings", "--extern", "fixed=libfixed.rlib", "-o", "main", "main.rs"]
        tally.same(shown_by(folder, [library, of_main]), BITS, f"lines of Rust with {len(NUMBERS)} numbers")


def main():
    built, tally = built_option(__doc__), Tally()
    path = program("constants_tool", built)
    if path is None:
        print("constants_tool is not built, and so what it writes was not compiled")
        return 0
    for check in (header, reserved, rust):
        check(tally, path)
    return tally.end("sources and names of constants")


if __name__ == "__main__":
    sys.exit(main())
