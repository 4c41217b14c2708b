#!/usr/bin/env python3
"""Tries the library for C from outside: its symbols, and the callers in examples/ with what compilers there are.

    library.py [--built build|out] [--lines N] [--calls N]

With `--built out` it takes the program that the gate built, and the archive that was made of what the gate proved; with `--built build`
it takes what `make library` and `make build` left. A compiler that is not on this machine is named and passed over.
"""
import argparse
import os
import re
import shutil
import subprocess
import sys
import tempfile

from prove import Bench

TOP = os.path.dirname(os.path.dirname(os.path.abspath(__file__)))
HEADER = f"{TOP}/include"
STRICT = ["-Wall", "-Wextra", "-Werror", "-Wpedantic", "-O1", "-g", "-I", HEADER]
SANITIZED = ["-fsanitize=address,undefined", "-fno-sanitize-recover=all"]
# What an archive may want from outside: moves and fills of bytes, and the helpers that compilers call for wide numbers.
WANTED = re.compile(r"mem(cpy|move|set|cmp)|__[a-z0-9]+ti[0-9]?|_GLOBAL_OFFSET_TABLE_")
EXAMPLE = """3.14159 is 205887 of 65536 and prints as 3.14159
in a byte it is 3
the two compare as 1
it lies between 205887 and 205888 of 65536
10 U4F4 U8F0 checked 2.99 -> 3 3 fits
"""
PYTHON = "(205887, False) 3.14159\nmore than one point found in string\n"
RUST = ("    12.1       12.1      12.10\n     0,5 invalid digit found in string\n12.1 kWh, at most 12.1\n", "12.1", "0,5")
CPP = "8192,  // 0.25\n-16384,  // -0.5\n3277,  // 0.1\n98,  // 0.003\n"
GO = "205887 0 3.14159\n"
# Calls with exchanged arguments, each on a line of its own: a policy and a mode, and a mode for a rounding.
EXCHANGED = """#include "fixed.h"
fixed_style style = FIXED_STYLE_DEFAULT;
uint32_t exchanged(fixed_format f, fixed_number *n) {
  return fixed_read_text("1", 1, 10, f, FIXED_CEIL, FIXED_SATURATING, n)
      + fixed_round_bits(1, f, FIXED_CEIL, FIXED_CHECKED, n)
      + fixed_convert_rows(0, 0, f, f, FIXED_CEIL, FIXED_NEAREST, 0, 0, 0, 0, 0);
}
"""
# The oldest processors of which qemu has a model: all of amd64's first years, without x86-64-v2.
PROCESSORS = ("qemu64", "kvm64", "core2duo", "phenom")


class Failed(Exception):
    """Something came out otherwise."""


def run(words, **how):
    """What a command writes; a status other than 0 fails."""
    ran = subprocess.run(words, stdout=subprocess.PIPE, stderr=subprocess.STDOUT, check=False, **how)
    if ran.returncode:
        raise Failed(f"{' '.join(words)}: status {ran.returncode}\n{ran.stdout.decode(errors='replace')[-2000:]}")
    return ran.stdout.decode(errors="replace")


def wanted(what, found, right):
    """Fails where two texts differ."""
    if found != right:
        raise Failed(f"{what} wrote {found!r}, not {right!r}")
    print(f"{what}: as it should be", flush=True)


def calls():
    """The calls that the header declares."""
    with open(f"{HEADER}/fixed.h", encoding="utf-8") as header:
        return set(re.findall(r"^uint32_t (fixed_[a-z_]+)\(", header.read(), re.M))


def archive(built):
    """The path of the archive; beside the programs of the gate, which builds no library, it is made of what the gate proved."""
    if built == "build":
        return f"{TOP}/build/lib/libfixed.a"
    bench = Bench(into=f"{TOP}/crates/fixed_c/out")
    if not bench.make(["fixed_c"]):
        raise Failed("fixed_c is not proved")
    bench.hand_out(["fixed_c"])
    return f"{bench.into}/libfixed_c.a"


def check_symbols(library, shared):
    """Only the header's calls are public, and next to nothing is wanted."""
    defined, undefined = set(), set()
    for line in run(["nm", "--extern-only", library]).splitlines():
        fields = line.split()
        if len(fields) >= 2 and fields[-2] in "UTDBRVW":
            (undefined if fields[-2] == "U" else defined).add(fields[-1])
    undefined -= defined
    public = {name for name in defined if name.startswith("fixed_")}
    if public != calls():
        raise Failed(f"the archive has {sorted(public)}, and the header {sorted(calls())}")
    strange = sorted(name for name in undefined if not WANTED.fullmatch(name))
    if strange:
        raise Failed(f"the archive wants {strange}")
    names = {line.split()[-1].split("@")[0] for line in run(["nm", "-D", "--defined-only", shared]).splitlines()}
    if names - {"FIXED_1"} != calls():
        raise Failed(f"the shared library has {sorted(names)}")
    dynamic, segments = run(["readelf", "-d", shared]), run(["readelf", "-lW", shared])
    for what, found in (("SONAME", "libfixed.so.1" in dynamic), ("binding at its start", "NOW" in dynamic), ("RELRO", "GNU_RELRO" in segments)):
        if not found:
            raise Failed(f"the shared library has no {what}")
    print(f"{len(public)} public symbols; wanted from outside: {', '.join(sorted(undefined)) or 'nothing'}", flush=True)


def check_header():
    """The header alone, in every standard of C and C++."""
    for compiler, language, standards in (("gcc", "c", "90 99 11 17 2x"), ("g++", "c++", "98 03 11 14 17 20 23")):
        for standard in standards.split() if shutil.which(compiler) else ():
            run([compiler, f"-std={language}{standard}", "-Wall", "-Wextra", "-Werror", "-pedantic-errors", "-fsyntax-only", "-x", language, f"{HEADER}/fixed.h"])
    print("header: compiles in each standard", flush=True)


def check_exchanged(folder):
    """An exchanged argument is a warning in C, and in C++ and with FIXED_PLAIN_ARGUMENTS none, nor is the default style."""
    with open(f"{folder}/exchanged.c", "w", encoding="ascii") as file:
        file.write(EXCHANGED)
    lines = [str(number) for number, line in enumerate(EXCHANGED.split("\n"), 1) if "FIXED_CEIL" in line]
    for compiler in filter(shutil.which, ("gcc", "clang")):
        words = [compiler, "-Wall", "-Wextra", "-I", HEADER, "-fsyntax-only", "-x"]
        warned = re.findall(r":(\d+):\d+: warning: .*\[-Wenum-conversion\]", run([*words, "c", f"{folder}/exchanged.c"]))
        wanted(f"{compiler}, lines with exchanged arguments", " ".join(sorted(set(warned))), " ".join(lines))
        for others in (["c", "-DFIXED_PLAIN_ARGUMENTS"], ["c", "-DFIXED_PLAIN_ARGUMENTS", "-fshort-enums"], ["c++", "-std=c++98"]):
            run([*words, *others, "-Werror", f"{folder}/exchanged.c"])


def check_processors(folder, shared):
    """Every caller that was built, on the oldest processors, by qemu's user mode."""
    if not shutil.which("qemu-x86_64"):
        print("qemu-x86_64 is not on this machine, and so no old processor was tried")
        return
    example = [(f"{folder}/gcc_example_plain",), EXAMPLE]
    edges = [(f"{folder}/gcc_edges_plain", "2000"), "the threads agree\n"]
    others = [[(f"{folder}/cpp",), CPP], [(f"{folder}/rust", *RUST[1:]), RUST[0]], [(f"{folder}/golang",), GO]]
    callers = [each for each in (example, edges, *others) if os.path.isfile(each[0][0])]
    callers.append([(sys.executable, f"{TOP}/examples/python/fixed.py"), PYTHON])
    env = os.environ | {"LIBFIXED": shared, "LD_LIBRARY_PATH": os.path.dirname(shared)}
    for processor in PROCESSORS:
        for words, right in callers:
            if not run(["qemu-x86_64", "-cpu", processor, *words], env=env).endswith(right):
                raise Failed(f"{words[0]} on {processor}")
        print(f"{processor}: {len(callers)} callers as they should be", flush=True)


def check_c(folder, library, program, lines):
    """The callers in C, with each compiler."""
    for compiler in ("gcc", "clang"):
        if not shutil.which(compiler):
            print(f"{compiler} is not on this machine")
            continue
        for name in ("example", "edges", "lines"):
            source, out = f"{TOP}/examples/c/{name}.c", f"{folder}/{compiler}_{name}"
            run([compiler, "-std=c11", *STRICT, source, library, "-o", out + "_plain", "-pthread"])
            try:
                run([compiler, "-std=c11", *STRICT, *SANITIZED, source, library, "-o", out, "-pthread"])
            except Failed as why:
                print(f"{compiler} has no sanitizers here: {str(why).splitlines()[-1]:.120}")
                shutil.copy(out + "_plain", out)
        wanted(f"{compiler}, example", run([f"{folder}/{compiler}_example"]), EXAMPLE)
        if not run([f"{folder}/{compiler}_edges"]).endswith("the threads agree\n"):
            raise Failed(f"{compiler}, edges")
        print(f"{compiler}, edges: nothing read or written out of place", flush=True)
        run([compiler, "-std=c11", *STRICT, f"{TOP}/examples/c/stack.c", library, "-o", f"{folder}/{compiler}_stack", "-pthread"])
        print(f"{compiler}, stack: {run([f'{folder}/{compiler}_stack']).strip()}", flush=True)
    if program and lines and os.path.isfile(f"{folder}/gcc_lines_plain"):
        compare_lines(f"{folder}/gcc_lines_plain", program, lines)


def compare_lines(caller, program, count):
    """A caller in C answers each line as the program does."""
    given = b""
    for kind in ("typical", "radix"):
        given += subprocess.run([sys.executable, f"{TOP}/bench/generate.py", kind, "--lines", str(count // 2)],
                                stdout=subprocess.PIPE, check=True).stdout
    answers = [subprocess.run([path], input=given, stdout=subprocess.PIPE, check=False).stdout for path in (caller, program)]
    if answers[0] != answers[1] or not answers[0]:
        raise Failed("the library and the program answer differently")
    print(f"{given.count(10)} lines: the library and the program write the same bytes", flush=True)


def check_others(folder, library, shared):
    """The callers in other languages, where there is a compiler."""
    if shutil.which("g++"):
        run(["g++", "-std=c++17", *STRICT, f"{TOP}/examples/cpp/example.cpp", library, "-o", f"{folder}/cpp"])
        wanted("C++", run([f"{folder}/cpp"]), CPP)
    wanted("Python", run([sys.executable, f"{TOP}/examples/python/fixed.py"], env=os.environ | {"LIBFIXED": shared}), PYTHON)
    if shutil.which("rustc"):
        rustc = ["rustc", "--edition", "2021", "-O", "-L", os.path.dirname(shared)]
        run([*rustc, "--crate-type", "rlib", "--crate-name", "lomdeqash", "--cfg", 'feature="std"', f"{TOP}/rust/src/lib.rs", "-l",
             "static=fixed", "-o", f"{folder}/liblomdeqash.rlib"])
        run([*rustc, f"{TOP}/examples/rust/src/main.rs", "--extern", f"lomdeqash={folder}/liblomdeqash.rlib", "-o", f"{folder}/rust"])
        wanted("Rust", run([f"{folder}/rust", *RUST[1:]]), RUST[0])
    else:
        print("rustc is not on this machine")
    if shutil.which("go"):
        env = os.environ | {"CGO_CFLAGS": f"-I{HEADER}", "CGO_LDFLAGS": f"-L{os.path.dirname(shared)}", "GOCACHE": f"{folder}/go", "GOFLAGS": "-mod=mod"}
        run(["go", "build", "-o", f"{folder}/golang", "."], cwd=f"{TOP}/examples/go", env=env)
        wanted("Go", run([f"{folder}/golang"], env=env | {"LD_LIBRARY_PATH": os.path.dirname(shared)}), GO)
    else:
        print("go is not on this machine")


def main():
    words = argparse.ArgumentParser(description=__doc__.split("\n", maxsplit=1)[0])
    words.add_argument("--built", choices=("build", "out"), default="build")
    words.add_argument("--lines", type=int, default=200_000)
    words.add_argument("--calls", type=int, default=100_000)
    given = words.parse_args()
    if not shutil.which("gcc") or not shutil.which("nm"):
        print("gcc is not on this machine, and so the library for C was not tried")
        return 0
    program = f"{TOP}/build/fixed_tool" if given.built == "build" else f"{TOP}/crates/fixed_tool/out/fixed_tool"
    if not os.path.isfile(program):
        print("fixed_tool is not built, and so the library was not compared with it")
        program = None
    try:
        with tempfile.TemporaryDirectory() as folder:
            library, shared = f"{folder}/libfixed.a", f"{folder}/libfixed.so.1"
            shutil.copy(archive(given.built), library)
            undefined = [word for call in sorted(calls()) for word in ("-Wl,-u," + call,)]
            run(["gcc", "-shared", "-o", shared, "-Wl,-soname,libfixed.so.1", f"-Wl,--version-script={TOP}/packaging/fixed.map",
                 "-Wl,--gc-sections", "-Wl,-z,relro", "-Wl,-z,now", *undefined, library, "-nostartfiles", "-lc"])
            os.symlink("libfixed.so.1", f"{folder}/libfixed.so")
            check_header()
            check_exchanged(folder)
            check_symbols(library, shared)
            check_c(folder, library, program, given.lines)
            print(run([sys.executable, f"{TOP}/oracle/library.py", "--compare", shared, "--count", str(given.calls)]), end="", flush=True)
            print(run([sys.executable, f"{TOP}/oracle/floats.py", "--compare", shared]), end="", flush=True)
            print(run([sys.executable, f"{TOP}/oracle/decimals.py", "--compare", shared, "--count", str(given.calls)]), end="", flush=True)
            print(run([sys.executable, f"{TOP}/oracle/widths.py", "--compare", shared]), end="", flush=True)
            check_others(folder, library, shared)
            check_processors(folder, shared)
    except Failed as why:
        print(why)
        return 1
    return 0


if __name__ == "__main__":
    sys.exit(main())
