#!/usr/bin/env python3
"""Tries what stands over the library for C: the crate for Rust, the header for C++, and the extension of SQLite.

    wrappers.py [--built build|out] [--calls N]

With `--built out` it takes the archive that library.py left, and with `--built build` what `make library` left. A compiler or tool that
is not on this machine is named and passed over.
"""
import argparse
import os
import re
import shutil
import subprocess
import sys
import tempfile

TOP = os.path.dirname(os.path.dirname(os.path.abspath(__file__)))
STRICT = ["-Wall", "-Wextra", "-Wconversion", "-pedantic", "-Werror", "-O1", "-g", f"-I{TOP}/include"]
SANITIZED = ["-fsanitize=address,undefined", "-fno-sanitize-recover=all"]
STANDARDS = ("17", "20", "2b")
# What the example in C++ writes for its own taps, and for other ones.
TAPS = "8192,  // 0.25\n-16384,  // -0.5\n3277,  // 0.1\n98,  // 0.003\n"
READINGS = ("0.5", "12.1", "0,5", "100.3333", "-1", "1e9")
METER = """     0.5        0.5       0.50
    12.1       12.1      12.10
     0,5 invalid digit found in string
100.3333    100.332     100.33
      -1 overflow
     1e9 overflow
112.934 kWh, at most 100.332
"""
# What does not compile in C++, each beside the same put right.
REFUSED = (
    ('constexpr auto it = "I16.16"_format;', 'constexpr auto it = "I16F16"_format;'),
    ('constexpr auto it = "I65F0"_format;', 'constexpr auto it = "I64F0"_format;'),
    ('constexpr auto it = "ap_fixed<16>"_format;', 'constexpr auto it = "ap_fixed<16,-9>"_format;'),
    ('constexpr auto it = "sfix0_En15"_format;', 'constexpr auto it = "sfix16_En15"_format;'),
    ('auto it = read("1", q15, mode::floor);', 'auto it = read("1", q15, radix::decimal, policy::checked, mode::floor);'),
    ('auto it = read("1", q15, radix::hexadecimal, mode::floor);', 'auto it = read("1", q15, radix::hexadecimal, policy::wrapping);'),
    ('auto it = read("1", q15, 16);', 'auto it = read("1", q15, radix{16});'),
    ('auto it = convert(number(q15), q15, mode::ceil, policy::checked);', 'auto it = convert(number(q15), q15, policy::checked, mode::ceil);'),
    ('auto it = round(number(q15), mode::floor);', 'auto it = round(number(q15), rounding::floor);'),
    ('auto it = to_string(number(q15), 2);', 'auto it = to_string(number(q15), places{2});'),
)
# Statements of SQL that are refused, and why.
WRONG = (
    ("fixed_bits('1,5', 'U24F8')", "fixed_bits: invalid digit found in string: 1,5"),
    ("fixed_bits('1e9', 'U24F8')", "fixed_bits: overflow: 1e9"),
    ("fixed_bits(1.5, 'U24F8')", "fixed_bits: a REAL is not a numeral, quote the number: 1.5"),
    ("fixed_bits('1', 'U24.8')", "fixed_bits: bad format word: U24.8"),
    ("fixed_bits('1', 'Q15', 'clip')", "fixed_bits: bad policy: clip"),
    ("fixed_bits('1', 'Q15', 'wrapping', 'up')", "fixed_bits: bad mode: up"),
    ("fixed_text(256, 'U8F0')", "fixed_text: bits out of range: 256"),
    ("fixed_text('3x', 'U8F0')", "fixed_text: not a whole number of 64 bits: 3x"),
    ("fixed_text(1, 'U8F0', 65)", "fixed_text: too many places: 65"),
    ("fixed_text(1, 'U8F0', -1)", "fixed_text: too many places: -1"),
    ("fixed_round(1, 'U8F0', 'half')", "fixed_round: bad rounding: half"),
    ("fixed_round(127, 'I1F7', 'ceil')", "fixed_round: overflow: 127"),
    ("fixed_convert(1, 'U8F0', '')", "fixed_convert: bad format word: "),
    ("fixed_compare(1, 'U8F0', 256, 'U8F0')", "fixed_compare: second bits out of range: 256"),
    ("fixed_compare(1, 'U8F0', 256)", "wrong number of arguments"),
)


class Failed(Exception):
    """Something came out otherwise."""


def run(words, **how):
    """What a command writes; a status other than 0 fails."""
    ran = subprocess.run(words, stdout=subprocess.PIPE, stderr=subprocess.STDOUT, check=False, **how)
    if ran.returncode:
        raise Failed(f"{' '.join(words)}: status {ran.returncode}\n{ran.stdout.decode(errors='replace')[-4000:]}")
    return ran.stdout.decode(errors="replace")


def is_refused(words, **how):
    """Whether a command's status is not 0."""
    return subprocess.run(words, stdout=subprocess.DEVNULL, stderr=subprocess.DEVNULL, check=False, **how).returncode != 0


def wanted(what, found, right):
    """Fails where two texts differ."""
    if found != right:
        raise Failed(f"{what} wrote {found!r}, not {right!r}")
    print(f"{what}: as it should be", flush=True)


def text_of(path):
    with open(f"{TOP}/{path}", encoding="utf-8") as file:
        return file.read()


def enums():
    """The constants of each enum of fixed.h, by its name: pairs of a name and a number."""
    text = re.sub(r"/\*.*?\*/", "", text_of("include/fixed.h"), flags=re.S)
    return {name: {it.lower(): int(number) for it, number in re.findall(r"FIXED_(\w+) = (\d+)", body)}
            for name, body in re.findall(r"enum fixed_(\w+) \{(.*?)\}", text, re.S)}


def check_constants():
    """The crate has a variant for each number of an enum of fixed.h, and the header for C++ an enumerator of each name."""
    rust, header, lacking = text_of("rust/src/options.rs") + text_of("rust/src/error.rs"), text_of("include/fixed.hpp"), []
    for name, constants in enums().items():
        opened = r"^kinds! \{" if name == "code" else rf"^    {name.capitalize()} or \w+ \{{"
        body = re.search(rf"{opened}(.*?)^ *\}}", rust, re.S | re.M)
        numbers = {int(it) for it in re.findall(r"^ +[A-Z]\w+ = (\d+),", body.group(1) if body else "", re.M)}
        constants.pop("ok", None)
        lacking += [f"rust/src: {name} {it} = {number}" for it, number in constants.items() if number not in numbers]
        lacking += [f"include/fixed.hpp: FIXED_{it.upper()}" for it in constants if not re.search(rf"= FIXED_{it.upper()}\b", header)]
    if lacking:
        raise Failed("constants of fixed.h are missing:\n" + "\n".join(lacking))
    print("constants: all of fixed.h", flush=True)


def is_sanitized(words, out):
    """Compiles with sanitizers, if there are any. Returns whether there are."""
    return not is_refused([*words, *SANITIZED, "-o", out]) and not is_refused([out], stdin=subprocess.DEVNULL)


def check_standard(folder, library, compiler, standard, count):
    """The header in a standard: the example, seeded calls, and what else it promises; in the first standard with sanitizers."""
    words, out = [compiler, f"-std=c++{standard}", *STRICT], f"{folder}/{compiler}{standard}"
    run([*words, f"{TOP}/examples/cpp/example.cpp", library, "-o", f"{out}_example"])
    if run([f"{out}_example"]) != TAPS:
        raise Failed(f"{compiler}, C++{standard}, example: {run([f'{out}_example'])!r}")
    sanitized = standard == STANDARDS[0] and is_sanitized([*words, f"{TOP}/oracle/calls.cpp", library], out)
    if not sanitized:
        run([*words, f"{TOP}/oracle/calls.cpp", library, "-o", out])
    answer = run([sys.executable, f"{TOP}/oracle/wrappers.py", "--compare", out, "--count", str(count)]).strip()
    run([*words, *(SANITIZED if sanitized else []), f"{TOP}/oracle/header.cpp", library, "-o", f"{out}_header"])
    run([f"{out}_header"])
    print(f"{compiler}, C++{standard}{', with sanitizers' if sanitized else ''}: {answer}", flush=True)


def check_cpp(folder, library, calls):
    """The header: with each compiler in each standard, the first time by all calls; and what does not compile."""
    count = calls
    for compiler in ("g++", "clang++"):
        if not shutil.which(compiler):
            print(f"{compiler} is not on this machine")
            continue
        for standard in STANDARDS:
            check_standard(folder, library, compiler, standard, count)
            count = calls // 10
        for line in (*[wrong for wrong, _ in REFUSED], " ".join(f"{{ {right} (void)it; }}" for _, right in REFUSED)):
            text = f'#include "fixed.hpp"\nusing namespace lomdeqash;\nconstexpr auto q15 = "Q15"_format;\nint main() {{ {line} }}\n'
            command = [compiler, "-std=c++17", f"-I{TOP}/include", "-fsyntax-only", "-x", "c++", "-"]
            if is_refused(command, input=text.encode()) == line.startswith("{"):
                raise Failed(f"{compiler} {'refuses' if line.startswith('{') else 'compiles'} {line}")
        print(f"{compiler}: {len(REFUSED)} wrong lines do not compile, and put right they do", flush=True)


def check_rust(folder, lib, calls):
    """The crate: its tests, documents and lints, and the seeded calls, as its sources are used by the example."""
    if not shutil.which("cargo"):
        print("cargo is not on this machine, and so the crate was not tried")
        return
    skipped = shutil.ignore_patterns("target", "Cargo.lock")
    shutil.copytree(f"{TOP}/rust", f"{folder}/rust", ignore=skipped)
    shutil.copytree(f"{TOP}/examples/rust", f"{folder}/examples/rust", ignore=skipped)
    os.makedirs(f"{folder}/rust/examples")
    shutil.copy(f"{TOP}/oracle/calls.rs", f"{folder}/rust/examples/calls.rs")
    env = os.environ | {"LIBFIXED_DIR": lib, "CARGO_TARGET_DIR": f"{folder}/target", "RUSTDOCFLAGS": "-D warnings", "RUSTFLAGS": "-D warnings"}
    crate = {"cwd": f"{folder}/rust", "env": env}
    for what in ([], ["--no-default-features"]):
        said = run(["cargo", "test", "--offline", "--quiet", *what], **crate)
        passed = sum(map(int, re.findall(r"(\d+) passed", said)))
        print(f"cargo test {' '.join(what)}: {passed} tests passed", flush=True)
    run(["cargo", "doc", "--offline", "--no-deps"], **crate)
    print("cargo doc: no warnings", flush=True)
    for name, words in {"clippy": ["--offline", "--all-targets", "--", "-D", "warnings"], "fmt": ["--check"]}.items():
        if is_refused(["cargo", name, "--version"]):
            print(f"cargo {name} is not on this machine")
        else:
            run(["cargo", name, *words], **crate)
            print(f"cargo {name}: nothing to say", flush=True)
    run(["cargo", "build", "--offline", "--release", "--example", "calls"], **crate)
    print("Rust:", run([sys.executable, f"{TOP}/oracle/wrappers.py", "--compare", f"{folder}/target/release/examples/calls", "--count", str(calls)]), end="", flush=True)
    for how in ("LIBFIXED_DIR", "pkg-config"):
        check_rust_example(folder, lib, how, env)
    env = {name: it for name, it in env.items() if name != "LIBFIXED_DIR"} | {"PKG_CONFIG": "false", "CARGO_TARGET_DIR": f"{folder}/none"}
    ran = subprocess.run(["cargo", "build", "--offline"], cwd=f"{folder}/rust", env=env, stderr=subprocess.PIPE, check=False)
    if ran.returncode == 0 or b"Set LIBFIXED_DIR" not in ran.stderr:
        raise Failed(f"without the library, cargo build says {ran.stderr.decode()!r}")
    print("without the library, cargo build says what to set", flush=True)


def check_rust_example(folder, lib, how, env):
    """The example, linked with the archive, or with the shared library that pkg-config finds."""
    env = env | {"CARGO_TARGET_DIR": f"{folder}/{how}"}
    if how == "pkg-config":
        if not shutil.which("pkg-config"):
            print("pkg-config is not on this machine")
            return
        del env["LIBFIXED_DIR"]
        with open(f"{folder}/fixed.pc", "w", encoding="utf-8") as file:
            text = text_of("packaging/fixed.pc.in").replace("libdir=${prefix}/lib", f"libdir={lib}")
            file.write(text.replace("@PREFIX@", folder).replace("@VERSION@", text_of("packaging/VERSION").strip()))
        env |= {"PKG_CONFIG_PATH": folder, "LD_LIBRARY_PATH": lib}
    run(["cargo", "build", "--offline"], cwd=f"{folder}/examples/rust", env=env)
    wanted(f"the example in Rust, by {how}", run([f"{folder}/{how}/debug/meter", *READINGS], env=env), METER)


def check_sqlite(folder, library, calls):
    """The extension: the worked session, what is refused, and seeded calls."""
    if not shutil.which("sqlite3"):
        print("sqlite3 is not on this machine, and so its extension was not tried")
        return
    source, out = f"{TOP}/examples/sqlite/fixed_sqlite.c", f"{folder}/fixed_sqlite.so"
    for compiler in ("gcc", "clang"):
        if not shutil.which(compiler):
            print(f"{compiler} is not on this machine, and so SQLite's extension was not compiled by it")
            continue
        if is_refused([compiler, "-fsyntax-only", "-include", "sqlite3ext.h", "-x", "c", "/dev/null"]):
            print("sqlite3ext.h is not on this machine, and so its extension was not tried")
            return
        run([compiler, "-std=c11", *STRICT, "-shared", "-fPIC", "-Wl,--exclude-libs,ALL", source, library, "-o", out])
        wanted(f"SQLite, {compiler}, session.sql", sql(out, text_of("examples/sqlite/session.sql")), text_of("examples/sqlite/session.txt"))
    for statement, why in WRONG:
        said = sql(out, f"SELECT {statement};")
        if why not in said:
            raise Failed(f"SQLite answers {said!r} to {statement}, not {why!r}")
    nothing = sql(out, "SELECT count(fixed_bits(NULL, 'Q15')), count(fixed_text(1, NULL)), count(fixed_compare(1, 'Q15', NULL, 'Q15'));")
    wanted("SQLite, NULL", nothing, "0|0|0\n")
    print(f"SQLite: {len(WRONG)} wrong calls refused with their causes", flush=True)
    print("SQLite:", run([sys.executable, f"{TOP}/oracle/sql.py", "--compare", out, "--count", str(calls // 5)]), end="", flush=True)


def sql(extension, text):
    """What sqlite3 writes for statements, with an extension loaded."""
    ran = subprocess.run(["sqlite3", "-batch", ":memory:"], input=f".load {extension}\n{text}".encode(), stdout=subprocess.PIPE,
                         stderr=subprocess.STDOUT, check=False)
    return ran.stdout.decode(errors="replace")


def main():
    words = argparse.ArgumentParser(description=__doc__.split("\n", maxsplit=1)[0])
    words.add_argument("--built", choices=("build", "out"), default="build")
    words.add_argument("--calls", type=int, default=100_000)
    given = words.parse_args()
    archive = f"{TOP}/build/lib/libfixed.a" if given.built == "build" else f"{TOP}/crates/fixed_c/out/libfixed_c.a"
    if not os.path.isfile(archive) or not shutil.which("gcc"):
        print("gcc or the library for C is not there, and so what stands over it was not tried")
        return 0
    try:
        check_constants()
        with tempfile.TemporaryDirectory() as folder:
            lib = f"{folder}/lib"
            os.makedirs(lib)
            shutil.copy(archive, f"{lib}/libfixed.a")
            undefined = [f"-Wl,-u,{call}" for call in re.findall(r"^ *(fixed_\w+);$", text_of("packaging/fixed.map"), re.M)]
            run(["gcc", "-shared", "-o", f"{lib}/libfixed.so.1", "-Wl,-soname,libfixed.so.1",
                 f"-Wl,--version-script={TOP}/packaging/fixed.map", *undefined, archive, "-nostartfiles", "-lc"])
            os.symlink("libfixed.so.1", f"{lib}/libfixed.so")
            check_cpp(folder, f"{lib}/libfixed.a", given.calls)
            check_rust(folder, lib, given.calls)
            check_sqlite(folder, f"{lib}/libfixed.a", given.calls)
    except Failed as why:
        print(why)
        return 1
    return 0


if __name__ == "__main__":
    sys.exit(main())
