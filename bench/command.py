"""The command `fixed`: its words beside fixed_tool and beside what is asked of them, and how long it takes to start and end."""
import filecmp
import os
import random
import struct
import subprocess
import time

from timing import VALGRIND, in_turn, instructions, peak, python_with, table

LINES = 200_000
# How many raw words are timed: user time is told from the system's by the clock's ticks, of which a run has to have many.
WORDS = 3_000_000
# How many raw doubles are timed, and what is asked of both commands over them, in megabytes of doubles a second of user time.
FLOATS, FLOAT_MEGABYTES = 12_000_000, 500
# The same by numpy, where all numbers are in range, and the seconds that it took from the bytes of a file to the other bytes.
BY_NUMPY = """
import sys, time
import numpy as np
with open(sys.argv[2], "rb") as given:
    start = time.process_time()
    if sys.argv[1] == "pack":
        made = np.rint(np.frombuffer(given.read(), "<f8") * 32768).astype("<i2").tobytes()
    else:
        made = (np.frombuffer(given.read(), "<i2") / 32768).tobytes()
    print(time.process_time() - start)
with open(sys.argv[3], "wb") as out:
    out.write(made)
"""
# How many there are in two inputs whose instructions are subtracted, so that starting does not count.
MORE, FEWER = 150_000, 50_000
# What is asked of `pack` and of `unpack`, in megabytes of lines a second of user time.
MEGABYTES = 100
# What is asked of the memory of each command that streams.
MOST_KIB = 4096
# How long the lines are of which the memory is measured, and how many there are.
LONG_LINE, LONG_LINES = 1_000_000, 20


def converting(programs, inputs, tries):
    """Lines a second of `fixed convert`, and of fixed_tool on the same numerals in lines of its own."""
    plain = inputs.path("plain", "--lines", str(LINES))
    with open(plain, encoding="ascii") as given:
        same = inputs.of("checked", "".join(f"10 U16F16 U16F16 checked/nearest {line}" for line in given))
    command = [programs.built("fixed"), "convert", "U16F16"]
    took = in_turn([(command, plain), ([programs.tool], same)], tries)
    each = [LINES / it / 1e6 for it in took]
    table([["fixed convert U16F16", f"{each[0]:.2f}", f"{each[0] / each[1]:.0%}"], ["fixed_tool", f"{each[1]:.2f}", ""]],
          ["the same numerals", "M lines/s", "of fixed_tool's"])


def amounts(programs, inputs, tries):
    """Lines a second of `fixed convert` into cents, and to two places through the format that holds most of the same numerals."""
    fixed, plain = programs.built("fixed"), inputs.path("plain", "--lines", str(LINES))
    commands = [[fixed, "convert", "D2"], [fixed, "convert", "D2", "--mode", "ties-away"], [fixed, "convert", "I32F32", "--places", "2"]]
    took = in_turn([(command, plain) for command in commands], tries)
    rows = []
    for command, seconds in zip(commands, took):
        counted = ""
        if VALGRIND:
            more, fewer = (inputs.path("plain", "--lines", str(count)) for count in (MORE, FEWER))
            counted = f"{(instructions(command, more) - instructions(command, fewer)) / (MORE - FEWER):.0f}"
        rows.append([" ".join(["fixed", *command[1:]]), f"{LINES / seconds / 1e6:.2f}", f"{took[-1] / seconds:.0%}", counted])
    table(rows, ["numerals to cents", "M lines/s", "of the last", "instructions a line"])


def raw_words(fixed, inputs, word, size, count):
    """The paths of so many words of random bytes and of the lines that they are unpacked to, by the command that reads them."""
    words, texts = (os.path.join(inputs.folder, f"{word}-{count}.{end}") for end in ("bin", "texts"))
    with open(words, "wb") as out:
        out.write(random.Random(1).randbytes(size * count))
    with open(words, "rb") as given, open(texts, "wb") as out:
        subprocess.run([fixed, "unpack", word], stdin=given, stdout=out, check=True)
    return {"pack": texts, "unpack": words}


def packing(programs, inputs, tries):
    """Megabytes of lines a second of user time, read by `fixed pack` and written by `fixed unpack`; instructions a word."""
    fixed = programs.built("fixed")
    rows = []
    for word, size in (("Q15", 2), ("I16F16", 4)):
        timed, more, fewer = (raw_words(fixed, inputs, word, size, count) for count in (WORDS, MORE, FEWER))
        written = os.path.getsize(timed["pack"])
        took = in_turn([([fixed, it, word], path) for it, path in timed.items()], tries, is_user=True)
        for it, seconds in zip(timed, took):
            command, speed, counted = [fixed, it, word], written / seconds / 1e6, ""
            if VALGRIND:
                counted = f"{(instructions(command, more[it]) - instructions(command, fewer[it])) / (MORE - FEWER):.0f}"
            rows.append([f"fixed {it} {word}", f"{written / WORDS:.1f}", f"{speed:.0f}", f"{speed / MEGABYTES:.0%}", counted])
    table(rows, ["raw words", "bytes a line", "MB/s of user time", f"of {MEGABYTES}", "instructions a word"])


def raw_floats(inputs, count):
    """The path of so many random doubles."""
    some = random.Random(1)
    part = struct.pack("<50000d", *(some.uniform(-0.99, 0.99) for _ in range(50_000)))
    path = os.path.join(inputs.folder, f"{count}.floats")
    with open(path, "wb") as out:
        for _ in range(count // 50_000):
            out.write(part)
    return path


def floats(programs, inputs, tries):
    """Megabytes of raw doubles a second of user time, read into words of Q15 and made of them, by `fixed` and by numpy; instructions a double."""
    fixed, numpy = programs.built("fixed"), python_with("numpy")
    paths, rows = {count: raw_floats(inputs, count) for count in (FLOATS, MORE, FEWER)}, []
    for it, option in (("pack", "--from"), ("unpack", "--to")):
        command, made = [fixed, it, option, "f64", "Q15"], {count: f"{path}.{it}ed" for count, path in paths.items()}
        (seconds,) = in_turn([(command, paths[FLOATS])], tries, is_user=True)
        speed, counted = 8 * FLOATS / seconds / 1e6, ""
        if VALGRIND:
            counted = f"{(instructions(command, paths[MORE]) - instructions(command, paths[FEWER])) / (MORE - FEWER):.0f}"
        rows.append([" ".join(["fixed", *command[1:]]), f"{speed:.0f}", f"{speed / FLOAT_MEGABYTES:.0%}", counted])
        for count, path in paths.items():
            with open(path, "rb") as given, open(made[count], "wb") as out:
                subprocess.run(command, stdin=given, stdout=out, check=True)
        if numpy:
            words, wanted = [numpy, "-c", BY_NUMPY, it, paths[FLOATS]], os.path.join(inputs.folder, "by-numpy")
            speed = 8 * FLOATS / min(float(subprocess.check_output([*words, wanted])) for _ in range(tries)) / 1e6
            rows.append(["numpy" if filecmp.cmp(made[FLOATS], wanted, shallow=False) else "numpy, which differs", f"{speed:.0f}", f"{speed / FLOAT_MEGABYTES:.0%}", ""])
            os.remove(wanted)
        for path in paths.values():
            os.remove(path)
        paths = made
    for path in paths.values():
        os.remove(path)
    table(rows, ["raw doubles to words, and back", "MB/s of user time", f"of {FLOAT_MEGABYTES}", "instructions a double"])


def paths(programs, inputs, tries):
    """Processor time and instructions a line of further options, beside plain `fixed convert`."""
    fixed, few, many = programs.built("fixed"), 500, 2_500

    def plain(count):
        return inputs.path("plain", "--lines", str(count))

    options = [[], ["--places", "2"], ["--words"], ["--print", "error"], ["--print", "ulps"]]
    commands = [[fixed, "convert", "U16F16", *more] for more in options] + [[fixed, "fit", "--error", "0.001"]]
    took, rows = in_turn([(command, plain(LINES // 10)) for command in commands], tries), []
    for command, seconds in zip(commands, took):
        counted = ""
        if VALGRIND:
            counted = f"{(instructions(command, plain(many)) - instructions(command, plain(few))) / (many - few):.0f}"
        rows.append([" ".join(["fixed", *command[1:]]), f"{seconds / (LINES // 10) * 1e9:.0f}", f"{seconds / took[0]:.1f}", counted])
    table(rows, ["further paths", "ns a line", "of convert's", "instructions a line"])


def memory(programs, inputs):
    """Peak memory of each command that streams, over many short lines and over some that are as long as a line may be."""
    short = inputs.path("plain", "--lines", str(LINES))
    long = inputs.of("long-numerals", ("0." + "1" * LONG_LINE + "\n") * LONG_LINES)
    with open(short, encoding="ascii") as given:
        plain = given.readlines()
    numerals = [line.strip() for line in plain]
    asked = {
        "lines": ([], inputs.of("lines", "".join(f"10 U16F16 U16F16 checked {it}\n" for it in numerals)),
                  inputs.of("long-lines", ("10 U16F16 U16F16 checked 0." + "1" * LONG_LINE + "\n") * LONG_LINES)),
        "enclose": ([], inputs.of("enclosed", "".join(f"10 U16F16 {it}\n" for it in numerals)),
                    inputs.of("long-enclosed", ("10 U16F16 0." + "1" * LONG_LINE + "\n") * LONG_LINES)),
        "pack": (["U16F16"], short, long),
        "unpack": (["U16F16"], short, long),
        "column": (["1", "U16F16"], inputs.of("cells.csv", "".join(f"{it},a\n" for it in numerals)),
                   inputs.of("long-cells.csv", ("0." + "1" * LONG_LINE + ",a\n") * LONG_LINES)),
    }
    rows = []
    for name, (words, few, many) in asked.items():
        each = [peak([programs.built("fixed"), name, *words], path) for path in (few, many)]
        rows.append([f"fixed {name}", *each, "yes" if max(each) <= MOST_KIB else "no"])
    table(rows, ["memory", "short lines, peak KiB", "long lines, peak KiB", f"within {MOST_KIB}"])


def starting(programs):
    """The least time that each question takes from the start of the program to its end."""
    rows = []
    for words in (["show", "I16F16", "3.14159"], ["show", "I16F16", "1e-2000000000"], ["bits", "I16F16", "0xfffc0000"], ["format", "I16F16"]):
        best = float("inf")
        for _ in range(50):
            start = time.perf_counter()
            subprocess.run([programs.built("fixed"), *words], stdout=subprocess.DEVNULL, stdin=subprocess.DEVNULL, check=False)
            best = min(best, time.perf_counter() - start)
        rows.append(["fixed " + " ".join(words), f"{best * 1e3:.1f}"])
    table(rows, ["from start to end", "ms"])


def measure(programs, inputs, tries):
    if not programs.built("fixed") or not programs.tool:
        return
    converting(programs, inputs, tries)
    amounts(programs, inputs, tries)
    packing(programs, inputs, tries)
    floats(programs, inputs, tries)
    paths(programs, inputs, tries)
    memory(programs, inputs)
    starting(programs)
