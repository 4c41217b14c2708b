"""The further programs, each beside what it is compared with."""
import shutil

from timing import in_turn, peak, table

MEBIBYTE = 1 << 20


def enclosing(programs, inputs, tries):
    """Lines a second of enclose_tool, and of fixed_tool on the same numerals."""
    lines = 200_000
    enclose = inputs.path("enclose", "--lines", str(lines))
    with open(enclose, encoding="ascii") as given:
        rows = [line.split(" ", 2) for line in given]
    same = inputs.of("same", "".join(f"{radix} {form} {form} checked {numeral}" for radix, form, numeral in rows))
    took = in_turn([([programs.built("enclose_tool")], enclose), ([programs.tool], same)], tries)
    each = [lines / it / 1e6 for it in took]
    table([["enclose_tool", f"{each[0]:.2f}", f"{each[0] / each[1]:.0%}"], ["fixed_tool", f"{each[1]:.2f}", ""]],
          ["the same numerals", "M lines/s", "of fixed_tool's"])


def whole_inputs(programs, inputs, tries):
    """Seconds and memory of the programs that read their input to its end, on 1 MiB."""
    size = ["--lines", "1000000", "--bytes", str(MEBIBYTE)]
    cases = (("least_tool, typical numerals", "least_tool", "plain"), ("least_tool, zeros", "least_tool", "zeros"),
             ("constants_tool", "constants_tool", "constants"), ("columns_tool", "columns_tool", "cells"))
    rows = []
    for name, program, kind in cases:
        path = programs.built(program)
        if path:
            given = inputs.path(kind, *size)
            rows.append([name, f"{in_turn([([path], given)], tries)[0]:.3f}", peak([path], given)])
    if rows:
        table(rows, ["1 MiB", "s", "peak KiB"])


def sorting(programs, inputs, tries):
    """columns_tool on lines of one format, beside sort -g in the C locale."""
    path, sort, env = programs.built("columns_tool"), shutil.which("sort"), shutil.which("env")
    if not path or not sort or not env:
        return
    rows = []
    for size in (MEBIBYTE, 100_000_000):
        given = inputs.path("cells", "--lines", "100000000", "--bytes", str(size))
        words = [path] if size <= MEBIBYTE else [path, "limit", "4294967296"]
        took = in_turn([(words, given), ([env, "LC_ALL=C", sort, "-g", "--parallel=1"], given)], 3 if size > MEBIBYTE else tries)
        rows.append([f"{size} bytes", f"{took[0]:.2f}", f"{took[1]:.2f}", f"{took[1] / took[0]:.1f}x", peak(words, given)])
    table(rows, ["sorting", "columns_tool s", "sort -g s", "as fast", "peak KiB"])


def measure(programs, inputs, tries):
    if programs.built("enclose_tool") and programs.tool:
        enclosing(programs, inputs, tries)
    whole_inputs(programs, inputs, tries)
    sorting(programs, inputs, tries)
