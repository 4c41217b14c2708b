"""Single calls over 4,096 inputs: the library beside the Rust crate and C."""
import random

from timing import VALGRIND, in_turn, instructions, table

INPUTS = 4096
FORMATS = ("U16F16", "I32F32", "U0F64")
PRINTED = ("I4F4", *FORMATS)
DIGITS = (1, 6, 13, 19, 27, 80)
# The lengths of numerals at which the way of reading changes, and one byte beside each.
LENGTHS = (15, 16, 17, 24, 25, 44, 45)
# How often the inputs are gone over for a time, and for a count of instructions.
PASSES, COUNTED = 100, 1


def nanoseconds(contenders, tries):
    """The least time of one call of each contender: a program, a call, its words and an input, or None for one that is absent."""
    runs = []
    for it in contenders:
        if it:
            program, call, words, path = it
            runs += [([program, call, str(PASSES), *words], path), ([program, call, "0", *words], path)]
    times = in_turn(runs, tries)
    each = iter(max(0.0, times[at] - times[at + 1]) / (PASSES * INPUTS) * 1e9 for at in range(0, len(times), 2))
    return [f"{next(each):.1f}" if it else "" for it in contenders]


def counted(contender):
    """Instructions of one call."""
    if not contender or not VALGRIND:
        return ""
    program, call, words, path = contender
    some, none = (instructions([program, call, str(passes), *words], path) for passes in (COUNTED, 0))
    return f"{(some - none) / (COUNTED * INPUTS):.0f}"


class Bench:
    """The programs of a comparison, and how a row is measured."""

    def __init__(self, programs, inputs, tries):
        self.programs, self.inputs, self.tries = programs, inputs, tries

    def row(self, name, path, ours, peer=None, in_c=None, path_of_c=None):
        """A row: ours, the crate's and C's nanoseconds, and instructions of the first two. A call is a word and its words."""
        def given(program, call, path):
            return (program, *call, path) if program and call else None
        programs = self.programs
        all_three = (given(programs.calls, ours, path), given(programs.peer, peer, path), given(programs.in_c, in_c, path_of_c or path))
        return [name, *nanoseconds(all_three, self.tries), counted(all_three[0]), counted(all_three[1])]

    def numerals(self, form, digits, repeated=False):
        words = ["numerals", "--lines", str(INPUTS), "--format", form, "--digits", str(digits)]
        return self.inputs.path(*words, *(["--repeat"] if repeated else []))

    def bits(self, form, kind="bits"):
        return self.inputs.path(kind, "--lines", str(INPUTS), "--format", form)


HEADS = ["ns a call", "ours", "the crate's", "C's", "instr: ours", "the crate's"]


def reading(bench):
    for repeated in (False, True):
        rows = []
        for form in FORMATS:
            for digits in DIGITS if not repeated else (1, 6, 13, 27):
                path = bench.numerals(form, digits, repeated)
                rows.append(bench.row(f"{form}, {digits} digits", path, ("read", [form]), ("read", [form]), ("read", [])))
        if repeated:
            path = bench.inputs.of("seven", "7\n" * INPUTS)
            rows = [bench.row(f"{form}, `7`", path, ("read", [form]), ("read", [form]), ("read", [])) for form in FORMATS] + rows
        print("reading, " + ("one numeral repeated 4,096 times" if repeated else "4,096 different numerals"))
        table(rows, HEADS)


def ending(bench):
    """Numerals of a length, alone and at the end of a longer text, with an exponent and without one."""
    rows = []
    for radix, digits, exponent in ((10, "0123456789", "e-5"), (16, "0123456789abcdef", "p-5")):
        for length in LENGTHS:
            for power in ("", exponent):
                pick = random.Random(length)
                point = [1 + pick.randrange(min(9, length - len(power) - 2)) for _ in range(INPUTS)]
                drawn = ["".join(pick.choice(digits) for _ in range(length - len(power) - 1)) for _ in range(INPUTS)]
                numerals = [f"{it[:at]}.{it[at:]}{power}" for it, at in zip(drawn, point)]
                for before in (0, 16):
                    name = f"radix {radix}, {length} bytes{', exponent' if power else ''}{', at an end' if before else ''}"
                    text = "".join("x" * before + it + "\n" for it in numerals)
                    path = bench.inputs.of(f"ending-{radix}-{length}-{len(power)}-{before}", text)
                    rows.append(bench.row(name, path, ("ending", [str(before), str(radix)])))
    print("reading into I32F32 by the length of the numeral")
    table(rows, HEADS)


def printing(bench):
    rows = []
    for form in PRINTED:
        path, values = bench.bits(form), bench.bits(form, "values")
        rows.append(bench.row(form, path, ("append", [form]), ("write", [form]), ("shortest", []), values))
    print("printing the shortest text in place, 4,096 different numbers (C: %.17g)")
    table(rows, HEADS)
    rows = [bench.row(form, bench.bits(form), ("write", [form])) for form in PRINTED]
    print("printing the shortest text as a text of its own")
    table(rows, HEADS)


def styled(bench):
    for places in (2, 6):
        rows = []
        for form in FORMATS:
            path, values = bench.bits(form), bench.bits(form, "values")
            words = [form, str(places)]
            rows.append(bench.row(form, path, ("places", words), ("places", words), ("write", [str(places)]), values))
        print(f"printing to {places} places in place (the crate: write! of {{:.{places}}}, C: %.{places}f)")
        table(rows, HEADS)
    rows = [bench.row(form, bench.bits(form), ("styled", [form, "2"]), ("places", [form, "2"])) for form in FORMATS]
    print("to_text with 2 places, in memory of its own")
    table(rows, HEADS)
    rows = []
    for form in FORMATS[:2]:
        path = bench.bits(form)
        rows.append(bench.row(f"{form}, {{}}", path, ("display", [form]), ("write", [form])))
        rows.append(bench.row(f"{form}, shortest", path, ("write", [form])))
        rows.append(bench.row(f"{form}, {{:.2}}", path, ("display_places", [form]), ("places", [form, "2"])))
    print("write! into one String, and `shortest` of the same numbers")
    table(rows, HEADS)


def typed(bench):
    rows = []
    for form in FORMATS[:2]:
        path = bench.numerals(form, 6)
        rows.append(bench.row(f"{form}, reading 6 digits", path, ("typed", [form]), ("read", [form])))
        rows.append(bench.row(f"{form}, the reader below", path, ("read", [form])))
        for work in ("round", "convert", "compare"):
            rows.append(bench.row(f"{form}, {work}", bench.bits(form), (work, [form])))
    print("the number type")
    table(rows, HEADS)


def scanning(bench):
    rows = []
    for digits in (6, 19):
        rows.append(bench.row(f"{digits} digits", bench.numerals("U16F16", digits), ("scan", ["10"])))
    print("scanning alone")
    table(rows, HEADS)


def measure(programs, inputs, tries):
    if programs.calls:
        bench = Bench(programs, inputs, tries)
        for subject in (reading, ending, printing, styled, typed, scanning):
            subject(bench)
