"""The paths that were slow: what each took, what it takes now, and what is asked of it."""
import random

from calls import INPUTS, PASSES, counted
from timing import VALGRIND, in_turn, instructions, peak, table

# The lines of an input that is timed, and of the two inputs whose instructions are subtracted.
LINES, FEW, MANY = 20_000, 500, 2_500
DIGITS = "0123456789abcdef"
# The lines of which the memory is measured, and their digits.
LONG_LINES, LONG_LINE = 20, 1_000_000
RECORDS = 200_000
# How a record is written: text around the number, in the third of five columns; the rate before, in megabytes a second of user
# time, which is not to be less.
SHAPES = (
    ("plain", "{0},item {1},{2:.4f},2026-11-{3:02},note {1}\n", 334),
    ("two quoted", '{0},"item, {1}",{2:.4f},2026-11-{3:02},"note {1}"\n', 288),
    ("all quoted", '"{0}","item {1}","{2:.4f}","2026-11-{3:02}","a ""note"""\n', 306),
)
# The words of a command, and its peak memory before, in MB.
MEMORY = ((["convert", "U16F16"], 3.4), (["convert", "U16F16", "--report"], 4.2), (["column", "1", "U16F16", "--report"], 5.4),
          (["show", "U16F16", "--file", "-"], 4.2))


def row(name, unit, before, now, asked="", is_least=False):
    """A row: a path, its unit, and three figures, of which the last is the most that is asked or, for a rate, the least."""
    holds = "" if asked == "" else "yes" if (now >= asked if is_least else now <= asked) else "no"
    return [name, unit, before, f"{now:.1f}" if isinstance(asked, float) else f"{now:.0f}", asked, holds]


def spelled(radix, most, count):
    """So many numerals of a radix, of four whole digits and at most this many after the point, as lines."""
    pick = random.Random(1)
    drawn = ("".join(pick.choices(DIGITS[:radix], k=4 + pick.randint(1, most))) for _ in range(count))
    return "".join(f"{digits[:4]}.{digits[4:]}\n" for digits in drawn)


class Asked:
    """The programs, the inputs, and how a figure is taken."""

    def __init__(self, programs, inputs, tries):
        self.programs, self.inputs, self.tries = programs, inputs, tries
        self.fixed = programs.built("fixed")

    def plain(self, count):
        return self.inputs.path("plain", "--lines", str(count))

    def long(self, count):
        return self.inputs.of(f"long-{count}", spelled(10, 15, count))

    def halves(self, count):
        return self.inputs.of(f"halves-{count}", "".join(f"{at % 100}.5\n" for at in range(count)))

    def spelled(self, radix):
        return lambda count: self.inputs.of(f"spelled-{radix}-{count}", spelled(radix, 3, count))

    def naming(self, mode):
        """Lines of fixed_tool that name a mode, or none."""
        def named(count):
            with open(self.inputs.path("typical", "--lines", str(count)), encoding="ascii") as given:
                words = [line.split(" ") for line in given]
            text = "".join(" ".join([*line[:3], line[3] + mode, line[4]]) for line in words)
            return self.inputs.of(f"naming-{mode.strip('/')}-{count}", text)
        return named

    def took(self, *runs):
        """Nanoseconds a line of each run, a pair of a command and an input by its count of lines."""
        return [it / LINES * 1e9 for it in in_turn([(command, given(LINES)) for command, given in runs], self.tries)]

    def counted(self, command, given):
        """Instructions a line."""
        return (instructions(command, given(MANY)) - instructions(command, given(FEW))) / (MANY - FEW)


def times(it):
    """Rows of `fixed show`, and of a report beside none."""
    fixed = it.fixed
    show, as_json = ([fixed, "show", *words, "U16F16", "--file", "-"] for words in ([], ["--json"]))
    convert, report = ([fixed, "convert", "U16F16", *words] for words in ([], ["--report"]))
    took = it.took((show, it.long), (as_json, it.long), (convert, it.plain), (report, it.plain))
    return [row("show, up to 19 digits", "us a numeral", "40 to 50", took[0] / 1e3, 3.0),
            row("show --json, the same", "us a numeral", 38, took[1] / 1e3, 3.0),
            row("convert --report beside convert", "times", "4.6 to 6.5", took[3] / took[2], 2.0)]


def counts(it):
    """Rows of what is counted in instructions of `fixed`."""
    def convert(*words):
        return [it.fixed, "convert", "U16F16", *words]
    text, rows = it.counted(convert(), it.plain), []
    for part in ("bits", "hex", "value"):
        rows.append(row(f"convert --print {part}, less than text", "instr", "as text", it.counted(convert("--print", part), it.plain), round(text) - 1))
    decimal = it.counted(convert(), it.spelled(10))
    for radix in (2, 8, 16):
        more = it.counted(convert("--radix", str(radix)), it.spelled(radix)) - decimal
        rows.append(row(f"convert --radix {radix}, more than 10", "instr", "", more, 25))
    return [*rows, row("fit --error 0.25 of halves", "instr", 7000, it.counted([it.fixed, "fit", "--error", "0.25"], it.halves), 600)]


def calls(it):
    """Rows of the library's reader, of texts that are a numeral and no byte before it."""
    each = {radix: float(counted((it.programs.calls, "ending", ["0", str(radix)], it.spelled(radix)(INPUTS)))) for radix in (2, 8, 10, 16)}
    return [row(f"a call in radix {radix}, more than 10", "instr", 100, each[radix] - each[10], 25) for radix in (2, 8, 16)]


def lines(it):
    """Rows of fixed_tool."""
    tool, none, floor, rows = [it.programs.tool], it.naming(""), it.naming("/floor"), []
    took = it.took((tool, none), (tool, floor))
    rows.append(row("a line with /floor, more than without", "ns", 40, took[1] - took[0], 5))
    if VALGRIND:
        rows.append(row("the same", "instr", "", it.counted(tool, floor) - it.counted(tool, none)))
        for kind, before, asked in (("typical", 801, 720), ("radix", 1002, 900)):
            rows.append(row(f"a line of {kind}", "instr", before, it.counted(tool, lambda count: it.inputs.path(kind, "--lines", str(count))), asked))
    return rows


def in_c(it):
    """Rows of the library for C, over numerals of up to sixteen bytes."""
    path = it.inputs.path("numerals", "--lines", str(INPUTS), "--format", "U16F16", "--digits", "11")
    asked = (("read", "fixed_read_text", 46, ""), ("scan", "fixed_scan_text", 251, 80), ("literal", "fixed_read_literal", 322, 90))
    runs = [([it.programs.built("bench_library"), call, passes, "U16F16"], path) for call, *_ in asked for passes in (str(PASSES), "0")]
    took = in_turn(runs, it.tries)
    return [row(name, "ns a call", before, (took[2 * at] - took[2 * at + 1]) / (PASSES * INPUTS) * 1e9, most)
            for at, (_, name, before, most) in enumerate(asked)]


def columns(it):
    """Rows of `fixed column` on CSV of five columns, with and without quotes."""
    paths = []
    for name, shape, _ in SHAPES:
        pick = random.Random(1)
        text = "".join(shape.format(at, pick.randrange(100_000), pick.uniform(-999, 999), pick.randrange(1, 31)) for at in range(RECORDS))
        paths.append((it.inputs.of(f"column {name}", text), len(text)))
    took = in_turn([([it.fixed, "column", "3", "I16F16"], path) for path, _ in paths], it.tries, is_user=True)
    return [row(f"column, {name}", "MB/s", before, size / seconds / 1e6, before, is_least=True)
            for (name, _, before), (_, size), seconds in zip(SHAPES, paths, took)]


def memory(it):
    """Rows of the peak memory over lines of a million digits."""
    path = it.inputs.of("long-lines", ("0." + "1" * LONG_LINE + "\n") * LONG_LINES)
    return [row(f"{words[0]}{' --report' if '--report' in words else ''}, lines of {LONG_LINE:,} digits", "MB", before,
                peak([it.fixed, *words], path) / 1024, 3.0) for words, before in MEMORY]


def measure(programs, inputs, tries):
    it, rows = Asked(programs, inputs, tries), []
    parts = ((times, it.fixed), (counts, it.fixed and VALGRIND), (calls, programs.calls and VALGRIND), (lines, programs.tool),
             (in_c, programs.built("bench_library")), (columns, it.fixed), (memory, it.fixed))
    for part, is_there in parts:
        if is_there:
            rows += part(it)
    if rows:
        table(rows, ["path", "in", "before", "now", "asked", "holds"])
