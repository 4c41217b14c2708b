"""What it costs that programs and library are compiled for every amd64 processor: their instructions beside those of the
same, compiled for x86-64-v2 (`make build/v2`)."""
from timing import VALGRIND, instructions, table

# The lines of the two inputs whose instructions are subtracted, so that starting a program does not count.
FEW, MANY = 500, 2500
# How often the library's calls are made over its lines, less those of the run that is subtracted.
PASSES = 3
RECORD = '{0},"item, {0}",{1}.{2},"note"\n'


def cases(inputs):
    """What is measured: its name, the program, its words, and its input of a count of lines."""
    def made(kind, *words):
        return lambda count: inputs.path(kind, "--lines", str(count), *words)

    def records(count):
        text = "".join(RECORD.format(at, at * 7 % 999, at * 7919 % 10_000) for at in range(count))
        return inputs.of(f"records-{count}", text)

    return (
        ("fixed_tool, typical", "fixed_tool", [], made("typical")),
        ("fixed_tool, four radices", "fixed_tool", [], made("radix")),
        ("fixed_tool, long", "fixed_tool", [], made("long")),
        ("fixed convert U16F16", "fixed", ["convert", "U16F16"], made("plain")),
        ("fixed column 3 I16F16", "fixed", ["column", "3", "I16F16"], records),
        ("enclose_tool", "enclose_tool", [], made("enclose")),
        ("least_tool", "least_tool", [], made("plain")),
        ("constants_tool", "constants_tool", [], made("constants")),
        ("columns_tool", "columns_tool", [], made("cells")),
    )


def row(name, found):
    return [name, *[f"{count:.0f}" for count in found], f"{found[0] / found[1]:.4f}"]


def measure(programs, inputs, _tries):
    if not VALGRIND:
        return
    rows = []
    for name, program, words, input_of in cases(inputs):
        both = [programs.built(path) for path in (program, f"v2/{program}")]
        if all(both):
            few, many = input_of(FEW), input_of(MANY)
            rows.append(row(name, [(instructions([path, *words], many) - instructions([path, *words], few)) / (MANY - FEW) for path in both]))
    both = [programs.built(path) for path in ("bench_library", "v2/bench_library")]
    for call, kind, digits in (("read", "numerals", ["--digits", "6"]), ("write", "bits", [])):
        if all(both):
            path = inputs.path(kind, "--lines", str(MANY), "--format", "U16F16", *digits)
            found = [(instructions([each, call, str(PASSES), "U16F16"], path) - instructions([each, call, "0", "U16F16"], path))
                     / (PASSES * MANY) for each in both]
            rows.append(row(f"fixed_{'read_text' if call == 'read' else 'print_bits'}, U16F16", found))
    if rows:
        table(rows, ["instructions a line or call", "x86-64", "x86-64-v2", "ratio"])
    else:
        print("the cost of plain x86-64 is not measured: make build/v2\n")
