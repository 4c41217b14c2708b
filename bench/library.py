"""The library for C, beside the Rust crate's calls and C's own, over 4,096 different numbers."""
from calls import INPUTS, PASSES
from timing import in_turn, table

FORMATS = {"I4F4": 3, "U16F16": 6, "I32F32": 13, "U0F64": 19}


def measure(programs, inputs, tries):
    ours = programs.built("bench_library")
    if not ours:
        print("the library for C is not timed: make library, and a compiler for C\n")
        return
    rows = []
    for form, digits in FORMATS.items():
        numerals = inputs.path("numerals", "--lines", str(INPUTS), "--format", form, "--digits", str(digits))
        bits, values = (inputs.path(kind, "--lines", str(INPUTS), "--format", form) for kind in ("bits", "values"))
        for call, in_c, path, path_of_c in (("read", "read", numerals, numerals), ("write", "shortest", bits, values)):
            contenders = [(ours, call, [form], path), (programs.peer, call, [form], path), (programs.in_c, in_c, [], path_of_c)]
            runs = [([program, word, passes, *words], given) for program, word, words, given in contenders if program
                    for passes in (str(PASSES), "0")]
            times = in_turn(runs, tries)
            each = iter((times[at] - times[at + 1]) / (PASSES * INPUTS) * 1e9 for at in range(0, len(times), 2))
            found = [next(each) if program else None for program, *_ in contenders]
            cells = [f"{it:.1f}" if it is not None else "" for it in found]
            ratios = [f"{it / found[0]:.1f}" if it is not None else "" for it in found[1:]]
            rows.append([f"{form}, {'reading ' + str(digits) + ' digits' if call == 'read' else 'printing'}", *cells, *ratios])
    print("the library for C, 4,096 different numbers (C: strtod, %.17g)")
    table(rows, ["ns a call", "ours", "the crate's", "C's", "crate / ours", "C / ours"])
