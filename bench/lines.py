"""Whole inputs: fixed_tool beside the plain Rust reference and the Rust crate."""
import os
import random

from timing import VALGRIND, in_turn, instructions, peak, run_seconds, table

# The lines of an input that is timed.
LINES = {"typical": 200_000, "radix": 200_000, "long": 10_000}
# The lines of the two inputs whose instructions are subtracted, so that starting the program does not count.
FEW, MANY = 500, 2500
# How often the peer goes over its lines, less one.
PASSES = 5


def rates(programs, inputs, tries):
    """Lines a second, instructions and memory of each input; the ratios to the peer and to the reference."""
    rows = []
    for kind, lines in LINES.items():
        path = inputs.path(kind, "--lines", str(lines))
        runs = {"tool": [([programs.tool], path)]}
        if programs.ideal:
            runs["ideal"] = [([programs.ideal], path)]
        if programs.peer:
            runs["peer"] = [([programs.peer, "lines", str(1 + PASSES)], path), ([programs.peer, "lines", "1"], path)]
        times = in_turn([it for both in runs.values() for it in both], tries)
        took, at = {}, 0
        for name, both in runs.items():
            took[name] = times[at] if len(both) == 1 else (times[at] - times[at + 1]) / PASSES
            at += len(both)
        size = os.path.getsize(path)
        each = {name: lines / took[name] / 1e6 for name in took}
        counted, per_byte = counts(programs, inputs, kind)
        rows.append([
            kind, f"{each['tool']:.2f}", f"{size / took['tool'] / 1e6:.0f}", counted.get("tool", ""), per_byte,
            peak([programs.tool], path),
            f"{each['peer']:.2f}" if "peer" in each else "", counted.get("peer", ""),
            f"{each['tool'] / each['peer']:.1f}x" if "peer" in each else "",
            f"{each['ideal']:.2f}" if "ideal" in each else "", counted.get("ideal", ""),
            f"{each['tool'] / each['ideal']:.2f}x" if "ideal" in each else "",
        ])
    table(rows, ["lines", "M/s", "MB/s", "instr/line", "instr/byte", "peak KiB",
                 "peer M/s", "instr", "to peer", "ideal M/s", "instr", "to ideal"])


def counts(programs, inputs, kind):
    """Instructions a line of each program, and the tool's instructions a byte."""
    if not VALGRIND:
        return {}, ""
    few, many = (inputs.path(kind, "--lines", str(count)) for count in (FEW, MANY))
    counted = {}
    for name, program in (("tool", programs.tool), ("ideal", programs.ideal)):
        if program:
            counted[name] = instructions([program], many) - instructions([program], few)
    found = {name: f"{count / (MANY - FEW):.0f}" for name, count in counted.items()}
    if programs.peer:
        twice, once = (instructions([programs.peer, "lines", passes], few) for passes in ("2", "1"))
        found["peer"] = f"{(twice - once) / FEW:.0f}"
    size = os.path.getsize(many) - os.path.getsize(few)
    return found, f"{counted['tool'] / size:.1f}"


def growth(programs, inputs, tries):
    """Whether time is linear in the digits, and the same for each exponent."""
    took = {}
    pick = random.Random(2)
    for count in (100_000, 1_000_000):
        digits = "".join(pick.choice("0123456789") for _ in range(count))
        path = inputs.of(f"digits-{count}", f"10 U16F16 U16F16 wrapping 0.{digits}\n" * 20)
        took[count] = in_turn([([programs.tool], path)], tries)[0]
    print(f"a numeral of 1,000,000 digits takes {took[1_000_000] / took[100_000]:.1f} times as long as one of 100,000")
    rows = []
    for exponent in ("2147483647", "-2147483648", "0000000007", "-0000000007", "7", "-7"):
        path = inputs.of("exponent", f"10 U16F16 U16F16 wrapping 12345e{exponent}\n" * 200_000)
        each = in_turn([([programs.tool], path)], tries)[0] / 200_000 * 1e9
        rows.append([exponent, f"{each:.0f}"])
    table(rows, ["exponent", "ns/line"])
    memory = []
    for name, text in (("short lines", "10 U4F4 U8F0 checked 2.99\n" * 1_000_000),
                       ("lines of 1,000,000 bytes", ("10 U16F16 U16F16 wrapping " + "7" * 1_000_000 + "\n") * 10)):
        memory.append([name, peak([programs.tool], inputs.of("memory", text))])
    table(memory, ["input", "peak KiB"])


def engine_alone(programs, inputs, tries):
    """The line engine with a rule of one constant answer."""
    path = inputs.of("short", "10 U4F4 U8F0 checked 2.99\n" * 1_920_000)
    took = min(run_seconds([programs.calls, "engine"], path) for _ in range(tries))
    size = os.path.getsize(path)
    print(f"the engine alone: {size / 1e6:.0f} MB in {took:.2f} s, {took / size * 1e9:.2f} ns a byte\n", flush=True)


def measure(programs, inputs, tries):
    if programs.tool:
        rates(programs, inputs, tries)
        growth(programs, inputs, max(3, tries // 3))
    if programs.calls:
        engine_alone(programs, inputs, max(3, tries // 3))
