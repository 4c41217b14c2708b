#!/usr/bin/env python3
"""An independent writer of what `fixed constants` writes, of numerals and of named literals, worked out with whole numbers alone.

    arrays.py --compare PROGRAM [--count N] [--seed S]   runs PROGRAM constants on seeded lists, compares what it writes byte
                                                         for byte, and has compilers and simulators read some of it back
"""
import re
import shutil
import subprocess
import sys
import tempfile

from constants import RESERVED, answer, entry_of, line_for, type_shape
from convert import laid_out, layout_for, numeral_of
from harness import main, run
from pack import MODES, POLICIES, clean_for, input_for, lines_of, shape_for, word_of
from reference import WORDS, Refused, image, read_number, shortest

FORMS = ("array-c", "array-rust", "vhdl", "readmemh", "coe", "mif")
NAMED = FORMS[:3]
NAMES = ("h", "TAPS", "_", "a" * 58, "a" * 59, "a" * 64, "a" * 65, "9", "int", "fn", "uint8_t", "x-y", "", "A_H", "signal", "Signal", "a__b", "a_", "_a", "a_b")
# The keywords of VHDL in its editions up to 2019, and what a package of a list stands on.
VHDL = set(
    """abs access after alias all and architecture array assert assume assume_guarantee attribute begin block body buffer bus case
    component configuration constant context cover default disconnect downto else elsif end entity exit fairness file for force
    function generate generic group guarded if impure in inertial inout is label library linkage literal loop map mod nand new next
    nor not null of on open or others out package parameter port postponed private procedure process property protected pure range
    record register reject release rem report restrict restrict_guarantee return rol ror select sequence severity shared signal sla
    sll sra srl strong subtype then to transport type unaffected units until use variable view vmode vpkg vprop vunit wait when while
    with xnor xor ieee numeric_std signed standard std std_logic_1164 unsigned work""".split()
)


def element_width(shape):
    """How many bits the integer type of an element has."""
    return next(width for width in (8, 16, 32, 64) if shape[1] <= width)


def numbers_of(data, radix, shape, policy, mode, layout):
    """The bits of an input's numerals; Refused with the line's number and the cause where one is refused, or there is none."""
    numbers = []
    for place, line in enumerate(lines_of(data), 1):
        numeral = numeral_of(line, layout)
        if numeral is None:
            continue
        try:
            numbers.append(image(policy, shape, read_number(numeral, radix, shape[2], mode))[0])
        except Refused as why:
            raise Refused(f"line {place}", WORDS[str(why)]) from why
    if not numbers:
        raise Refused("line 1", "no numeral")
    return numbers


def literals_of(data):
    """The entries of an input's named literals, in order; Refused with the line's number and the cause where one is refused, or
    has another format than the first, or there is none."""
    entries, seen = [], {}
    for place, line in enumerate(lines_of(data), 1):
        if not line or line[:1] == b"#":
            continue
        try:
            entry = entry_of(line, seen, ())
        except Refused as why:
            raise Refused(f"line {place}", str(why)) from why
        if entries and entry[2] != entries[0][2]:
            raise Refused(f"line {place}", f"another format than {entries[0][1]}")
        seen[entry[0].encode()] = place
        entries.append(entry)
    if not entries:
        raise Refused("line 1", "no literal")
    return entries


def c_number(bits, shape):
    """A number as the macro of <stdint.h> for its type."""
    width = element_width(shape)
    macro = f"{'' if shape[0] else 'U'}INT{width}_C"
    if bits >= 0:
        return f"{macro}({hex(bits)})"
    if bits == -(1 << width - 1):
        return f"(-{macro}({hex(-bits - 1)}) - 1)"
    return f"(-{macro}({hex(-bits)}))"


def digits(bits, shape, base):
    """Bits in two's complement: in hexadecimal a digit for every four, in binary one for each."""
    number = bits % (1 << shape[1])
    return f"{number:0{-(-shape[1] // 4)}x}" if base == 16 else f"{number:0{shape[1]}b}"


def array(form, numbers, shape, name, guard, labels=()):
    """The text of a list, of which each number has a label or none has one."""
    width, word, count = element_width(shape), word_of(shape), len(numbers)
    rows = [(index, bits, (f"{labels[index]}, " if labels else "") + shortest(bits, shape[2])) for index, bits in enumerate(numbers)]
    if form == "array-c":
        lines = "".join(f"    {c_number(bits, shape)}, /* {value} */\n" for _, bits, value in rows)
        before, after = (f"#ifndef {guard}\n#define {guard}\n\n", "\n#endif\n") if guard else ("", "")
        kind = f"{'' if shape[0] else 'u'}int{width}_t"
        macros = f"#define {name}_COUNT {count}\n#define {name}_FRAC {shape[2]}\n\n"
        return f"{before}#include <stdint.h>\n\n{macros}/* {word} */\nstatic const {kind} {name}[{name}_COUNT] = {{\n{lines}}};\n{after}"
    if form == "array-rust":
        lines = "".join(f"    {hex(bits)}, // {value}\n" for _, bits, value in rows)
        return f"// {word}\npub static {name}: [{'i' if shape[0] else 'u'}{width}; {count}] = [\n{lines}];\n"
    if form == "vhdl":
        lines = "".join(f'        {index} => "{digits(bits, shape, 2)}", -- {value}\n' for index, bits, value in rows)
        return (
            f"library ieee;\nuse ieee.std_logic_1164.all;\nuse ieee.numeric_std.all;\n\n-- {word}\npackage {name}_package is\n"
            f"    type {name}_array is array (0 to {count - 1}) of {'' if shape[0] else 'un'}signed({shape[1] - 1} downto 0);\n"
            f"    constant {name} : {name}_array := (\n{lines}        others => (others => '0')\n    );\nend package {name}_package;\n"
        )
    if form == "readmemh":
        return f"// {word}\n" + "".join(f"{digits(bits, shape, 16)} // {value}\n" for _, bits, value in rows)
    if form == "coe":
        lines = ",\n".join(digits(bits, shape, 16) for bits in numbers)
        return f"; {word}\nmemory_initialization_radix=16;\nmemory_initialization_vector=\n{lines};\n"
    lines = "".join(f"    {index} : {digits(bits, shape, 16)}; -- {value}\n" for index, bits, value in rows)
    head = f"-- {word}\nDEPTH = {count};\nWIDTH = {shape[1]};\nADDRESS_RADIX = UNS;\nDATA_RADIX = HEX;\nCONTENT\nBEGIN\n"
    return f"{head}{lines}END;\n"


def from_word(number, shape):
    return number - (1 << shape[1]) if shape[0] and number >> (shape[1] - 1) else number


def built(folder, commands):
    """The lines that the last of some commands prints; Refused with what one of them says."""
    for command in commands:
        ran = subprocess.run(command, capture_output=True, check=False, cwd=folder)
        if ran.returncode:
            raise Refused(f"{command[0]}: {(ran.stderr + ran.stdout).decode()[:400]}")
    return ran.stdout.decode().split()


def write(folder, name, text):
    with open(f"{folder}/{name}", "w", encoding="ascii") as file:
        file.write(text)


def by_gcc(folder, text, shape, name, count):
    kind, form = ("int64_t", "PRId64") if shape[0] else ("uint64_t", "PRIu64")
    text += f"#if {name}_COUNT != {count} || {name}_FRAC != {shape[2]}\n#error\n#endif\n"
    text += f"#include <inttypes.h>\n#include <stdio.h>\nint main(void) {{\n    for (unsigned i = 0; i < {name}_COUNT; i++)\n"
    write(folder, "a.c", text + f'        printf("%" {form} "\\n", ({kind}) {name}[i]);\n    return 0;\n}}\n')
    return map(int, built(folder, [["gcc", "-std=c11", "-pedantic-errors", "-Wall", "-Wextra", "-Werror", "-o", "a", "a.c"], ["./a"]]))


def by_rustc(folder, text, _shape, name, _count):
    write(folder, "a.rs", text + f'fn main() {{\n    for n in {name} {{\n        println!("{{n}}");\n    }}\n}}\n')
    return map(int, built(folder, [["rustc", "-A", "non_upper_case_globals", "-D", "warnings", "-o", "a", "a.rs"], ["./a"]]))


def by_ghdl(folder, text, shape, name, count):
    write(folder, "a.vhd", text)
    write(folder, "t.vhd", f"""use std.textio.all;
library ieee;
use ieee.std_logic_1164.all;
use work.{name}_package.all;
entity t is end;
architecture a of t is begin
  process
    variable l : line;
  begin
    for i in 0 to {count - 1} loop
      for j in {shape[1] - 1} downto 0 loop
        write(l, std_logic'image({name}(i)(j))(2));
      end loop;
      writeline(output, l);
    end loop;
    wait;
  end process;
end;
""")
    lines = [built(folder, [["ghdl", "-a", f"--std={std}", "a.vhd", "t.vhd"], ["ghdl", "-e", f"--std={std}", "t"],
                            ["ghdl", "-r", f"--std={std}", "t"]]) for std in ("93", "08")]
    if lines[0] != lines[1]:
        raise Refused("ghdl reads it otherwise by another standard")
    return (from_word(int(line, 2), shape) for line in lines[0])


def by_iverilog(folder, text, shape, _name, count):
    write(folder, "a.hex", text)
    write(folder, "a.v", f"""module t;
  reg [{shape[1] - 1}:0] m [0:{count - 1}];
  integer i;
  initial begin
    $readmemh("a.hex", m);
    for (i = 0; i < {count}; i = i + 1) $display("%b", m[i]);
  end
endmodule
""")
    return (from_word(int(line, 2), shape) for line in built(folder, [["iverilog", "-Wall", "-o", "a", "a.v"], ["vvp", "-n", "a"]]))


def by_coe(_folder, text, shape, _name, _count):
    """What the keywords of a coefficient file say, by the rules of Xilinx's tools."""
    body = "".join(line for line in text.splitlines(True) if not line.startswith(";"))
    found = re.fullmatch(r"memory_initialization_radix\s*=\s*(\d+)\s*;\s*memory_initialization_vector\s*=([^;]*);\s*", body)
    return (from_word(int(word, int(found[1])), shape) for word in re.split(r"[\s,]+", found[2].strip()))


def by_mif(_folder, text, shape, _name, count):
    """What a memory initialization file says, by the rules of Intel's tools."""
    body = re.sub(r"--[^\n]*", "", text)
    keys = dict(re.findall(r"(\w+)\s*=\s*(\w+)\s*;", body))
    rows = re.findall(r"(\d+)\s*:\s*([0-9a-f]+)\s*;", re.search(r"CONTENT\s+BEGIN(.*)END\s*;\s*\Z", body, re.S)[1])
    if keys != {"DEPTH": str(count), "WIDTH": str(shape[1]), "ADDRESS_RADIX": "UNS", "DATA_RADIX": "HEX"}:
        raise Refused(f"keywords {keys}")
    if [int(place) for place, _ in rows] != list(range(count)):
        raise Refused("the places are not all, in order")
    return (from_word(int(word, 16), shape) for _, word in rows)


READERS = {"array-c": ("gcc", by_gcc), "array-rust": ("rustc", by_rustc), "vhdl": ("ghdl", by_ghdl),
           "readmemh": ("iverilog", by_iverilog), "coe": (None, by_coe), "mif": (None, by_mif)}


def read_back(form, text, shape, name, count):
    """The numbers that another program reads; None where it is not here, and its words where it refuses."""
    tool, reader = READERS[form]
    if tool and shutil.which(tool) is None:
        return None
    with tempfile.TemporaryDirectory() as folder:
        try:
            return list(reader(folder, text, shape, name, count))
        except Refused as why:
            return str(why)


def is_name(form, name, guard):
    if form not in NAMED:
        return name is None
    if name is None or not re.fullmatch(r"[A-Za-z_][A-Za-z0-9_]{0,63}", name):
        return False
    if form == "vhdl":
        return "__" not in f"_{name}_" and name.lower() not in VHDL
    if form == "array-c" and ("__" in f"{name}_" or re.match("_[A-Z]", name) or len(name) > 58):
        return False
    if form == "array-c" and guard in (f"{name}_COUNT", f"{name}_FRAC"):
        return False
    return name not in RESERVED[form[6:]] and name != guard


def literals_for(pick, is_clean):
    """Named literals, mostly of one format; where they are clean, each is in order."""
    shape = type_shape(pick)
    names = [f"{pick.choice('ABCxyz_')}{pick.randrange(10**6)}_{at}".encode() for at in range(60)] + [b"int", b"fn", b"signal"]
    if is_clean:
        low, high = (-(1 << shape[1] - 1), (1 << shape[1] - 1) - 1) if shape[0] else (0, (1 << shape[1]) - 1)
        numbers = [pick.choice((low, high, pick.randint(low, high))) for _ in range(pick.randrange(1, 60))]
        rows = [f"{names.pop().decode()} = {shortest(number, shape[2])} {word_of(shape)}" for number in numbers]
        return "".join(f"# a comment\n\n{row}\n" for row in rows).encode()
    lines = [line_for(pick, names, shape if pick.randrange(12) else None) for _ in range(pick.randrange(0, 12))]
    if lines and pick.randrange(8) == 0:
        lines.append(pick.choice(lines))
    return b"\n".join(lines) + (b"\n" if pick.randrange(2) else b"")


def names_of(shape):
    """Other names of a format than its own: in small letters, in Q notation and in other tools."""
    signed, width, frac = shape
    whole, sign = width - frac, "s" if signed else "u"
    names = [f"{'i' if signed else 'u'}{whole}f{frac}", f"{sign}fixed({whole - 1} downto {-frac})", f"{sign}fix{width}_En{frac}"]
    for comma in (",", ", "):
        names.append(f"ap_{'' if signed else 'u'}fixed<{width}{comma}{whole}>")
        names += (f"{start}{comma.join(map(str, (int(signed), width, frac)))})" for start in (f"fi(_{comma}", "numerictype("))
    names += [f"{'' if signed else 'U'}Q{whole}.{frac}"] if whole or not signed else []
    names += [f"Q{frac}"] if signed and whole == 1 else []
    return [name.encode() for name in names + ([f"{sign}fix{width}"] if frac == 0 else [])]


OTHERS = {word_of((signed, width, frac)).encode(): names_of((signed, width, frac))
          for signed in (True, False) for width in (8, 16, 32, 64) for frac in range(width + 1)}
OWN = {name: word for word, names in OTHERS.items() for name in names}


def renamed(line):
    """A plain line with its format's own name in the place of another."""
    fields = line.split(b" ", 3)
    return b" ".join([*fields[:3], *(OWN.get(word, word) for word in fields[3:])])


def plain(data):
    """A file of named literals with one blank between words, an equals sign being one of them, without comments, and with formats
    by their own names."""
    words = ([word for word in re.split(rb"[ \t\r\f]+", re.sub(rb"#.*", b"", line).replace(b"=", b" = ")) if word] for line in lines_of(data))
    return b"".join(renamed(b" ".join(line)) + b"\n" for line in words)


def spread(pick, data):
    """A file of named literals with other blanks and names of formats, and with comments."""
    blanks = (b" ", b"  ", b"\t", b" \t ", b"\r", b"\f")
    lines = []
    for line in data.split(b"\n"):
        if pick.randrange(3) == 0:
            line = re.sub(rb"[IU][0-9]+F[0-9]+$", lambda found: pick.choice(OTHERS.get(found[0], [found[0]])), line)
        line = re.sub(rb" ", lambda _: pick.choice(blanks), line)
        line = re.sub(rb"\s*=\s*", b"=", line) if pick.randrange(4) == 0 else line
        before, after = (pick.choice((b"", b"", *blanks)) for _ in range(2))
        lines.append(before + line + after + pick.choice((b"", b"", b"# 1", b"#=", b"\r")))
    return b"\n".join(lines)


def sources_once(program, pick, _is_read):
    """A run of constants over named literals in their own form, as C or as Rust, and a message where it differs."""
    form = pick.choice(("", "c", "rust"))
    guard = "A_H" if form == "c" and pick.random() < 0.3 else ""
    data = literals_for(pick, pick.random() < 0.3)
    data = spread(pick, data) if pick.random() < 0.7 else data
    words = ["constants", *([form] if form else []), *(["--guard", guard] if guard else [])]
    ran, (wanted, status) = run(program, words, data), answer(plain(data), form, guard)
    shown = f"{' '.join(words)}, {data[:300]!r}: status {ran.returncode}, {ran.stdout[:60]!r}"
    if status == 0:
        return None if (ran.returncode, ran.stdout) == (0, wanted.encode()) else f"{shown}, not {wanted[:200]!r}"
    return refusal_of(ran, shown, Refused(*wanted.removeprefix("error: ").rstrip("\n").split(": ", 1)))


def literals_once(program, pick, is_read):
    """A run of constants over named literals, and a message where it differs."""
    form = pick.choice(FORMS)
    name = pick.choice((*NAMES, None)) if pick.random() < 0.2 else "h" if form in NAMED else None
    guard = "A_H" if form == "array-c" and pick.random() < 0.3 else ""
    data = literals_for(pick, is_read or pick.random() < 0.3)
    data = spread(pick, data) if pick.random() < 0.5 else data
    words = ["constants", form, *([] if name is None else [f"--name={name}"]), *(["--guard", guard] if guard else [])]
    ran = run(program, words, data)
    shown = f"{' '.join(words)}, {data[:300]!r}: status {ran.returncode}, {ran.stdout[:60]!r}"
    if not is_name(form, name, guard):
        return None if (ran.returncode, ran.stdout) == (2, b"") else f"{shown}, not status 2"
    try:
        entries = literals_of(plain(data))
    except Refused as why:
        return refusal_of(ran, shown, why)
    labels, numbers, shape = [entry[0] for entry in entries], [entry[3] for entry in entries], entries[0][2]
    return difference(ran, shown, form, array(form, numbers, shape, name, guard, labels), (shape, name, numbers), is_read)


def refusal_of(ran, shown, why):
    """A message where a run does not refuse the line for the cause."""
    place, cause = why.args
    is_told = f"{place}, ".encode() in ran.stderr and cause.encode() in ran.stderr
    return None if (ran.returncode, ran.stdout) == (1, b"") and is_told else f"{shown}, {ran.stderr!r}, not {place}: {cause}"


def difference(ran, shown, form, wanted, read, is_read):
    """A message where a run writes another text, or another program reads other numbers."""
    if (ran.returncode, ran.stdout) != (0, wanted.encode()):
        return f"{shown}, not {wanted[:200]!r}"
    shape, name, numbers = read
    back = read_back(form, wanted, shape, name, len(numbers)) if is_read else None
    return None if back is None or back == numbers else f"{shown}: {READERS[form][0]} reads {str(back)[:400]}"


def once(program, pick, is_read):
    """A run of constants over numerals, and a message where it differs."""
    form, radix, shape = pick.choice(FORMS), pick.choice((2, 8, 10, 10, 16)), shape_for(pick)
    policy, mode = pick.choice(POLICIES), pick.choice(MODES)
    name = pick.choice((*NAMES, None)) if pick.random() < 0.3 else "h" if form in NAMED else None
    guard = "A_H" if form == "array-c" and pick.random() < 0.3 else ""
    is_clean = is_read or pick.random() < 0.5
    data = clean_for(pick, shape) if is_clean else input_for(pick, radix, shape)
    radix = 10 if is_clean else radix
    words = ["constants", form, "--numerals", word_of(shape), "-r", str(radix), "-p", policy, "-m", mode]
    words += [] if name is None else [f"--name={name}"]
    mark = pick.choice(".,;")
    words += [] if mark == "." and pick.randrange(2) else ["--decimal", mark]
    layout, more = layout_for(pick) if mark == "." and pick.randrange(2) else ((False, False, ""), [])
    if more:
        data = b"".join(laid_out(pick, line) + b"\n" for line in lines_of(data))
        words += more
    written = data.translate(bytes.maketrans(f".{mark}".encode(), f"{mark}.".encode()))
    ran = run(program, [*words, *(["--guard", guard] if guard else [])], written)
    shown = f"{' '.join(words)} {guard}, {written[:60]!r}: status {ran.returncode}, {ran.stdout[:60]!r}"
    if not is_name(form, name, guard):
        return None if (ran.returncode, ran.stdout) == (2, b"") else f"{shown}, not status 2"
    try:
        numbers = numbers_of(data, radix, shape, policy.encode(), mode, layout)
    except Refused as why:
        return refusal_of(ran, shown, why)
    return difference(ran, shown, form, array(form, numbers, shape, name, guard), (shape, name, numbers), is_read)


def compare(program, pick, given, tally):
    for tool, _ in READERS.values():
        if tool and shutil.which(tool) is None:
            print(f"{tool} is not here, and so it read no list")
    for i in range(given.count):
        wrong = (once, literals_once, sources_once)[i % 3](program, pick, i % 20 < 2)
        tally.check(wrong is None, wrong)


if __name__ == "__main__":
    sys.exit(main(__doc__, compare, "lists compared", 400))
