#!/usr/bin/env python3
"""Compares the options of each command of `fixed` with the sessions of cases/, and runs command lines that are wrong in one word.

    command_lines.py                  names each option of a command, and each word of an option, that no session tries
    command_lines.py --tests          shows that an option without a session is found
    command_lines.py --built FOLDER   runs wrong command lines, made from the table of options: each must be refused

The table is that of .ci/options.py. A command line of a session tries its options unless it is refused (status 2, or `$?`
shows it). In a loop, `for NAME in WORDS`, the value `$NAME` stands for each of the words.
"""
import glob
import os
import re
import shlex
import subprocess
import sys
import tempfile
from concurrent.futures import ThreadPoolExecutor

TOP = os.path.dirname(os.path.dirname(os.path.abspath(__file__)))
sys.path[:0] = [f"{TOP}/oracle", f"{TOP}/.ci"]
from cases import sessions_of  # noqa: E402
from harness import Tally, built_option, program, run  # noqa: E402
from options import Page, Row, pages  # noqa: E402

# The operands and options of the shortest command line of each command; the others need none.
PLAIN = {
    "convert": "Q15", "column": "1 Q15", "json": ".a Q15", "bits": "Q15", "show": "Q15", "format": "Q15", "fit": "--width=8",
    "pack": "Q15", "unpack": "Q15", "repack": "Q15 Q7",
}
# Options whose value may be any text, and one that may occur several times.
ANY, SEVERAL = ("output", "rejects", "file"), ("field",)
# A value that each option refuses. Those with a list of words refuse any other.
BAD = {
    "places": "65", "limit": "0", "field": "7", "width": "65", "error": "x", "whole": "9", "skip": "x", "count": "-1",
    "delimiter": "ab", "decimal": "1", "decimal-out": "1", "thousands": "1", "thousands-anywhere": "1", "comments": " #",
    "separators": "1", "refused": "a b", "numerals": "I65F0", "name": "9", "guard": "9", "into": "x" * 1025,
}
# The words that an option goes with so that this value is looked at: by option, or by command and option.
BAD_WITH = {
    "separators": "--words", "refused": "--words", "numerals": "coe", "name": "array-c --numerals=Q15", "guard": "c",
    "constants decimal": "coe --numerals=Q15", "constants comments": "coe --numerals=Q15",
}
# A value that each option takes. Of those with a list of words it is the last.
RIGHT = {
    "rejects": "rejected",
    "places": "1", "limit": "1000", "field": "7:0", "width": "8", "error": "1", "whole": "2", "skip": "1", "count": "1",
    "delimiter": ";", "decimal": ",", "decimal-out": ",", "thousands": "'", "thousands-anywhere": "'", "comments": "#",
    "separators": ";", "refused": "no", "numerals": "I4F4", "name": "h", "guard": "H", "into": "b",
}
# The words that an option goes with so that it is taken, and those in the place of PLAIN.
RIGHT_WITH = {
    "convert separators": "--words", "convert refused": "--words", "convert keep": "--words", "target-mode": "I8F0",
    "places-mode": "--places=1", "column decimal-out": "--decimal=,", "pack report": "--from=f32", "constants guard": "c",
    "constants name": "array-c", "constants numerals": "coe", "constants limit": "", "constants output": "",
    "constants": "coe --numerals=I4F4", "": "",
}
RIGHT_PLAIN = {"column all": "I4F4", "fit width": "", "fit error": "", "fit any": "--error=1", "repack target-mode": "I4F4"}


# ---- what the sessions try
def calls(line):
    """The arguments of each call of `fixed` in a command line of a session."""
    line = re.sub(r"<<'?(\w+)'?(.*)\n(?s:.*?)^\1$", r"\2", line, flags=re.M)
    words = shlex.shlex(line.replace("$(", " ; ").replace("\n", " ; "), posix=True, punctuation_chars=";|&<>()")
    words.whitespace_split, words.commenters = True, ""
    call = []
    for word in [*words, ";"]:
        if re.fullmatch("[;|&()]+", word):
            if call[:1] == ["fixed"] and len(call) > 1:
                yield call[1:]
            call = []
        elif call or word == "fixed":
            call.append(word)


def value_in(words, at, row):
    """The value of an option if the word at this index is the option, "" if none follows; None if it is another word."""
    word, names = words[at], [f"--{row.name}"] + [f"-{row.letter}"] * bool(row.letter)
    if word in names:
        return words[at + 1] if row.value and not row.value.startswith("[=") and at + 1 < len(words) else ""
    if word.startswith(f"--{row.name}="):
        return word.partition("=")[2]
    return word[2:].removeprefix("=") if row.letter and row.value and re.match(rf"-{row.letter}.", word) else None


def tried(files, table):
    """What the sessions of these files, by name and text, try: pairs of command and option, and with its value."""
    by_name = {name: page for page in table for name in (page.name, page.hidden_name)}
    for path, text in files.items():
        for command in (it for session in sessions_of(path, text) for it in session if it.status != 2 and "$?" not in it.line):
            loops = {name: words.split() for name, words in re.findall(r"\bfor (\w+) in ([^;\n]*);", command.line)}
            for name, *words in calls(command.line):
                page = by_name.get(name)
                words = words[:words.index("--")] if "--" in words else words
                for at, row in ((at, row) for at in range(len(words)) for row in (page.options if page else ())):
                    value = value_in(words, at, row)
                    if value is not None:
                        yield page.name, row.name
                        values = loops.get(value[1:], [value]) if value.startswith("$") else [value]
                        yield from ((page.name, row.name, it) for it in values)


def untried(files, table):
    """The options, and words of options, that no session tries."""
    found = set(tried(files, table))
    for page in table:
        for row in page.options:
            if (page.name, row.name) not in found:
                yield f"no session tries fixed {page.name} --{row.name}"
            else:
                missing = [it for it in row.choices if (page.name, row.name, it) not in found]
                yield from (f"no session tries fixed {page.name} --{row.name} {it}" for it in missing)


# ---- a right command line for each option
def right_line(page, row):
    """A command line of a command with this option, for formats of 8 bits; None for an option that stands in the place of files."""
    if row.name in ("file", "range"):
        return None
    cell = f"{page.name} {row.name}"
    plain = RIGHT_PLAIN.get(cell, PLAIN.get(page.name, "").replace("Q15 Q7", "I4F4 I8F0").replace("Q15", "I4F4"))
    words = next(RIGHT_WITH[name] for name in (cell, row.name, page.name, "") if name in RIGHT_WITH)
    value = row.choices[-1] if row.choices else RIGHT.get(row.name, "made")
    return [page.name, *plain.split(), *words.split(), f"--{row.name}={value}" if row.value else f"--{row.name}"]


# ---- command lines that are wrong in one word
def with_operands(page, words=""):
    """A command line of a command that is right but for the words that come after it."""
    plain = "" if re.search("--(width|error)", words) else PLAIN.get(page.name, "")
    output = ["--output=made"] if page.options and "--output" not in words else []
    return [page.name, *plain.split(), *output, *words.split()]


def wrong_lines(table):
    """Command lines that must be refused, each with the word that its refusal must name."""
    names = {row.name for page in table for row in page.options}
    for page in table:
        rows = {row.name: row for row in page.options}
        for name in ["nonsense", *sorted(names - rows.keys())]:
            yield [*with_operands(page), f"--{name}"], f"--{name}"
        if not page.has_numerals:
            yield [*with_operands(page), "-Z"], "-Z"
        for row in page.options:
            yield from wrong_values(page, row)
        needed = PLAIN.get(page.name, "").split()
        if needed:
            yield [page.name, *needed[:-1]], "there is no "


def wrong_values(page, row):
    """Command lines with a wrong value of an option, without its value, and with the option twice."""
    option = f"--{row.name}"
    if not row.value:
        yield [*with_operands(page, option)[:-1], f"{option}=nonsense"], option
        yield [*with_operands(page), option, option], option
        return
    words = BAD_WITH.get(f"{page.name} {row.name}", BAD_WITH.get(row.name, ""))
    line = with_operands(page, f"{words} {option}")[:-1]
    bad = "nonsense" if row.choices else BAD.get(row.name)
    if bad is not None:
        yield [*line, f"{option}={bad}"], bad if len(bad) <= 64 else option
    if not row.value.startswith("["):
        yield [*line, option], option
    if row.name not in SEVERAL:
        value = row.choices[0] if row.choices else "1"
        yield [*line, f"{option}={value}", f"{option}={value}"], option


def is_refused(ran, words, named):
    """Whether a run ended with status 2 and one line that names the word and the help of the command, and wrote nothing else."""
    told = ran.stderr.decode()
    ends = f"; try 'fixed {words[0]} --help'\n"
    is_line = told.startswith("fixed: ") and told.endswith(ends) and told.count("\n") == 1
    return ran.returncode == 2 and ran.stdout == b"" and is_line and named in told.removesuffix(ends)


def refused(path, table):
    """Runs wrong command lines in an empty folder, which stays empty."""
    tally, lines = Tally(), list(wrong_lines(table))
    with tempfile.TemporaryDirectory() as folder, ThreadPoolExecutor(os.cpu_count() or 1) as pool:
        for (words, named), ran in zip(lines, pool.map(lambda it: run(path, it[0], cwd=folder), lines)):
            told = f"fixed {shlex.join(words)}: {ran.returncode}, {ran.stdout!r:.80}, {ran.stderr!r:.300}"
            tally.check(is_refused(ran, words, named), told)
        tally.check(os.listdir(folder) == [], f"a refused command line left {os.listdir(folder)}", 0)
    return tally.end("wrong command lines")


# ---- the check's own test: what these sessions do not try, of a command with three options
ROWS = (Row("all", None, "", (), ""), Row("mode", "m", "MODE", ("up", "down"), ""), Row("to", None, "N", (), ""))
TABLE = (Page("do", "did", "", "", (), False, ROWS, ""),)
SESSIONS = (
    ("$ fixed do --all --mode up -m down --to 3\n", ""),
    ("$ echo a | fixed did --all -mup --to=3 | cat\n$ fixed do -m=down\n", ""),
    ("$ for way in up down; do fixed do --all --mode $way --to 1; done\n", ""),
    ("$ fixed do --all\n! fixed: no\n? 2\n\n$ fixed do --mode up --mode=down --to 1\n? 1\n", "--all"),
    ("$ fixed do --mode up --to 1\n$ fixed do --mode down; echo --all\n", "--all"),
    ("$ fixed do --all --mode up --to 1\n$ echo --mode down\n", "--mode down"),
    ("$ fixed do --all --mode $way --to 1\n$ for way in up; do fixed do --mode $way; done\n", "--mode down"),
    ("$ fixed do --mode up --all -- --to 1\n$ fixed done --to 1 --mode down\n", "--to, --mode down"),
    ("$ cat <<END\n> fixed do --all\n> END\n$ fixed do --mode up -m down --to 1\n", "--all"),
)


def tests():
    """What the check answers otherwise than it should."""
    for text, missing in SESSIONS:
        found = {it.removeprefix("no session tries fixed do ") for it in untried({"made": text}, TABLE)}
        if found != set(filter(None, missing.split(", "))):
            yield f"{text!r}: {sorted(found)}, not {missing}"
    row = Row("form", None, "[=FORM]", ("long",), "")
    if (value_in(["--form", "long"], 0, row), value_in(["--form=long"], 0, row)) != ("", "long"):
        yield "the word after an option whose value is given only after = is taken for the value"
    right = subprocess.CompletedProcess([], 2, b"", b"fixed: 'x' is wrong; try 'fixed do --help'\n")
    if not is_refused(right, ["do", "x"], "'x'"):
        yield "a refusal is not seen"
    for status, output, error in ((1, b"", right.stderr), (2, b"a\n", right.stderr), (2, b"", b"fixed: 'y' is wrong; try 'fixed do --help'\n"),
                                  (2, b"", b"fixed: 'x' is wrong; try 'fixed --help'\n"), (2, b"", right.stderr * 2), (2, b"", b"")):
        if is_refused(subprocess.CompletedProcess([], status, output, error), ["do", "x"], "'x'"):
            yield f"passes: {status}, {output}, {error}"


def main():
    table = list(pages())
    if "--built" in sys.argv:
        path = program("fixed", built_option(__doc__))
        if path is None:
            print("fixed is not built, and so its wrong command lines were not run")
            return 0
        return refused(path, table)
    if "--tests" in sys.argv:
        wrong = list(tests())
    else:
        files = {}
        for path in sorted(glob.glob(f"{TOP}/cases/*.txt")):
            with open(path, encoding="utf-8", newline="") as file:
                files[os.path.relpath(path, TOP)] = file.read()
        wrong = list(untried(files, table))
        values = {row.name for page in table for row in page.options if row.value and not row.choices}
        wrong += [f"BAD and RIGHT have no value of --{name}" for name in sorted(values - (BAD.keys() & RIGHT.keys()) - set(ANY))]
    for told in wrong:
        print(f".ci/command_lines.py: {told}")
    return 1 if wrong else 0


if __name__ == "__main__":
    sys.exit(main())
