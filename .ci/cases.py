#!/usr/bin/env python3
"""Runs the sessions of cases/*.txt and compares what is printed. CONTRIBUTING.md describes the form of these files.

    cases.py [--built FOLDER] [NAME..]   all files, or those that are named: `cases.py convert` runs cases/convert.txt
    cases.py --tests                     shows that wrong sessions are found

FOLDER has the programs: build/ by default; the word `out` takes them from crates/NAME/out/. A session of a program that is not
there is passed over, and counted.
"""
import argparse
import difflib
import glob
import os
import re
import subprocess
import sys
import tempfile
from concurrent.futures import ThreadPoolExecutor
from dataclasses import dataclass, field

TOP = os.path.dirname(os.path.dirname(os.path.abspath(__file__)))
PROGRAMS = ("fixed", "fixed_tool", "enclose_tool", "least_tool", "constants_tool", "columns_tool")
SECONDS = 120
# How a line begins that is not output.
MARKS = ("# ", "$ ", "> ", "! ", "? ")
ANY = "..."
ESCAPE = re.compile(r"\\(x[0-9a-f]{2}|[\\nrt])")
ESCAPES = {"\\": b"\\", "n": b"\n", "r": b"\r", "t": b"\t"}


class Malformed(Exception):
    """A file that is not in the form of a case file."""


@dataclass
class Command:
    """A command line, and the lines of the file that say what it prints."""
    number: int
    line: str
    output: list = field(default_factory=list)
    errors: list = field(default_factory=list)
    status: int = 0

    def shown(self):
        """What the file says of it."""
        return [*self.output, *(f"! {line}".rstrip(" ") for line in self.errors), *([f"? {self.status}"] if self.status else [])]


# ---- reading
def begins_with(line, mark):
    return line.startswith(mark) or line == mark[0]


def is_end(lines, at):
    """Whether the line at this index is blank and ends a session: a command, a comment or the end of the file comes next."""
    return lines[at] == "" and (at + 1 == len(lines) or any(begins_with(lines[at + 1], mark) for mark in ("$ ", "# ")))


def sessions_of(path, text):
    """The sessions of a file: each a list of commands."""
    lines, at, session = text.removesuffix("\n").split("\n"), 0, []
    while at < len(lines):
        line = lines[at]
        if begins_with(line, "$ "):
            command, at = command_at(path, lines, at)
            session.append(command)
        elif line == "" or begins_with(line, "# "):
            if session:
                yield session
                session = []
            at += 1
        else:
            raise Malformed(f"{path}:{at + 1}: a session begins with '$ ': {line!r}")
    if session:
        yield session


def command_at(path, lines, at):
    """The command at this index, and the index after what it prints."""
    command = Command(at + 1, lines[at][2:])
    at += 1
    while at < len(lines) and begins_with(lines[at], "> "):
        command.line += "\n" + lines[at][2:]
        at += 1
    while at < len(lines) and not begins_with(lines[at], "$ ") and not is_end(lines, at):
        line = lines[at]
        if command.status:
            raise Malformed(f"{path}:{at + 1}: a line after the status: {line!r}")
        if begins_with(line, "? "):
            if not re.fullmatch(r"\? [1-9]\d{0,2}", line):
                raise Malformed(f"{path}:{at + 1}: no status: {line!r}")
            command.status = int(line[2:])
        elif begins_with(line, "! "):
            command.errors.append(line[2:])
        elif command.errors:
            raise Malformed(f"{path}:{at + 1}: output after standard error: {line!r}")
        else:
            command.output.append(line)
        at += 1
    for line in (*command.output, *command.errors):
        if "\\" in ESCAPE.sub("", line.removesuffix("\\") if is_joined(line) else line):
            raise Malformed(f"{path}:{command.number}: an escape that is none in {line!r}")
    return command, at


def is_joined(line):
    """Whether no newline comes after a line: it ends with one backslash that stands for itself."""
    return (len(line) - len(line.rstrip("\\"))) % 2 == 1


# ---- lines and bytes
def pattern_of(lines, is_any_inside):
    """What matches the bytes that these lines stand for: `...` is any lines, and inside of a line any text, if that is so."""
    parts = []
    for number, line in enumerate(lines, 1):
        if line == ANY:
            parts.append(b"(?s:.*)" if number == len(lines) else b"(?:[^\\n]*\\n)*")
            continue
        end = b"" if is_joined(line) else b"\n"
        pieces = (line[:-1] if not end else line).split(ANY) if is_any_inside else [line[:-1] if not end else line]
        parts.append(b"[^\\n]*".join(re.escape(bytes_of(piece)) for piece in pieces) + end)
    return re.compile(b"".join(parts))


def bytes_of(text):
    """The bytes that a text stands for."""
    parts, at = [], 0
    for found in ESCAPE.finditer(text):
        parts.append(text[at:found.start()].encode())
        parts.append(bytes([int(found[1][1:], 16)]) if found[1][0] == "x" else ESCAPES[found[1]])
        at = found.end()
    return b"".join([*parts, text[at:].encode()])


def written(byte_line):
    """A line of output as a case file has it."""
    text = byte_line.decode(errors="surrogateescape").replace("\\", "\\\\").replace("\t", "\\t").replace("\r", "\\r")
    text = "".join(it if it.isprintable() else "".join(f"\\x{byte:02x}" for byte in it.encode(errors="surrogateescape")) for it in text)
    return text[:-1] + "\\x20" if text.endswith(" ") else text


def lines_of(output, is_error=False):
    """The lines that a case file has for these bytes."""
    lines = [written(line) for line in output.split(b"\n")]
    lines = [*lines[:-1], *([lines[-1] + "\\"] if lines[-1] else [])]
    if is_error:
        return lines
    return [f"\\x{ord(it[0]):02x}{it[1:]}" if it == ANY or any(begins_with(it, mark) for mark in MARKS) else it for it in lines]


# ---- running
def difference(command, folder, environment):
    """The lines of a difference between what a command prints and what the file says; none if they agree."""
    try:
        ran = subprocess.run(["bash", "-c", command.line], cwd=folder, env=environment, stdin=subprocess.DEVNULL, stdout=subprocess.PIPE,
                             stderr=subprocess.PIPE, check=False, timeout=SECONDS)
    except subprocess.TimeoutExpired:
        return [f"no end after {SECONDS} seconds"]
    agrees = (pattern_of(command.output, False).fullmatch(ran.stdout) and pattern_of(command.errors, True).fullmatch(ran.stderr)
              and ran.returncode == command.status)
    if agrees:
        return []
    status = ran.returncode if ran.returncode >= 0 else 128 - ran.returncode
    got = Command(0, "", lines_of(ran.stdout), lines_of(ran.stderr, True), status).shown()
    shown = [it.rstrip("\n")[:400] for it in difflib.unified_diff(command.shown(), got, n=2, lineterm="")][2:]
    return shown or ["the same lines, and other bytes"]


def differences(path, session, programs):
    """Each difference of a session: where, the command and the lines; None for a session of a program that is not there."""
    named = {name for command in session for name in re.findall(r"[\w-]+", command.line)} & set(PROGRAMS)
    if any(not os.path.exists(f"{programs}/{name}") for name in named):
        return None
    found = []
    with tempfile.TemporaryDirectory() as folder:
        environment = {"PATH": f"{programs}:/usr/local/bin:/usr/bin:/bin", "HOME": folder, "LC_ALL": "C.UTF-8"}
        for command in session:
            lines = difference(command, folder, environment)
            if lines:
                found.append("\n".join([f"{path}:{command.number}: $ {command.line[:200]}", *lines, ""]))
    return found


def run(files, programs):
    """Runs the sessions of files, by their names and texts, side by side: all that differs, and how many were run and passed over."""
    sessions = [(path, session) for path, text in files.items() for session in sessions_of(path, text)]
    with ThreadPoolExecutor(os.cpu_count() or 1) as pool:
        found = list(pool.map(lambda it: differences(*it, programs), sessions))
    return found


def folder_of(built, folder):
    """The folder of the programs: their crates' are gathered in this one, if that is asked."""
    if built != "out":
        return os.path.abspath(built)
    for name in PROGRAMS:
        path = f"{TOP}/crates/{name}/out/{name}"
        if os.path.isfile(path):
            os.symlink(path, f"{folder}/{name}")
    return folder


# ---- the runner's own test: each of these sessions is wrong, by its output, its standard error, its status or its form
RIGHT = """\
# A comment.
$ printf 'a\\n\\nb'; echo "it's" >&2; (exit 3)
a

b\\
! it's
? 3

$ printf '\\x01\\\\\\t\\xff\\n# x\\n' >made
$ cat <<'END' made
> - one
> END
\\x01\\\\\\t\\xff
\\x23 x
$ printf '1\\n2\\n3\\n'; echo 'made: no thing' >&2
1
...
! made: ... thing
$ true
$ printf '\\n'


"""
WRONG = (
    "$ echo a\nb\n", "$ echo a\n", "$ true\na\n", "$ printf 'a\\nb\\n'\na\n", "$ printf 'a\\nb\\n'\nb\n", "$ printf a\na\n", "$ echo a\na\\\n",
    "$ printf 'a\\n\\n'\na\n", "$ echo a\na\n\n\n", "$ false\n", "$ true\n? 1\n", "$ (exit 2)\n? 1\n", "$ echo a >&2\n", "$ echo a >&2\n! b\n", "$ true\n! a\n",
    "$ echo ab >&2\n! a...c\n", "$ printf 'a\\nb\\n' >&2\n! a...b\n", "$ printf 'a\\nb\\n'\na\n...\nc\n", "$ echo ' a'\na\n", "$ kill -9 $$\n",
    "$ echo a\n...a\n", "$ printf 'a\\r\\n'\na\n", "$ printf '\\xff\\n'\n\u00ff\n", "$ true\n\n$ echo a\na\n$ echo b\na\n",
)
MALFORMED = ("a\n", "! a\n", "$ true\n? 0\n", "$ true\n? 1\na\n", "$ true\n! a\nb\n", "$ true\n\\q\n", "$ true\n\\xg0\n")


def tests():
    """What the runner answers otherwise than it should."""
    if any(run({"right": RIGHT}, "/")):
        yield "a right session is refused: " + "\n".join(it for found in run({"right": RIGHT}, "/") for it in found)
    for text in WRONG:
        if not any(run({"wrong": text}, "/")):
            yield f"passes: {text!r}"
    for text in MALFORMED:
        try:
            list(sessions_of("malformed", text))
            yield f"is read: {text!r}"
        except Malformed:
            pass
    if run({"other": "$ columns_tool <none\n"}, "/") != [None]:
        yield "a session of a program that is not there is not passed over"
    for output in (b"a\n\n$ b\n! c\n? 1\n...\n# d\n", b"\xff\xc3\xa9\t\\x41\r\n e ", "\u202f\u20ac".encode()):
        if not pattern_of(lines_of(output), False).fullmatch(output):
            yield f"other bytes than {output!r}: {lines_of(output)}"


def main():
    words = argparse.ArgumentParser(description=__doc__.split("\n", maxsplit=1)[0])
    words.add_argument("--built", default=f"{TOP}/build", metavar="FOLDER")
    words.add_argument("--tests", action="store_true")
    words.add_argument("names", nargs="*", metavar="NAME")
    given = words.parse_args()
    if given.tests:
        failed = list(tests())
        print("\n".join([*failed, f"{len(WRONG) + len(MALFORMED) + 5} sessions that test the runner, {len(failed)} wrong"]))
        return 1 if failed else 0
    paths = [f"{TOP}/cases/{name}.txt" for name in given.names] or sorted(glob.glob(f"{TOP}/cases/*.txt"))
    files = {}
    for path in paths:
        with open(path, encoding="utf-8", newline="") as file:
            files[os.path.relpath(path, TOP)] = file.read()
    try:
        with tempfile.TemporaryDirectory() as folder:
            found = run(files, folder_of(given.built, folder))
    except Malformed as malformed:
        print(malformed)
        return 1
    for it in found:
        print("".join(f"{lines}\n" for lines in it or ()), end="")
    agreed, passed = sum(it == [] for it in found), found.count(None)
    print(f"{agreed} of {len(found)} sessions in {len(files)} files agree" + f", {passed} passed over: not all programs are built" * bool(passed))
    return 0 if agreed + passed == len(found) and agreed else 1


if __name__ == "__main__":
    sys.exit(main())
