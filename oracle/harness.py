"""What the references and the checks of built programs share: their command lines, where a program is, a run of it, and what differs."""
import argparse
import os
import random
import subprocess
import sys

TOP = os.path.dirname(os.path.dirname(os.path.abspath(__file__)))
SECONDS = 120
# How many differences are shown.
SHOWN = 10


def program(name, built="build"):
    """The path of a built program, or None: in build/, in another folder, or for the word `out` in crates/NAME/out/."""
    folder = {"build": f"{TOP}/build", "out": f"{TOP}/crates/{name}/out"}.get(built, built)
    path = os.path.abspath(f"{folder}/{name}")
    return path if os.path.isfile(path) else None


def run(path, words, given=b"", **how):
    """A run of a program over an input, or over the `stdin` of `how`."""
    how = {"stdout": subprocess.PIPE, "stderr": subprocess.PIPE, "check": False, "timeout": SECONDS} | how
    return subprocess.run([path, *words], **how if "stdin" in how else {"input": given, **how})


class Tally:
    """Counts what was tried and what differs, and shows the first differences."""

    def __init__(self):
        self.tried, self.wrong = 0, 0

    def check(self, is_right, what, count=1):
        """Counts one thing, or `count` of one kind, and says what it is if it is wrong."""
        self.tried += count
        if not is_right:
            self.wrong += 1
            if self.wrong <= SHOWN:
                print(what)

    def same(self, got, wanted, what):
        """Counts one comparison."""
        self.check(got == wanted, "" if got == wanted else f"{what}: {got!r:.400}, not {wanted!r:.400}")

    def all_same(self, got, wanted, what):
        """Counts the comparisons of two lists: `what` names each item, or all of them."""
        names = [what] * len(wanted) if isinstance(what, str) else what
        for one, other, name in zip(got, wanted, names):
            self.same(one, other, name)
        self.check(len(got) == len(wanted), f"{len(got)} answers, not {len(wanted)}: {names[:1]}", 0)

    def end(self, what):
        """Says how much was tried; the status of the check."""
        print(f"{self.tried} {what}, {self.wrong} differ", flush=True)
        return 1 if self.wrong else 0


def each_line(tally, path, words, lines, answer):
    """Runs a program over lines, and compares its answer to each."""
    found = run(path, words, b"".join(line + b"\n" for line in lines), timeout=None).stdout.decode().split("\n")[:-1]
    tally.all_same(found, [answer(line) for line in lines], lines)


def by_line(answer):
    """Answers standard input line by line."""
    lines = sys.stdin.buffer.read().split(b"\n")
    return "".join(f"{answer(line)}\n" for line in (lines if lines[-1] else lines[:-1])), 0


def built_option(doc):
    """Where the programs of a check are, from its words."""
    words = argparse.ArgumentParser(description=doc.split("\n", maxsplit=1)[0])
    words.add_argument("--built", default="build", metavar="FOLDER")
    return words.parse_args().built


def main(doc, compare, what, count, answer=None, arguments=None):
    """The command line of a reference. `compare(path, pick, given, tally)` compares a program or a library with it on seeded inputs;
    without `--compare`, the text and the status of `answer(given)` are those of the process. `arguments` adds words and options."""
    words = argparse.ArgumentParser(description=doc.split("\n", maxsplit=1)[0])
    words.add_argument("--compare", metavar="PATH", required=answer is None)
    words.add_argument("--count", type=int, default=count)
    words.add_argument("--seed", type=int, default=1)
    if arguments:
        arguments(words)
    given = words.parse_args()
    if not given.compare:
        text, status = answer(given)
        sys.stdout.buffer.write(text if isinstance(text, bytes) else text.encode())
        return status
    tally = Tally()
    compare(given.compare, random.Random(given.seed), given, tally)
    return tally.end(what)
