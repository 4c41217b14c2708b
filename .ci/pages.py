#!/usr/bin/env python3
"""Checks the manual pages, the completions and the help of `fixed`.

    pages.py [--built FOLDER]

Pages: mandoc and groff find nothing to warn of, and each example answers as the page says. Completions: each shell takes its
own, and offers the names in a header. (What they offer of commands and options is printed: .ci/options.py.) Help: at most 80
columns, with an example for each command. What is not installed or not built is named and passed over.
"""
import glob
import os
import re
import shutil
import subprocess
import sys
import tempfile

TOP = os.path.dirname(os.path.dirname(os.path.abspath(__file__)))
sys.path.insert(0, f"{TOP}/oracle")

from harness import built_option, program  # noqa: E402

PAGES = sorted(glob.glob(f"{TOP}/man/*.[13]"))
# A reference to another page is found only where that page is installed; .Os says the version.
IGNORED = re.compile(r"STYLE: referenced manual not found|outdated mandoc.db|STYLE: operating system explicitly specified")
SHELLS = (("bash", "*.bash"), ("zsh", "_*"), ("fish", "*.fish"))
WIDEST = 80


def text_of(path):
    with open(path, encoding="utf-8") as file:
        return file.read()


def output_of(command, **how):
    ran = subprocess.run(command, stdout=subprocess.PIPE, stderr=subprocess.STDOUT, check=False, timeout=120, **how)
    return ran.stdout.decode(errors="replace")


def is_there(name, what):
    """Whether a program is installed; where it is not, it says what was not checked."""
    found = shutil.which(name) is not None
    if not found:
        print(f"{name} is not installed, and so {what}")
    return found


def linted():
    """What mandoc and groff say of the pages."""
    if is_there("mandoc", "the manual pages were not linted by it"):
        for page in PAGES:
            yield from (line for line in output_of(["mandoc", "-T", "lint", page]).splitlines() if not IGNORED.search(line))
    if is_there("groff", "the manual pages were not read by it"):
        for page in PAGES:
            ran = subprocess.run(["groff", "-man", "-ww", "-Tutf8", page], stdout=subprocess.DEVNULL, stderr=subprocess.PIPE, check=False)
            yield from ran.stderr.decode(errors="replace").splitlines()


def examples_of(page):
    """The commands of a page's examples, each with the output that it shows."""
    for block in re.findall(r"^\.Bd -literal.*?\n(.*?)^\.Ed", text_of(page), re.M | re.S):
        for part in re.findall(r"^\$ (.*?)\n((?:(?!\$ ).*\n)*)", block.replace("\\e", "\\"), re.M):
            yield part


def examples(built):
    """The examples of the pages that are answered otherwise than they say. One that shows no output is not run."""
    names = [os.path.basename(page)[:-2] for page in PAGES if page.endswith(".1")]
    paths = {name: program(name, built) for name in names}
    with tempfile.TemporaryDirectory() as folder:
        for name, path in paths.items():
            if path is not None:
                os.symlink(path, f"{folder}/{name}")
        how = {"cwd": folder, "env": {**os.environ, "PATH": f"{folder}:{os.environ['PATH']}"}, "shell": True, "executable": "/bin/bash"}
        for page in PAGES:
            name = os.path.basename(page)[:-2]
            if paths.get(name) is None:
                if name in paths:
                    print(f"{name} is not built, and so the examples of its page were not run")
                continue
            for command, shown in examples_of(page):
                got = output_of(command, **how) if shown else shown
                if got != shown:
                    yield f"{name}: {command!r} answers {got!r}, not {shown!r}"


def taken_by_shells():
    """What each shell says of its own completions."""
    for shell, pattern in SHELLS:
        if is_there(shell, f"its completions were not read by {shell}"):
            for path in sorted(glob.glob(f"{TOP}/completion/{pattern}")):
                yield from output_of([shell, "-n", path]).splitlines()


def offered(shell, folder, word):
    """The names that a shell offers for the columns of a file with a header, where this word was begun."""
    completion = f"{TOP}/completion/fixed.{shell}"
    script = {
        "bash": f"source {completion}; COMP_WORDS=(fixed column -H '{word}' I8F8 t.csv); COMP_CWORD=3; _fixed fixed '{word}' -H; "
                "printf '%s\\n' \"${COMPREPLY[@]}\"",
        "fish": f"source {completion}; complete -C 'fixed column -H t.csv {word}' | string match -e 'a column' | string replace -r '\\t.*' ''",
    }[shell]
    return sorted(output_of([shell, "-c", script], cwd=folder).splitlines())


def headers():
    """What bash and fish offer of a header's names that they should not, or the other way round."""
    with tempfile.TemporaryDirectory() as folder:
        with open(f"{folder}/t.csv", "wb") as file:
            file.write(b'day,"unit price",n\r\n1,2,3\r\n')
        for shell in ("bash", "fish"):
            if is_there(shell, f"the names of a header were not completed by {shell}"):
                for word, wanted in (("", ["day", "n", "unit price"]), ("day,", ["day,day", "day,n", "day,unit price"]), ("day,u", ["day,unit price"])):
                    names = offered(shell, folder, word)
                    if names != wanted:
                        yield f"{shell} completes {word!r} by {names}, not {wanted}"


def helps_of(path):
    """The help of `fixed` and of each of its commands, by name."""
    whole = output_of([path, "--help"])
    listed = re.search(r"^Commands:\n((?: .*\n)*)", whole, re.M)
    names = re.findall(r"^  (\w+)", listed.group(1) if listed else "", re.M)
    return {"": whole, **{name: output_of([path, name, "--help"]) for name in names}}


def helps(built):
    """Help that is too wide or has no example."""
    path = program("fixed", built)
    if path is None:
        print("fixed is not built, and so its help was not looked at")
        return
    texts = helps_of(path)
    if len(texts) < 10:
        yield f"fixed --help names {len(texts) - 1} commands only"
    for name, text in texts.items():
        said = f"fixed {name}".strip() + " --help"
        yield from (f"{said}: a line of {len(line)} columns" for line in text.split("\n") if len(line) > WIDEST)
        if not re.search(rf"^Example: .*\bfixed {name}", text, re.M):
            yield f"{said} has no example"


def main():
    built = built_option(__doc__)
    wrong = [*linted(), *examples(built), *taken_by_shells(), *headers(), *helps(built)]
    for it in wrong:
        print(it)
    print(f"manual pages, completions and help: {len(wrong)} faults")
    return 1 if wrong else 0


if __name__ == "__main__":
    sys.exit(main())
