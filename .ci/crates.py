"""The crates of crates.txt, and the key of each: a sum of all that its proof reads. Equal keys need one proof."""
import functools
import hashlib
import os
import re
import subprocess

TOP = os.path.dirname(os.path.dirname(os.path.abspath(__file__)))
ROW = re.compile(r"(\w+)( +staticlib)?(?: +\w+=\S+)* *(?::(.*))?")
# What a proof reads of a crate's folder, and what a run of a program reads besides.
READ = ("src", "specs", "proofs")
READ_BY_RUNS = ("stdin", "stdout", "args", "status", "data")


@functools.cache
def toolchain():
    """What `rt version` says: the kit and the sum of its logic."""
    return subprocess.run(["rt", "version"], stdout=subprocess.PIPE, text=True, check=True).stdout.strip()


@functools.cache
def kit():
    """The folder of the toolchain."""
    page = subprocess.run(["rt", "doc"], stdout=subprocess.PIPE, text=True, check=True).stdout.strip()
    return os.path.dirname(page)


def files_below(path):
    """The files at or below a path, in order."""
    if os.path.isfile(path):
        return [path]
    return sorted(f"{at}/{name}" for at, _, names in os.walk(path) for name in names)


def text_of(path):
    with open(path, encoding="utf-8", errors="replace") as file:
        return file.read()


class Crate:
    """A crate: its line of crates.txt, the crates of the repository and the libraries of the kit that this names, its folder."""

    def __init__(self, row, uses, of_kit, top=TOP):
        name, is_static = row[1], bool(row[2])
        self.row, self.name, self.is_static, self.uses, self.of_kit, self.top = row[0], name, is_static, uses, of_kit, top
        self.folder = f"{top}/crates/{name}"
        self.is_program = os.path.isfile(f"{self.folder}/src/main.rt")
        self.made = name if self.is_program else f"lib{name}.a" if is_static else None

    def sum_of(self, parts):
        """A sum of the names and bytes of the files of these parts of the folder."""
        found = hashlib.sha256()
        for path in (it for part in parts for it in files_below(f"{self.folder}/{part}")):
            with open(path, "rb") as file:
                found.update(repr((os.path.relpath(path, self.folder), file.read())).encode())
        return found.hexdigest()

    def lines(self):
        """How many lines of code it has."""
        return sum(text_of(it).count("\n") for it in files_below(f"{self.folder}/src"))

    def has_tests(self):
        return any(re.search(r"#\s*\[[^]]*\btest\b", text_of(it)) for it in files_below(f"{self.folder}/src"))


def read_crates(top=TOP):
    """The crates of crates.txt by their names, in its order."""
    lines = [line.partition("#")[0].strip() for line in text_of(f"{top}/crates.txt").split("\n")]
    rows = [row for row in map(ROW.fullmatch, lines) if row]
    names = {row[1] for row in rows}
    uses = {row[1]: (row[3] or "").split() for row in rows}
    return {row[1]: Crate(row, [it for it in uses[row[1]] if it in names], [it for it in uses[row[1]] if it not in names], top)
            for row in rows}


def below(crates, names):
    """These names and those of the crates below them."""
    found, left = set(), list(names)
    while left:
        name = left.pop()
        if name not in found:
            found.add(name)
            left += crates[name].uses
    return found


def above(crates, names):
    """These names and those of the crates above them."""
    return {it for it in crates if below(crates, [it]) & set(names)}


def lowest_first(crates, names):
    """These names, each after those that it uses."""
    return sorted(names, key=lambda it: len(below(crates, [it])))


def keys(crates):
    """The key of each crate: of the toolchain, HANDLES, its line of crates.txt, its files, and the keys below it."""
    handles = f"{next(iter(crates.values())).top}/HANDLES" if crates else ""
    shared = repr((toolchain(), text_of(handles) if os.path.isfile(handles) else ""))
    found = {}
    for name in lowest_first(crates, crates):
        it = crates[name]
        uses = [(use, found[use]) for use in sorted(it.uses)]
        said = (shared, name, it.is_static, sorted(it.of_kit), it.sum_of(READ), uses)
        found[name] = hashlib.sha256(repr(said).encode()).hexdigest()
    return found
