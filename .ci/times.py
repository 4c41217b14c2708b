#!/usr/bin/env python3
"""Prints the functions whose check took longest, with the seconds of each kind of generated module.

    times.py [--count N] [CRATE..]    of these crates, or of all

It reads when the modules in crates/*/out/incremental were written, one after another by `rt check --jobs 1` or `rt lib --jobs 1`
from nothing (rm -rf out): after a check with more jobs, or over kept work, the differences mean nothing. A long `Proof` is mostly
one goal that only a long search closes, and a few lines of Answers.antt that name its lemma are checked in a second. `Lts`, the
steps of the body, grows with about the 1.3th power of its size.
"""
import argparse
import collections
import glob
import os
import re

from crates import TOP

KINDS = "Proof|Lts|Tie|Answers|Goals|Reads|Layout|Code|Statement|Met|Named|Key|Kinds|Given|Invariants|TheLinks?|TheImpl|Symbol"


def seconds_of_modules(crate):
    """The name of each kept module of a crate, with the seconds since the one before it was written."""
    files = sorted((os.path.getmtime(it), os.path.basename(it)) for it in glob.glob(f"{TOP}/crates/{crate}/out/incremental/*/*.oantt"))
    for (before, _), (then, name) in zip(files, files[1:]):
        yield re.sub(rf"^Rattle-{crate}[-.]?|(\.decls)?\.oantt$", "", name), then - before


def seconds_of_functions(crates):
    """The seconds of each kind of module, by crate and function or file of lemmas."""
    found = collections.defaultdict(collections.Counter)
    for crate in crates:
        for name, seconds in seconds_of_modules(crate):
            name = re.sub(r"^(proofs|specs)\.(contracts\.)?", "", name)
            kind = re.search(rf"\.({KINDS})\b(?!.*\.(?:{KINDS})\b).*$", name)
            found[crate, name[:kind.start()] if kind else name][kind[1] if kind else "text"] += seconds
    return found


def main():
    words = argparse.ArgumentParser(description=__doc__.split("\n", maxsplit=1)[0])
    words.add_argument("--count", type=int, default=40)
    words.add_argument("crates", nargs="*")
    given = words.parse_args()
    crates = given.crates or sorted(os.listdir(f"{TOP}/crates"))
    found = seconds_of_functions(crates)
    for (crate, name), kinds in sorted(found.items(), key=lambda it: -sum(it[1].values()))[:given.count]:
        parts = " ".join(f"{kind} {seconds:.1f}" for kind, seconds in kinds.most_common() if seconds >= 0.1)
        print(f"{sum(kinds.values()):7.1f}  {crate} {name}: {parts}")


if __name__ == "__main__":
    main()
