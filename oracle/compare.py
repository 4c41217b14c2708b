#!/usr/bin/env python3
"""Compares every program with its reference, on seeded inputs.

    compare.py [--count N] [--seed S] [--built FOLDER]

Each reference is a file of this folder that works the answers out with whole numbers alone. A program that is not built is
named and passed over. The programs are taken from build/, where `make build` leaves them, from another folder, or for `out` from
crates/NAME/out/, where the gate leaves them.
"""
import argparse
import os
import subprocess
import sys

from harness import program

HERE = os.path.dirname(os.path.abspath(__file__))

# A reference, the program that it answers for, and how many inputs it makes for each 1,000 lines that are asked for.
PAIRS = (
    ("reference.py", "fixed_tool", 1000),
    ("styled.py", "fixed_vectors", 700),
    ("typed.py", "fixed_vectors", 1000),
    ("enclose.py", "enclose_tool", 100),
    ("least.py", "least_tool", 3),
    ("fit.py", "fixed", 25),
    ("constants.py", "constants_tool", 10),
    ("columns.py", "columns_tool", 10),
    ("show.py", "fixed", 100),
    ("convert.py", "fixed", 100),
    ("column.py", "fixed", 50),
    ("json_lines.py", "fixed", 100),
    ("amounts.py", "fixed", 5000),
    ("pack.py", "fixed", 3),
    ("arrays.py", "fixed", 3),
    ("taps.py", "fixed", 2),
    ("modes.py", "fixed", 1),
)


def main():
    words = argparse.ArgumentParser(description=__doc__.split("\n", maxsplit=1)[0])
    words.add_argument("--count", type=int, default=200_000)
    words.add_argument("--seed", type=int, default=1)
    words.add_argument("--built", default="build", metavar="FOLDER")
    given = words.parse_args()
    status = 0
    for reference, name, share in PAIRS:
        if not os.path.isfile(f"{HERE}/{reference}"):
            continue
        path = program(name, given.built)
        if path is None:
            print(f"{reference}: not compared, since {name} is not built", flush=True)
            continue
        count = max(1, given.count * share // 1000)
        print(f"{reference} against {name}, {count} inputs", flush=True)
        words = [sys.executable, f"{HERE}/{reference}", "--compare", path, "--count", str(count), "--seed", str(given.seed)]
        status |= subprocess.run(words, check=False).returncode
    return 1 if status else 0


if __name__ == "__main__":
    sys.exit(main())
