#!/usr/bin/env python3
"""Measures the programs and single calls of the library.

    measure.py [lines] [calls] [further] [library] [command] [asked] [processors] [python] [--tries 9] [--peer PROGRAM]

Contenders run in turn, and each figure is the least processor time of several runs, so that a busy machine disturbs them
alike. Instructions are counted by callgrind, where valgrind is installed, as the difference of two runs.

The peer is the reader and the printer of the Rust crate `fixed` in a bare loop, a program that whoever measures builds
outside of this repository and names by --peer or the environment variable PEER. It answers, over the lines of standard
input, each TIMES times over:

    PEER lines TIMES            each line's numeral read, moved to the target and the answer written into a buffer
    PEER read TIMES FORMAT      a decimal numeral, by overflowing_from_str_radix
    PEER write TIMES FORMAT     bits, by write! of {} into a buffer
    PEER places TIMES FORMAT N  bits, by write! of {:.N} into a buffer
"""
import argparse
import os
import sys
import tempfile
import types

HERE = os.path.dirname(os.path.abspath(__file__))
sys.path.insert(0, HERE)

import asked  # noqa: E402
import calls  # noqa: E402
import command  # noqa: E402
import further  # noqa: E402
import library  # noqa: E402
import lines  # noqa: E402
import processors  # noqa: E402
import python  # noqa: E402
from inputs import Inputs  # noqa: E402
from timing import VALGRIND  # noqa: E402

SUBJECTS = {"lines": lines, "calls": calls, "further": further, "library": library, "command": command, "asked": asked}
SUBJECTS |= {"processors": processors, "python": python}


def built(name):
    path = os.path.join(HERE, "..", "build", name)
    return path if os.path.isfile(path) else None


def main():
    words = argparse.ArgumentParser(description=__doc__.split("\n", maxsplit=1)[0])
    words.add_argument("subjects", nargs="*", help=f"of {' '.join(SUBJECTS)}; all of them if none is named")
    words.add_argument("--tries", type=int, default=9)
    words.add_argument("--peer", default=os.environ.get("PEER"))
    given = words.parse_args()
    programs = types.SimpleNamespace(
        tool=built("fixed_tool"), calls=built("fixed_bench"), ideal=built("bench_ideal"), in_c=built("bench_c"),
        peer=given.peer, built=built)
    for name, why in (("ideal", "the reference in plain Rust is not built (rustc is missing)"),
                      ("in_c", "C's calls are not built (cc is missing)"),
                      ("peer", "the Rust crate's own reader and printer are not compared: name a built peer by --peer")):
        if not getattr(programs, name):
            print(why)
    if not VALGRIND:
        print("instructions are not counted: valgrind is missing")
    print(flush=True)
    with tempfile.TemporaryDirectory() as folder:
        for name in given.subjects or SUBJECTS:
            SUBJECTS[name].measure(programs, Inputs(folder), given.tries)


if __name__ == "__main__":
    main()
