#!/usr/bin/env python3
"""Compares `fixed` with numpy's rint and clip, where numpy is found: taps of filters and sines, in Q15 and Q31.

    taps.py --compare PROGRAM [--count N] [--seed S]   converts, packs and fits N lists, and compares

A float times a power of two, its rint and the distance to it are exact, so that numpy's answers are as well. The lists are
given by their exact decimals and as numpy.savetxt writes them.
"""
import importlib.util
import math
import os
import subprocess
import sys
from decimal import Decimal
from fractions import Fraction

from harness import main, run

# The names of the formats, how many bits they have, how many of these are of the fraction, and their words for numpy.
FORMATS = (("Q15", 16, 15, "<i2"), ("Q31", 32, 31, "<i4"))


def low_pass(count, cutoff):
    """The taps of a low-pass filter: a sinc under a Hamming window, with sum 1."""
    middle = (count - 1) / 2
    taps = []
    for place in range(count):
        x = place - middle
        sinc = 2 * cutoff if x == 0 else math.sin(2 * math.pi * cutoff * x) / (math.pi * x)
        taps.append(sinc * (0.54 - 0.46 * math.cos(2 * math.pi * place / (count - 1))))
    total = math.fsum(taps)
    return [tap / total for tap in taps]


def sine(count, amplitude, phase):
    """One turn of a sine. With an amplitude of 1 it reaches past the greatest value of its format."""
    return [amplitude * math.sin(2 * math.pi * place / count + phase) for place in range(count)]


def list_for(pick):
    """A list of floats."""
    if pick.randrange(2):
        return low_pass(pick.randrange(3, 128), pick.uniform(0.01, 0.49))
    return sine(pick.choice((16, 63, 256, 1000)), pick.choice((1.0, 0.999, pick.random())), pick.choice((0.0, pick.random())))


def finest(numpy, values, width):
    """The greatest fraction length of a signed format of this width in which all values are in range, and the greatest error."""
    for length in range(width, -1, -1):
        scaled = values * 2.0**length
        whole = numpy.rint(scaled)
        if whole.min() >= -(2 ** (width - 1)) and whole.max() < 2 ** (width - 1):
            return length, Fraction(float(numpy.abs(whole - scaled).max())) / 2**length
    return None


def compare_list(numpy, program, values, tally):
    """Compares what is converted, packed and fitted of a list."""
    values = numpy.array(values)
    exact = "".join(f"{Decimal(float(value)):f}\n" for value in values).encode()
    saved = "".join(f"{value:.18e}\n" for value in values).encode()
    for name, width, places, kind in FORMATS:
        wanted = numpy.clip(numpy.rint(values * 2.0**places), -(2 ** (width - 1)), 2 ** (width - 1) - 1).astype(kind)
        for text in (exact, saved):
            ran = run(program, ["convert", name, "--policy", "saturating", "--print", "bits"], text)
            tally.same((ran.stdout, ran.returncode), ("".join(f"{word}\n" for word in wanted.tolist()).encode(), 0), f"convert {name}")
            ran = run(program, ["pack", name, "--policy", "saturating"], text)
            tally.same((ran.stdout, ran.returncode), (wanted.tobytes(), 0), f"pack {name}")
        length, error = finest(numpy, values, width)
        ran = run(program, ["fit", "--width", str(width), "--signed"], exact)
        form, _, size = ran.stdout.decode().split() if ran.returncode == 0 else (None, None, "0")
        tally.same((form, Fraction(size)), (f"I{width - length}F{length}", error), f"fit --width {width}")


def compare(program, pick, given, tally):
    import numpy
    for _ in range(given.count):
        compare_list(numpy, program, list_for(pick), tally)


def with_numpy():
    """Compares under an interpreter that finds numpy: this one, or Debian's, which has Debian's numpy."""
    if importlib.util.find_spec("numpy"):
        return main(__doc__, compare, "answers to lists compared with numpy", 100)
    other = "/usr/bin/python3"
    if os.path.exists(other) and not os.path.samefile(other, sys.executable):
        return subprocess.run([other, *sys.argv], check=False).returncode
    print("not compared with numpy, which is not found")
    return 0


if __name__ == "__main__":
    sys.exit(with_numpy())
