#!/usr/bin/env python3
"""Quantizes a low-pass filter with lomdeqash, and draws its response and what quantizing adds to it.

    filter.py [PNG]

The figures take the standard library alone; the picture is drawn where matplotlib is found. Cells begin with # %%.
"""
# %% The filter: 63 taps of a windowed sinc, which passes frequencies below a fifth of the sample rate
import cmath
import math
import sys
from fractions import Fraction

from lomdeqash import Format

TAPS, CUTOFF, STOPPED = 63, 0.2, 0.23
FREQUENCIES = [step / 2000 for step in range(1001)]


def tap(at):
    """A tap of the filter, as a float."""
    place = at - (TAPS - 1) / 2
    sinc = math.sin(2 * math.pi * CUTOFF * place) / (math.pi * place) if place else 2 * CUTOFF
    return sinc * (0.54 - 0.46 * math.cos(2 * math.pi * at / (TAPS - 1)))


def decibels(values):
    """The response of a filter at each of the frequencies, where 0 is what passes unchanged."""
    found = []
    for frequency in FREQUENCIES:
        turn = cmath.exp(-2j * math.pi * frequency)
        total = sum(float(value) * turn**at for at, value in enumerate(values))
        found.append(20 * math.log10(max(abs(total), 1e-9)))
    return found


def stopped(curve):
    """The most that passes of what is to be stopped."""
    return max(level for frequency, level in zip(FREQUENCIES, curve) if frequency >= STOPPED)


# %% Quantized: each tap by its exact value, to the nearest number of a format; and what that adds, without rounding
taps = [tap(at) for at in range(TAPS)]
curves, errors = {"float": decibels(taps)}, {}
print(f"float:  {stopped(curves['float']):6.1f} dB from {STOPPED} of the sample rate on")
for form in (Format("Q15"), Format("Q7")):
    bits = form.read(taps)
    added = [held - Fraction(wanted) for held, wanted in zip(form.value(bits, Fraction), taps)]
    curves[form.word], errors[form.word] = decibels(form.value(bits, float)), decibels(added)
    bound = sum(map(abs, added))
    print(
        f"{form.word + ':':7} {stopped(curves[form.word]):6.1f} dB; the greatest tap {form.text(max(bits))}; "
        f"the response moves by less than {math.ceil(bound * 10**6) / 10**6}"
    )

# %% The picture
def draw(path):
    """Writes the responses, and what quantizing adds to them, into a PNG, where matplotlib is found."""
    try:
        import matplotlib
    except ImportError:
        print("no picture: matplotlib is not on this machine")
        return
    matplotlib.use("Agg")
    from matplotlib import pyplot

    colours = {"float": "#222222", "I1F15": "#1f77b4", "I1F7": "#d95f02"}
    figure, (above, below) = pyplot.subplots(2, 1, sharex=True, figsize=(8, 5.6), layout="constrained")
    for name in ("I1F7", "I1F15", "float"):
        style = {"color": colours[name], "linewidth": 1.1, "linestyle": "--" if name == "float" else "-"}
        above.plot(FREQUENCIES, curves[name], label=name, **style)
        if name in errors:
            below.plot(FREQUENCIES, errors[name], label=name, **style)
    above.set(title="A low-pass filter of 63 taps, and the same quantized", ylabel="response, dB", ylim=(-110, 5))
    below.set(
        xlabel="frequency, as a part of the sample rate",
        ylabel="error of the response, dB",
        ylim=(-125, -10),
        xlim=(0, 0.5),
    )
    for axes in (above, below):
        axes.grid(alpha=0.3)
    above.legend(loc="lower left")
    below.legend(loc="upper right", ncols=2)
    figure.savefig(path, dpi=100, metadata={"Software": None})


if len(sys.argv) > 1:
    draw(sys.argv[1])
