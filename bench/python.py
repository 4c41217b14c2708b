"""The package for Python beside what a user would take instead, over arrays of 1,000,000 numbers.

It measures within an interpreter that has numpy: `measure` looks for one, and runs this file there.
"""
import os
import shutil
import subprocess
import sys
import sysconfig
import tempfile
import time

import timing

HERE = os.path.dirname(os.path.abspath(__file__))
PACKAGE = os.path.join(HERE, "..", "python", "lomdeqash")
COUNT = 1_000_000
OURS, PLAIN, IN_PYTHON = "lomdeqash", "numpy, by floats", "without the module in C"


def measure(programs, _inputs, tries):
    library = programs.built("lib/libfixed.so.1")
    python = timing.python_with("numpy")
    if not library or not python:
        print("the package for Python is not timed: " + ("numpy is missing\n" if library else "make library\n"))
        return
    sys.stdout.flush()
    with tempfile.TemporaryDirectory() as folder:
        shutil.copytree(PACKAGE, f"{folder}/lomdeqash", ignore=shutil.ignore_patterns("__pycache__"))
        env = os.environ | {"LIBFIXED": library, "PYTHONPATH": folder, "PYTHONDONTWRITEBYTECODE": "1"}
        subprocess.run([python, os.path.abspath(__file__), str(tries)], env=env, check=True)


def compile_module():
    """Compiles the package's module in C, as a wheel has it, beside the package that this interpreter finds."""
    include, compiler = sysconfig.get_path("include"), shutil.which("cc")
    if not compiler or not os.path.isfile(f"{include}/Python.h"):
        print("the module in C is not timed: a compiler or Python.h is missing")
        return
    made = os.path.join(os.environ["PYTHONPATH"], "lomdeqash", "_packing.abi3.so")
    source = os.path.join(PACKAGE, "_packing.c")
    subprocess.run([compiler, "-O2", "-shared", "-fPIC", "-I", include, source, "-o", made], check=True)


def unpacked(call):
    """A call with lists packed in Python alone."""
    from lomdeqash import _rows

    def run():
        module, _rows._packing = _rows._packing, None
        try:
            call()
        finally:
            _rows._packing = module

    return run


def contenders():
    """What is done, by whom, and how: all take the same texts, bits or floats."""
    from decimal import Decimal

    import numpy
    from lomdeqash import Format, fit

    form = Format("I1F15")
    bits = numpy.random.default_rng(1).integers(-32768, 32768, COUNT).astype(numpy.int16)
    texts = form.text(bits, dtype="S").astype("S16")
    letters, floats = texts.astype("U16"), bits / 32768 + 1e-6
    listed, listed_bits, listed_floats = letters.tolist(), bits.tolist(), floats.tolist()
    objects, decimals, others = letters.astype(object), list(map(Decimal, listed)), bits[::-1].copy()
    ours, plain = OURS, PLAIN

    def as_floats(given):
        return numpy.rint(given.astype(float) * 32768).astype(numpy.int16)

    rows = {
        "reading S16": {
            ours: lambda: form.read(texts),
            plain: lambda: as_floats(texts),
            "int(round(..))": lambda: [int(round(float(text) * 32768)) for text in texts.tolist()],
            "Decimal": lambda: [int((Decimal(text.decode()) * 32768).to_integral_value()) for text in texts.tolist()],
        },
        "reading U16": {ours: lambda: form.read(letters), plain: lambda: as_floats(letters)},
        "reading a list of str": {
            ours: lambda: form.read(listed),
            IN_PYTHON: unpacked(lambda: form.read(listed)),
            "int(round(..))": lambda: [int(round(float(text) * 32768)) for text in listed],
            "Decimal": lambda: [int((Decimal(text) * 32768).to_integral_value()) for text in listed],
        },
        "reading an object array of str": {
            ours: lambda: form.read(objects),
            IN_PYTHON: unpacked(lambda: form.read(objects)),
            "int(round(..))": lambda: [int(round(float(text) * 32768)) for text in objects],
        },
        "reading a list of Decimal": {
            ours: lambda: form.read(decimals),
            IN_PYTHON: unpacked(lambda: form.read(decimals)),
            "Decimal": lambda: [int((number * 32768).to_integral_value()) for number in decimals],
        },
        "reading a list of float": {
            ours: lambda: form.read(listed_floats, policy="saturating"),
            "int(round(..))": lambda: [int(round(number * 32768)) for number in listed_floats],
        },
        "reading floats": {
            ours: lambda: form.read(floats, policy="saturating"),
            "rint, astype": lambda: numpy.rint(floats * 32768).astype(numpy.int16),
        },
        "fit of floats, 16 bits": {
            ours: lambda: fit(floats, 16),
            plain: lambda: numpy.frexp(numpy.abs(floats).max()),
        },
        "greatest error of floats": {
            ours: lambda: form.greatest_error(floats / 2),
            plain: lambda: numpy.abs(floats / 2 - numpy.rint(floats * 16384) / 32768).max(),
        },
        "floats of bits": {ours: lambda: form.value(bits, float), plain: lambda: bits / 32768},
        "printing S8": {
            ours: lambda: form.text(bits, dtype="S"),
            plain: lambda: (bits / 32768).astype("S20"),
            "str(..)": lambda: [str(number / 32768).encode() for number in listed_bits],
            "Decimal": lambda: [str(Decimal(number) / 32768).encode() for number in listed_bits],
            "numpy's %.5f": lambda: numpy.char.mod(b"%.5f", bits / 32768),
        },
        "printing 2 places": {
            ours: lambda: form.text(bits, places=2),
            "f-string": lambda: [f"{number:.2f}" for number in (bits / 32768).tolist()],
            "numpy's %.2f": lambda: numpy.char.mod("%.2f", bits / 32768),
        },
        "comparing with I8F8": {
            ours: lambda: form.compare(bits, others, "I8F8"),
            plain: lambda: numpy.sign(bits / 32768 - others / 256),
        },
        "printing U8": {ours: lambda: form.text(bits), plain: lambda: (bits / 32768).astype("U20")},
        "printing a list of str": {
            ours: lambda: form.text(listed_bits),
            "str(..)": lambda: [str(number / 32768) for number in listed_bits],
        },
        "to I8F8, down": {ours: lambda: form.convert(bits, "I8F8"), "numpy": lambda: bits >> 7},
        "to I8F8, to the nearest": {
            ours: lambda: form.convert(bits, "I8F8", target_mode="nearest"),
            plain: lambda: numpy.rint(bits / 128).astype(numpy.int16),
        },
    }
    try:
        from pandas import Series
    except ImportError:
        print("pandas is missing")
    else:
        column = Series(objects, dtype="string")
        rows["reading a column of pandas' string"] = {
            ours: lambda: form.read(column),
            plain: lambda: as_floats(column),
        }
    try:
        from fxpmath import Fxp
    except ImportError:
        print("fxpmath is missing")
    else:
        rows["reading floats"]["fxpmath"] = lambda: Fxp(floats, signed=True, n_word=16, n_frac=15)
    return rows


def main():
    compile_module()
    rows = []
    for what, calls in contenders().items():
        best = dict.fromkeys(calls, float("inf"))
        for _ in range(int(sys.argv[1])):
            for who, call in calls.items():
                start = time.process_time()
                call()
                best[who] = min(best[who], time.process_time() - start)
        first = next(iter(best.values()))
        rows += [[what, who, f"{spent:.3f}", f"{spent / first:.1f}"] for who, spent in best.items()]
    load = ", ".join(f"{each:.1f}" for each in os.getloadavg())
    print(f"the package for Python, 1,000,000 numbers of I1F15 (load {load} on {os.cpu_count()} processors)")
    timing.table(rows, ["", "by", "seconds", "/ ours"])


if __name__ == "__main__":
    main()
