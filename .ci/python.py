#!/usr/bin/env python3
"""Tries the package for Python: its tests and doctests, its types, its module in C, without numpy, as a wheel, and its
example.

    python.py [--built build|out]

With `--built build` it takes the shared library that `make library` left, and with `--built out` it links one from the
archive of the gate. What an interpreter or a tool is missing for is named and passed over.
"""
import argparse
import glob
import os
import shutil
import subprocess
import sys
import tempfile

TOP = os.path.dirname(os.path.dirname(os.path.abspath(__file__)))
PACKAGE = f"{TOP}/python"
WITHOUT_NUMPY = """
import importlib.abc, sys
class Hidden(importlib.abc.MetaPathFinder):
    def find_spec(self, name, path, target=None):
        if name.partition(".")[0] == "numpy":
            raise ModuleNotFoundError(name)
sys.meta_path.insert(0, Hidden())
import pytest
sys.exit(pytest.main(sys.argv[1:]))
"""
MODULE = "import lomdeqash._packing"
WITH_MODULE = MODULE + ", pytest, sys; sys.exit(pytest.main(sys.argv[1:]))"
# Each compiler's shared sanitizer, which the interpreter loads first, and the options that call for it.
SANITIZERS = {"gcc": ["libasan.so"], "clang": ["libclang_rt.asan-x86_64.so", "-shared-libsan"]}
ALONE = "import lomdeqash as l, sys; sys.exit(l.Format('I1F15').text(l.Format('I1F15').read(0.3333)) != '0.3333')"


class Failed(Exception):
    """Something came out otherwise."""


def run(words, what, **how):
    """Runs a command, and prints the last line that it writes; a status other than 0 fails."""
    ran = subprocess.run(words, stdout=subprocess.PIPE, stderr=subprocess.STDOUT, check=False, **how)
    text = ran.stdout.decode(errors="replace")
    if ran.returncode:
        raise Failed(f"{what}: status {ran.returncode}\n{text[-6000:]}")
    print(f"{what}: {(text.strip().splitlines() or ['as it should be'])[-1]}", flush=True)


def has(python, *modules):
    """Whether an interpreter finds all of these modules. A folder of the same name, as build/, is none."""
    words = [python, "-c", "import " + ", ".join(modules)]
    return subprocess.run(words, stdout=subprocess.DEVNULL, stderr=subprocess.DEVNULL, check=False).returncode == 0


def found_with(*modules):
    """The first interpreter that finds all of these modules."""
    candidates = [os.environ.get("PYTHON"), sys.executable, "/usr/bin/python3"]
    return next((each for each in candidates if each and os.path.exists(each) and has(each, *modules)), None)


def linked(folder):
    """The shared library, linked from the archive that the gate made; None where there is none."""
    archive = f"{TOP}/crates/fixed_c/out/libfixed_c.a"
    if not os.path.isfile(archive) or not shutil.which("gcc"):
        return None
    subprocess.run(
        [
            "gcc",
            "-shared",
            "-o",
            f"{folder}/libfixed.so.1",
            "-Wl,-soname,libfixed.so.1",
            "-Wl,--gc-sections",
            f"-Wl,--version-script={TOP}/packaging/fixed.map",
            "-Wl,--whole-archive",
            archive,
            "-Wl,--no-whole-archive",
            "-nostartfiles",
            "-lc",
        ],
        check=True,
    )
    return f"{folder}/libfixed.so.1"


def check_sources(python, env):
    """The tests and doctests of the sources, with numpy and without, and the types."""
    tests = [
        "-q",
        "-p",
        "no:cacheprovider",
        "--doctest-modules",
        "--doctest-ignore-import-errors",
        "lomdeqash",
        "tests",
    ]
    if has(python, "numpy"):
        page = ["--doctest-glob=PYTHON.md", f"{TOP}/docs/PYTHON.md"]
        run([python, "-m", "pytest", *tests, *page], "with numpy", cwd=PACKAGE, env=env)
        if not has(python, "pandas"):
            print("pandas is not on this machine, and so its columns were not tried")
    else:
        print("numpy is not on this machine")
    run([python, "-c", WITHOUT_NUMPY, *tests], "without numpy", cwd=PACKAGE, env=env)
    if has(python, "mypy", "numpy"):
        with tempfile.TemporaryDirectory() as cache:
            run(
                [python, "-m", "mypy", "--strict", "--cache-dir", cache, "lomdeqash", "tests"],
                "mypy --strict",
                cwd=PACKAGE,
                env=env,
            )
    else:
        print("mypy is not on this machine")


def written(words):
    """What a command writes, without blanks around it."""
    return subprocess.run(words, stdout=subprocess.PIPE, check=True).stdout.decode().strip()


def check_module(python, env, folder):
    """The module in C: no compiler warns, and its tests find nothing amiss under the sanitizers."""
    include = written([python, "-c", "import sysconfig; print(sysconfig.get_path('include'))"])
    compilers = [each for each in SANITIZERS if shutil.which(each)]
    if not compilers or not os.path.isfile(f"{include}/Python.h"):
        print("a compiler or Python.h is not on this machine, and so the module in C was not tried")
        return
    copy = f"{folder}/module"
    shutil.copytree(PACKAGE, copy, ignore=shutil.ignore_patterns("__pycache__"))
    source, made = f"{PACKAGE}/lomdeqash/_packing.c", f"{copy}/lomdeqash/_packing.abi3.so"
    tests = [python, "-c", WITH_MODULE, "-q", "-p", "no:cacheprovider", "tests/test_packing.py", "tests/test_errors.py"]
    for compiler in compilers:
        words = [compiler, "-std=c11", "-O1", "-g", "-Wall", "-Wextra", "-Wpedantic", "-Werror", "-shared", "-fPIC"]
        words += ["-isystem", include, source, "-o", made]
        run(words, f"{compiler}, the module in C")
        runtime, *options = SANITIZERS[compiler]
        runtime = written([compiler, f"-print-file-name={runtime}"])
        if not os.path.isfile(runtime):
            print(f"{compiler} has no shared sanitizers here")
            continue
        words += ["-fsanitize=address,undefined", "-fno-sanitize-recover=all", *options]
        run(words, f"{compiler}, the module in C with sanitizers")
        inside = env | {"PYTHONPATH": copy, "LD_PRELOAD": runtime}
        inside |= {"ASAN_OPTIONS": "detect_leaks=0", "PYTHONMALLOC": "malloc"}
        run(tests, f"{compiler}, the tests of the module in C", cwd=copy, env=inside)


def check_wheel(python, library, folder):
    """The wheel, installed in an environment of its own."""
    if not has(python, "build.__main__", "setuptools", "wheel", "venv", "ensurepip"):
        print("build, setuptools, wheel or venv is not on this machine, and so no wheel was made")
        return
    with open(f"{TOP}/packaging/VERSION", encoding="ascii") as version:
        words = [f"{TOP}/packaging/wheel.sh", version.read().strip(), library, f"{folder}/dist"]
    run(words, "a wheel", env=os.environ | {"PYTHON": python})
    made = glob.glob(f"{folder}/dist/*.whl")[0]
    shutil.copytree(f"{PACKAGE}/tests", f"{folder}/tests", ignore=shutil.ignore_patterns("__pycache__"))
    env = {key: value for key, value in os.environ.items() if key not in ("PYTHONPATH", "LIBFIXED")}
    for name, options in (("alone", []), ("beside", ["--system-site-packages"])):
        subprocess.run([python, "-m", "venv", *options, f"{folder}/{name}"], check=True)
        inside = f"{folder}/{name}/bin/python"
        run(
            [inside, "-m", "pip", "install", "-q", "--no-index", "--no-deps", "--disable-pip-version-check", made],
            f"installed {name}",
            env=env,
        )
        run([inside, "-c", ALONE], f"installed {name}, one number", cwd=folder, env=env)
    if subprocess.run([inside, "-c", MODULE], env=env, cwd=folder, stderr=subprocess.DEVNULL, check=False).returncode:
        print("the wheel was built without its module in C")
    run(
        [inside, "-m", "pytest", "-q", "-p", "no:cacheprovider", "tests"], "the tests of the wheel", cwd=folder, env=env
    )


def main():
    words = argparse.ArgumentParser(description=__doc__.split("\n", maxsplit=1)[0])
    words.add_argument("--built", choices=("build", "out"), default="build")
    given = words.parse_args()
    python = found_with("pytest", "hypothesis", "numpy") or found_with("pytest", "hypothesis")
    if not python:
        print("pytest and hypothesis are not on this machine, and so the package for Python was not tried")
        return 0
    try:
        with tempfile.TemporaryDirectory() as folder:
            library = f"{TOP}/build/lib/libfixed.so.1" if given.built == "build" else linked(folder)
            if not library or not os.path.isfile(library):
                print("the library for C is not built, and so the package for Python was not tried")
                return 0
            env = os.environ | {"PYTHONPATH": PACKAGE, "LIBFIXED": library, "PYTHONDONTWRITEBYTECODE": "1"}
            check_sources(python, env)
            check_module(python, env, folder)
            run([python, f"{TOP}/examples/python/filter.py", f"{folder}/filter.png"], "the filter", env=env)
            check_wheel(python, library, folder)
    except Failed as why:
        print(why)
        return 1
    return 0


if __name__ == "__main__":
    sys.exit(main())
