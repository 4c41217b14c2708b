#!/usr/bin/env python3
"""Checks that the version is one, that `make install` puts all in place or nothing, and that what `make dist`, `make deb` and
`make wheel` leave has the same bytes twice, in two folders, of which the second has another umask, time zone and language.

    packages.py [--built build|out]

With `--built out` it takes what the gate built, and with `--built build` what `make build` and `make library` left. What is
not installed or not built is named and passed over.
"""
import argparse
import filecmp
import glob
import os
import re
import shutil
import subprocess
import sys
import tempfile

TOP = os.path.dirname(os.path.dirname(os.path.abspath(__file__)))
sys.path.insert(0, f"{TOP}/oracle")

from harness import program  # noqa: E402
from python import found_with  # noqa: E402

PROGRAMS = ("fixed_tool", "enclose_tool", "least_tool", "constants_tool", "columns_tool", "fixed")
# What a package is made of beside what is built.
SOURCES = ("packaging", "man", "completion", "include", "python", "rust", "CHANGELOG.md", "LICENSE-APACHE", "LICENSE-MIT", "Makefile",
           "crates.txt")
# What make install copies of what is built.
INSTALLED = tuple(f"build/{it}" for it in (*PROGRAMS, "lib/libfixed.a", "lib/libfixed.so.1"))
# How the second folder differs.
OTHERWISE = {"env": os.environ | {"TZ": "Asia/Kolkata", "LC_ALL": "C", "LANGUAGE": "fr"}, "umask": 0o077}


class Failed(Exception):
    """Something came out otherwise."""


def text_of(path):
    with open(f"{TOP}/{path}", encoding="utf-8") as file:
        return file.read()


def run(words, **how):
    """What a command writes; a status other than 0 fails."""
    ran = subprocess.run(words, stdout=subprocess.PIPE, stderr=subprocess.STDOUT, check=False, **how)
    if ran.returncode:
        raise Failed(f"{' '.join(words)}: status {ran.returncode}\n{ran.stdout.decode(errors='replace')[-2000:]}")
    return ran.stdout.decode(errors="replace")


def other_versions(version):
    """The places that say another version than packaging/VERSION."""
    major, minor, patch = version.split(".")
    number = f"{int(major)}{int(minor):02}{int(patch):02}"
    header = text_of("include/fixed.h")
    for name, value in (("MAJOR", major), ("MINOR", minor), ("PATCH", patch), ("STRING", f'"{version}"')):
        if f"#define FIXED_VERSION_{name} {value}\n" not in header:
            yield f"include/fixed.h: FIXED_VERSION_{name}"
    exported = re.search(r"fn fixed_version\(\) -> u32\n +ensures \{ result ≡ (\d+) \}", text_of("crates/fixed_c/src/exports.rt"))
    if not exported or exported.group(1) != number:
        yield "fixed_version of fixed_c"
    if f'version: "{version}",' not in text_of("crates/fixed/src/commands.rt"):
        yield "fixed --version"
    yield from (page for page in sorted(glob.glob("man/*.[13]", root_dir=TOP)) if f".Os Lomdeqash {version}\n" not in text_of(page))
    if not re.match(rf"# Changelog\n\n## {re.escape(version)}, \d{{4}}-\d\d-\d\d\n", text_of("CHANGELOG.md")):
        yield "CHANGELOG.md, whose first heading has the version and its day"
    if f'\nversion = "{version}"\n' not in text_of("rust/Cargo.toml"):
        yield "rust/Cargo.toml"
    if "\nVersion: @VERSION@\n" not in text_of("packaging/fixed.pc.in"):
        yield "packaging/fixed.pc.in"
    if f'__version__ = "{version}"\n' not in text_of("python/lomdeqash/__init__.py"):
        yield "lomdeqash.__version__"


def is_there(names, what):
    """Whether programs are installed; where one is not, it says what was not checked."""
    missing = [name for name in names if not shutil.which(name)]
    if missing:
        print(f"{missing[0]} is not installed, and so {what}")
    return not missing


def compared(what, first, second):
    """Fails where two folders differ in the files that a pattern finds in both."""
    names = [sorted(os.path.basename(path) for path in glob.glob(f"{folder}/{what}")) for folder in (first, second)]
    if not names[0] or names[0] != names[1]:
        raise Failed(f"{what}: {names[0]} and {names[1]}")
    for name in names[0]:
        if not filecmp.cmp(f"{first}/{os.path.dirname(what)}/{name}", f"{second}/{os.path.dirname(what)}/{name}", shallow=False):
            raise Failed(f"{name} differs where it is made twice")
    print(f"{', '.join(names[0])}: the same bytes twice", flush=True)


def twice(folders, words, inside="", **how):
    """Runs a command in both folders, in the second otherwise."""
    for folder, otherwise in zip(folders, ({}, OTHERWISE)):
        run(words, cwd=f"{folder}/{inside}", **how, **otherwise)


def check_archive(folders):
    """The archive of the sources, of two clones."""
    if not os.path.exists(f"{TOP}/.git") or not is_there(("git", "make"), "no archive of the sources was made"):
        return
    twice(folders, ["git", "clone", "-q", "--no-hardlinks", TOP, "clone"])
    twice(folders, ["make", "-s", "dist"], "clone")
    compared("build/lomdeqash-*.tar.gz", *(f"{folder}/clone" for folder in folders))


def copy_sources(folder):
    """Copies what a package is made of beside what is built."""
    for name in SOURCES:
        copy = shutil.copytree if os.path.isdir(f"{TOP}/{name}") else shutil.copy2
        copy(f"{TOP}/{name}", f"{folder}/{name}")


def files_below(folder):
    """How many files and links there are below a folder."""
    return sum(len(files) for _, _, files in os.walk(folder))


def refused_install(folder, missing):
    """Fails unless make install names just these files as missing, and copies nothing."""
    ran = subprocess.run(["make", "-s", "install", f"DESTDIR={folder}/root"], cwd=folder, capture_output=True, text=True, check=False)
    named = sorted(re.findall(r"build/[\w./]+", ran.stderr))
    if ran.returncode == 0 or named != sorted(missing) or os.path.exists(f"{folder}/root"):
        raise Failed(f"make install without {', '.join(missing)}: status {ran.returncode}\n{ran.stderr}")


def check_install(folder):
    """`make install` over empty files in place of what is built: all of it or nothing; `make uninstall` leaves nothing."""
    copy_sources(folder)
    os.makedirs(f"{folder}/build/lib")
    for count, made in enumerate(reversed(INSTALLED)):
        if count in (0, 2, len(INSTALLED) - 1):
            refused_install(folder, INSTALLED[:len(INSTALLED) - count])
        with open(f"{folder}/{made}", "wb"):
            pass
    run(["make", "-s", "install", "DESTDIR=root"], cwd=folder)
    lacking = [it for it in INSTALLED if not os.path.isfile(f"{folder}/root/usr/local/{it.replace('build/', 'bin/').replace('bin/lib/', 'lib/')}")]
    count = files_below(f"{folder}/root")
    run(["make", "-s", "uninstall", "DESTDIR=root"], cwd=folder)
    if lacking or files_below(f"{folder}/root"):
        raise Failed(f"make install left {count} files, without {lacking}, and make uninstall {files_below(f'{folder}/root')}")
    print(f"make install: {count} files, or none if one is not built; make uninstall removes all", flush=True)


def has_built(folders, built):
    """Whether what packages are made of is built; both folders then have copies of it, and the shared library."""
    programs = {name: program(name, built) for name in PROGRAMS}
    archive = f"{TOP}/build/lib/libfixed.a" if built == "build" else f"{TOP}/crates/fixed_c/out/libfixed_c.a"
    if None in programs.values() or not os.path.isfile(archive):
        print("programs or library are not built, and so no packages were made")
        return False
    for folder in folders:
        copy_sources(folder)
        os.makedirs(f"{folder}/build/lib")
        for name, path in programs.items():
            shutil.copy(path, f"{folder}/build/{name}")
        shutil.copy(archive, f"{folder}/build/lib/libfixed.a")
    twice(folders, ["make", "-s", "build/lib/libfixed.so.1"])
    return True


def check_packages(folders, version):
    """Debian's packages, and the wheel, which name the version."""
    if is_there(("dpkg-deb", "dpkg-shlibdeps"), "no packages for Debian were made"):
        os.environ["PACKAGES_ONLY"] = OTHERWISE["env"]["PACKAGES_ONLY"] = "1"
        twice(folders, ["packaging/deb.sh", version, *PROGRAMS])
        compared(f"build/deb/*_{version}_*.deb", *folders)
    if found_with("build.__main__", "setuptools", "wheel"):
        twice(folders, ["packaging/wheel.sh", version, "build/lib/libfixed.so.1", "build/dist"])
        compared(f"build/dist/lomdeqash-{version}-*.whl", *folders)
    else:
        print("build, setuptools or wheel is not on this machine, and so no wheel was made")


def main():
    words = argparse.ArgumentParser(description=__doc__.split("\n", maxsplit=1)[0])
    words.add_argument("--built", choices=("build", "out"), default="build")
    given = words.parse_args()
    version = text_of("packaging/VERSION").strip()
    try:
        others = list(other_versions(version))
        command = program("fixed", given.built)
        if command and run([command, "--version"]) != f"fixed {version}\n":
            others.append("fixed --version, as it is built")
        if others:
            raise Failed(f"not the version {version}: {', '.join(others)}")
        print(f"version {version}: everywhere the same", flush=True)
        with tempfile.TemporaryDirectory() as room:
            folders = [f"{room}/first", f"{room}/a folder with a longer name"]
            for folder in folders:
                os.makedirs(folder)
            check_archive(folders)
            if is_there(("make",), "make install was not tried"):
                os.makedirs(f"{room}/install")
                check_install(f"{room}/install")
            if is_there(("cc", "make", "strip"), "no packages were made") and has_built(folders, given.built):
                check_packages(folders, version)
    except Failed as why:
        print(why)
        return 1
    return 0


if __name__ == "__main__":
    sys.exit(main())
