#!/usr/bin/env python3
"""Checks the reference that `make doc` writes: every link leads somewhere, every public item is there, and its first
page has all that the headline needs, by the sources and not by the reference's readers. Tests of these come first.

    reference.py [--keep FOLDER]   writes the reference into a folder that stays, with pictures if there is a browser
"""
import argparse
import glob
import html.parser
import os
import re
import shutil
import subprocess
import sys
import tempfile
import unittest

TOP = os.path.dirname(os.path.dirname(os.path.abspath(__file__)))
sys.path.insert(0, TOP)
sys.path.insert(0, f"{TOP}/oracle")

import documents  # noqa: E402
from apidoc import test_reading  # noqa: E402
from apidoc.__main__ import made  # noqa: E402
from apidoc.std_words import MEANINGS  # noqa: E402

# An item that is public by its own line. What a private module has is public if a `pub use` names it.
PUBLIC = re.compile(r"^pub (?:(?:final|const|extern \"C\") )*(fn|struct|enum|trait|type|const|static) (\w+)", re.M)
METHOD = re.compile(r"^    pub (?:(?:final|const) )*fn (\w+)", re.M)
SHOWN = ("index", "crates", "fixed_point", "fixed_bits.specs", "items")


class Page(html.parser.HTMLParser):
    """The anchors of a page and the addresses that it leads to."""

    def __init__(self, path):
        super().__init__()
        self.anchors, self.addresses, self.doubled, self.private = set(), [], [], set()
        with open(path, encoding="utf-8") as file:
            self.text = file.read()
        self.feed(self.text)

    def handle_starttag(self, tag, attrs):
        self.private |= {dict(attrs).get("id")} if ("class", "private") in attrs else set()
        for name, value in attrs:
            if name == "id":
                self.doubled += [value] if value in self.anchors else []
                self.anchors.add(value)
            elif name in ("href", "src"):
                self.addresses.append(value)


def broken(pages, folder):
    """Links that lead nowhere, and anchors that stand twice."""
    for name, page in pages.items():
        yield from (f"{name}: two anchors {it}" for it in page.doubled)
        for address in page.addresses:
            path, _, anchor = address.partition("#")
            if re.match(r"https?:|mailto:", address):
                continue
            if path and not os.path.isfile(f"{folder}/{path}"):
                yield f"{name}: no page {address}"
            elif anchor and anchor not in pages[path or name].anchors:
                yield f"{name}: no place {address}"


def is_listed_module(crate, path):
    """Whether a file is a public module: each module on its way is declared by `pub mod`."""
    parts = os.path.relpath(path, f"{TOP}/crates/{crate}/src")[:-3].split("/")
    parts = [it for it in parts if it not in ("lib", "main", "mod")]
    home = f"{TOP}/crates/{crate}/src/lib.rt"
    for at, name in enumerate(parts):
        if not re.search(rf"^pub mod {name};", documents.text_of(os.path.relpath(home, TOP)), re.M):
            return False
        home = "/".join([f"{TOP}/crates/{crate}/src", *parts[:at + 1]]) + ".rt"
    return True


def lacking(pages):
    """Public items and definitions that the reference lacks."""
    for path in sorted(glob.glob(f"{TOP}/crates/*/src/**/*.rt", recursive=True)):
        crate = path.split("/crates/")[1].split("/")[0]
        if not os.path.isfile(f"{TOP}/crates/{crate}/src/lib.rt"):
            continue
        text = documents.text_of(os.path.relpath(path, TOP))
        page = pages[f"{crate}.html"]
        lines = re.findall(r"^pub use ([^;]*);", text, re.M)
        named = {it for line in lines for it in re.findall(r"[A-Z]\w*(?=\s*[,}]|$)", line)}
        if is_listed_module(crate, path):
            for kind, name in PUBLIC.findall(text):
                if name not in page.anchors:
                    yield f"{crate}.html: no {kind} {name}"
            shown = " ".join(page.anchors | set(re.findall(r">(\w+)</a>", page.text)))
            yield from (f"{crate}.html: does not hand on {it}" for it in named if not re.search(rf"\b{it}\b", shown))
        types = set(re.findall(r"^impl(?:<.*?>)? (\w+)[ <{]", text, re.M)) & (page.anchors - page.private)
        if types:
            methods = {it.rpartition(".")[2] for it in page.anchors}
            lost = [it for it in METHOD.findall(text) if it not in methods and f"fn {it}" not in page.text]
            yield from (f"{crate}.html: no method {it}" for it in lost)
    for crate, file, name in documents.specs()[0]:
        anchors = pages[f"{crate}.specs.html"].anchors
        if name != "mod" and not any(re.match(rf"{re.escape(f'{file}.{name}')}(-|$)", it) for it in anchors):
            yield f"{crate}.specs.html: no {file}.{name}"


def headline(pages):
    """The first page has just the definitions that the headline needs, as documents.py finds them, and the words of std,
    each of which apidoc/std_words.py explains."""
    files, _, std = documents.needed()
    wanted = {f"{crate}.{file}.{name}" for (crate, file), names in files.items() for name in names}
    first = pages["index.html"]
    listed = {it for it in first.anchors if it.count(".") >= 2}
    yield from (f"index.html: the headline needs {it}" for it in sorted(wanted - listed))
    yield from (f"index.html: the headline does not need {it}" for it in sorted(listed - wanted))
    if "What the clause assumes" not in first.text:
        yield "index.html: it does not say what the clause assumes"
    words = {it.rpartition(".")[2] for it in first.addresses if it.startswith("std.html#")}
    yield from (f"index.html: the headline needs the word {it} of std" for it in sorted(std - words))
    yield from (f"apidoc/std_words.py does not say what {it} means" for it in sorted(std - MEANINGS.keys()))
    yield from (f"apidoc/std_words.py: the headline does not need {it}" for it in sorted(MEANINGS.keys() - std))


def browser():
    """A browser without a screen, if there is one."""
    return next((path for it in ("chromium", "chromium-browser", "google-chrome") if (path := shutil.which(it))), None)


def picture(folder):
    """Takes pictures of a few pages, for somebody to look at."""
    if not browser():
        print("no chromium is on this machine, and so no picture was taken")
        return
    for name in SHOWN:
        words = ["--headless", "--no-sandbox", "--disable-gpu", "--hide-scrollbars", "--window-size=1100,1500"]
        words += [f"--screenshot={folder}/{name}.png", f"file://{folder}/{name}.html"]
        subprocess.run([browser(), *words], capture_output=True, timeout=300, check=False)
    print(f"pictures: {', '.join(sorted(os.path.basename(it) for it in glob.glob(f'{folder}/*.png')))}")


def check(folder):
    """Writes the reference and checks it; what is wrong."""
    written = made(folder)
    pages = {name: Page(f"{folder}/{name}") for name in written.written}
    wrong = [*broken(pages, folder), *lacking(pages), *headline(pages)]
    for it in wrong:
        print(it)
    links = sum(len(it.addresses) for it in pages.values())
    print(f"reference: {len(pages)} pages, {links} links; {len(wrong)} that lead nowhere or items that are missing")
    return wrong


def main():
    words = argparse.ArgumentParser(description=__doc__.split("\n", maxsplit=1)[0])
    words.add_argument("--keep")
    given = words.parse_args()
    tests = unittest.defaultTestLoader.loadTestsFromModule(test_reading)
    if not unittest.TextTestRunner(stream=sys.stdout, verbosity=0).run(tests).wasSuccessful():
        return 1
    if given.keep:
        wrong = check(os.path.abspath(given.keep))
        picture(os.path.abspath(given.keep))
        return 1 if wrong else 0
    with tempfile.TemporaryDirectory() as room:
        return 1 if check(f"{room}/doc") else 0


if __name__ == "__main__":
    sys.exit(main())
