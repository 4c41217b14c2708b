#!/usr/bin/env python3
"""Checks what the documents say of the repository against the repository.

    documents.py [--built build|out]

The crates' table against crates.txt, definitions that docs/RULES.md and docs/PROVED.md name against specs/, the files
that the headline needs against its clause, the crates without a wrong body in the gate, and every path and target of
make that a document names. A block of commands is one that is run, or the words before it say that it is not run.

With `--built` also the programs against what is said of them: the answers in docs/RULES.md, the commands of every
document, and the lines of Python. What is not built or not installed is then named and passed over.
"""
import argparse
import glob
import os
import re
import shutil
import subprocess
import sys
import tempfile

TOP = os.path.dirname(os.path.dirname(os.path.abspath(__file__)))
sys.path.insert(0, TOP)
sys.path.insert(0, f"{TOP}/oracle")

from apidoc.markdown import slug  # noqa: E402
from harness import program  # noqa: E402
from pages import PAGES, examples_of  # noqa: E402
from python import found_with, linked  # noqa: E402

DOCUMENTS = ("README.md", "CONTRIBUTING.md", "CHANGELOG.md", "SECURITY.md",
             *sorted(f"docs/{os.path.basename(it)}" for it in glob.glob(f"{TOP}/docs/*.md")))
PROGRAMS = ("fixed", "fixed_tool", "enclose_tool", "least_tool", "constants_tool", "columns_tool")
MOST_WORDS_OF_README = 1000
# What is made by building, and so is named and not there.
MADE = ("build/", "crates/*/out", "crates/NAME", "DIR/")
FOLDERS = r"apidoc|crates|docs|bench|oracle|scale|examples|include|man|packaging|completion|python|rust|cases|\.ci"


def text_of(path):
    with open(f"{TOP}/{path}", encoding="utf-8") as file:
        return file.read()


def answers_of(path, lines):
    given = "".join(line + "\n" for line in lines).encode()
    ran = subprocess.run([path], input=given, stdout=subprocess.PIPE, stderr=subprocess.DEVNULL, check=False)
    return ran.stdout.decode().split("\n")[:-1]


def readme_answers(built):
    """The lines of README and docs/RULES.md, and what these say that they are answered."""
    path = program("fixed_tool", built)
    if path is None:
        print("fixed_tool is not built, and so the answers in docs/RULES.md were not compared")
        return
    rules = text_of("docs/RULES.md")
    both = " ".join((text_of("README.md") + rules).split())
    said = re.findall(r"`(\d+ \S+ \S+ \S+ [^`]+)` is answered with `([^`]+)`", both)
    said += [(line, f"error: {message}") for message, line in
             re.findall(r"^\|.*\| `([a-z ]*)` \|.*\| `([0-9]+ [^`]*)` \|$", rules, re.M)]
    said += [(f"10 U8F0 U8F0 checked {numeral}", f"error: {message}") for message, numeral in
             re.findall(r"^\|.*\| `([a-z ]*)` \| `([^` ]+)` \|$", rules, re.M)]
    said += [(f"10 U8F0 U16F0 {policy} 300", answer) for policy, answer in
             (("checked", "error: overflow"), ("saturating", "255 255 overflowed"), ("wrapping", "44 44 overflowed"))
             if f"`{answer}`" in both]
    if len(said) < 18:
        yield f"README.md and docs/RULES.md show {len(said)} answers only"
    for (line, answer), got in zip(said, answers_of(path, [line for line, _ in said])):
        if got != answer:
            yield f"{line!r} is answered {got!r}, not {answer!r}"


def blocks(document):
    """The indented blocks of a document, and those in fences but for Rust's in README, each after the words since the
    one before it."""
    text = re.sub(r"^```rust\n.*?^```", "", text_of(document), flags=re.M | re.S) if document == "README.md" else text_of(document)
    text = re.sub(r"^```[^\n]*\n(.*?)^```$", lambda found: re.sub("^(?=.)", "    ", found.group(1), flags=re.M), text, flags=re.M | re.S)
    at = 0
    for found in re.finditer(r"(?<=\n\n)(?: {4}.*\n| *\n(?= {4}))+", text):
        yield text[at:found.start()], re.sub(r"^ {4}", "", found.group(), flags=re.M).rstrip("\n") + "\n"
        at = found.end()


def is_installed(tool):
    """Whether a tool is on this machine. Of those that are named `parallel` it is GNU's."""
    if not shutil.which(tool):
        return False
    said = subprocess.run([tool, "--version"], stdin=subprocess.DEVNULL, stdout=subprocess.PIPE, stderr=subprocess.DEVNULL, check=False)
    return tool != "parallel" or b"GNU" in said.stdout


class Room:
    """A folder in which commands are run: the programs that are built are on the path, and the files that documents
    name are there: sensor.csv, tariff.csv, numerals.txt, log.jsonl, and meter.csv whose third column makes the lines of
    `lines`."""

    def __init__(self, folder, built):
        self.folder, self.missing = folder, set()
        for name in PROGRAMS:
            path = program(name, built)
            if path is None:
                self.missing.add(name)
            else:
                os.makedirs(f"{folder}/bin", exist_ok=True)
                os.symlink(path, f"{folder}/bin/{name}")
        os.symlink(f"{TOP}/scale", f"{folder}/scale")
        for name in ("sensor.csv", "tariff.csv"):
            shutil.copy(f"{TOP}/examples/{name}", folder)
        numerals = [it for day in range(20)
                    for it in (f"{day}.14159", f"{day * 31}", f"1.{day}.5", f"-{day}", f"{day}e-3")]
        with open(f"{folder}/meter.csv", "w", encoding="ascii") as file:
            file.writelines(f"{hour},a,{numeral}\n" for hour, numeral in enumerate(numerals))
        self.lines = "".join(f"10 U16F16 I8F8 saturating {numeral}\n" for numeral in numerals)
        log = '{"place":"hall","celsius":21.31415926}\n'
        for name, text in (("lines", self.lines), ("numerals.txt", "0.5\n3.14159\n"), ("log.jsonl", log)):
            with open(f"{folder}/{name}", "w", encoding="ascii") as file:
                file.write(text)

    def lacks(self, commands, where):
        """Whether a program or tool that these commands name is not there, which is said."""
        words = set(re.findall(r"[\w-]+", commands))
        lacking = sorted(self.missing & words)
        lacking += [it for it in ("parallel", "jq", "xxd") if it in words and not is_installed(it)]
        if lacking:
            print(f"{lacking[0]} is not there, and so a block of {where} was not run")
        return bool(lacking)

    def run(self, commands):
        env = os.environ | {"PATH": f"{self.folder}/bin:{os.environ['PATH']}"}
        return subprocess.run(["bash", "-c", commands], stdin=subprocess.DEVNULL, stdout=subprocess.PIPE,
                              stderr=subprocess.DEVNULL, check=False, env=env, cwd=self.folder, timeout=120)


def console(room, document, block):
    """The commands of a block, each after a dollar, that write something else than it shows."""
    for part in re.split(r"^\$ ", block, flags=re.M)[1:]:
        command, _, shown = part.partition("\n")
        if not shown:
            yield f"{document}: {command!r} shows no output"
        elif not room.lacks(command, document):
            got = room.run(command).stdout.decode(errors="replace")
            if got.rstrip("\n") != shown.rstrip("\n"):
                yield f"{document}: {command!r} writes {got!r}"


def recipe(room, document, block):
    """A block of commands leaves the answers to the lines."""
    if room.lacks(block, document):
        return
    answers = f"{room.folder}/answers"
    if os.path.exists(answers):
        os.remove(answers)
    room.run(block)
    got = None
    if os.path.exists(answers):
        with open(answers, encoding="ascii") as file:
            got = file.read()
    wanted = subprocess.run([sys.executable, f"{TOP}/oracle/reference.py"], input=room.lines, text=True,
                            stdout=subprocess.PIPE, check=False).stdout
    if got != wanted:
        yield f"{document}: the block {block.splitlines()[0]!r} leaves other answers"


def copied(document, block):
    """The block that copies crates into another repository leaves all that they use, and a line for each."""
    with tempfile.TemporaryDirectory() as folder:
        for name in ("crates.txt", *(os.path.relpath(it, TOP) for it in glob.glob(f"{TOP}/crates/*/src"))):
            target = f"{folder}/lomdeqash/{name}"
            os.makedirs(os.path.dirname(target), exist_ok=True)
            (shutil.copytree if os.path.isdir(f"{TOP}/{name}") else shutil.copy)(f"{TOP}/{name}", target)
        os.makedirs(f"{folder}/other/crates")
        subprocess.run(["bash", "-c", block], cwd=f"{folder}/other", check=False)
        there = set(os.listdir(f"{folder}/other/crates"))
        with open(f"{folder}/other/crates.txt", encoding="utf-8") as file:
            lines = {head.split()[0]: deps.split() for head, _, deps in (line.partition(":") for line in file)}
    every = crates_of()
    named_ones = {*lines, *sum(lines.values(), [])} & every.keys()
    yield from (f"{document}: {name} is not copied" for name in sorted(named_ones - there))
    yield from (f"{document}: {name} has no line" for name in sorted(there - lines.keys()))


# The doctests of the package, and those of the documents that are named, with what README's lines begin with.
DOCTESTS = """
import doctest, importlib, pkgutil, sys
import lomdeqash, numpy
modules = [lomdeqash, *(importlib.import_module(f"lomdeqash.{it.name}") for it in pkgutil.iter_modules(lomdeqash.__path__))]
failed = sum(doctest.testmod(it).failed for it in modules)
given = {"lomdeqash": lomdeqash, "np": numpy}
sys.exit(failed + sum(doctest.testfile(it, module_relative=False, globs=dict(given)).failed for it in sys.argv[1:]) > 0)
"""


def lines_of_python(built):
    """The lines of Python in documents and in the package, where the library is built and numpy is there."""
    python = found_with("numpy")
    if not python:
        print("numpy is not on this machine, and so the lines of Python were not run")
        return
    documents = [f"{TOP}/{it}" for it in DOCUMENTS if ">>> " in text_of(it)]
    with tempfile.TemporaryDirectory() as folder:
        library = f"{TOP}/build/lib/libfixed.so.1" if built == "build" else linked(folder)
        if not library or not os.path.isfile(library):
            print("the library for C is not built, and so the lines of Python were not run")
            return
        env = os.environ | {"PYTHONPATH": f"{TOP}/python", "LIBFIXED": library, "PYTHONDONTWRITEBYTECODE": "1"}
        ran = subprocess.run([python, "-c", DOCTESTS, *documents], stdout=subprocess.PIPE, stderr=subprocess.STDOUT, check=False, env=env)
        if ran.returncode:
            yield f"lines of Python: {ran.stdout.decode(errors='replace')}"


def runner(before, block):
    """What runs a block; None where nothing does and the words before it do not say so."""
    if block.startswith("$ "):
        return console
    if block.startswith(">>> "):
        return lambda *_: ()
    if is_marked(before):
        return lambda *_: ()
    if ">answers" in block:
        return recipe
    return (lambda _, document, block: copied(document, block)) if "../lomdeqash/" in block else None


def unmarked():
    """Blocks of the documents and examples of the pages that are neither run nor said not to be, and commands in the
    comments of other files."""
    for document in DOCUMENTS:
        for before, block in blocks(document):
            if runner(before, block) is None:
                yield f"{document}: the block {block.splitlines()[0]!r} is neither run nor said not to be"
    for page in PAGES:
        name = f"man/{os.path.basename(page)}"
        yield from (f"{name}: {command!r} shows no output" for command, shown in examples_of(page) if not shown)
        for block in re.findall(r"^\.Bd .*\n(.*)", text_of(name), re.M)[name.endswith(".3"):]:
            if not block.startswith("$ "):
                yield f"{name}: the block {block!r} is not run"
    for folder in ("bench", "completion", "examples", "include", "oracle", "packaging", "python", "scale"):
        for path in glob.glob(f"{folder}/**/*", root_dir=TOP, recursive=True):
            if os.path.isfile(f"{TOP}/{path}") and not path.endswith(".pyc"):
                yield from (f"{path}: the command {line!r} is not run"
                            for line in re.findall(r"^[ \t]*(?:#|//[/!]?|\*|/\*)[ \t]*\$ (.*)", text_of(path), re.M))


def quoted(room):
    """Commands in the sentences of documents are ones that the programs take, and give what a sentence says that they
    give."""
    for document in DOCUMENTS:
        text = " ".join(text_of(document).split())
        for command in sorted(set(re.findall(rf"`((?:{'|'.join(PROGRAMS)}) [^`]+)`", text))):
            is_whole = not re.search(r"(?<!\S)[A-Z]+(?!\S)|\.\.|\[|^fixed \w+$|\w .*--[\w-]+$", command)
            if is_whole and not room.lacks(command, document) and room.run(command).returncode == 2:
                yield f"{document}: {command!r} is not taken"
        for command, answer in re.findall(r"`((?:echo|printf|fixed) [^`]*)` (?:gives|says) `([^`]*)`", text):
            if not room.lacks(command, document):
                got = room.run(command).stdout.decode(errors="replace")
                if answer not in got:
                    yield f"{document}: {command!r} gives {got!r}"


def commands(built):
    """What the commands in documents, in the help of `fixed` and in examples/ give."""
    with tempfile.TemporaryDirectory() as folder:
        room = Room(folder, built)
        for document in DOCUMENTS:
            for before, block in blocks(document):
                yield from (runner(before, block) or (lambda *_: ()))(room, document, block)
        yield from quoted(room)
        yield from helped(room)
        yield from demos(room)


def is_marked(before):
    """Whether the last words before a block say that it is not run."""
    return re.search(r"\bnot run\b", before.rstrip().rpartition("\n\n")[2].replace("\n", " "), re.I) is not None


def compiled(built):
    """The example in C of man/fixed.3, where the library is built: it prints the number that its comment says."""
    archive = f"{TOP}/build/lib/libfixed.a" if built == "build" else f"{TOP}/crates/fixed_c/out/libfixed_c.a"
    shown = re.search(r"^\.Bd -literal.*?\n(.*?)^\.Ed", text_of("man/fixed.3"), re.M | re.S)
    example = shown.group(1).replace("\\e", "\\")
    if not os.path.isfile(archive) or not shutil.which("cc"):
        print("the library for C is not built, and so the example of man/fixed.3 was not run")
        return
    with tempfile.TemporaryDirectory() as folder:
        with open(f"{folder}/example.c", "w", encoding="ascii") as file:
            file.write(f"#include <fixed.h>\n#include <stdio.h>\nint main(void) {{\n{example}return 0;\n}}\n")
        words = ["cc", f"-I{TOP}/include", f"{folder}/example.c", archive, "-o", f"{folder}/example"]
        made = subprocess.run(words, stderr=subprocess.DEVNULL, check=False).returncode == 0
        got = made and subprocess.run([f"{folder}/example"], stdout=subprocess.PIPE, check=False).stdout.decode()
        if got != re.search(r"/\* (\d+) \*/", example).group(1) + "\n":
            yield f"man/fixed.3: its example writes {got!r}"


def numbers_of_c():
    """The codes and sizes of the header that man/fixed.3 leaves out or gives another number."""
    header, page = text_of("include/fixed.h"), text_of("man/fixed.3")
    for name, number in re.findall(r"\b(FIXED_\w+) = (\d+)", header[header.index("enum fixed_code {"):]):
        if not re.search(rf"^\.Dv {name}\n\({number}\b", page, re.M):
            yield f"man/fixed.3: no {name} ({number})"


def helped(room):
    """The examples in the help of `fixed` end well."""
    if room.lacks("fixed", "the help of fixed"):
        return
    names = re.findall(r"^  (\w+)", room.run("fixed --help").stdout.decode().partition("Commands:\n")[2], re.M)
    for name in ("", *names):
        for command in re.findall(r"^Example: (.*)$", room.run(f"fixed {name} --help").stdout.decode(), re.M):
            if room.run(command).returncode:
                yield f"the help of fixed {name}: {command!r} fails"


def demos(room):
    """What make demo and make demo-command show: the answers are the reference's, and no command fails."""
    if not room.lacks("fixed_tool", "examples/demo.txt"):
        with open(f"{TOP}/examples/demo.txt", "rb") as file:
            lines = file.read()
        reference = [sys.executable, f"{TOP}/oracle/reference.py"]
        wanted = subprocess.run(reference, input=lines, stdout=subprocess.PIPE, check=False)
        if room.run(f"fixed_tool <'{TOP}/examples/demo.txt'").stdout != wanted.stdout:
            yield "examples/demo.txt: other answers than the reference's"
    if not room.lacks("fixed", "examples/demo.sh") and room.run(f"sh '{TOP}/examples/demo.sh'").returncode:
        yield "examples/demo.sh fails"


def toolchain():
    """Says if README names another logic than that of this toolchain, which is no fault."""
    if shutil.which("rt"):
        said = subprocess.run(["rt", "version"], stdout=subprocess.PIPE, check=False).stdout.decode().strip()
        if said[said.find("logic "):] not in text_of("README.md"):
            print(f"README.md does not name the logic of this toolchain: {said}")


def targets():
    """Targets of make that a document names and there are none of."""
    made = "".join(text_of(path) for path in ("Makefile", "packaging/library.mk", "packaging/python.mk"))
    known = {name for names in re.findall(r"^([\w./ -]+):(?!=)", made, re.M) for name in names.split()}
    for document in DOCUMENTS:
        for name in re.findall(r"`(?:[A-Z]+=\S+ )*make ([a-z][\w-]*)", text_of(document)):
            if name not in known:
                yield f"{document}: no make {name}"


def quotes():
    """Blocks for who is new to Rattle that do not stand in the file that the words right before them name last."""
    for document in ("docs/READING.md", "docs/FIRST_CHANGE.md"):
        for before, block in blocks(document):
            paths = re.findall(r"`(crates/[\w./-]+)`", before.rstrip().rpartition("\n\n")[2])
            if paths and block not in text_of(paths[-1]):
                yield f"{document}: the block {block.splitlines()[0]!r} does not stand in {paths[-1]}"


def readme_shape():
    """README is short, names a toolchain by its logic, and its example is one that is proved."""
    count = len(text_of("README.md").split())
    if count > MOST_WORDS_OF_README:
        yield f"README.md has {count} words, and at most {MOST_WORDS_OF_README} are wanted"
    if not re.search(r"`logic [0-9a-f]{16}`", text_of("README.md")):
        yield "README.md does not name the logic of a toolchain"
    example = re.search(r"```rust\n(.*?)```", text_of("README.md"), re.S)
    source = "crates/fixed_uses/src/main.rt"
    if os.path.isfile(f"{TOP}/{source}") and (not example or example.group(1).rstrip() not in text_of(source)):
        yield f"README.md's library example is not a part of {source}"


def crates_of():
    """The crates of crates.txt, and what each stands on."""
    lines = [line.partition(":") for line in text_of("crates.txt").split("\n") if line and not line.startswith("#")]
    return {head.split()[0]: deps.split() for head, _, deps in lines}


def crates_table():
    """The tables of docs/ARCHITECTURE.md have a row for each crate, and for nothing else."""
    crates = crates_of()
    rows = re.findall(r"^\| `(\w+)` \|", text_of("docs/ARCHITECTURE.md"), re.M)
    yield from (f"docs/ARCHITECTURE.md: no row for the crate {name}" for name in crates if name not in rows)
    yield from (f"docs/ARCHITECTURE.md: no crate {name}" for name in rows if name not in crates)


def outside_the_gate():
    """docs/DECISIONS.md names just the crates whose wrong bodies are all left out of the gate."""
    text = text_of("docs/DECISIONS.md").partition("have no wrong body in the gate")[2].partition(".")[0]
    said = set(re.findall(r"`(\w+)`", text))
    left_out = {path.split("/")[-3] for path in glob.glob(f"{TOP}/crates/*/wrong-bodies/*.edit")}
    left_out -= {path.split("/")[-3] for path in glob.glob(f"{TOP}/crates/*/must-fail/*.edit")}
    yield from (f"docs/DECISIONS.md: {it} has no wrong body in the gate" for it in sorted(left_out - said))
    yield from (f"docs/DECISIONS.md: {it} has one in the gate" for it in sorted(said - left_out))


def named(text):
    """Definitions that a text names as in `crate`: `File` (`name`, ..), by crate, file and names, in its order."""
    listed = r"[Ii]n `(\w+)`: ((?:`\w+`(?: \((?:`[\w'-]+`(?:, )?|[^`()]*)*\))?(?:, | and )?)+)"
    for crate, rest in re.findall(listed, " ".join(text.split())):
        for file, names in re.findall(r"`(\w+)`(?: \(([^)]*)\))?", rest):
            yield crate, file, re.findall(r"`([\w'-]+)`", names)


def definitions():
    """Definitions that docs/RULES.md and docs/PROVED.md name."""
    for document in ("docs/RULES.md", "docs/PROVED.md"):
        for crate, file, names in named(text_of(document)):
            paths = glob.glob(f"{TOP}/crates/{crate}/specs/**/{file}.antt", recursive=True)
            if not paths:
                yield f"{document}: no specs/{file}.antt in {crate}"
                continue
            with open(paths[0], encoding="utf-8") as spec:
                stated = spec.read()
            for name in names:
                if not re.search(rf"\b{re.escape(name)}\b", stated):
                    yield f"{document}: no {name} in {crate}/specs/{file}.antt"


# Names that are not of the crates: of the csv of the toolchain, of any program, of the references and of the Makefile.
OTHERS = ("next_record", "run_NAME", "WIDTHS", "PROGRAMS")


def unknown_names():
    """Names in what speaks of the code that no code and no definition has."""
    known = set()
    files = [it for kind in ("src/**/*.rt", "specs/**/*.antt", "proofs/ProgramLemmas.antt")
             for it in glob.glob(f"{TOP}/crates/*/{kind}", recursive=True)]
    for path in files:
        known |= set(re.findall(r"\w+", text_of(os.path.relpath(path, TOP))))
    known |= crates_of().keys() | {it for deps in crates_of().values() for it in deps}
    for document in ("docs/PROVED.md", "docs/ARCHITECTURE.md", "docs/EXTENDING.md"):
        for name in sorted(set(re.findall(r"`(?:\w+::)?(\w+)`", text_of(document))) - known):
            if name not in OTHERS and not any(name in it for it in known):
                yield f"{document}: no {name} in the crates"


# What the headline's clause cites: crate, file and definition.
ROOTS = (("line_engine", "Output", "WritesOutput"), ("line_engine", "Failures", "HasFailed"),
         ("fixed_respell", "Answer", "IsAnswer"), ("fixed_respell", "Command", "IsCommand"))


def specs():
    """The text of each definition by crate, file and name, and for each file where its imports come from."""
    stated, imported = {}, {}
    for path in glob.glob(f"{TOP}/crates/*/specs/**/*.antt", recursive=True):
        parts = os.path.relpath(path, f"{TOP}/crates")[:-5].split("/")
        crate, file, name = parts[0], ".".join(parts[2:]), None
        text = text_of(os.path.relpath(path, TOP))
        uses = re.findall(r"^(?:pub )?use Rattle\.([^{]+)\.\{([^}]*)\}", text, re.M)
        imported[crate, file] = {name.strip().split(" as ")[-1]: home
                                 for home, names in uses for name in names.split(",")}
        for line in text.split("\n"):
            head = re.match(r"(?:(?:abbrev|unfoldable) (?:pub )?|pub (?:record |data )?|record |data )([\w']+)", line)
            name = head.group(1) if head else name
            if name and line and not line.startswith(("use ", "pub use ", "--")) and not line.lstrip().startswith("--"):
                stated[crate, file, name] = stated.get((crate, file, name), "") + line + "\n"
    return stated, imported


def needed():
    """The definitions that the headline needs, by crate and file; which files use which; and the words of std."""
    stated, imported = specs()
    found, std, used, open_ones = set(), set(), set(), list(ROOTS)
    while open_ones:
        crate, file, name = key = open_ones.pop()
        home = imported.get((crate, file), {}).get(name, "").split(".")
        if key not in stated and len(home) > 2 and home[0] != "std":
            open_ones.append((home[0], ".".join(home[2:]), name))
            used.add(((crate, file), (home[0], ".".join(home[2:]))))
        if key in found or key not in stated:
            continue
        found.add(key)
        for word in set(re.findall(r"[\w'ℕℤ]+", re.sub(r'"[^"]*"', "", stated[key]))):
            home = imported[crate, file].get(word, "").split(".")
            if (crate, file, word) in stated:
                open_ones.append((crate, file, word))
            elif home[0] == "std":
                std.add(word)
            elif "declared" not in home and len(home) > 2:
                open_ones.append((home[0], ".".join(home[2:]), word))
                used.add(((crate, file), open_ones[-1][:2]))
    files = {}
    for crate, file, name in found:
        files.setdefault((crate, file), set()).add(name)
    return files, used, std


def headline():
    """The headline's reading order has just the files whose definitions its clause needs, each only over those above it.
    The definitions themselves, and the words of std, are on the reference's first page (reference.py)."""
    files, used, _ = needed()
    text = text_of("docs/PROVED.md").partition("## The headline")[2].partition("\n## ")[0].partition("\n### ")[0]
    order = [(crate, file) for crate, file, _ in named(text)]
    yield from (f"docs/PROVED.md: the headline needs {file} of {crate}" for crate, file in sorted(files.keys() - set(order)))
    yield from (f"docs/PROVED.md: the headline does not need {file} of {crate}" for crate, file in sorted(set(order) - files.keys()))
    yield from (f"docs/PROVED.md: {above[1]} of {above[0]} uses {below[1]} of {below[0]}, which is listed after it"
                for above, below in sorted(used)
                if above in order and below in order and order.index(above) < order.index(below))


def paths():
    """Files and folders that a document names in back quotes, by themselves or in a command."""
    for document in DOCUMENTS:
        if not os.path.isfile(f"{TOP}/{document}"):
            yield f"no {document}"
            continue
        for quoted in re.findall(r"`([^`\n]+)`", text_of(document)):
            for name in re.findall(rf"(?<![\w./-])((?:{FOLDERS})/[\w./*-]*)", quoted):
                if not name.startswith(MADE) and not glob.glob(f"{TOP}/{name}"):
                    yield f"{document}: no {name}"
    yield from links()


def links():
    """Links of the documents to files that are not there, and to headings that the file does not have."""
    for document in DOCUMENTS:
        for address in re.findall(r"\]\(([^)\s]+)\)", text_of(document)):
            path, _, anchor = address.partition("#")
            path = os.path.normpath(os.path.join(os.path.dirname(document), path)) if path else document
            if re.match("https?:", address):
                continue
            if not os.path.isfile(f"{TOP}/{path}"):
                yield f"{document}: no {address}"
            elif anchor and anchor not in {slug(it) for it in re.findall(r"^#+ (.*)", text_of(path), re.M)}:
                yield f"{document}: no heading {address}"


def main():
    words = argparse.ArgumentParser(description=__doc__.split("\n", maxsplit=1)[0])
    words.add_argument("--built", choices=("build", "out"))
    given = words.parse_args()
    toolchain()
    wrong = [*unmarked(), *readme_shape(), *quotes(), *crates_table(), *outside_the_gate(), *definitions(), *unknown_names(), *headline(), *paths()]
    wrong += [*targets(), *numbers_of_c()]
    if given.built:
        wrong += [*readme_answers(given.built), *commands(given.built), *lines_of_python(given.built), *compiled(given.built)]
    for it in wrong:
        print(it)
    print(f"documents: {len(wrong)} sentences that do not hold")
    return 1 if wrong else 0


if __name__ == "__main__":
    sys.exit(main())
