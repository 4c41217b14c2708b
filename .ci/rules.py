#!/usr/bin/env python3
"""Rules over the files of this repository that no proof can state.

    rules.py [RULE..]   names each file that breaks a rule: of all rules, or of these
    rules.py --write    writes crates/fixed_point/src/types.rt, and .ci/wide_lines.txt anew if no file has more than it may
    rules.py --tests    shows that each rule finds the faults that are planted for it

wide_lines: no line of src/, specs/, docs/ and man/ is wider than 120 columns. .ci/wide_lines.txt, which only shrinks, says how many a file
    not yet mended may have. A row of a table and a line of code in a document cannot be broken, and may be wider.
type_names: fixed_point's module of type names has every one of them: `I16F16`, which is `Fixed<i32, 16>`, and so on.
edits: an edit of must-fail/ or wrong-bodies/ can be applied: each `old:` occurs just once in the file that it names. `rt ci` passes over
    one that cannot, so that a wrong body would no longer be tried. A crate's edits have one name each in both folders together.
counters: no counted function makes a counter of steps for itself. A clause on steps binds the counter that is handed in; a body that counts
    on another would meet its clause and prove nothing. A counter is made from a ledger's `Blank`, and
    - only mains and files named `uncounted.rt` name `Blank` or `Brand`, which are imported by these names;
    - no function there has a counter among its parameters;
    - what is declared there has a name that no other function has, so that to name it is to mean it;
    - no function with a counter among its parameters names it, nor a function that does: called or not, with or without a path.
    The last is not asked of a function without a clause on steps: a rule over whole inputs may read without a counter.
"""
import glob
import os
import re
import sys

TOP = os.path.dirname(os.path.dirname(os.path.abspath(__file__)))
TYPES = "crates/fixed_point/src/types.rt"
ALLOWANCE = ".ci/wide_lines.txt"
READ = ("crates/*/src/**/*.rt", "crates/*/specs/**/*.antt", "crates/*/proofs/**/*.antt", "crates/*/must-fail/*.edit",
        "crates/*/wrong-bodies/*.edit", "docs/*.md", "man/*", ALLOWANCE)


def files_here():
    """The texts of all files that a rule reads, by their paths."""
    texts = {}
    for path in sorted({it for pattern in READ for it in glob.glob(f"{TOP}/{pattern}", recursive=True)}):
        with open(path, encoding="utf-8") as file:
            texts[os.path.relpath(path, TOP)] = file.read()
    return texts


# ---- wide lines
WIDEST = 120
WIDTHS_OF = re.compile(r"crates/\w+/(?:src|specs)/|docs/|man/")
# How a line of a document begins that cannot be broken.
UNBROKEN = ("|", "    ")


def wide_in(files):
    """The numbers of the wide lines of each file that has any."""
    found = {}
    for path, text in files.items():
        kept = UNBROKEN if path.endswith(".md") else ()
        wide = [number for number, line in enumerate(text.split("\n"), 1) if len(line) > WIDEST and not line.startswith(kept)]
        if wide and WIDTHS_OF.match(path):
            found[path] = wide
    return found


def allowance(files):
    """How many wide lines each file may have."""
    return {path: int(count) for count, path in (line.split() for line in files.get(ALLOWANCE, "").splitlines())}


def wide_lines(files):
    may = allowance(files)
    for path, wide in wide_in(files).items():
        if len(wide) > may.get(path, 0):
            yield f"{path}:{wide[0]}: wider than {WIDEST} columns ({len(wide)} such lines, and {may.get(path, 0)} are let be)"


# ---- names of types
def bits(count, kind):
    """A count of bits in words."""
    return f"{count} {kind} bit{'' if count == 1 else 's'}"


def types_text():
    """The names in the order of their formats, each with its documentation."""
    return "\n".join(f"/// {sign}: {bits(width - frac, 'whole')} and {bits(frac, 'fraction')}.\n"
                     f"pub type {letter}{width - frac}F{frac} = Fixed<{inner}{width}, {frac}>;\n"
                     for width in (8, 16, 32, 64) for letter, inner, sign in (("U", "u", "Unsigned"), ("I", "i", "Signed"))
                     for frac in range(width + 1))


def headed_types(files):
    """The whole module, under the head that it has."""
    return files.get(TYPES, "").partition("///")[0] + types_text()


def type_names(files):
    if files.get(TYPES) != headed_types(files):
        yield f"{TYPES} is not what .ci/rules.py --write writes"


# ---- edits
def parts(edit):
    """The file that an edit names, its pairs of an old and a new text, and whether each text has its pair."""
    name, olds, news = None, [], []
    for line in edit.split("\n"):
        word, _, text = line.partition(":")
        text = text.removeprefix(" ")
        if word == "file":
            name = text
        elif word == "old":
            olds.append(text)
        elif word == "new":
            news.append(text)
    return name, list(zip(olds, news)), len(olds) == len(news)


def why_not(files, path):
    """Why an edit cannot be applied, or None."""
    name, pairs, is_paired = parts(files[path])
    text = files.get(f"{os.path.dirname(os.path.dirname(path))}/{name}")
    if text is None:
        return f"no file {name}"
    if not pairs or not is_paired:
        return "no pairs of old: and new:"
    for old, new in pairs:
        if text.count(old) != 1:
            return f"{text.count(old)} times in {name}: {old}"
        text = text.replace(old, new)
    return None


def edits(files):
    for path in files:
        if path.endswith(".edit"):
            why = why_not(files, path)
            if why:
                yield f"BAD EDIT {path}: {why}"
            elif path.replace("/wrong-bodies/", "/must-fail/") in files.keys() - {path}:
                yield f"BAD EDIT {path}: must-fail/ has an edit of this name"


# ---- counters of steps
MAKERS = ("Blank", "Brand")
# Where the counter is defined: it takes a blank, and no other crate is below it.
DEFINED = "crates/fixed_steps/src/lib.rt"
TESTS = re.compile(r"tests?(/|\.rt)|_tests\.rt")
# Methods that a caller means by writing a number into a text, or by reading one out of it.
MEANT = {"fmt": r"\b(?:write|writeln|format|print|println|eprintln)!", "from_str": r"\bparse\b"}


class Function:
    """A function: its name, the type that it is a method of, whether a counter is among its parameters and a clause or a
    trait's is on steps, and the names in its body."""

    def __init__(self, path, name, kind, head, body, renamed):
        self.path, self.crate, self.name, self.kind = path, path.split("/")[1], name, kind
        self.is_counted = "Steps<" in head
        self.makes = re.search(r"\b(?:Blank|Brand)\b", head + body) is not None
        self.is_bound = self.is_counted and (re.search(r"\bsteps\.new\b", head) or kind[1] in ("LineRule", "Rule", "Program"))
        self.names = set(re.findall(r"\w+", body)) | {name for name, form in MEANT.items() if re.search(form, body)}
        self.names |= {old for old, new in renamed if new in self.names}


def functions(path, text):
    """Each function of a file that has a body."""
    blocks = [(found.start(), found.group(1), found.group(2)) for found in
              re.finditer(r"^impl\b(?:<[^{]*?>)? *(?:([A-Za-z]\w*)(?:<[^{]*?>)? for )?&?([A-Za-z]\w*)[^{]*\{", text, re.M)]
    renamed = re.findall(r"\b(\w+) as (\w+)", text)
    for found in re.finditer(r"\bfn (\w+)", text):
        start = re.compile(r"^\s*\{$|\) (?:-> [^\n;{]*)?\{$|;$", re.M).search(text, found.end())
        if start is None or start.group().endswith(";"):
            continue
        depth, at = 1, start.end()
        while depth and at < len(text):
            depth += {"{": 1, "}": -1}.get(text[at], 0)
            at += 1
        is_method = text[text.rfind("\n", 0, found.start()) + 1:found.start()].startswith(" ")
        kind = next(((of, of_trait) for begin, of_trait, of in reversed(blocks) if begin < found.start()), (None, None))
        head, body = text[found.end():start.start()], text[start.end():at]
        yield Function(path, found.group(1), kind if is_method else (None, None), head, body, renamed)


def is_home(path):
    """Whether a file may make a counter."""
    return path == DEFINED or os.path.basename(path) in ("uncounted.rt", "main.rt")


def wrong_makers(path, text):
    """What a file says of a blank that it may not."""
    for name in MAKERS:
        if not is_home(path) and re.search(rf"\b{name}\b", text):
            yield f"{path}: names {name}, which only a main and a file uncounted.rt may"
        if re.search(rf"\b{name} as\b", text):
            yield f"{path}: imports {name} under another name"
    if re.search(r"\b(?:std::marker|std::sync::ledger|std::sync)::(?:\*|\{[^}]*\*)|\b(?:marker|ledger) as\b", text):
        yield f"{path}: imports all names of std::marker or std::sync::ledger"


def reaches(function, other, text):
    """Whether a body names another function: by its name alone, or for a method of a type that its file names."""
    if other.name not in function.names or function is other:
        return False
    if other.kind[0] is not None:
        return re.search(rf"\b{other.kind[0]}\b", text) is not None
    return function.crate == other.crate or re.search(rf"\b{other.crate}\b", text) is not None


def counters(files):
    code = {path: re.sub(r"//[^\n]*", "", text) for path, text in files.items() if "/src/" in path and not TESTS.search(path)}
    every = [it for path, text in code.items() for it in functions(path, text)]
    yield from (it for path, text in code.items() for it in wrong_makers(path, text))
    makers = [it for it in every if (is_home(it.path) or it.makes) and it.path != DEFINED and it.name != "main"]
    yield from (f"{it.path}: {it.name} has a counter among its parameters" for it in makers if it.is_counted)
    for it in makers:
        yield from (f"{other.path}: {other.name} is declared in {it.path} too, and makes a counter there" for other in every
                    if other is not it and (other.name, other.kind[0]) == (it.name, it.kind[0]) and it.path.endswith("uncounted.rt"))
    uncounted, grown = set(), set(makers)
    while grown:
        uncounted |= grown
        grown = {it for it in every if it not in uncounted and not it.is_counted and any(reaches(it, other, code[it.path]) for other in grown)}
    for it in every:
        if it.is_bound:
            yield from (f"{it.path}: {it.name}, which is handed a counter, names {other.name}, which counts on another"
                        for other in uncounted if reaches(it, other, code[it.path]))


RULES = {rule.__name__: rule for rule in (wide_lines, type_names, edits, counters)}

# ---- the rules' own test: files that keep every rule, and faults that are planted in them
HOME = """use std::marker::Brand;
use std::sync::ledger::{Blank, Ledger};
fn read_over<L: Ledger>(s: &[u8], blank: Blank) -> bool
    requires backed { 0 < L.parts }
{
    let mut steps: Steps<L> = Steps::new(blank);
    read(s, &mut steps)
}
pub fn read_uncounted(s: &[u8]) -> bool {
    read_over::<Brand>(s, Blank::new(1))
}
pub struct Quick;
impl Quick {
    pub fn read_all(&self, s: &[u8]) -> bool {
        read_over::<Brand>(s, Blank::new(1))
    }
}
"""
COUNTED = """%s
pub fn read<L: Ledger>(s: &[u8], steps: &mut Steps<L>) -> bool
    ensures cost { steps.new ≤ steps.old + length s.now }
{
    %s
}
"""
UNCOUNTED_PATH, READ_PATH, SHOWN_PATH = (f"crates/one/src/{name}.rt" for name in ("uncounted", "read", "shown"))
SHOWN = "use crate::uncounted::read_uncounted;\npub fn shown(s: &[u8]) -> bool {\n    read_uncounted(s)\n}\n"
EDIT = "file: src/shown.rt\nold: (s)\nnew: (t)\nold: (t)\nnew: (s)\n"
EDIT_PATH = "crates/one/wrong-bodies/a.edit"
RIGHT = {
    UNCOUNTED_PATH: HOME, READ_PATH: COUNTED % ("", "steps.tick();\n    true"), SHOWN_PATH: SHOWN, TYPES: "//! Names.\n\n" + types_text(),
    EDIT_PATH: EDIT, "docs/a.md": "| " + "x" * 130 + "\n    " + "x" * 130 + "\n" + "x" * 120 + "\n", "man/b.1": "x" * 130, ALLOWANCE: "1 man/b.1\n",
}
PLANTED = {
    "wide_lines": ({"docs/a.md": "x" * 121}, {"man/b.1": "x" * 130 + "\n" + "x" * 130}, {SHOWN_PATH: SHOWN + "// " + "x" * 118}, {ALLOWANCE: ""}),
    "type_names": ({TYPES: RIGHT[TYPES].replace("U7F1", "U7F2", 1)}, {TYPES: RIGHT[TYPES][:-1]}, {TYPES: ""}),
    "edits": (
        {EDIT_PATH: EDIT.replace("(s)", "(z)")}, {EDIT_PATH: EDIT.replace("(s)", "s")}, {EDIT_PATH: EDIT.replace("old: (t)", "old: (z)")},
        {EDIT_PATH: EDIT.replace("shown.rt", "none.rt")}, {EDIT_PATH: EDIT[5:]}, {EDIT_PATH: EDIT + "old: (s)\n"},
        {EDIT_PATH: "file: src/shown.rt\n"}, {EDIT_PATH.replace("wrong-bodies", "must-fail"): EDIT}),
    "counters": (
        *({READ_PATH: COUNTED % planted} for planted in (
            ("use crate::uncounted::read_uncounted;", "read_uncounted(s)"), ("", "self::read_uncounted(s)"),
            ("use crate::uncounted::Quick;", "Quick.read_all(s)"), ("use crate::uncounted::read_uncounted;", "let reader = read_uncounted;\n    reader(s)"),
            ("use crate::uncounted::read_uncounted as reader;", "reader(s)"), ("use crate::uncounted::*;", "read_uncounted(s)"),
            ("use std::sync::ledger::Blank;", "let _ = Blank::new(1);\n    true"),
            ("use std::sync::ledger::Blank as Fresh;", "let _ = Fresh::new(1);\n    true"),
            ("use std::sync::ledger::*;", "let _ = Blank::new(1);\n    true"),
            ("use crate::uncounted::read_uncounted;\nfn other(s: &[u8]) -> bool {\n    read_uncounted(s)\n}", "other(s)"))),
        {UNCOUNTED_PATH: HOME.replace("read_uncounted", "run"), READ_PATH: COUNTED % ("fn run() -> bool {\n    true\n}", "true")},
        {UNCOUNTED_PATH: HOME.replace("s: &[u8], blank", "s: &[u8], steps: &mut Steps<L>, blank")}),
}


def tests():
    """What the rules answer otherwise than they should: they find nothing in the right files, and each fault by its rule."""
    for rule in RULES.values():
        yield from (f"is refused: {it}" for it in rule(RIGHT))
    for name, faults in PLANTED.items():
        yield from (f"passes {name}: {fault}" for fault in faults if not list(RULES[name](RIGHT | fault)))
    yield from (f"has no planted fault: {name}" for name in RULES.keys() - PLANTED.keys())


def write(files):
    """Writes what is made, the allowance of wide lines only if it shrinks."""
    texts = {TYPES: headed_types(files)}
    if not list(wide_lines(files)):
        texts[ALLOWANCE] = "".join(f"{len(wide)} {path}\n" for path, wide in wide_in(files).items())
    for path, text in texts.items():
        with open(f"{TOP}/{path}", "w", encoding="utf-8") as file:
            file.write(text)


def main():
    if sys.argv[1:] == ["--tests"]:
        failed = list(tests())
        print("\n".join([*failed, f"{sum(map(len, PLANTED.values()))} faults planted for {len(RULES)} rules, {len(failed)} not found"]))
        return 1 if failed else 0
    files = files_here()
    if sys.argv[1:] == ["--write"]:
        write(files)
        return 0
    found = [it for name in sys.argv[1:] or RULES for it in RULES[name](files)]
    print("\n".join([*found, f"{len(files)} files, {len(found)} that break a rule"]))
    return 1 if found else 0


if __name__ == "__main__":
    sys.exit(main())
