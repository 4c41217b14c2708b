#!/usr/bin/env python3
"""The wrong bodies: tries those that the gate leaves out, or prints what refused each.

    wrong_bodies.py try [CRATE..]     tries those of wrong-bodies/, of every crate or of these (make wrong-bodies)
    wrong_bodies.py table [LOG..]     prints a table of all of them (make wrong-bodies-table), also by these logs of rt must-fail

`rt` tries the edits of a crate's must-fail/, each by a check of its own. Those of wrong-bodies/ are tried over the kept statements of the
crates below, several by one check of the edited functions and what they call, if they change bodies of different functions: a body has
to do with its own contract and its own proof alone. Both ways of trying (make test, make wrong-bodies) keep what refused each edit in
build/logs, for as long as the edit and the file that it edits stay the same.

A row of the table names the function whose contract refuses the edit, the clause or condition, and where the check stopped: at a goal
that is open or false, or inside a proof that was written for the right body, which shows less of the contract.
"""
import glob
import hashlib
import os
import re
import shutil
import subprocess
import sys
import tempfile
from concurrent.futures import ThreadPoolExecutor

from crates import READ
from rules import parts

TOP = os.path.dirname(os.path.dirname(os.path.abspath(__file__)))
KEPT = f"{TOP}/build/logs/wrong-bodies"
IN_GATE, LEFT_OUT = "must-fail", "wrong-bodies"
# How many edits one check tries at most: it loads the crates below once, and other checks go on beside it.
MOST_AT_ONCE = 12
# How a line begins that is no part of a body.
DECLARES = re.compile(r"\s*(ghost|ensures|requires|(pub(\(crate\))? )?(const|fn|struct|enum|type)\b|use|///|//!)")


def edits_in(folder):
    """The edits of a folder, by the crate and the name of each."""
    return {(path.split("/")[-3], os.path.basename(path)[:-5]): path for path in glob.glob(f"{TOP}/crates/*/{folder}/*.edit")}


def every_edit():
    """Each edit's path, by its crate and name, in whichever folder it is."""
    return edits_in(LEFT_OUT) | edits_in(IN_GATE)


def crates_in_order():
    with open(f"{TOP}/crates.txt", encoding="utf-8") as file:
        return [line.partition(":")[0].split()[0] for line in file if line.strip() and not line.startswith("#")]


class Edit:
    """An edit: the file that it changes, its pairs of an old and a new text, and the functions that these stand in."""

    def __init__(self, path):
        self.key, self.room = (path.split("/")[-3], os.path.basename(path)[:-5]), ""
        with open(path, encoding="utf-8") as file:
            self.file, self.pairs, _ = parts(file.read())
        source = f"{TOP}/crates/{self.key[0]}/{self.file}"
        with open(source, encoding="utf-8") as file:
            text = file.read()
        lines = [text.partition(old)[0].count("\n") + 1 for old, _ in self.pairs]
        self.functions = {function_at(source, line) for line in lines}
        self.is_of_bodies = self.file.startswith("src/") and not any(DECLARES.match(old) for old, _ in self.pairs)

    def module(self):
        """The path of its file's module below the crate."""
        return self.file[len("src/") : -len(".rt")].replace("/", "::")

    def only(self):
        """The words that have a check look at its functions alone, and at what they call: a method goes by its module."""
        with open(f"{self.room}/{self.file}", encoding="utf-8") as file:
            own = set(re.findall(r"^(?:pub(?:\(crate\))? )?(?:final )?fn (\w+)", file.read(), re.M))
        is_root = self.module() in ("lib", "main")
        if is_root and not self.functions <= own:
            return []
        paths = [name if is_root else f"{self.module()}::{name}" if name in own else self.module() for name in self.functions]
        return [word for it in sorted(set(paths)) for word in ("--only", it)]

    def is_meant(self, message):
        """Whether a message is about one of the functions, by its place in a source or in a proof."""
        place = re.match(r"(?:note: )?(?:\./)?(\S+?):(\d+):\d+: ", message)
        proof = re.fullmatch(r"proofs/(.*/)?(\w+)/(?:Answers|Invariants)\.antt", place[1]) if place else None
        if proof:
            module = self.file[len("src/") : -len(".rt")]
            return proof[2] in self.functions and (module in ("lib", "main") or (proof[1] or "").startswith(f"{module}/"))
        # (the line is that of the source as the edit has left it)
        return bool(place) and place[1] == self.file and function_at(f"{self.room}/{self.file}", int(place[2])) in self.functions


def in_groups(edits):
    """Edits of a crate in groups, each of which is tried by one check: in a group each changes bodies of other functions, so that no
    edit has to do with the contract or the proof of another; one that changes more than bodies is alone."""
    left = list(edits)
    while left:
        group, changed = left[:1], {(left[0].file, it) for it in left[0].functions}
        for it in left[1:] if left[0].is_of_bodies else ():
            functions = {(it.file, name) for name in it.functions}
            if it.is_of_bodies and not functions & changed and len(group) < MOST_AT_ONCE:
                group.append(it)
                changed |= functions
        yield group
        left = [it for it in left if it not in group]


def try_group(bench, group):
    """Checks a copy of a crate with these edits; the first message about each, a goal before what stands in a proof; None if there is
    none. One of which nothing was said beside others is tried alone."""
    crate = group[0].key[0]
    with tempfile.TemporaryDirectory(prefix="wrong-bodies-") as room:
        for part in READ:
            if os.path.isdir(f"{TOP}/crates/{crate}/{part}"):
                shutil.copytree(f"{TOP}/crates/{crate}/{part}", f"{room}/{part}")
        for it in group:
            it.room = room
            with open(f"{room}/{it.file}", encoding="utf-8") as file:
                text = file.read()
            for old, new in it.pairs:
                text = text.replace(old, new)
            with open(f"{room}/{it.file}", "w", encoding="utf-8") as file:
                file.write(text)
        only = [it.only() if it.is_of_bodies else [] for it in group]
        words = [word for it in only for word in it] if all(only) else []
        how = {"stdout": subprocess.PIPE, "stderr": subprocess.STDOUT, "text": True, "errors": "replace", "check": False}
        ran = subprocess.run(["rattle", "check", *bench.words(crate, 1), *words], cwd=room, **how)
        told = [it for it in ran.stdout.split("\n") if re.match(r"(note: )?\S+:\d+:\d+: ", it) and ("error" in it or "not proved" in it)]
        is_refused = ran.returncode == 1 and re.search(r"^(only=|logic=not-proved)", ran.stdout, re.M)
        found = {}
        for it in group:
            about = [message for message in told if it.is_meant(message)] or (told if len(group) == 1 else [])
            found[it.key] = next((it for it in about if "proofs/" not in it), about[0]) if about and is_refused else None
    for it in group if len(group) > 1 else ():
        if not found[it.key]:
            found |= try_group(bench, [it])
    return found


def try_all(names, folders, jobs=0):
    """Tries the edits of these crates in these folders of theirs, many of a crate by one check; the status."""
    # (prove.py reads this file)
    from prove import Bench

    bench = Bench(lanes=jobs)
    names = names or crates_in_order()
    if not bench.make(sorted({it for name in names for it in bench.crates[name].uses})):
        return 1
    found, missed = {}, []
    with ThreadPoolExecutor(bench.lanes) as pool:
        running = {}
        for crate in names:
            paths = sorted(path for folder in folders for (of, _), path in edits_in(folder).items() if of == crate)
            running[crate] = [pool.submit(try_group, bench, group) for group in in_groups([Edit(path) for path in paths])]
        for crate, groups in running.items():
            said = {key: message for it in groups for key, message in it.result().items()}
            of_crate = {key: refusal(crate, every_edit()[key], message) for key, message in said.items() if message}
            missed += [key for key, message in said.items() if not message]
            keep(of_crate)
            found |= of_crate
            if said:
                at_goal = sum(where == "at a goal" for _, where in of_crate.values())
                print(f"{crate}: {len(of_crate)} of {len(said)} wrong bodies are refused, {at_goal} at a goal", flush=True)
                for key, (by, where) in sorted(of_crate.items()):
                    if where != "at a goal":
                        print(f"    {key[1]}: {where}, {by}", flush=True)
    for key in missed:
        print(f"NOT REFUSED: {'/'.join(key)}")
    print(f"{len(found)} wrong bodies were refused" + (", and others were not (above)" if missed else ""))
    return 1 if missed else 0


def function_at(path, line):
    """The function that a line of a source file belongs to."""
    with open(path, encoding="utf-8") as file:
        lines = file.read().split("\n")
    line = min(line, len(lines))
    # (an item is named by the line on which its attributes begin)
    is_head = re.match(r"\s*(#\[|///|(pub(\(crate\))? )?(final )?fn )", lines[line - 1])
    for text in lines[line - 1:] if is_head else (*reversed(lines[:line]), *lines[line:]):
        found = re.search(r"\bfn (\w+)", text)
        if found:
            return found.group(1)
        found = re.match(r"\s*ghost (\w+) =", text)
        if found:
            return found.group(1)
    return "?"


def edited(crate, edit):
    """The path of the file that an edit changes, and the first text that it replaces."""
    with open(edit, encoding="utf-8") as file:
        name, pairs, _ = parts(file.read())
    return f"{TOP}/crates/{crate}/{name}", pairs[0][0] if pairs else ""


def edited_function(crate, edit):
    """The function that an edit changes."""
    path, old = edited(crate, edit)
    with open(path, encoding="utf-8") as file:
        before = file.read().partition(old)[0]
    return function_at(path, before.count("\n") + 1)


def sum_of(crate, edit):
    """The sum of an edit and of the file that it changes."""
    found = hashlib.sha256()
    for path in (edit, edited(crate, edit)[0]):
        if os.path.isfile(path):
            with open(path, "rb") as file:
                found.update(file.read())
    return found.hexdigest()[:32]


def refusal(crate, edit, message):
    """What refuses an edit, and where, from the first line that the check said of it."""
    if "proofs/" in message or "only because a proof file" in message:
        return f"`{edited_function(crate, edit)}`", "inside a written proof"
    if "only by a limit of the prover" in message:
        return f"`{edited_function(crate, edit)}`", "at a limit of the prover"
    place = re.search(r"(src/\S+?\.rt):(\d+):\d+", message)
    path = f"{TOP}/crates/{crate}/{place.group(1)}" if place else ""
    function = function_at(path, int(place.group(2))) if os.path.isfile(path) else edited_function(crate, edit)
    requires = re.search(r"what `(\w+)` requires holds at this call(?: \(`[^`]*?(?:-clause-(\w+))?[`)])?", message)
    if requires:
        clause = f"condition `{requires.group(2)}`" if requires.group(2) else "a condition"
        return f"`{function}`: {clause} of `{requires.group(1)}`", "at a goal"
    if "ensures holds" in message:
        clause = re.search(r"-clause-(\w+)", message)
        return f"`{function}`: " + (f"clause `{clause.group(1)}`" if clause else "its clause"), "at a goal"
    if "`invariant`" in message:
        return f"`{function}`: the invariant of its type", "at a goal"
    fits = re.search(r"not proved that (the \w+) fits its type", message)
    if fits:
        return f"`{function}`: {fits.group(1)} fits its type", "at a goal"
    other = re.search(r"not proved that ([^;(\t]*)", message)
    return f"`{function}`: {other.group(1).strip() if other else 'a law'}", "at a goal"


def refusals(lines):
    """What refused each edit that these lines of the check name, by its crate and name."""
    edits, found = every_edit(), {}
    for line in lines:
        said = re.search(r"must-fail (\w+)/(\w+)\.edit: refused, as it must be(.*)", line)
        if said and said.groups()[:2] in edits:
            key = said.groups()[:2]
            found[key] = refusal(key[0], edits[key], said.group(3))
    return found


def kept():
    """What refused each edit, as far as it was kept and the files are the same."""
    edits, found = every_edit(), {}
    if os.path.isfile(KEPT):
        with open(KEPT, encoding="utf-8") as file:
            for line in file:
                crate, name, sum_then, *what = line.rstrip("\n").split("\t")
                if (crate, name) in edits and sum_of(crate, edits[crate, name]) == sum_then:
                    found[crate, name] = tuple(what)
    return found


def keep(refused):
    """Keeps what refused these edits."""
    edits, found = every_edit(), kept() | refused
    os.makedirs(os.path.dirname(KEPT), exist_ok=True)
    with open(KEPT, "w", encoding="utf-8") as file:
        file.writelines("\t".join((*key, sum_of(key[0], edits[key]), *what)) + "\n" for key, what in sorted(found.items()))


def table(logs):
    """Prints all wrong bodies, crate by crate as in crates.txt; those that were not tried by the function that they edit."""
    edits, gate, found = every_edit(), edits_in(IN_GATE), kept()
    for log in logs:
        with open(log, encoding="utf-8", errors="replace") as lines:
            found |= refusals(lines)
    for crate in crates_in_order():
        rows = sorted(name for of, name in edits if of == crate)
        if rows:
            print(f"## `{crate}`\n\n| Wrong body | In the gate | Refused by | Stops |\n|---|---|---|---|")
        for name in rows:
            by, where = found.get((crate, name)) or (f"`{edited_function(crate, edits[crate, name])}`", "not tried yet")
            print(f"| `{name}` | {'yes' if (crate, name) in gate else 'no'} | {by} | {where} |")
        print(end="\n" if rows else "")
    stops = sum(where == "at a goal" for _, where in found.values())
    print(f"{len(edits)} wrong bodies, {len(gate)} in the gate. Tried for the files that there are: {len(found)}, of which {stops} stop at a goal.")


def main():
    verb, given = sys.argv[1:2], sys.argv[2:]
    if verb == ["try"]:
        return try_all(given, [LEFT_OUT])
    if verb == ["table"]:
        table(given)
        return 0
    print(__doc__, file=sys.stderr)
    return 2


if __name__ == "__main__":
    sys.exit(main())
