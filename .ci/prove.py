#!/usr/bin/env python3
"""Proves crates and builds programs. What is proved once is used by every target and every clone.

    prove.py [--jobs N] [--cpu CPU] [--into FOLDER] NAME..   these crates and those below them, into build/
    prove.py --tests [--jobs N]           every crate, its tests, and the stored run of each program (make check)
    prove.py --gate [NAME..]              the gate, `rt ci`, and then what is compiled of these crates (make test)
    prove.py [--jobs N] --above NAME..    these crates and those above them, over what `rt check` kept (make quick)

All proofs but those of what is compiled here come from `rt ci`, which keeps them beside the toolchain by the sums of the
files. So the gate takes what other targets proved, and they take what it proved. Programs and the library for C are
proved and compiled here for CPU: `rt ci` can compile for x86-64-v2 only, and never makes the library for C.

The store (store.py) holds what is compiled, and the statements of libraries. A check takes up to about 3 GB; N is how
many work at a time.
"""
import argparse
import contextlib
import glob
import os
import re
import shutil
import subprocess
import sys
import tempfile
import time
from concurrent.futures import ThreadPoolExecutor, as_completed

from crates import READ_BY_RUNS, TOP, above, below, files_below, keys, kit, lowest_first, read_crates, text_of, toolchain
from store import Store
from wrong_bodies import IN_GATE, LEFT_OUT, function_at, keep, refusals

BUILD = f"{TOP}/build"
# What a check is likely to take, in KiB.
MEMORY_OF_A_CHECK = 3_000_000
# The processor that `rt ci` compiles programs for.
GATE_CPU = "x86-64-v2"
# Seconds of a processor that a proof takes at all, and for a line of code: over all crates, as measured. And those of a
# wrong body, which is tried over a second proof of its crate.
SECONDS, SECONDS_A_LINE, SECONDS_OF_A_BODY = 10, 0.07, 12
# The words with which a program that would refuse none answers nothing and ends with status 0.
WORDS = {"fixed": ["--", "--version"]}


def processes():
    """How many processes may work at a time, by processors and the memory that is there."""
    processors = len(os.sched_getaffinity(0))
    with open("/proc/meminfo", encoding="utf-8") as file:
        free = next((int(line.split()[1]) for line in file if line.startswith("MemAvailable")), MEMORY_OF_A_CHECK)
    return max(1, min(processors, free // MEMORY_OF_A_CHECK))


def say(text):
    print(text, flush=True)


class Progress:
    """Says after each task how many of how many are done, and about how long the others take."""

    def __init__(self, weights, lanes):
        self.left, self.lanes, self.began = dict(weights), lanes, time.monotonic()
        self.whole, self.count = sum(weights.values()), len(weights)

    def minutes(self):
        """About how many minutes are left: by the pace so far, once there is one."""
        left = sum(self.left.values())
        done = self.whole - left
        pace = (time.monotonic() - self.began) / done if done > self.whole / 50 else 1 / self.lanes
        return f"about {max(1, round(left * pace / 60))} min left" if left else "nothing else is waiting"

    def skip(self, task):
        """Notes that a task need not be done."""
        if task in self.left:
            self.whole -= self.left.pop(task)
            self.count -= 1

    def done(self, task, text):
        """Notes that a task is done, and says so."""
        if task in self.left:
            del self.left[task]
            say(f"{self.count - len(self.left)} of {self.count}: {text}; {self.minutes()}")


class Bench:
    """The crates of a repository with their keys, the store, and what a run is to make."""

    def __init__(self, cpu="x86-64", lanes=0, into=BUILD, top=TOP, store=None):
        self.crates, self.store = read_crates(top), store or Store()
        self.keys = keys(self.crates)
        self.cpu, self.lanes, self.into, self.top = cpu, lanes or processes(), into, top
        self.anew = bool(os.environ.get("ANEW"))

    def kept(self, name):
        """The parts of the store's path of what is compiled of a crate, or of its statements."""
        crate = self.crates[name]
        return (self.keys[name], "made", self.cpu) if crate.made else (self.keys[name], "rlib", f"{name}.rlib")

    def is_kept(self, name):
        """Whether the store has what is compiled of a crate, or its statements."""
        self.store.use(self.keys[name])
        return self.store.has(*self.kept(name))

    def has_passed(self, name):
        """Whether a crate is known to pass its tests and its stored run."""
        return self.store.has(self.run_key(name), "passed")

    def run_key(self, name):
        """The key of a crate's tests and stored run, which read more files than its proof."""
        return f"{self.keys[name][:32]}{self.crates[name].sum_of(READ_BY_RUNS)[:32]}"

    def weight(self, name):
        """About how many seconds of a processor a proof of a crate takes."""
        return SECONDS + SECONDS_A_LINE * self.crates[name].lines()

    def words(self, name, jobs):
        """The words with which `rattle` reads a crate, over the statements of those below it."""
        crate, home = self.crates[name], kit()
        words = ["--crate-name", name, "src/main.rt" if crate.is_program else "src/lib.rt"]
        for it in ("std", *crate.of_kit):
            words += ["--extern", f"{it}={home}/rlibs/{it}.rlib"]
        words += ["-L", f"dependency={home}/rlibs"]
        for it in crate.uses:
            words += ["--extern", f"{it}={self.store.path(*self.kept(it))}"]
        for it in sorted(below(self.crates, crate.uses)):
            words += ["-L", f"dependency={self.store.path(self.keys[it], 'rlib')}"]
        words += ["--antt-project", f"{home}/rattle/logic/antt-project.json", "--logic-built", f"{home}/logic_built"]
        words += ["--crate-type", "staticlib"] if crate.is_static else []
        return [*words, "--jobs", str(jobs), "--links", f"{name}="]

    def log(self, name):
        """Where what is said of a crate, or of a run of `rt ci`, goes."""
        os.makedirs(f"{self.into}/logs", exist_ok=True)
        return f"{self.into}/logs/{name}"

    def call(self, log, folder, *words, add=False):
        """Runs a command; whether its status is 0."""
        with open(log, "ab" if add else "wb") as out:
            how = {"stdin": subprocess.DEVNULL, "stdout": out, "stderr": subprocess.STDOUT}
            return not subprocess.call(words, cwd=folder, **how)

    def compile(self, name, jobs):
        """Proves and compiles a program or a library for C over the statements of those below it; whether it is proved."""
        crate, log, home = self.crates[name], self.log(name), kit()
        with tempfile.TemporaryDirectory(prefix="prove-", dir=self.store.folder) as room:
            to = f"{room}/{crate.made}"
            compiled = f"{to}.o" if crate.is_program else to
            words = [*self.words(name, jobs), "--cpu", self.cpu, "--toolchain", f"{home}/toolchain", "-o", compiled]
            is_well = self.call(log, crate.folder, "rattle", "build", *words)
            if is_well and crate.is_program:
                words = ["--target", "x86_64-unknown-linux-gnu", "--toolchain", f"{home}/toolchain", "-o", to, compiled]
                words += [f"{home}/c/libos_c.a", f"{home}/c/liblibc_c.a"]
                is_well = self.call(log, self.top, f"{home}/bin/rattle-link", *words, add=True)
            if is_well and keys({it: self.crates[it] for it in below(self.crates, [name])})[name] != self.keys[name]:
                with open(log, "a", encoding="utf-8") as out:
                    out.write("Files of it, or of a crate below it, changed while it was checked: once more.\n")
                return False
            if is_well:
                self.store.put(to, *self.kept(name), anew=self.anew)
        return is_well

    def compile_all(self, names):
        """Proves and compiles these programs and libraries for C side by side; whether all are proved."""
        weights = {it: self.weight(it) for it in names}
        progress, is_well = Progress(weights, self.lanes), True
        say(f"{len(names)} to be proved and compiled for {self.cpu}: {' '.join(names)}; {progress.minutes()}")
        with ThreadPoolExecutor(self.lanes) as pool:
            share = self.lanes / sum(weights.values())
            began, running = time.monotonic(), {}
            for it in sorted(names, key=lambda it: -weights[it]):
                running[pool.submit(self.compile, it, max(1, min(4, round(weights[it] * share))))] = it
            for it in as_completed(running):
                name = running[it]
                if it.result():
                    progress.done(name, f"{name} is proved and compiled ({time.monotonic() - began:.0f} s)")
                else:
                    say(why_not(text_of(self.log(name)), self.crates[name], self.log(name)))
                    is_well = False
        return is_well

    def make(self, names):
        """Proves these crates and those below them, and compiles what is compiled of them, unless the store has it or ANEW is set."""
        lacking = [it for it in names if self.anew or not self.is_kept(it)]
        if not lacking:
            say("All was proved before, for these files and this toolchain.")
        libraries = [it for it in below(self.crates, lacking) if not self.crates[it].made]
        products = [it for it in lacking if self.crates[it].made]
        is_well = not self.anew and all(self.is_kept(it) for it in libraries) or prove_copy(self, libraries)
        return is_well and (not products or self.compile_all(products))

    def hand_out(self, names):
        """Copies what is compiled of these crates to its folder."""
        for name in names:
            if self.crates[name].made:
                self.store.take(f"{self.into}/{self.crates[name].made}", *self.kept(name))

    def adopt(self):
        """Keeps what an `rt ci` that passed left in out/: statements, programs, and that the tests and the runs passed.

        Statements fit only those that they were proved over, so all are of this run, also where the store had some."""
        for name, crate in self.crates.items():
            rlib = f"{crate.folder}/out/rlib/{name}.rlib"
            if os.path.isdir(rlib) and not crate.made:
                self.store.put(rlib, *self.kept(name), anew=True)
            if crate.is_program:
                self.store.put(f"{crate.folder}/out/{name}", self.keys[name], "made", GATE_CPU)
            self.store.note(self.run_key(name), "passed", by="rt ci", crate=name, toolchain=toolchain())


# ---- what a person can do something about

def place_of(folder, place, line, what):
    """The function, and the clause if there is one, that a place of a source or of a proof is about."""
    path, of_proof = f"{folder}/{place}", re.match(r"proofs/(?:.*/)?(\w+)/(?:Answers|Invariants|Proof)\.antt", place)
    if not os.path.isfile(path) or not (of_proof or place.endswith(".rt")):
        return ""
    function = of_proof[1] if of_proof else function_at(path, line)
    sources = [it for it in files_below(f"{folder}/src") if of_proof and re.search(rf"\bfn {function}\b", text_of(it))]
    clause = re.search(r"-clause-(\w+)", what)
    head = rf"\bfn {function}\b.*?\b((?:ensures|requires) {clause[1] if clause else ''}\b[^\n]*)"
    here = re.match(r"\s*((?:ensures|requires) .*)", text_of(path).split("\n")[line - 1])
    text = re.search(head, text_of([path, *sources][-1]), re.S) if clause else here
    return f" function {function}{f', clause `{text[1].strip()}`' if text else ''}:"


def why_not(text, crate, log, title=None):
    """Of what was said of a crate that is not proved: the function, the clause and the file."""
    place = r"^(?:note: )?(?:\./)?((?:src|specs|proofs)/\S+?):(\d+):\d+: (?!note: )(?:error: )?(.*)"
    found = []
    for path, line, what in re.findall(place, text, re.M):
        found.append(f"  crates/{crate.name}/{path}:{line}:{place_of(crate.folder, path, int(line), what)} {what}"[:300])
    names = sorted(set(re.findall(r"^(?:fn|impl|struct) (\S+): (?:not proved|no proof|could not tell)", text, re.M)))
    found = found[:12] + ([f"  not proved: {', '.join(names)}"] if names else [])
    if not found:
        found = [f"  {it}" for it in text.strip().split("\n")[-12:]]
    return "\n".join([title or f"{crate.name}: is not proved", *found, f"  all that was said: {os.path.relpath(log)}"])


# ---- rt ci

class Said:
    """What `rt ci` says, line by line: how far it is, and what it refuses."""

    def __init__(self, bench, progress, log):
        self.bench, self.progress, self.log = bench, progress, log
        self.section, self.refused, self.others, self.tried = [], [], [], []

    def add(self, line):
        """Reads a line."""
        said = re.match(r"rt: (\w+)(: its tests are)?( NOT PROVED| proved| is kept:|: trying its must-fail)", line)
        name, what = (said[1], said[3].split()[0]) if said else ("", "")
        if line.startswith("== "):
            self.section = [line]
        elif what in ("NOT", "proved"):
            self.end(name, said[2], what == "proved", line)
        elif what == "is":
            for it in ("proof", "tests"):
                self.progress.skip((name, it))
        elif what == ":":
            self.progress.done((name, "bodies"), f"{name}: its wrong bodies are being tried")
        elif self.section:
            self.section.append(line)
        else:
            self.outside(line)

    def end(self, name, of_tests, is_proved, line):
        """Ends what was said of a crate's proof, or of that of its tests, which follows it."""
        if is_proved:
            text = f"{name}: its tests are proved" if of_tests else f"{name} is proved"
            self.progress.done((name, "tests" if of_tests else "proof"), text)
        elif not self.section or any(it.startswith(f"{name}: ") for it in self.refused):
            self.refused.append(line.strip())
        else:
            title = f"{name}: its tests are not proved" if of_tests else None
            self.refused.append(why_not("".join(self.section), self.bench.crates[name], self.log, title))
        self.section = []

    def outside(self, line):
        """Reads a line that is about no proof: of a wrong body, a test, a run, or the whole."""
        self.tried += [line] if "must-fail" in line else []
        is_well = re.match(r"rt: (\w+ ran[ ,(]|\w+: its tests passed|ok;|note:|\w+: \d+ of its|must-fail \S+ refused)", line)
        is_failed = re.match(r"test .* FAILED$|    ", line) or line.startswith("rt: ") and not is_well
        self.others += [line.rstrip()] if is_failed else []


def run_rt(bench, with_bodies, log, passes_on):
    """Runs `rt ci` at the top of a repository, and says how far it is; its status, and what it said."""
    weights = {}
    for name, crate in bench.crates.items():
        bodies = len(glob.glob(f"{crate.folder}/{IN_GATE}/*.edit")) if with_bodies else 0
        weights[name, "proof"] = bench.weight(name)
        weights |= {(name, "tests"): bench.weight(name)} if crate.has_tests() else {}
        weights |= {(name, "bodies"): bench.weight(name) + SECONDS_OF_A_BODY * bodies} if bodies else {}
    progress = Progress(weights, bench.lanes)
    said = Said(bench, progress, log)
    say(f"rt ci: at most {progress.count} steps, less what is kept; {progress.minutes()}")
    env = os.environ | {"RT_JOBS": os.environ.get("RT_JOBS") or str(bench.lanes)}
    how = {"env": env, "stdin": subprocess.DEVNULL, "stdout": subprocess.PIPE, "stderr": subprocess.STDOUT}
    with open(log, "w", encoding="utf-8") as out, subprocess.Popen(
            ["rt", "ci", *(["--anew"] if os.environ.get("ANEW") else [])], cwd=bench.top, text=True, errors="replace", **how) as ran:
        for line in ran.stdout:
            line = line.replace(bench.top, TOP) if bench.top != TOP else line
            out.write(line)
            out.flush()
            if passes_on:
                print(line, end="", flush=True)
            said.add(line)
    return ran.returncode, said


def prove_copy(bench, names):
    """Proves these crates and their tests by `rt ci`, in a copy that has them alone and no wrong bodies; whether all is well."""
    wanted = below(bench.crates, names)
    with tempfile.TemporaryDirectory(prefix="prove-", dir=bench.store.folder) as room:
        # (a name without a git folder would belong to a repository above it, if there is one)
        os.mkdir(f"{room}/.git")
        if os.path.isfile(f"{bench.top}/HANDLES"):
            shutil.copy(f"{bench.top}/HANDLES", room)
        for name in wanted:
            left_out = shutil.ignore_patterns("out", IN_GATE, LEFT_OUT)
            shutil.copytree(bench.crates[name].folder, f"{room}/crates/{name}", ignore=left_out)
        with open(f"{room}/crates.txt", "w", encoding="utf-8") as file:
            file.writelines(f"{crate.row}\n" for name, crate in bench.crates.items() if name in wanted)
        copy = Bench(bench.cpu, bench.lanes, bench.into, room, bench.store)
        status, said = run_rt(copy, False, bench.log("rt-ci"), False)
        for it in (*said.refused, *said.others) if status else ():
            say(it)
        if status == 0:
            copy.adopt()
    return status == 0


@contextlib.contextmanager
def set_aside(crates, room):
    """Keeps what `rt check` left in out/ away from a run of `rt ci`, which would put it over what it proved itself."""
    moved = []
    for it in crates.values():
        if os.path.isdir(f"{it.folder}/out"):
            os.rename(f"{it.folder}/out", f"{room}/{it.name}")
            moved.append(it)
    try:
        yield
    finally:
        for it in moved:
            for part in ("incremental", "rlib"):
                if os.path.isdir(f"{room}/{it.name}/{part}"):
                    shutil.rmtree(f"{it.folder}/out/{part}", ignore_errors=True)
                    os.makedirs(f"{it.folder}/out", exist_ok=True)
                    os.rename(f"{room}/{it.name}/{part}", f"{it.folder}/out/{part}")


def gate(bench, names):
    """The gate, and then what it does not compile, over the statements that it proved; its status."""
    kept = f"{bench.top}/.git" if os.path.isdir(f"{bench.top}/.git") else bench.store.folder
    room = tempfile.mkdtemp(prefix="kept-", dir=kept)
    with set_aside(bench.crates, room):
        status, said = run_rt(bench, True, bench.log("rt-ci"), True)
        is_same = keys(bench.crates) == bench.keys
        if status == 0 and is_same:
            bench.adopt()
    shutil.rmtree(room, ignore_errors=True)
    if bench.top == TOP:
        keep(refusals(said.tried))
    if status or not is_same:
        say("\n".join([*said.refused, *said.others, "The gate failed (above)."] if status else
                      ["The gate passed, but files changed as it ran: nothing is kept for make build."]))
        return status
    if not bench.make(names):
        say("The gate passed, but what is compiled beside it is not proved (above).")
        return 1
    say(f"The gate passed: {len(bench.crates)} crates. What it proved is kept for make build and the others.")
    return 0


# ---- over the work that rt check kept

def quick(bench, names):
    """Proves crates and those above them by `rt`, over what its earlier runs left in out/; whether all are proved."""
    wanted = lowest_first(bench.crates, above(bench.crates, names))
    progress = Progress({it: bench.weight(it) for it in wanted}, bench.lanes)
    for name in wanted:
        began, crate, log = time.monotonic(), bench.crates[name], bench.log(f"{name}.quick")
        words = ["run" if crate.is_program else "lib", "--jobs", str(bench.lanes)]
        words += ["--cpu", bench.cpu] if crate.made else []
        if not bench.call(log, crate.folder, "rt", *words, *WORDS.get(name, [])):
            say(why_not(text_of(log), crate, log))
            return False
        progress.done(name, f"{name} is proved ({time.monotonic() - began:.0f} s)")
    others = len(bench.crates) - len(below(bench.crates, wanted))
    say(f"Left: the tests (rt test in a crate's folder) and the wrong bodies (make wrong-bodies CRATE=NAME, and"
        f" rt must-fail NAME for those in the gate) of {' '.join(wanted)},"
        f" and {others} crates that neither use nor are used by these. make test does all.")
    return True


def check_all(bench):
    """Every crate, its tests and each program's stored run, unless all are known to pass; whether all is well."""
    is_well = all(bench.has_passed(it) for it in bench.crates) or prove_copy(bench, bench.crates)
    say("check: every proof, test and stored run passed" if is_well else "check: FAILED (above)")
    return is_well


def main():
    words = argparse.ArgumentParser(description=__doc__.split("\n", maxsplit=1)[0])
    words.add_argument("--jobs", type=int, default=0)
    words.add_argument("--cpu", default="x86-64")
    words.add_argument("--into", default=BUILD)
    for it in ("--above", "--gate", "--tests"):
        words.add_argument(it, action="store_true")
    words.add_argument("names", nargs="*")
    given = words.parse_args()
    if not shutil.which("rt"):
        print("rt is not on the path: README.md names the toolchain whose bin/ belongs there", file=sys.stderr)
        return 2
    bench = Bench(given.cpu, given.jobs, os.path.abspath(given.into))
    if f"{bench.store.folder}/".startswith(f"{TOP}/"):
        print("STORE is inside the repository, where the gate refuses what it holds: name another", file=sys.stderr)
        return 2
    unknown = [it for it in given.names if it not in bench.crates]
    if unknown:
        print(f"crates.txt has no crate {unknown[0]}", file=sys.stderr)
        return 2
    if given.gate:
        return gate(bench, given.names)
    if given.tests:
        return 0 if check_all(bench) else 1
    if not given.names:
        words.error("no crate is named")
    if given.above:
        return 0 if quick(bench, given.names) else 1
    if not bench.make(given.names):
        say("Nothing was built: mend what is named above.")
        return 1
    bench.hand_out(given.names)
    bench.store.clear_old()
    made = ", ".join(bench.crates[it].made for it in given.names if bench.crates[it].made)
    say(f"{os.path.relpath(bench.into)}/ has {made}, proved and compiled for {bench.cpu}" if made
        else f"Proved: {' '.join(given.names)}, and what they stand on")
    return 0


if __name__ == "__main__":
    sys.exit(main())
