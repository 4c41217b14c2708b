"""The headline: the clause that says what the program of lines writes, and the definitions that it needs."""
import re
from dataclasses import dataclass, field

from apidoc import antt, rust
from apidoc.links import Links
from apidoc.repository import Crate, Entry, Repository, Target

# The clause: crate, function, name.
CLAUSE = ("fixed_respell", "run", "output")


@dataclass
class Needed:
    """What the headline needs: definitions by file, each file after those that it uses; types; words of std."""
    files: dict[tuple[str, str], list[str]] = field(default_factory=dict)
    items: list[Target] = field(default_factory=list)
    std: list[Target] = field(default_factory=list)


def clause_of(repository: Repository) -> tuple[Crate, Entry, rust.Clause]:
    """The headline's clause, and the function that has it."""
    crate = repository.crates[CLAUSE[0]]
    entry = next(it for it in crate.entries if it.item.name == CLAUSE[1] and it.item.kind == "fn" and not it.owner)
    return crate, entry, next(it for it in entry.item.clauses if it.name == CLAUSE[2])


def needed(repository: Repository, links: Links) -> Needed:
    """All that the clause needs, as far as names lead."""
    crate, entry, clause = clause_of(repository)
    left = [target for word in antt.words(clause.text) if (target := links.in_clause(crate, entry, word)[0])]
    found: list[Target] = []
    uses: dict[tuple[str, str], set[tuple[str, str]]] = {}
    while left:
        target = left.pop()
        if target in found:
            continue
        found.append(target)
        if target.kind != "definition":
            continue
        file = repository.crates[target.crate].specs[target.module]
        here = (target.crate, target.module)
        uses.setdefault(here, set())
        for word in antt.words(re.sub(r'"[^"]*"', "", file.definitions[target.name].text)):
            other = links.in_definition(file, word)
            if other:
                left.append(other)
                uses[here] |= {(other.crate, other.module)} - {here} if other.kind == "definition" else set()
    made = Needed()
    for key in in_order(repository, uses):
        names = {it.name for it in found if it.kind == "definition" and (it.crate, it.module) == key}
        made.files[key] = [it for it in repository.crates[key[0]].specs[key[1]].definitions if it in names]
    made.items = sorted((it for it in found if it.kind == "item"), key=lambda it: (it.crate, it.name))
    made.std = sorted((it for it in found if it.kind == "std"), key=lambda it: it.name)
    return made


def in_order(repository: Repository, uses: dict[tuple[str, str], set[tuple[str, str]]]) -> list[tuple[str, str]]:
    """The files, each after those that it uses, crates in the order of crates.txt."""
    crates = list(repository.crates)
    order: list[tuple[str, str]] = []

    def add(key: tuple[str, str]) -> None:
        for each in sorted(uses.get(key, ()), key=lambda it: (crates.index(it[0]), it[1])):
            if each not in order:
                add(each)
        if key not in order:
            order.append(key)

    for key in sorted(uses, key=lambda it: (crates.index(it[0]), it[1])):
        add(key)
    return order
