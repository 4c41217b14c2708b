"""The crates of the repository with their modules and definitions, and what a name in any of them stands for."""
import os
import re
from dataclasses import dataclass, field

from apidoc import antt, rust

ROW = re.compile(r"(\w+)(?: +staticlib)?(?: +\w+=\S+)* *(?::(.*))?")


@dataclass(frozen=True)
class Target:
    """What a name stands for: an `item` or a `definition` of a crate, or a word of `std`."""
    kind: str
    crate: str
    module: str
    name: str


@dataclass
class Entry:
    """A public item of a crate, the module that has it, and the type or trait that it belongs to."""
    item: rust.Item
    module: rust.Module
    owner: str = ""
    impl: rust.Item | None = None
    # Whether it is private, and here only since a definition names it.
    is_cited: bool = False

    @property
    def anchor(self) -> str:
        return f"{self.owner}.{self.item.name}" if self.owner else self.item.name


@dataclass
class Crate:
    """A crate: what it uses, its section in crates.txt, its modules, its definitions and its public items."""
    name: str
    uses: list[str]
    section: str
    is_program: bool
    modules: dict[tuple[str, ...], rust.Module] = field(default_factory=dict)
    specs: dict[str, antt.SpecFile] = field(default_factory=dict)
    entries: list[Entry] = field(default_factory=list)
    impls: dict[str, list[Entry]] = field(default_factory=dict)

    @property
    def root(self) -> rust.Module:
        return self.modules[()]


# An item with its module and its crate.
Found = tuple[Crate, rust.Module, rust.Item]


def text_of(path: str) -> str:
    with open(path, encoding="utf-8") as file:
        return file.read()


class Repository:
    """All crates of crates.txt."""

    def __init__(self, top: str) -> None:
        self.top = top
        self.crates: dict[str, Crate] = {}
        section = ""
        for line in text_of(f"{top}/crates.txt").split("\n"):
            row = ROW.fullmatch(line.strip())
            if line.startswith("#"):
                section = line.strip("# ").strip()
            elif row and line.strip():
                folder = f"{top}/crates/{row[1]}/src"
                is_program = os.path.isfile(f"{folder}/main.rt")
                self.crates[row[1]] = Crate(row[1], (row[2] or "").split(), section, is_program)
        for crate in self.crates.values():
            self.read_source(crate, (), f"{top}/crates/{crate.name}/src/{'main' if crate.is_program else 'lib'}.rt")
            self.read_specs(crate)
        for crate in self.crates.values():
            self.find_entries(crate)
        for crate in self.crates.values():
            paths = [it for file in crate.specs.values() for it in file.imports.values()]
            for path in [*paths, *(it for module in crate.modules.values() for it in module.ghost_uses.values())]:
                self.definition_target(path)

    def read_source(self, crate: Crate, path: tuple[str, ...], file: str) -> None:
        """Reads a file of source and those of its modules."""
        module = crate.modules[path] = rust.read(crate.name, path, text_of(file))
        folder = os.path.dirname(file) if not path or file.endswith("/mod.rt") else file[:-3]
        for name in module.children:
            found = [it for it in (f"{folder}/{name}.rt", f"{folder}/{name}/mod.rt") if os.path.isfile(it)]
            if found:
                self.read_source(crate, (*path, name), found[0])

    def read_specs(self, crate: Crate) -> None:
        """Reads the definitions of a crate."""
        folder = f"{self.top}/crates/{crate.name}/specs"
        for at, _, names in sorted(os.walk(folder)):
            for name in sorted(it for it in names if it.endswith(".antt")):
                path = os.path.relpath(f"{at}/{name}", folder)[:-5].replace("/", ".")
                crate.specs[path] = antt.read(crate.name, path, text_of(f"{at}/{name}"))

    # ---- names of source

    def resolve_path(self, crate: Crate, module: rust.Module, path: tuple[str, ...], depth: int = 0) -> Found | None:
        """The item that a path in a module leads to, through `use` items of any crate."""
        if depth > 12 or not path:
            return None
        head, rest = path[0], path[1:]
        if head == "crate":
            return self.inside(crate, crate.root, rest, depth)
        if head in ("self", "super"):
            up = module.path if head == "self" else module.path[:-1]
            return self.inside(crate, crate.modules[up], rest, depth)
        if head in self.crates and head not in module.children:
            other = self.crates[head]
            return self.inside(other, other.root, rest, depth)
        return self.inside(crate, module, path, depth)

    def inside(self, crate: Crate, module: rust.Module, path: tuple[str, ...], depth: int) -> Found | None:
        """The item at a path inside a module."""
        if not path:
            return None
        child = crate.modules.get((*module.path, path[0]))
        if child and len(path) > 1:
            return self.inside(crate, child, path[1:], depth)
        for item in module.items:
            if item.name == path[0] and item.kind in rust.KINDS:
                return crate, module, item
        if path[0] in module.uses:
            return self.resolve_path(crate, module, (*module.uses[path[0]], *path[1:]), depth + 1)
        return None

    def item_target(self, crate: Crate, module: rust.Module, path: tuple[str, ...]) -> Target | None:
        """The public item that a path in a module stands for."""
        found = self.resolve_path(crate, module, path)
        if not found:
            return None
        home, place, item = found
        is_listed = any(it.item is item for it in home.entries)
        return Target("item", home.name, "::".join(place.path), item.name) if is_listed else None

    # ---- names of definitions

    def definition_target(self, path: str, depth: int = 0) -> Target | None:
        """What a whole name of the logic stands for, as Rattle.fixed_bits.specs.Images.IsImage."""
        parts = path.split(".")
        if depth > 12 or len(parts) < 2:
            return None
        if parts[0] != "Rattle" or parts[1] not in self.crates or "specs" not in parts[2:3]:
            return Target("std", parts[1] if parts[0] == "Rattle" else parts[0], ".".join(parts[:-1]), parts[-1])
        crate, rest = self.crates[parts[1]], parts[3:]
        if rest[:1] == ["declared"]:
            return self.declared_target(crate, rest[1:])
        file = crate.specs.get(".".join(rest[:-1]))
        if file is None:
            lib = crate.specs.get("Lib")
            home = lib.modules.get(rest[0]) if lib and rest else None
            return self.definition_target(".".join([home, *rest[1:]]), depth + 1) if home else None
        if rest[-1] in file.definitions:
            return Target("definition", crate.name, file.path, rest[-1])
        if rest[-1] in file.imports:
            return self.definition_target(file.imports[rest[-1]], depth + 1)
        return None

    def declared_target(self, crate: Crate, rest: list[str]) -> Target | None:
        """A type of the code, or a variant of it, as a clause sees it: declared.MODULE.TYPE.NAME."""
        while rest and (rest[-1] == rest[-2:-1] or rest[-2:-1] == ["TheVariants"]):
            rest = rest[:-2]
        names = [it for it in rest if it[:1].isupper() and it not in ("TheVariants", "TheConstants")]
        for entry in crate.entries:
            if names and not entry.owner and entry.item.name == names[0]:
                return Target("item", crate.name, "::".join(entry.module.path), names[0])
        for module in crate.modules.values():
            for item in module.items:
                if names and item.name == names[0] and item.kind in rust.KINDS:
                    crate.entries.append(Entry(item, module, is_cited=True))
                    return Target("item", crate.name, "::".join(module.path), names[0])
        return None

    # ---- public items

    def find_entries(self, crate: Crate) -> None:
        """Finds the public items of a crate: in public modules, handed on, and the methods of public types."""
        found: list[tuple[rust.Module, rust.Item]] = []
        self.walk(crate, crate.root, found)
        for module, item in found:
            crate.entries.append(Entry(item, module))
            if item.kind == "trait":
                shown = [it for it in item.members if it.kind in ("fn", "ghost", "const", "type")]
                crate.entries += [Entry(it, module, item.name, item) for it in shown]
        public = {item.name for _, item in found if item.kind in ("struct", "enum", "trait", "type")}
        for module in crate.modules.values():
            for impl in (it for it in module.items if it.kind == "impl"):
                self.note_impl(crate, module, impl, public)

    def walk(self, crate: Crate, module: rust.Module, found: list[tuple[rust.Module, rust.Item]]) -> None:
        """The public items that a module shows."""
        for item in module.items:
            if item.is_public and item.kind in rust.KINDS and not any(it is item for _, it in found):
                found.append((module, item))
        for name in module.exports:
            target = self.resolve_path(crate, module, module.uses[name])
            if target and target[0] is crate and not any(it is target[2] for _, it in found):
                found.append((target[1], target[2]))
        for name, is_public in module.children.items():
            if is_public and (*module.path, name) in crate.modules:
                self.walk(crate, crate.modules[(*module.path, name)], found)

    def note_impl(self, crate: Crate, module: rust.Module, impl: rust.Item, public: set[str]) -> None:
        """Keeps the methods of an impl: public ones of a type, and those that say how a type meets a trait."""
        head = rust.one_line(impl.signature)
        bare = re.sub(r"<[^<>]*(?:<[^<>]*(?:<[^<>]*>[^<>]*)*>[^<>]*)*>", "", head)
        of_trait = re.match(r"impl\s+(.+?)\s+for\s+&?(?:'\w+ )?(?:mut )?([\w:]+)", bare)
        if not of_trait:
            name = bare.split()[1].rpartition("::")[2] if len(bare.split()) > 1 else ""
            if name in public:
                shown = [it for it in impl.members if it.is_public and it.kind in ("fn", "const")]
                crate.entries += [Entry(it, module, name, impl) for it in shown]
            return
        owner = of_trait[2].rpartition("::")[2]
        trait = of_trait[1].rpartition("::")[2]
        home = owner if owner in public else trait if trait in public else ""
        if home:
            crate.impls.setdefault(home, []).append(Entry(impl, module, home, impl))
