"""Turns names in clauses and definitions into links to what they stand for."""
import html
import re

from apidoc import antt, rust
from apidoc.kit import Kit
from apidoc.repository import Crate, Entry, Repository, Target

TOKEN = re.compile(r'"[^"]*"|[*+<≤-]ℤ|--[^\n]*|//[^\n]*|[^\W\d][\w\']*(?:(?:[.-]|::)[^\W\d][\w\']*)*|\s+|.', re.S)


class Links:
    """The links of a reference, and what of std was linked."""

    def __init__(self, repository: Repository, kit: Kit) -> None:
        self.repository, self.kit = repository, kit
        self.std: dict[tuple[str, str], antt.Definition | None] = {}
        self.cited: dict[tuple[str, str, str], set[str]] = {}
        self.anchors = {(crate.name, entry.anchor) for crate in repository.crates.values() for entry in crate.entries}

    def address(self, target: Target | None, member: str = "") -> str | None:
        """Where what a name stands for is shown."""
        if target is None:
            return None
        if target.kind == "definition":
            return f"{target.crate}.specs.html#{target.module}.{target.name}"
        if target.kind == "item":
            whole = f"{target.name}.{member}" if member else target.name
            anchor = whole if (target.crate, whole) in self.anchors else target.name
            return f"{target.crate}.html#{anchor}" if (target.crate, anchor) in self.anchors else None
        module, found = self.kit.find(target.module, target.name)
        self.std.setdefault((module, target.name), found)
        return f"std.html#{module}.{target.name}"

    def note(self, target: Target | None, by: str) -> None:
        """Keeps that a definition is cited by an item or a definition."""
        if target and target.kind == "definition":
            self.cited.setdefault((target.crate, target.module, target.name), set()).add(by)

    # ---- what a name stands for

    def in_clause(self, crate: Crate, entry: Entry, word: str) -> tuple[Target | None, str]:
        """What a name in a clause of an item stands for, and the member of it that is meant."""
        first, _, rest = word.partition(".")
        member = rest.partition(".")[0]
        ghosts = entry.module.ghost_uses | (entry.impl.ghost_uses if entry.impl else {}) | entry.item.ghost_uses
        if first in ghosts:
            found = self.repository.definition_target(ghosts[first])
            return (found, member) if found else (self.repository.definition_target(f"{ghosts[first]}.{member}"), "")
        if entry.impl and entry.impl.kind == "trait" and any(it.name == first for it in entry.impl.members):
            return self.repository.item_target(crate, entry.module, (entry.impl.name,)), first
        heads = f"{entry.item.signature} {entry.impl.signature if entry.impl else ''}"
        bound = re.search(rf"\b{re.escape(first)}\s*:\s*([A-Z]\w*)", heads)
        if bound and rest:
            return self.repository.item_target(crate, entry.module, (bound[1],)), member
        if first[:1].isupper():
            return self.repository.item_target(crate, entry.module, (first,)), member
        return None, ""

    def in_definition(self, file: antt.SpecFile, word: str) -> Target | None:
        """What a name in a definition stands for."""
        first, _, rest = word.partition(".")
        if first in file.definitions:
            return Target("definition", file.crate, file.path, first)
        if first in file.imports:
            return self.repository.definition_target(file.imports[first])
        if first in file.modules and rest:
            return self.repository.definition_target(f"{file.modules[first]}.{rest.partition('.')[0]}")
        return None

    # ---- texts with links

    def linked(self, text: str, find: "dict[str, str | None]") -> str:
        """A text whose names are links, where `find` has an address."""
        found = []
        for token in TOKEN.findall(text):
            address = find.get(token)
            if token.startswith(("--", "//")):
                found.append(f"<i>{html.escape(token)}</i>")
            elif address:
                found.append(f'<a href="{html.escape(address)}">{html.escape(token)}</a>')
            else:
                found.append(html.escape(token))
        return "".join(found)

    def clause(self, crate: Crate, entry: Entry, text: str) -> str:
        """A clause of an item, with links."""
        find: dict[str, str | None] = {}
        for word in antt.words(text):
            target, member = self.in_clause(crate, entry, word)
            self.note(target, f"{crate.name}.html#{entry.anchor}")
            find[word] = self.address(target, member)
        return self.linked(text, find)

    def signature(self, crate: Crate, entry: Entry) -> str:
        """The signature of an item, with links to the types that it names."""
        text = entry.item.signature
        find: dict[str, str | None] = {}
        for token in TOKEN.findall(text):
            if token[:1].isupper() and token != entry.item.name:
                find[token] = self.address(self.repository.item_target(crate, entry.module, tuple(token.split("::"))))
        return self.linked(text, find)

    def definition(self, file: antt.SpecFile, it: antt.Definition) -> str:
        """The text of a definition, with links. Fields, which are not names of their own, have none."""
        fields = set(re.findall(r"^\s+(?:pub\s+)?([^\W\d][\w']*)\s+:", it.text, re.M))
        fields |= set(re.findall(r"[{;]\s*([^\W\d][\w']*)\s+=", it.text))
        bound = set(re.findall(r"[({]([^\W\d][\w' ]*?)\s+:", it.text))
        own = {it.name, *fields, *(name for names in bound for name in names.split())}
        find: dict[str, str | None] = {}
        for word in antt.words(it.text):
            if word.partition(".")[0] in own:
                continue
            target = self.in_definition(file, word)
            self.note(target, f"{file.crate}.specs.html#{file.path}.{it.name}")
            find[word] = self.address(target)
        return self.linked(it.text, find)


def text_of_doc(doc: str, names: dict[str, str]) -> str:
    """A comment as HTML: paragraphs, lists of `-`, and code in back quotes, which is a link if it is a known name."""
    parts = []
    for block in re.split(r"\n\s*\n", doc.strip()):
        lines = block.split("\n")
        if lines and lines[0].startswith("- "):
            items = re.split(r"\n?^- ", block, flags=re.M)[1:]
            parts.append("<ul>" + "".join(f"<li>{inline(it, names)}</li>" for it in items) + "</ul>")
        elif block.strip():
            parts.append(f"<p>{inline(block, names)}</p>")
    return "\n".join(parts)


def inline(text: str, names: dict[str, str]) -> str:
    """Code, bold words, pictures and links of a line of Markdown."""
    def code(found: re.Match[str]) -> str:
        whole = found[1]
        address = names.get(whole) or names.get(whole.rpartition("::")[2])
        shown = f"<code>{html.escape(whole)}</code>"
        return f'<a href="{address}">{shown}</a>' if address else shown
    pieces = re.split(r"(`[^`]+`)", text.strip())
    found = []
    for piece in pieces:
        if piece.startswith("`") and len(piece) > 2:
            found.append(re.sub(r"`([^`]+)`", code, piece))
            continue
        safe = html.escape(piece, quote=False)
        safe = re.sub(r"\*\*(.+?)\*\*", r"<b>\1</b>", safe, flags=re.S)
        safe = re.sub(r"!\[([^]]*)\]\(([^)]+)\)", r'<img alt="\1" src="\2">', safe)
        found.append(re.sub(r"\[([^]]*)\]\(([^)]+)\)", r'<a href="\2">\1</a>', safe))
    joined = "".join(found)
    return re.sub(r"\*\*(.+?)\*\*", r"<b>\1</b>", joined, flags=re.S)


def spec_name(file: antt.SpecFile) -> str:
    """How a file of definitions is named for people."""
    return file.path.replace(".", "/")


def clause_label(clause: rust.Clause) -> str:
    """The kind and the name of a clause."""
    return f"{clause.kind} {clause.name}".strip()
