"""Reads source files (.rt): their items with documentation, signature and clauses, and what names in them stand for."""
import re
from dataclasses import dataclass, field

OPENING, CLOSING = "([{", ")]}"
PAIRS = ("()", "[]")
VISIBLE = r"(?:(?P<pub>pub)(?P<within>\([^)]*\))?\s+)?"
FUNCTION = r"(?:(?:final|const|unsafe|extern\s+\"\s*\")\s+)*fn"
HEAD = re.compile(
    VISIBLE + rf"(?P<kind>{FUNCTION}|struct|enum|trait|type|const|static|mod|use|impl|ghost\s+use|ghost)\b"
)
# A comment, a text or a character.
COMMENT = r"//[^\n]*|/\*.*?\*/"
STRING = r'b?r#"(?:[^"]|"(?!#))*"#|b?"(?:\\.|[^"\\])*"'
CHARACTER = r"b?'(?:\\.[^']*|[^'\\\n])'"
LITERAL = re.compile(f"{COMMENT}|{STRING}|{CHARACTER}", re.S)
CLAUSE = re.compile(r"(?:(requires|ensures)(\*?)\s*(?:([a-z_]\w*)\s*)?|ghost\s+(\w+)\s*:\s*)\{")
KINDS = ("fn", "struct", "enum", "trait", "type", "const", "static")


@dataclass
class Clause:
    """A clause of a contract: its kind, its name, the text in its braces, and the comment above it."""
    kind: str
    name: str
    text: str
    comment: str


@dataclass
class Item:
    """An item of a module, a trait or an impl."""
    kind: str
    name: str
    line: int
    doc: str
    signature: str
    is_public: bool
    clauses: list[Clause] = field(default_factory=list)
    members: list["Item"] = field(default_factory=list)
    ghost_uses: dict[str, str] = field(default_factory=dict)


@dataclass
class Module:
    """A file of source: its items, its modules with whether each is public, and what its `use` items bring."""
    crate: str
    path: tuple[str, ...]
    doc: str = ""
    items: list[Item] = field(default_factory=list)
    children: dict[str, bool] = field(default_factory=dict)
    uses: dict[str, tuple[str, ...]] = field(default_factory=dict)
    exports: list[str] = field(default_factory=list)
    ghost_uses: dict[str, str] = field(default_factory=dict)


def blanked(text: str) -> str:
    """The text with what comments, strings and characters hold as blanks, so that its brackets match."""
    def blank(found: re.Match[str]) -> str:
        whole = found[0]
        if whole.startswith("/"):
            return re.sub(r"[^\n]", " ", whole)
        return whole[0] + re.sub(r"[^\n]", " ", whole[1:-1]) + whole[-1]

    return LITERAL.sub(blank, text)


def closing(code: str, at: int) -> int:
    """The index after the bracket that closes the one at an index."""
    depth = 0
    for index in range(at, len(code)):
        depth += (code[index] in OPENING) - (code[index] in CLOSING)
        if depth == 0:
            return index + 1
    return len(code)


def up_to(code: str, at: int, stops: str) -> int:
    """The index of the first of some characters that no bracket encloses; brackets that are among them stop too."""
    while at < len(code):
        if code[at] in stops:
            return at
        at = closing(code, at) if code[at] in OPENING else at + 1
    return at


def one_line(text: str) -> str:
    """A text without comments, with its white space as single blanks."""
    return re.sub(r"\s+", " ", re.sub(r"//[^\n]*", "", text)).strip()


def expanded(tree: str) -> list[tuple[str, str]]:
    """The paths of a `use` tree, each with the name that it brings."""
    tree = tree.strip()
    if "{" not in tree:
        path, _, alias = tree.partition(" as ")
        return [(path.strip(), alias.strip() or path.strip().rpartition("::")[2])]
    head, _, rest = tree.partition("{")
    parts, depth, last = [], 0, 0
    inner = rest[: rest.rindex("}")]
    for index, letter in enumerate(inner + ","):
        depth += (letter == "{") - (letter == "}")
        if letter == "," and depth == 0:
            parts.append(inner[last:index])
            last = index + 1
    found = [it for part in parts if part.strip() for it in expanded(part)]
    own = (head[:-2], head[:-2].rpartition("::")[2])
    return [own if path == "self" else (head + path, name) for path, name in found]


def ghost_names(path: str) -> dict[str, str]:
    """What a `ghost use` brings: each name with the whole name that it stands for."""
    home, brace, names = one_line(path).partition(".{")
    if not brace:
        module, _, alias = home.partition(" as ")
        return {alias or module.rpartition(".")[2]: module}
    pairs = [it.strip().partition(" as ") for it in names.rstrip("}").split(",") if it.strip()]
    return {alias or name: f"{home}.{name}" for name, _, alias in pairs}


class Reader:
    """Reads the items of one file."""

    def __init__(self, text: str) -> None:
        self.text, self.code = text, blanked(text)

    def documentation(self, at: int, mark: str) -> tuple[str, int]:
        """The comment lines of a mark from an index on, and the index after them."""
        found = re.compile(rf"(?:[ \t]*{mark}(?!/)[^\n]*\n)+").match(self.text, at)
        if not found:
            return "", at
        return "\n".join(re.sub(rf"^\s*{mark} ?", "", it) for it in found[0].rstrip("\n").split("\n")), found.end()

    def items(self, at: int, end: int, module: Module | None = None) -> list[Item]:
        """The items between two indexes; `use` and `mod` items go into the module."""
        found: list[Item] = []
        doc = ""
        while at < end:
            line = self.text[at:end].lstrip()
            at = end - len(line)
            start = self.text.rfind("\n", 0, at) + 1
            if line.startswith("//!"):
                text, at = self.documentation(start, "//!")
                if module:
                    module.doc = text
            elif line.startswith("///"):
                doc, at = self.documentation(start, "///")
            elif line.startswith("//"):
                at = self.text.find("\n", at) + 1 or end
            elif line.startswith("#"):
                at = closing(self.code, self.code.index("[", at))
            elif head := HEAD.match(self.code, at):
                item, at = self.item(head, doc, module)
                found += [item] if item else []
                doc = ""
            else:
                at = up_to(self.code, at, ",;{") + 1 if line else end
                doc = ""
        return found

    def item(self, head: re.Match[str], doc: str, module: Module | None) -> tuple[Item | None, int]:
        """The item whose head was found, and the index after it."""
        kind = head["kind"].split()[-1] if not head["kind"].startswith("ghost") else " ".join(head["kind"].split())
        is_public = bool(head["pub"]) and not head["within"]
        at = head.end()
        if kind in ("use", "ghost use", "mod"):
            if kind == "mod" and self.code[up_to(self.code, at, ";{")] == "{":
                return None, closing(self.code, up_to(self.code, at, "{"))
            end = up_to(self.code, at, ";")
            self.note_use(kind, self.code[at:end].strip(), is_public, module)
            return None, end + 1
        if kind == "fn":
            return self.function(head.start(), at, doc, is_public)
        name = re.compile(r"\s*(?:<[^>]*>\s*)?([^\W\d]\w*)?").match(self.code, at)
        stop = up_to(self.code, at, ";{" if kind != "ghost" else ";,}")
        item = Item(kind, name[1] or "" if name else "", self.text.count("\n", 0, head.start()) + 1, doc, "", is_public)
        if kind in ("type", "const", "static", "ghost"):
            stop = up_to(self.code, at, ";,")
        item.signature = self.text[head.start():stop].strip()
        if stop < len(self.code) and self.code[stop] == "{":
            self.body(item, stop)
            stop = closing(self.code, stop) - 1
        return item, stop + 1

    def note_use(self, kind: str, path: str, is_public: bool, module: Module | None) -> None:
        """Keeps what a `use` or `mod` item brings."""
        if module is None:
            return
        if kind == "mod":
            module.children[path] = is_public
        elif kind == "ghost use":
            module.ghost_uses |= ghost_names(path)
        else:
            for whole, name in expanded(re.sub(r"\s+", " ", path)):
                module.uses[name] = tuple(whole.strip().split("::"))
                module.exports += [name] if is_public else []

    def body(self, item: Item, at: int) -> None:
        """What stands in the braces of a struct, an enum, a trait or an impl."""
        end = closing(self.code, at) - 1
        if item.kind in ("trait", "impl"):
            inner = Module("", ())
            item.members = self.items(at + 1, end, inner)
            item.ghost_uses = inner.ghost_uses
            return
        doc = ""
        at += 1
        while at < end:
            rest = self.text[at:end].lstrip()
            at = end - len(rest)
            if rest.startswith("///"):
                doc, at = self.documentation(self.text.rfind("\n", 0, at) + 1, "///")
            elif rest.startswith("//"):
                at = self.text.find("\n", at) + 1
            elif rest.startswith("#"):
                at = closing(self.code, self.code.index("[", at))
            elif rest:
                stop = min(up_to(self.code, at, ","), end)
                text = one_line(self.text[at:stop])
                shown = re.match(r"(pub(?:\([^)]*\))? )?(ghost )?(\w+)", text)
                is_public = item.kind == "enum" or text.startswith("pub ")
                kind, name = "variant" if item.kind == "enum" else "field", shown[3] if shown else ""
                item.members.append(Item(kind, name, 0, doc, text, is_public))
                at, doc = stop + 1, ""

    def function(self, start: int, at: int, doc: str, is_public: bool) -> tuple[Item, int]:
        """A function with its clauses, and the index after its body."""
        name = re.compile(r"\s*(\w+)").match(self.code, at)
        item = Item("fn", name[1] if name else "", self.text.count("\n", 0, start) + 1, doc, "", is_public)
        first = re.compile(r"(?<!\w)(?:requires|ensures|ghost)\b|[{;]")
        found = first.search(self.code, at)
        while found and self.is_enclosed(at, found.start()):
            found = first.search(self.code, found.end())
        end = len(self.code[:found.start() if found else len(self.code)].rstrip())
        item.signature = self.text[start:end]
        while clause := CLAUSE.match(self.code, self.after_blanks(end)):
            above = self.text[end:clause.start()]
            stop = closing(self.code, clause.end() - 1)
            text = one_line(self.text[clause.end():stop - 1])
            note = " ".join(re.findall(r"//\s?(.*)", above)).strip()
            kind = clause[1] + clause[2] if clause[1] else "ghost"
            item.clauses.append(Clause(kind, clause[3] or clause[4] or "", text, note))
            end = stop
        end = self.after_blanks(end)
        return item, closing(self.code, end) if self.code[end:end + 1] == "{" else end + 1

    def is_enclosed(self, at: int, end: int) -> bool:
        """Whether a bracket that opens after one index is not closed before another."""
        return any(self.code.count(a, at, end) > self.code.count(b, at, end) for a, b in PAIRS)

    def after_blanks(self, at: int) -> int:
        """The index of the first character from an index on that is no white space."""
        while at < len(self.code) and self.code[at].isspace():
            at += 1
        return at


def read(crate: str, path: tuple[str, ...], text: str) -> Module:
    """Reads a file of source."""
    module = Module(crate, path)
    module.items = Reader(text).items(0, len(text), module)
    return module
