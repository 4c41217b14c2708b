"""Reads files of definitions (.antt): what each defines, with its comment, and what each imports."""
import re
from dataclasses import dataclass, field

HEAD = re.compile(r"(?:(?:abbrev|unfoldable|opaque|pub|record|data)\s+)+([^\s:(){}=]+)")
# How a definition begins that stands inside a block, where `pub NAME :` is a field.
INNER_HEAD = re.compile(
    r"\s+(?:abbrev|unfoldable|opaque|record|data|pub record)\s+(?:pub\s+)?(?:record\s+)?([^\s:(){}=]+)"
)
USE = re.compile(r"(pub\s+)?use\s+([^\s{]+?)(?:\.\{([^}]*)\})?(?:\s+as\s+(\S+))?\s*$")
WORD = re.compile(r'"[^"]*"|[^\W\d][\w\']*(?:[.-][^\W\d][\w\']*)*')


@dataclass
class Definition:
    """A name of a file of definitions: its comment and its text."""
    name: str
    line: int
    comment: str
    text: str
    section: str = ""


@dataclass
class SpecFile:
    """A file of definitions. `imports` and `modules` say what a name or an alias of a module stands for."""
    crate: str
    path: str
    comment: str = ""
    definitions: dict[str, Definition] = field(default_factory=dict)
    imports: dict[str, str] = field(default_factory=dict)
    modules: dict[str, str] = field(default_factory=dict)
    exports: set[str] = field(default_factory=set)

    def note_use(self, line: str) -> None:
        """Keeps what a `use` line brings."""
        found = USE.fullmatch(line.strip())
        if not found:
            return
        is_public, home, names, alias = found.groups()
        if names is None:
            self.modules[alias or home.rpartition(".")[2]] = home
            return
        for each in names.split(","):
            name, _, new = each.strip().partition(" as ")
            if name:
                self.imports[new.strip() or name] = f"{home}.{name}"
                if is_public:
                    self.exports.add(new.strip() or name)


def words(text: str) -> list[str]:
    """The names in a text of definitions, those with dots whole; what stands in quotes or comments is left out."""
    bare = re.sub(r"--[^\n]*", "", text)
    return [it for it in WORD.findall(bare) if not it.startswith('"')]


def plain(comment: list[str]) -> str:
    """The text of comment lines."""
    return "\n".join(re.sub(r"^\s*--+ ?", "", it) for it in comment).strip()


def begins(line: str) -> str | None:
    """The name that a line begins to define."""
    found = (INNER_HEAD if line[:1].isspace() else HEAD).match(line)
    return found.group(1) if found and found.group(1) not in ("mod", "use", "module", "record") else None


def joined_uses(text: str) -> list[str]:
    """The lines of a file, each `use` with several lines of names as one; the lines that it took are left empty."""
    lines: list[str] = []
    left = 0
    for line in text.split("\n"):
        if left:
            lines[-left] += " " + line.strip()
            lines.append("")
            left = 0 if "}" in line else left + 1
        else:
            lines.append(line)
            left = 1 if re.match(r"(pub )?use .*\{[^}]*$", line) else 0
    return lines


def read(crate: str, path: str, text: str) -> SpecFile:
    """Reads a file of definitions, whose path is that of its module below the crate's specs."""
    file = SpecFile(crate, path)
    current: Definition | None = None
    comment: list[str] = []
    section = ""
    is_inside = False
    for number, line in enumerate(joined_uses(text), 1):
        # What a nameless module holds is defined as beside it.
        is_inside = is_inside or line.startswith("module ")
        line = line.removeprefix("  ") if is_inside else line
        if line.startswith("-- ----"):
            section, comment = line.strip("- "), []
        elif line.lstrip().startswith("--"):
            comment.append(line)
        elif re.match(r"(pub )?(use|mod)\b", line):
            file.note_use(line)
            file.comment, comment = file.comment or plain(comment), []
        elif name := begins(line):
            current = file.definitions[name] = Definition(name, number, plain(comment), line, section)
            comment = []
        elif current and line.strip():
            current.text += "\n" + "\n".join([*comment, line])
            comment = []
        elif not file.definitions and not line.strip() and comment:
            file.comment, comment = file.comment or plain(comment), []
    return file
