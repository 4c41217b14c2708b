"""The pages of a reference: what they share."""
import os

from apidoc.kit import Kit
from apidoc.links import Links
from apidoc.markup import escaped, link
from apidoc.repository import Repository, text_of

NAVIGATION = (
    ("index.html", "The headline"),
    ("crates.html", "Crates"),
    ("items.html", "All items"),
    ("definitions.html", "All definitions"),
    ("std.html", "Words of std"),
    ("docs.PROVED.html#what-is-not-proved", "What is not proved"),
    ("docs.EXTENDING.html", "Extending"),
    ("documents.html", "Documents"),
)


class Site:
    """A folder of pages about a repository."""

    def __init__(self, repository: Repository, kit: Kit, into: str) -> None:
        self.repository, self.kit, self.into = repository, kit, into
        self.links = Links(repository, kit)
        self.names = self.known_names()
        self.written: list[str] = []
        self.version = text_of(f"{repository.top}/packaging/VERSION").strip()
        self.style = text_of(f"{os.path.dirname(os.path.abspath(__file__))}/style.css")

    def known_names(self) -> dict[str, str]:
        """Names that stand for one thing in all crates, with their address: what prose may link."""
        found: dict[str, set[str]] = {}
        for crate in self.repository.crates.values():
            found.setdefault(crate.name, set()).add(f"{crate.name}.html")
            for entry in crate.entries:
                found.setdefault(entry.item.name, set()).add(f"{crate.name}.html#{entry.anchor}")
            for file in crate.specs.values():
                for name in file.definitions:
                    found.setdefault(name, set()).add(f"{crate.name}.specs.html#{file.path}.{name}")
        return {name: next(iter(it)) for name, it in found.items() if len(it) == 1 and len(name) > 3}

    def write(self, file: str, title: str, body: str) -> None:
        """Writes a page below the links to all lists."""
        head = (
            '<meta charset="utf-8"><meta name="viewport" content="width=device-width">'
            f"<title>{escaped(title)} · Lomdeqash {self.version}</title><style>\n{self.style}</style>"
        )
        top = "".join(link(address, text) for address, text in NAVIGATION)
        page = (
            f'<!DOCTYPE html>\n<html lang="en"><head>{head}</head>\n<body><nav>{top}</nav>\n'
            f"<main><h1>{escaped(title)}</h1>\n{body}\n</main></body></html>\n"
        )
        with open(f"{self.into}/{file}", "w", encoding="utf-8") as out:
            out.write(page)
        self.written.append(file)
