"""The first page: the headline in words and as a clause, and all that it needs, in reading order."""
import re

from apidoc import headline, markdown
from apidoc.crate_pages import clauses
from apidoc.links import spec_name
from apidoc.markup import code, link, listed
from apidoc.repository import text_of
from apidoc.site import Site
from apidoc.std_words import MEANINGS


def in_words(site: Site) -> tuple[str, str]:
    """What docs/PROVED.md says of the headline: the sentence, and what its clause assumes."""
    proved = text_of(f"{site.repository.top}/docs/PROVED.md")
    part = proved.partition("## The headline")[2].partition("\n## ")[0]
    quote = " ".join(re.findall(r"^> ?(.*)$", part, re.M))
    return quote, part.partition("### What the clause assumes")[2].partition("\n### ")[0]


def file_of_definitions(site: Site, name: str, path: str, names: list[str]) -> str:
    """The definitions of a file that the headline needs, each with the first part of its comment."""
    file = site.repository.crates[name].specs[path]
    address = f"{name}.specs.html#{path}"
    rows = []
    for it in names:
        comment = file.definitions[it].comment.partition("\n\n")[0].replace("\n", " ")
        shown = f"{link(f'{address}.{it}', it)} {markdown.inline(comment, site.names)}"
        rows.append(f'<li id="{name}.{path}.{it}">{shown}</li>')
    return f'<h3>{link(address, spec_name(file))} <span class="kind">{name}</span></h3>{listed(rows)}'


def first_page(site: Site) -> None:
    """Writes the first page."""
    quote, rest = in_words(site)
    crate, entry, clause = headline.clause_of(site.repository)
    needed = headline.needed(site.repository, site.links)
    function = link(f"{crate.name}.html#{entry.anchor}", entry.item.name)
    home = link(f"{crate.name}.html", crate.name)
    types = [f'{link(site.links.address(it), it.name)} <span class="kind">{it.crate}</span>' for it in needed.items]
    body = [
        f"<blockquote>{markdown.inline(quote, site.names)}</blockquote>" if quote else "",
        f"<p>This is the clause {code(clause.name)} of {function} in {home}, which the compiler proves.",
        "Every name in it leads to its definition, and so does every name there.</p>",
        clauses(site, crate, entry, [clause]),
        "<h2>What the clause needs, in reading order</h2><p>Each file uses only those above it.</p>",
        *(file_of_definitions(site, name, path, names) for (name, path), names in needed.files.items()),
        f"<h3>Types of the code</h3>{listed(types)}",
        "<h3>Words of std</h3>",
        listed([f"{link(site.links.address(it), it.name)} {markdown.inline(MEANINGS.get(it.name, ''), {})}" for it in needed.std]),
        f"<h2>What the clause assumes</h2>{markdown.page(rest, site.names)}" if rest else "",
    ]
    site.write("index.html", "The headline", "\n".join(body))
