"""The pages that list: all items, all definitions, words of std, crates, documents."""
import os
import re
import shutil

from apidoc import markdown, picture, rust
from apidoc.links import spec_name, text_of_doc
from apidoc.markup import code, dim, escaped, link, listed
from apidoc.repository import text_of
from apidoc.site import Site
from apidoc.std_words import MEANINGS

DOCUMENTS = ("README.md", "CONTRIBUTING.md", "CHANGELOG.md", "SECURITY.md")
# How much of a definition of std is shown.
LONGEST_TEXT, LONGEST_COMMENT = 160, 240
HOW_TO_READ = """
<p>What clauses and definitions take from the toolchain's own libraries. In them <code>≡</code> says that two values are
equal, <code>⊎</code> is or, <code>×</code> and, <code>→</code> if .. then, <code>↔</code> if and only if,
<code>¬</code> not; <code>(x : A) × P</code> says that there is an x; <code>[]</code> is the empty list,
<code>x ∷ xs</code> the list with x before xs, <code>xs ++ ys</code> both joined; <code>λ x. e</code> is a function;
<code>p.old</code> is what the parameter <code>p</code> refers to before a call, <code>p.new</code> after it,
<code>p.now</code> all the while; <code>result</code> is what is returned.</p>
"""


def std_page(site: Site) -> None:
    """The words of the toolchain's libraries that are cited: a line of each."""
    rows = []
    for (module, name), it in sorted(site.links.std.items(), key=lambda each: (each[0][1].lower(), each[0])):
        line = code(escaped(rust.one_line(it.text)[:LONGEST_TEXT])) if it else ""
        comment = it.comment.split("\n\n")[0].replace("\n", " ")[:LONGEST_COMMENT] if it else ""
        comment = markdown.inline(MEANINGS[name], {}) if name in MEANINGS else escaped(comment)
        rows.append(f'<li id="{module}.{name}"><b>{escaped(name)}</b> {dim(module)} {comment} {line}</li>')
    site.write("std.html", "Words of std", HOW_TO_READ + listed(rows))


def listing(site: Site, file: str, title: str, rows: list[tuple[str, str, str]]) -> None:
    """An alphabetical list: names with their addresses and where they are."""
    by_letter: dict[str, list[str]] = {}
    for name, address, where in sorted(set(rows), key=lambda it: (it[0].lower(), it)):
        letter = name[0].upper() if name[0].isascii() else "other"
        by_letter.setdefault(letter, []).append(f"{link(address, name)} {dim(where)}")
    letters = " ".join(link(f"#{it}", it) for it in by_letter)
    body = [f'<h2 id="{it}">{it}</h2>{listed(found, "list")}' for it, found in by_letter.items()]
    site.write(file, title, "\n".join([f"<p>{letters}</p>", *body]))


def items_page(site: Site) -> None:
    """All public items."""
    rows = []
    for crate in site.repository.crates.values():
        for entry in crate.entries:
            where = f"{entry.owner}, {crate.name}" if entry.owner else crate.name
            rows.append((entry.item.name, f"{crate.name}.html#{entry.anchor}", where))
    listing(site, "items.html", "All items", rows)


def definitions_page(site: Site) -> None:
    """All definitions."""
    rows = []
    for crate in site.repository.crates.values():
        for file in crate.specs.values():
            for name in file.definitions:
                address = f"{crate.name}.specs.html#{file.path}.{name}"
                rows.append((name, address, f"{spec_name(file)}, {crate.name}"))
    listing(site, "definitions.html", "All definitions", rows)


def crates_page(site: Site) -> None:
    """The way of a line, the layers, and each crate in a line."""
    architecture = text_of(f"{site.repository.top}/docs/ARCHITECTURE.md")
    said = dict(re.findall(r"^\| `(\w+)` \| (.*?) \|", architecture, re.M))
    steps = link("docs.ARCHITECTURE.html#one-line-from-main-to-its-answer", "Architecture")
    body = [
        "<h2>The way of a line</h2>",
        f"<p>What runs for one line of {code('fixed_tool')}. The numbers are those of the steps in {steps}.</p>",
        picture.way_of_a_line(site.repository, architecture),
        "<h2>The layers</h2><p>Each crate stands on those that its lines lead down to.</p>",
        picture.layers(site.repository),
    ]
    sections: dict[str, list[str]] = {}
    for crate in site.repository.crates.values():
        doc = markdown.inline(said.get(crate.name, ""), site.names)
        doc = doc or text_of_doc(crate.root.doc.split("\n\n")[0], site.names)
        row = f"<tr><td>{link(f'{crate.name}.html', crate.name)}</td><td>{doc}</td></tr>"
        sections.setdefault(crate.section, []).append(row)
    body += [f"<h2>{escaped(name)}</h2><table>{''.join(rows)}</table>" for name, rows in sections.items()]
    site.write("crates.html", "Crates", "\n".join(body))


def documents_pages(site: Site) -> None:
    """The documents of the repository, with links from the names in them."""
    top = site.repository.top
    paths = [it for it in DOCUMENTS if os.path.isfile(f"{top}/{it}")]
    paths += [f"docs/{it}" for it in sorted(os.listdir(f"{top}/docs")) if it.endswith(".md")]
    rows = []
    for path in paths:
        head, _, rest = text_of(f"{top}/{path}").partition("\n")
        name = f"{path.replace('/', '.')[:-3]}.html"
        rows.append(f"{link(name, head.lstrip('# '))} {dim(path)}")
        site.write(name, head.lstrip("# "), markdown.page(rest, site.names))
    for shown in (it for it in os.listdir(f"{top}/docs") if it.endswith(".png")):
        shutil.copyfile(f"{top}/docs/{shown}", f"{site.into}/{shown}")
    site.write("documents.html", "Documents", listed(rows))
