"""The pages of a crate: its public items with their clauses, and the definitions that these cite."""
from apidoc import antt, rust
from apidoc.links import clause_label, spec_name, text_of_doc
from apidoc.markup import clause, code, escaped, link, listed
from apidoc.repository import Crate, Entry
from apidoc.site import Site

KINDS = {
    "fn": "Function",
    "struct": "Struct",
    "enum": "Enum",
    "trait": "Trait",
    "type": "Type",
    "const": "Constant",
    "ghost": "Ghost member",
    "static": "Static",
}
# How many places are named that cite a definition.
MOST_CITED = 12
# Files of definitions that can wait.
LATER = ("Inner", "Lemmas")


def clauses(site: Site, crate: Crate, entry: Entry, found: list[rust.Clause]) -> str:
    """Clauses, one a line, each below its comment."""
    shown = []
    for it in found:
        if it.comment:
            shown.append(f'<p class="note">{escaped(it.comment)}</p>')
        shown.append(clause(site.links.clause(crate, entry, it.text), clause_label(it)))
    return "\n".join(shown)


def members(site: Site, entry: Entry) -> str:
    """The public fields of a struct, what its ghost fields say, and the variants of an enum."""
    rows = []
    for it in entry.item.members:
        if it.kind in ("field", "variant") and (it.is_public or it.signature.startswith("ghost")):
            doc = text_of_doc(it.doc, site.names).removeprefix("<p>").removesuffix("</p>")
            rows.append(f"{code(escaped(it.signature))} {doc}")
    return listed(rows)


def impl(site: Site, crate: Crate, entry: Entry) -> str:
    """How a type meets a trait: what contracts see of it, and the clauses of its functions."""
    head = escaped(rust.one_line(entry.item.signature))
    shown = [f"<pre>{head}</pre>{text_of_doc(entry.item.doc, site.names)}"]
    for it in entry.item.members:
        inner = Entry(it, entry.module, entry.owner, entry.item)
        is_law = it.name.endswith("_law")
        if it.kind not in ("ghost", "fn") or is_law or (it.kind == "fn" and not it.clauses):
            continue
        place = "" if (crate.name, inner.anchor) in site.links.anchors else inner.anchor
        site.links.anchors.add((crate.name, inner.anchor))
        text = rust.one_line(it.signature)
        if it.kind == "ghost":
            shown.append(clause(site.links.clause(crate, inner, text), place=place))
        else:
            shown.append(clause(escaped(text), place=place) + clauses(site, crate, inner, it.clauses))
    return "\n".join(shown)


def item(site: Site, crate: Crate, group: list[Entry]) -> str:
    """The section of an item: its kind, signature, comment, clauses, fields, and how it meets traits."""
    entry = group[0]
    private = ' class="private"' if entry.is_cited else ""
    kind = f'<span class="kind">{KINDS[entry.item.kind]}</span>'
    shown = [f'<section id="{entry.anchor}"{private}><h3>{kind} {escaped(entry.anchor)}</h3>']
    for each in group:
        if each.item.kind == "ghost":
            text = site.links.clause(crate, each, each.item.signature)
        else:
            text = site.links.signature(crate, each)
        shown.append(f"<pre>{text}</pre>{text_of_doc(each.item.doc, site.names)}")
        shown.append(clauses(site, crate, each, each.item.clauses))
    shown.append(members(site, entry))
    if not entry.owner:
        shown += [impl(site, crate, it) for it in crate.impls.get(entry.item.name, [])]
    path = code("::".join([crate.name, *entry.module.path]))
    where = f"private in {path}, and named by definitions" if entry.is_cited else f"in {path}"
    return "\n".join(shown) + f'\n<p class="where">{where}, line {entry.item.line}</p></section>'


def by_module(crate: Crate) -> dict[str, list[list[Entry]]]:
    """The public items of a crate by module; those of one name together, those of a type after it."""
    groups: dict[str, list[Entry]] = {}
    for entry in crate.entries:
        groups.setdefault(entry.anchor, []).append(entry)
    places: dict[str, list[list[Entry]]] = {}
    for group in groups.values():
        first = group[0]
        home = next((it for it in crate.entries if it.anchor == first.owner and not it.owner), first)
        places.setdefault("::".join(home.module.path), []).append(group)
    for found in places.values():
        found.sort(key=lambda it: (it[0].is_cited, it[0].owner or it[0].item.name, bool(it[0].owner)))
    return places


def handed_on(site: Site, crate: Crate) -> str:
    """What a crate hands on of others."""
    rows = []
    for name in sorted(crate.root.exports):
        target = site.repository.item_target(crate, crate.root, crate.root.uses[name])
        if target and target.crate != crate.name:
            rows.append(link(site.links.address(target), name))
    return f"<h2>Handed on from other crates</h2>{listed(rows, 'list')}" if rows else ""


def crate_page(site: Site, crate: Crate) -> None:
    """The page of a crate: its public items, module by module."""
    known = site.repository.crates
    uses = " ".join(link(f"{it}.html" if it in known else None, it) for it in crate.uses)
    body = [text_of_doc(crate.root.doc, site.names), f"<p>Uses: {uses or 'no other crate'}.</p>"]
    if crate.specs:
        specs = link(f"{crate.name}.specs.html", f"specs of {crate.name}")
        body.append(f"<p>The definitions that its clauses cite: {specs}.</p>")
    if not crate.entries:
        body.append("<p>It has no public items.</p>")
    for path, found in by_module(crate).items():
        module = crate.modules[tuple(path.split("::")) if path else ()]
        name = "::".join([crate.name, path]) if path else crate.name
        body.append(f"<h2>{escaped(name)}</h2>{text_of_doc(module.doc, site.names) if path else ''}")
        body += [item(site, crate, it) for it in found]
    site.write(f"{crate.name}.html", crate.name, "\n".join([*body, handed_on(site, crate)]))


def definition(site: Site, file: antt.SpecFile, it: antt.Definition) -> str:
    """The section of a definition: its comment, its text, and what cites it."""
    own = f"{file.crate}.specs.html#{file.path}.{it.name}"
    found = site.links.cited.get((file.crate, file.path, it.name), set()) - {own}
    cited = sorted(found, key=lambda by: (".specs." in by, by))
    by = ", ".join(link(each, each.partition("#")[2]) for each in cited[:MOST_CITED])
    more = f" and {len(cited) - MOST_CITED} more" if len(cited) > MOST_CITED else ""
    return "\n".join([
        f'<section id="{file.path}.{it.name}"><h3>{escaped(it.name)}</h3>{text_of_doc(it.comment, site.names)}',
        f"<pre>{site.links.definition(file, it)}</pre>",
        f'<p class="cited">Cited by {by}{more}.</p></section>' if by else "</section>",
    ])


def specs_page(site: Site, crate: Crate) -> None:
    """The page of a crate's definitions, file by file: first those that public clauses cite."""
    body = []
    files = [it for it in crate.specs.values() if it.definitions]
    for file in sorted(files, key=lambda it: it.path.startswith(LATER)):
        name = escaped(spec_name(file))
        if file.path.startswith(LATER):
            name += ' <span class="kind">contracts of private functions, and laws</span>'
        body.append(f'<h2 id="{file.path}">{name}</h2>{text_of_doc(file.comment, site.names)}')
        section = ""
        for it in file.definitions.values():
            if it.section != section:
                section = it.section
                body.append(f"<p><b>{escaped(section)}</b></p>")
            body.append(definition(site, file, it))
    site.write(f"{crate.name}.specs.html", f"Definitions of {crate.name}", "\n".join(body))
