"""Turns the documents' Markdown into HTML: headings, paragraphs, lists, tables, quotes and code."""
import html
import re

from apidoc.links import inline as linked


def local(text: str) -> str:
    """The addresses of a document's own links among the pages of the reference, with their anchors."""
    def page(found: re.Match[str]) -> str:
        path = found[1].removeprefix("docs/").removesuffix(".md")
        name = path if path in ("README", "CONTRIBUTING", "CHANGELOG", "SECURITY") else f"docs.{path}"
        return f'href="{name}.html{found[2] or ""}"'
    text = re.sub(r'href="(?:\.\./)?([\w/]+\.md)(#[^"]*)?"', page, text)
    return re.sub(r'src="docs/', 'src="', text)


def inline(text: str, names: dict[str, str]) -> str:
    """A line of Markdown."""
    return local(linked(text, names))


def slug(title: str) -> str:
    """The anchor of a heading."""
    return re.sub(r"\s+", "-", re.sub(r"[^\w\s-]", "", title.lower())).strip("-")


def table(lines: list[str], names: dict[str, str]) -> str:
    """A table, whose second line only has dashes."""
    rows = [[it.strip() for it in re.split(r"(?<!\\)\|", line.strip().strip("|"))] for line in lines]
    head = "".join(f"<th>{inline(it, names)}</th>" for it in rows[0])
    rest = "".join(f"<tr>{''.join(f'<td>{inline(it, names)}</td>' for it in row)}</tr>" for row in rows[2:])
    return f"<table><tr>{head}</tr>{rest}</table>"


def blocks(text: str) -> list[list[str]]:
    """The lines of a document in blocks: what a blank line, a heading, or code parts."""
    found: list[list[str]] = [[]]
    is_code = False
    for line in text.split("\n"):
        if line.startswith("```"):
            is_code = not is_code
            found += [[line]] if is_code else []
            if not is_code:
                found[-1].append(line)
                found.append([])
        elif is_code:
            found[-1].append(line)
        elif not line.strip():
            is_indented = bool(found[-1]) and found[-1][-1].startswith("    ") and found[-1][0].startswith("    ")
            found[-1 if is_indented else len(found):] = [[*found[-1], ""]] if is_indented else [[]]
        elif line.startswith("#"):
            found += [[line], []]
        else:
            is_other = bool(found[-1]) and found[-1][0].startswith("    ") and not line.startswith("    ")
            found += [[]] if is_other else []
            found[-1].append(line)
    return [it for it in found if any(each.strip() for each in it)]


def block(lines: list[str], names: dict[str, str]) -> str:
    """A block as HTML."""
    first = lines[0]
    if first.startswith("```"):
        return f"<pre>{html.escape(chr(10).join(lines[1:-1]))}</pre>"
    if first.startswith("    "):
        return f"<pre>{html.escape(chr(10).join(it[4:] for it in lines).rstrip())}</pre>"
    if first.startswith("#"):
        level = min(len(first) - len(first.lstrip("#")), 4)
        title = first.lstrip("# ")
        return f'<h{level} id="{slug(title)}">{inline(title, names)}</h{level}>'
    if first.startswith("|"):
        return table(lines, names)
    if first.startswith(">"):
        return f"<blockquote>{inline(' '.join(it.lstrip('> ') for it in lines), names)}</blockquote>"
    marked = re.match(r"(-|\d+\.) ", first)
    if marked:
        items = re.split(r"(?:^|\n)(?:-|\d+\.) ", "\n".join(lines))[1:]
        kind = "ul" if marked[1] == "-" else "ol"
        return f"<{kind}>" + "".join(f"<li>{inline(it, names)}</li>" for it in items) + f"</{kind}>"
    return f"<p>{inline(chr(10).join(lines), names)}</p>"


def page(text: str, names: dict[str, str]) -> str:
    """A document as HTML."""
    return "\n".join(block(it, names) for it in blocks(text))
