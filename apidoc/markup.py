"""Small pieces of HTML."""
import html
from collections.abc import Iterable


def escaped(text: str) -> str:
    """A text as HTML shows it."""
    return html.escape(text)


def link(address: str | None, text: str) -> str:
    """A text that leads to an address, or the text alone."""
    return f'<a href="{html.escape(address)}">{html.escape(text)}</a>' if address else html.escape(text)


def dim(text: str) -> str:
    """A remark beside a name."""
    return f'<span class="where">{html.escape(text)}</span>'


def code(inner: str) -> str:
    """Code, which is HTML already."""
    return f"<code>{inner}</code>"


def clause(inner: str, label: str = "", place: str = "") -> str:
    """A line of a contract, which is HTML already, with its label and its anchor."""
    anchor = f' id="{place}"' if place else ""
    named = f"<b>{html.escape(label)}</b> " if label else ""
    return f'<div class="clause"{anchor}>{named}{code(inner)}</div>'


def listed(rows: Iterable[str], kind: str = "") -> str:
    """A list of rows, which are HTML already; `kind` is a class of the style."""
    shown = "".join(it if it.startswith("<li") else f"<li>{it}</li>" for it in rows)
    named = f' class="{kind}"' if kind else ""
    return f"<ul{named}>{shown}</ul>" if shown else ""
