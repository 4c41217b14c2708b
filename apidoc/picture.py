"""Pictures of the crates in SVG: the layers, and the way of a line through them."""
import html
import re

from apidoc.repository import Repository

WIDE, HIGH, GAP, DOWN = 128, 30, 16, 74


def depths(repository: Repository, names: list[str]) -> dict[str, int]:
    """How many crates of these stand below each, in its longest chain."""
    found: dict[str, int] = {}

    def depth(name: str) -> int:
        if name not in found:
            found[name] = 1 + max((depth(it) for it in repository.crates[name].uses if it in names), default=-1)
        return found[name]

    for name in names:
        depth(name)
    return found


def direct(repository: Repository, name: str, names: list[str]) -> list[str]:
    """What a crate uses, without what it reaches through another of these."""
    def reach(it: str) -> set[str]:
        return {it} | {each for use in repository.crates[it].uses if use in names for each in reach(use)}
    uses = [it for it in repository.crates[name].uses if it in names]
    return [it for it in uses if not any(it in reach(other) for other in uses if other != it)]


def drawing(repository: Repository, names: list[str], numbers: dict[str, str], label: str) -> str:
    """Crates as boxes in rows, those that stand on others above them, with a line for each use."""
    rows: dict[int, list[str]] = {}
    for name, depth in depths(repository, names).items():
        rows.setdefault(depth, []).append(name)
    widest = max(len(it) for it in rows.values())
    width = widest * (WIDE + GAP) + GAP
    height = len(rows) * DOWN + GAP
    place = {}
    for depth, row in rows.items():
        left = (width - len(row) * (WIDE + GAP) + GAP) / 2
        for at, name in enumerate(row):
            place[name] = (left + at * (WIDE + GAP), height - (depth + 1) * DOWN + GAP)
    lines = []
    for name in names:
        for use in direct(repository, name, names):
            (x, y), (u, v) = place[name], place[use]
            lines.append(f'<path d="M{x + WIDE / 2:.0f} {y + HIGH:.0f} C{x + WIDE / 2:.0f} {y + HIGH + 24:.0f} '
                         f'{u + WIDE / 2:.0f} {v - 24:.0f} {u + WIDE / 2:.0f} {v:.0f}"/>')
    boxes = [box(name, place[name], numbers.get(name, "")) for name in names]
    return (f'<svg role="img" aria-label="{html.escape(label)}" viewBox="0 0 {width} {height}" '
            f'style="max-width:{width}px">{"".join(lines)}{"".join(boxes)}</svg>')


def box(name: str, at: tuple[float, float], number: str) -> str:
    """A crate, with the number of its step."""
    x, y = at
    mark = (f'<circle cx="{x + 2:.0f}" cy="{y + 2:.0f}" r="{8 if len(number) < 3 else 14}"/>'
            f'<text class="n" x="{x + 2:.0f}" y="{y + 6:.0f}">{number}</text>' if number else "")
    return (f'<a href="{name}.html"><rect x="{x:.0f}" y="{y:.0f}" width="{WIDE}" height="{HIGH}" rx="5"/>'
            f'<text x="{x + WIDE / 2:.0f}" y="{y + 20:.0f}">{name}</text>{mark}</a>')


def layers(repository: Repository) -> str:
    """All crates but those that only test, show or time the library."""
    names = [it.name for it in repository.crates.values() if "show, time" not in it.section]
    return drawing(repository, names, {}, "The crates, each above those that it uses")


def way_of_a_line(repository: Repository, architecture: str) -> str:
    """The crates below `fixed_tool`, with the numbers of the steps that docs/ARCHITECTURE.md tells of a line."""
    names, left = [], ["fixed_tool"]
    while left:
        name = left.pop()
        if name not in names and name in repository.crates:
            names.append(name)
            left += repository.crates[name].uses
    names.sort(key=list(repository.crates).index)
    numbers: dict[str, list[str]] = {}
    for number, crate in re.findall(r"^(\d+)\. \*\*`crates/(\w+)/", architecture, re.M):
        numbers.setdefault(crate, []).append(number)
    steps = {name: ",".join(it) for name, it in numbers.items()}
    return drawing(repository, names, steps, "The way of a line through the crates")
