"""Writes the reference: python3 -m apidoc [--into FOLDER]."""
import argparse
import os
import shutil

from apidoc.crate_pages import crate_page, specs_page
from apidoc.first_page import first_page
from apidoc.kit import Kit, home
from apidoc.list_pages import crates_page, definitions_page, documents_pages, items_page, std_page
from apidoc.repository import Repository
from apidoc.site import Site

TOP = os.path.dirname(os.path.dirname(os.path.abspath(__file__)))


def made(into: str, top: str = TOP) -> Site:
    """Writes all pages into a new folder. What cites a definition is known once all clauses are linked."""
    shutil.rmtree(into, ignore_errors=True)
    os.makedirs(into)
    site = Site(Repository(top), Kit(home()), into)
    crates = site.repository.crates.values()
    for crate in crates:
        crate_page(site, crate)
    for file in (it for crate in crates for it in crate.specs.values()):
        for definition in file.definitions.values():
            site.links.definition(file, definition)
    for crate in (it for it in crates if it.specs):
        specs_page(site, crate)
    for page in (first_page, crates_page, items_page, definitions_page, documents_pages, std_page):
        page(site)
    return site


def main() -> None:
    words = argparse.ArgumentParser(description=__doc__)
    words.add_argument("--into", default=f"{TOP}/build/doc")
    given = words.parse_args()
    site = made(given.into)
    print(f"{len(site.written)} pages: {os.path.relpath(given.into)}/index.html")


if __name__ == "__main__":
    main()
