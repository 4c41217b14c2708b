"""Finds the definitions of the toolchain's own libraries that clauses cite: a line of each."""
import json
import os
import shutil
import subprocess

from apidoc import antt


def home() -> str | None:
    """The folder of the toolchain, if its `rt` is on the path."""
    if not shutil.which("rt"):
        return None
    page = subprocess.run(["rt", "doc"], stdout=subprocess.PIPE, text=True, check=False).stdout.strip()
    return os.path.dirname(page) if os.path.isdir(os.path.dirname(page)) else None


class Kit:
    """The files of definitions of the toolchain, read as they are asked for."""

    def __init__(self, folder: str | None) -> None:
        self.folder = folder
        self.files: dict[str, antt.SpecFile | None] = {}
        self.mounts: dict[str, str] = {}
        project = f"{folder}/rattle/logic/antt-project.json"
        if folder and os.path.isfile(project):
            with open(project, encoding="utf-8") as file:
                self.mounts = json.load(file)["mounts"]

    def path_of(self, module: str) -> str | None:
        """The file of a module: Rattle.LIBRARY.specs.MODULE, or a module that the logic mounts."""
        parts = module.split(".")
        if parts[0] == "Rattle" and len(parts) > 3:
            return f"{self.folder}/rattle/{parts[1]}/{'/'.join(parts[2:])}.antt"
        if parts[0] in self.mounts:
            return f"{self.folder}/rattle/logic/{self.mounts[parts[0]]}/{'/'.join(parts[1:])}.antt"
        return None

    def file(self, module: str) -> antt.SpecFile | None:
        """The definitions of a module of the toolchain."""
        if module not in self.files:
            path = self.path_of(module) if self.folder else None
            self.files[module] = None
            if path and os.path.isfile(path):
                with open(path, encoding="utf-8") as text:
                    self.files[module] = antt.read("", module, text.read())
        return self.files[module]

    def find(self, module: str, name: str, depth: int = 0) -> tuple[str, antt.Definition | None]:
        """The module that defines a name which a module passes on, and its definition, where the toolchain shows it."""
        file = self.file(module)
        if file is None or depth > 8:
            return module, None
        if name in file.definitions:
            return module, file.definitions[name]
        if name in file.imports:
            home_of, _, original = file.imports[name].rpartition(".")
            return self.find(home_of, original, depth + 1)
        return module, self.constructor(file, name)

    def constructor(self, file: antt.SpecFile, name: str) -> antt.Definition | None:
        """The type that a name constructs: its definition has the name at the head of a line."""
        for it in file.definitions.values():
            if any(line.strip().startswith((f"{name} :", f"| {name}")) for line in it.text.split("\n")[1:]):
                return it
        return None
