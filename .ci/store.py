"""The store of what was compiled: by a crate's key its statements, its programs, and whether its tests passed.

It is the folder STORE, or `lomdeqash` in the user's cache, so that all clones share it. `rt ci`, which keeps its own
proofs, never reads it. Who can write to it is trusted as who can write to `build/` is.
"""
import filecmp
import json
import os
import shutil
import tempfile
import time

# What was not used for so many days is removed.
KEPT_DAYS = 30


def default_folder():
    """The folder STORE, or one in the user's cache."""
    cache = os.environ.get("XDG_CACHE_HOME") or os.path.expanduser("~/.cache")
    return os.path.abspath(os.environ.get("STORE") or f"{cache}/lomdeqash")


def link_or_copy(source, to):
    """A second name for a file's bytes where the file system allows it, and a copy elsewhere."""
    try:
        os.link(source, to)
    except OSError:
        shutil.copy2(source, to)


class Store:
    """A folder with an entry for each key. What an entry holds is complete, or is not there."""

    def __init__(self, folder=None):
        self.folder = folder or default_folder()
        os.makedirs(self.folder, exist_ok=True)

    def path(self, key, *parts):
        return os.path.join(self.folder, key, *parts)

    def use(self, key):
        """Notes that an entry is in use."""
        if os.path.isdir(self.path(key)):
            os.utime(self.path(key))

    def put(self, source, key, *parts, anew=False):
        """Keeps a file or a folder under a key, unless it is there; with `anew`, in the place of what is there. It appears whole."""
        to = self.path(key, *parts)
        if os.path.exists(to) and not anew:
            return
        os.makedirs(os.path.dirname(to), exist_ok=True)
        with tempfile.TemporaryDirectory(prefix=".part-", dir=self.folder) as room:
            if os.path.isdir(source):
                shutil.copytree(source, f"{room}/it", copy_function=link_or_copy)
            else:
                shutil.copy2(source, f"{room}/it")
            try:
                if anew and os.path.exists(to):
                    os.rename(to, f"{room}/old")
                os.rename(f"{room}/it", to)
            except OSError:
                if not os.path.exists(to):
                    raise

    def note(self, key, what, **said):
        """Writes what is known of a key, by what and when."""
        with tempfile.TemporaryDirectory(prefix=".part-", dir=self.folder) as room:
            with open(f"{room}/it", "w", encoding="utf-8") as file:
                json.dump({"when": time.strftime("%Y-%m-%d %H:%M", time.gmtime()), **said}, file)
            os.makedirs(self.path(key), exist_ok=True)
            os.rename(f"{room}/it", self.path(key, what))

    def has(self, key, *parts):
        return os.path.exists(self.path(key, *parts))

    def take(self, to, key, *parts):
        """Copies what is kept to a path, unless the same bytes are there."""
        source = self.path(key, *parts)
        if not os.path.isfile(to) or not filecmp.cmp(source, to, shallow=False):
            os.makedirs(os.path.dirname(to), exist_ok=True)
            shutil.copy2(source, f"{to}.part")
            os.replace(f"{to}.part", to)

    def clear_old(self):
        """Removes what was not used for long."""
        oldest = time.time() - KEPT_DAYS * 86400
        for name in os.listdir(self.folder):
            if os.path.getmtime(f"{self.folder}/{name}") < oldest:
                shutil.rmtree(f"{self.folder}/{name}", ignore_errors=True)
