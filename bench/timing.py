"""How the figures are taken: processor time, instructions and peak memory of a run."""
import os
import re
import shutil
import subprocess
import sys
import tempfile
import time

VALGRIND = shutil.which("valgrind")


def python_with(module):
    """The first interpreter that finds a module, or None."""
    for python in filter(None, (os.environ.get("PYTHON"), sys.executable, shutil.which("/usr/bin/python3"))):
        if shutil.which(python) and not subprocess.run([python, "-c", f"import {module}"], stderr=subprocess.DEVNULL, check=False).returncode:
            return python
    return None


def run_seconds(command, path, is_user=False):
    """Processor seconds of one run over a file, its output discarded: all of them, or those of the program alone without the system's."""
    with open(path, "rb") as given, open(os.devnull, "wb") as none:
        child = subprocess.Popen(command, stdin=given, stdout=none, stderr=none)
        _, _, used = os.wait4(child.pid, 0)
        child.returncode = 0
    return used.ru_utime if is_user else used.ru_utime + used.ru_stime


def in_turn(runs, tries, is_user=False):
    """The least processor seconds of each run, a pair of a command and a path: one of each in turn, so that all meet the same machine."""
    best = [float("inf")] * len(runs)
    for _ in range(tries):
        for at, (command, path) in enumerate(runs):
            best[at] = min(best[at], run_seconds(command, path, is_user))
    return best


def instructions(command, path):
    """Instructions of one run over a file, under callgrind."""
    with tempfile.TemporaryDirectory() as folder, open(path, "rb") as given:
        words = [VALGRIND, "--tool=callgrind", f"--callgrind-out-file={folder}/out", *command]
        ran = subprocess.run(words, stdin=given, stdout=subprocess.DEVNULL, stderr=subprocess.PIPE, check=False)
    found = re.search(rb"Collected : (\d+)", ran.stderr)
    if not found:
        raise SystemExit("valgrind counted nothing:\n" + ran.stderr.decode(errors="replace"))
    return int(found.group(1))


def peak(command, path):
    """Peak resident memory of a run over a file, in KiB: the last value that was seen while it ran."""
    most = 0
    with open(path, "rb") as given, open(os.devnull, "wb") as none:
        child = subprocess.Popen(command, stdin=given, stdout=none, stderr=none)
        while child.poll() is None:
            try:
                with open(f"/proc/{child.pid}/status", encoding="ascii") as status:
                    found = re.search(r"VmHWM:\s+(\d+)", status.read())
            except OSError:
                break
            most = max(most, int(found.group(1)) if found else 0)
            time.sleep(0.0005)
    return most


def table(rows, heads):
    """Prints rows of words in columns, the first to the left and the others to the right."""
    rows = [heads, *[[str(it) for it in row] for row in rows]]
    widths = [max(len(row[at]) for row in rows) for at in range(len(heads))]
    for row in rows:
        cells = [row[0].ljust(widths[0]), *[cell.rjust(width) for cell, width in zip(row[1:], widths[1:])]]
        print("  ".join(cells))
    print(flush=True)
