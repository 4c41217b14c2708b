#!/usr/bin/env python3
"""Runs the programs over devices that fail in mid-stream, and hands them a byte at a time. Runs `fixed` with each option of
each command over outputs that are full or closed, inputs that cannot be read, and files that cannot be made.

    devices.py [--built FOLDER]

More devices that fail at once are in cases/files.txt and cases/output.txt.
"""
import os
import resource
import select
import signal
import struct
import subprocess
import sys
import tempfile

TOP = os.path.dirname(os.path.dirname(os.path.abspath(__file__)))
sys.path[:0] = [f"{TOP}/oracle", f"{TOP}/.ci"]
from command_lines import right_line  # noqa: E402
from harness import SECONDS, Tally, built_option, program, run  # noqa: E402
from options import NO_INPUT, pages  # noqa: E402

# Words and an input whose answers are longer than a pipe holds.
LONG = {
    "fixed": (["convert", "I16F16"], b"3.14159\n" * 200_000),
    "fixed_tool": ([], b"10 I16F16 I16F16 checked 3.14159\n" * 50_000),
    "enclose_tool": ([], b"10 I16F16 3.14159\n" * 50_000),
    "constants_tool": ([], b"".join(b"N%d = 0x1.8 I32F32\n" % i for i in range(40_000))),
    "columns_tool": ([], b"".join(b"%d.5 I32F32\n" % i for i in range(60_000))),
}
FULL = b"a write failed"
# An input of each command of `fixed` that has two answers, or one.
LINES = {
    "column": b"2,a\n3,b\n", "json": b'{"a":2}\n{"a":3}\n', "bits": b"0x02\n0x03\n", "lines": b"10 I4F4 I4F4 checked 2\n10 I4F4 I4F4 checked 3\n",
    "enclose": b"10 I4F4 2\n10 I4F4 3\n", "unpack": b"\x02\x03", "repack": b"\x10\x20", "constants": b"A = 2 I4F4\nB = 3 I4F4\n",
    "sort": b"2 I4F4\n3 I4F4\n",
}


def on_disk_of(most):
    """Leaves a process a disk with this many bytes."""
    def limit():
        signal.signal(signal.SIGXFSZ, signal.SIG_IGN)
        resource.setrlimit(resource.RLIMIT_FSIZE, (most, most))
    return limit


def on_full_disk(path, words, given, most, **how):
    """A run whose output is a file of at most this many bytes, and what the file has then."""
    with tempfile.TemporaryFile() as disk:
        ran = run(path, words, given, stdout=disk, preexec_fn=on_disk_of(most), **how)
        disk.seek(0)
        return ran, disk.read()


def is_told(name, told, is_pipe=False):
    """Whether standard error says in one line that a write failed; `fixed` says nothing of a pipe that nobody reads."""
    if name == "fixed" and is_pipe:
        return told == b""
    return told.count(b"\n") == 1 and told.startswith(b"%s: %s" % (name.encode(), FULL))


def closed_pipe(tally, name, path, words, given):
    """A pipe that nobody reads."""
    read, write = os.pipe()
    os.close(read)
    ran = run(path, words, given, stdout=write)
    os.close(write)
    tally.check(ran.returncode == 4 and is_told(name, ran.stderr, True), f"{name}, a closed pipe: {ran}")


def broken_pipe(tally, name, path, words, given, wanted):
    """A pipe whose reader goes away: nothing is lost of what it read."""
    with tempfile.TemporaryFile() as source:
        source.write(given)
        source.seek(0)
        with subprocess.Popen([path, *words], stdin=source, stdout=subprocess.PIPE, stderr=subprocess.PIPE) as begun:
            got = begun.stdout.read(10_000)
            begun.stdout.close()
            told = begun.stderr.read()
    is_right = begun.returncode == 4 and is_told(name, told, True) and got == wanted[:10_000]
    tally.check(is_right, f"{name}, a broken pipe: {begun.returncode}, {told!r:.200}, {len(got)} bytes")


def full_disk(tally, name, path, words, given, most, wanted):
    """A disk that is full after some bytes: these are there, and their lines are counted."""
    ran, got = on_full_disk(path, words, given, most)
    is_counted = ran.stderr.endswith(b", lines answered: %d\n" % got.count(b"\n"))
    is_right = ran.returncode == 4 and is_told(name, ran.stderr) and is_counted and got == wanted[:most]
    tally.check(is_right, f"{name} {words}, a disk of {most} bytes: {ran.returncode}, {ran.stderr!r:.200}, {len(got)} bytes arrived")


def raw_floats(tally, path):
    """Raw floats to words, and back, on devices that fail: at the first read, and at each write, after which the file has a prefix."""
    numbers = [number / 32768 for number in range(-3000, 3000)]
    floats, words = struct.pack("<6000d", *numbers), struct.pack("<6000h", *range(-3000, 3000))
    for command, given, wanted in ((["pack", "--from", "f64", "Q15"], floats, words), (["unpack", "--to", "f64", "Q15"], words, floats)):
        ran = run(path, command, given)
        tally.same((ran.returncode, ran.stdout, ran.stderr), (0, wanted, b""), f"{command}, 6,000 numbers")
        folder = os.open(TOP, os.O_RDONLY)
        ran = run(path, command, stdin=folder)
        os.close(folder)
        tally.check((ran.returncode, ran.stdout) == (3, b"") and ran.stderr.startswith(b"fixed: "), f"{command}, a folder as input: {ran}")
        with open("/dev/full", "wb") as full:
            ran = run(path, command, given, stdout=full)
        tally.check(ran.returncode == 4 and ran.stderr.startswith(b"fixed: "), f"{command}, a full device: {ran}")
        for most in (1, 7, 1023, 1024, 1025, 4096, 8192, len(wanted) - 1):
            ran, got = on_full_disk(path, command, given, most)
            is_right = ran.returncode == 4 and ran.stderr.startswith(b"fixed: ") and got == wanted[:most]
            tally.check(is_right, f"{command}, a disk of {most} bytes: {ran.returncode}, {ran.stderr!r}, {len(got)} bytes arrived")


def one_by_one(tally, path):
    """Each record is answered as soon as it was read, also where its bytes come one at a time."""
    with subprocess.Popen([path, "column", "1", "U8F0"], stdin=subprocess.PIPE, stdout=subprocess.PIPE, bufsize=0) as ran:
        answers = []
        for record in (b"7.4,a\n", b"\n", b'"8.4",b\r', b"9,c\n"):
            for byte in record:
                ran.stdin.write(bytes((byte,)))
            answers.append(os.read(ran.stdout.fileno(), 100) if select.select([ran.stdout], [], [], 20)[0] else None)
        ran.stdin.close()
        ran.wait(SECONDS)
    tally.same((answers, ran.returncode), ([b"7,a\n", b"\n", b"8,b\r", b"9,c\n"], 0), "fixed column, a record at a time")


def of_fixed(tally, path):
    """What only `fixed` can meet."""
    column, plain = ["column", "1", "U8F0"], b"1,a\n" * 5_000
    for given in (b"1,a\n", plain):
        closed_pipe(tally, "fixed", path, column, given)
    full_disk(tally, "fixed", path, column, plain, 5_000, plain)
    full_disk(tally, "fixed", path, ["json", ".a", "U8F0"], b'{"a":1}\n' * 5_000, 5_000, b'{"a":1}\n' * 5_000)
    block = b"given     256\nerror: word is wider than the format\n"
    ran, got = on_full_disk(path, ["bits", "U8F0", "256", "255"], b"", len(block))
    is_right = ran.returncode == 4 and got == block and all(it.startswith(b"fixed: ") for it in ran.stderr.splitlines())
    tally.check(is_right, f"fixed bits, a full disk after a block: {ran.returncode}, {ran.stderr!r}, {got!r}")
    raw_floats(tally, path)
    one_by_one(tally, path)


# ---- each option of each command
def input_of(words):
    """An input that the command of these words answers."""
    if "--from=f32" in words:
        return struct.pack("<2f", 2, 3)
    return b"2\n3\n" if any(it.startswith("--numerals") for it in words) else LINES.get(words[0], b"2\n3\n")


def with_input(words, name):
    """The words with an input."""
    return [*words, "--file", name] if words[0] in ("bits", "show") else [*words, name]


def is_failure(ran, status, named, *causes):
    """Whether a run ended with this status, and one line of standard error names this and one of these causes, beside a report."""
    told = [it for it in ran.stderr.splitlines() if it.startswith(b"fixed: " + named) and any(cause in it for cause in causes)]
    return ran.returncode == status and len(told) == 1


def full_outputs(tally, path, words, folder):
    """Standard output on a pipe that nobody reads, and on a disk that is full after each of some counts of bytes."""
    whole = run(path, words, cwd=folder)
    tally.check(whole.returncode < 2 and whole.stdout != b"", f"{words}: {whole}")
    read, write = os.pipe()
    os.close(read)
    ran = run(path, words, cwd=folder, stdout=write)
    os.close(write)
    tally.check(ran.returncode == 4 and b"write" not in ran.stderr, f"{words}, a closed pipe: {ran}")
    for most in sorted({0, 1, len(whole.stdout) // 2, len(whole.stdout) - 1}):
        ran, got = on_full_disk(path, words, b"", most, cwd=folder)
        is_right = is_failure(ran, 4, b"", FULL + b": File too large") and got == whole.stdout[:most]
        tally.check(is_right, f"{words}, a disk of {most} bytes: {ran}, {got!r} arrived")


def unread_inputs(tally, path, words, folder):
    """A missing input and a folder: no file is made. The other input is answered, but by `constants`, whose inputs are one."""
    before = sorted(os.listdir(folder))
    for name, causes in (("none", (b"No such file or directory",)), (".", (b"Is a directory",))):
        ran = run(path, [*with_input(words, name), "--output=made"], cwd=folder)
        is_right = is_failure(ran, 3, b"%s: " % name.encode(), *causes) and ran.stdout == b"" and sorted(os.listdir(folder)) == before
        tally.check(is_right, f"{words} {name}: {ran}, {os.listdir(folder)}")
    if words[0] not in ("bits", "show"):
        wanted = b"" if words[0] == "constants" else run(path, [*words, "input"], cwd=folder).stdout
        ran = run(path, [*words, "none", "input"], cwd=folder)
        tally.same((ran.returncode, ran.stdout), (3, wanted), f"{words} none input")


def of_options(tally, path):
    """Each command with each of its options."""
    for page, row in ((page, row) for page in pages() for row in page.options):
        words = right_line(page, row)
        if words is None:
            continue
        with tempfile.TemporaryDirectory() as folder:
            with open(f"{folder}/input", "wb") as file:
                file.write(input_of(words))
            with_file = words if page.name in NO_INPUT else with_input(words, "input")
            if row.name != "output":
                full_outputs(tally, path, with_file, folder)
                ran = run(path, [*with_file, "--output=none/made"], cwd=folder)
                tally.check(is_failure(ran, 4, b"none/made: ", b"No such file or directory"), f"{with_file} --output=none/made: {ran}")
                if page.name not in NO_INPUT:
                    unread_inputs(tally, path, words, folder)


def main():
    built, tally = built_option(__doc__), Tally()
    for name, (words, given) in LONG.items():
        path = program(name, built)
        if path is None:
            print(f"{name} is not built, and so its devices did not fail")
            continue
        whole = run(path, words, given).stdout
        closed_pipe(tally, name, path, words, given)
        full_disk(tally, name, path, words, given, 100_000, whole)
        broken_pipe(tally, name, path, words, given, whole)
        if name == "fixed":
            of_fixed(tally, path)
            of_options(tally, path)
    return tally.end("runs over devices that fail")


if __name__ == "__main__":
    sys.exit(main())
