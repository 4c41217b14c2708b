#!/usr/bin/env python3
"""Compares the crate for Rust and the header for C++ with whole-number arithmetic, by the seeded calls of library.py.

    wrappers.py --compare DRIVER [--count N] [--seed S]

DRIVER is oracle/calls.rs or oracle/calls.cpp, compiled: it reads a call a line, makes it through the crate or the header, and writes
its code and what it returned. An argument that the types of the crate or the header rule out is refused by the driver with its code.
"""
import collections
import ctypes
import subprocess
import sys

from harness import main
from library import BAD_ROWS, NO_ROOM, Enclosure, Format, Style, one

# The calls that the crate and the header have. Those of others in library.py are counted and passed over.
SINGLE = ("read_text", "read_literal", "respell_text", "enclose_text", "scan_text", "print_bits", "print_places", "print_places_mode",
          "print_styled", "convert_bits", "convert_bits_mode", "round_bits", "compare_bits", "format_of_word", "word_of_format", "message")
# More than any text takes: a field of 65,535 characters of four bytes.
ROOM = 300_000


def words_of(given):
    """The words of a call's arguments. A text is in hexadecimal after `x`, without its length; a structure is its members."""
    words, is_length = [], False
    for it in given:
        it = getattr(it, "_obj", it)
        if isinstance(it, bytes):
            words.append("x" + it.hex())
        elif isinstance(it, (Format, Style)):
            words += [str(int(getattr(it, name))) for name, _ in it._fields_]
        elif not is_length:
            words.append(str(int(it)))
        is_length = isinstance(it, bytes)
    return words


def text_of(word):
    return bytes.fromhex(word[1:])


class Missing(Exception):
    """A call that neither the crate nor the header has."""


class Calls(dict):
    """The calls that library.py takes by their names."""

    def __missing__(self, name):
        raise Missing(name)


class Driver:
    """The calls of library.py's Library, each made by a driver."""

    def __init__(self, path):
        self.process = subprocess.Popen([path], stdin=subprocess.PIPE, stdout=subprocess.PIPE)
        self.calls = Calls({"fixed_read_rows": self.read_rows, "fixed_convert_rows": self.convert_rows,
                            "fixed_print_rows": self.print_rows, "fixed_answer_line": self.answer_line})

    def asked(self, name, *words):
        """The words of a driver's reply, of which the first is a code."""
        self.process.stdin.write((" ".join([name.replace("fixed_", ""), *words]) + "\n").encode())
        self.process.stdin.flush()
        reply = self.process.stdout.readline().decode().split()
        assert reply, f"the driver ended at {name} {words}"
        return int(reply[0]), reply[1:]

    def single(self, name, *words):
        """The reply to a call of SINGLE."""
        if name.replace("fixed_", "") not in SINGLE:
            raise Missing(name)
        return self.asked(name, *words)

    def number(self, name, *given):
        code, found = self.single(name, *words_of(given))
        assert len(found) == (0 if code else 2)
        return code, None if code else (int(found[0]), int(found[1]))

    def value(self, name, out, *given):
        code, found = self.single(name, *words_of(given))
        if code:
            return code, None
        found = tuple(map(int, found))
        return code, found if isinstance(out, (Format, Enclosure)) else found[0]

    def text(self, name, size, *given):
        """Where a text and a zero byte have no room, its length is that of the text that a larger buffer gets."""
        words = words_of(given)
        code, found = self.single(name, *words, str(size))
        if code == NO_ROOM:
            _, found = self.asked(name, *words, str(ROOM))
            assert len(text_of(found[0])) >= size, "no room where there is enough"
        elif code:
            return code, None
        text = text_of(found[0])
        return (NO_ROOM, len(text)) if len(text) >= size else (0, text)

    def answer_line(self, line, _len, out, size, count, is_fault):
        code, found = self.asked("answer_line", "x" + line.hex(), str(size))
        if code == NO_ROOM:
            _, found = self.asked("answer_line", "x" + line.hex(), str(ROOM))
        text = text_of(found[0])
        count._obj.value, is_fault._obj.value = len(text), int(found[1])
        if len(text) >= size:
            return NO_ROOM
        ctypes.memmove(out, text + b"\0", len(text) + 1)
        return code

    def rows(self, words, count, code_count, out, codes, refused, has_sizes):
        """Makes a call over rows, and leaves what it returned in the arrays. Where an argument was refused before the call, each
        row has that code, if the sizes are those of the rows."""
        code, found = self.asked(*words, str(count), str(code_count))
        if code == BAD_ROWS or (code and not has_sizes):
            return BAD_ROWS
        if code:
            codes[:count], refused._obj.value = [code] * count, count
            return 0
        found = [int(it) for it in found]
        refused._obj.value, codes[:count] = found[0], found[1 : count + 1]
        for i in range(count):
            out[i].bits, out[i].overflowed = found[count + 1 + 2 * i : count + 3 + 2 * i]
        return 0

    def read_rows(self, rows, length, size, radix, shape, policy, mode, out, count, codes, code_count, refused):
        words = ["read_rows", "x" + (rows + b"\0")[:length].hex(), str(size), *words_of((radix, shape, policy, mode))]
        return self.rows(words, count, code_count, out, codes, refused, length == size * code_count and count == code_count)

    def convert_rows(self, bits, bits_count, source, target, policy, mode, out, count, codes, code_count, refused):
        words = ["convert_rows", str(bits_count), *map(str, bits[:bits_count]), *words_of((source, target, policy, mode))]
        return self.rows(words, count, code_count, out, codes, refused, bits_count == code_count and count == code_count)

    def print_rows(self, bits, count, shape, rows, length, size, codes, code_count, refused):
        words = ["print_rows", str(count), *map(str, bits[:count]), *words_of((shape,)), str(length), str(size), str(code_count)]
        code, found = self.asked(*words)
        if code == BAD_ROWS or (code and count != code_count):
            return BAD_ROWS
        if code:
            codes[:count], refused._obj.value = [code] * count, count
            return 0
        refused._obj.value, codes[:count] = int(found[0]), [int(it) for it in found[2:]]
        ctypes.memmove(rows, text_of(found[1]), length)
        return 0


def compare(path, pick, given, tally):
    driver, missing = Driver(path), collections.Counter()
    for _ in range(given.count):
        try:
            called, agree = one(pick, driver)
        except Missing as name:
            missing[str(name)] += 1
            continue
        tally.check(agree, f"differs: {called}")
    driver.process.stdin.close()
    tally.check(driver.process.wait() == 0, f"the driver ended with status {driver.process.returncode}", 0)
    if missing:
        print("not made:", ", ".join(f"{count} of {name}" for name, count in sorted(missing.items())))


if __name__ == "__main__":
    sys.exit(main(__doc__, compare, "calls compared", 100_000))
