#!/usr/bin/env python3
"""Compares the functions of SQLite's extension with whole-number arithmetic, on seeded arguments.

    sql.py --compare EXTENSION [--count N] [--seed S]

EXTENSION is examples/sqlite/fixed_sqlite.c, compiled. All calls are made in one run of sqlite3, a statement each, with the references of
library.py; a call that has to be refused is one that gives an error.
"""
import sys

from harness import main, run
from library import (POLICIES, answered, bits_for, compare, convert_mode, print_bits, print_places, read_text,
                     round_bits, shape_for, word_of_format)
from reference import numeral_for

ROUNDING_WORDS = ("ceil", "floor", "ties-away", "ties-even", "zero")
MODE_WORDS = ("nearest", "floor", "ceil", "zero", "ties-away", "ties-zero", "ties-up", "ties-down", "away")


def quoted(text):
    """A text of SQL. One with a zero byte or other bytes than ASCII is handed over as a blob's text."""
    if all(32 <= byte < 127 for byte in text):
        return "'" + text.decode().replace("'", "''") + "'"
    return f"CAST(x'{text.hex()}' AS TEXT)"


def some(pick):
    """A call as SQL, and what its reference answers."""
    shape, target = good(pick), good(pick)
    bits, policy, mode = bits_for(pick, shape), pick.randrange(len(POLICIES)), pick.randrange(len(MODE_WORDS))
    word, other = (f"'{word_of_format(it).decode()}'" for it in (shape, target))
    how = f"'{POLICIES[policy].decode()}', '{MODE_WORDS[mode]}'"
    kind = pick.randrange(6)
    if kind == 0:
        return f"fixed_text({bits}, {word})", answered(print_bits, bits, shape)
    if kind == 1:
        places = pick.choice((0, 2, 19, 64, 65))
        return f"fixed_text({bits}, {word}, {places})", answered(print_places, bits, shape, places)
    if kind == 2:
        text = numeral_for(pick, 10, shape)
        return f"fixed_bits({quoted(text)}, {word}, {how})", answered(read_text, text, 10, shape, policy, mode)
    if kind == 3:
        return f"fixed_convert({bits}, {word}, {other}, {how})", answered(convert_mode, bits, shape, target, policy, mode)
    if kind == 4:
        rounding = pick.randrange(5)
        words = f"'{ROUNDING_WORDS[rounding]}', '{POLICIES[policy].decode()}'"
        return f"fixed_round({bits}, {word}, {words})", answered(round_bits, bits, shape, rounding, policy)
    others = bits_for(pick, target)
    return f"fixed_compare({bits}, {word}, {others}, {other})", answered(compare, bits, shape, others, target)


def good(pick):
    """A shape of a format."""
    while True:
        shape = shape_for(pick)
        if answered(word_of_format, shape)[0] == 0:
            return shape


def shown(right):
    """What sqlite3 writes for an answer of a reference; None for an error."""
    code, found = right
    if code:
        return None
    return found.decode() if isinstance(found, bytes) else str(found[0] if isinstance(found, tuple) else found)


def compare_calls(extension, pick, given, tally):
    calls = [some(pick) for _ in range(given.count)]
    script = f".load {extension}\n" + "".join(f"SELECT {i}, {call};\n" for i, (call, _) in enumerate(calls))
    ran = run("sqlite3", ["-batch", ":memory:"], script.encode(), timeout=None)
    found = dict(line.split("|") for line in ran.stdout.decode().splitlines())
    for i, (call, right) in enumerate(calls):
        tally.same(found.get(str(i)), shown(right), call)


if __name__ == "__main__":
    sys.exit(main(__doc__, compare_calls, "calls in SQL compared", 20_000))
