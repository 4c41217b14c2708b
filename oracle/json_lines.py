#!/usr/bin/env python3
"""An independent answer of `fixed json`: Python's json module says whether a line is JSON and where a value of it ends, the places at a path
are found by going down that path, and each value is answered by reference.py.

    json_lines.py PATH SOURCE TARGET < lines    writes the answer, without options
    json_lines.py --compare PROGRAM             makes seeded lines and options, hands them to PROGRAM, and compares; hostile lines are among
                                                them, and an output is read again by Python's json module
"""
import json
import re
import sys

import column
from convert import BLANKS as SPACES
from convert import word_of
from harness import main, run
from reference import WIDTHS, format_named, numeral_for
from show import reject_line, run_with_rejects, shown

LONGEST = 1_048_576
DEEPEST = 128
# The blanks of JSON; a skipped line has those of convert.
BLANKS = b" \t\n\r"
# What is passed over at the beginning of an input.
MARK = b"\xef\xbb\xbf"
STEP = re.compile(r'\.(?P<name>[^."\[\]]+)|\."(?P<quoted>[^"]*)"|\[(?P<number>[0-9]{0,8})\]')
LINES = 250
# What is asked for without options.
PLAIN = {"from": "text", "radix": 10, "policy": b"checked", "mode": "nearest", "target_mode": "floor", "print": "text", "places": None, "trim": False,
         "decimal": b".", "decimal_out": None, "thousands": b"", "groups": False, "empty": "fault", "keep": False, "skip_blank": False, "comments": b"",
         "quotes": False}
NAMES = ("a", "b", "ab", "a.b", "\\u0061", "\\\"", "", "é", "[0]", "nan", "{", "a b")
WORDS = ("true", "false", "null", "0", "-0", "1e5", "1E-2", "-1.5e+3", "0.1", "12345678901234567890", "0." + "3" * 30, "1" * 70)
# Neither is JSON.
OTHERS = ("NaN", "Infinity", "-", "01", ".5", "5.", "1e", "+1", "'a'", "tru", "\\", "1 2", "/*c*/1", "\"\x01\"", "\"\\x\"", "\"\\ud800\"", "\"\\u12\"", "\ufeff1")


class NotJson(Exception):
    """A text that is not JSON."""


# ---- what JSON is
def refuse(word):
    raise NotJson(word)


DECODER = json.JSONDecoder(parse_constant=refuse, parse_int=str, parse_float=str)


def depth_of(value):
    """How deep arrays and objects nest, without recursion."""
    deepest, left = 0, [(value, 0)]
    while left:
        it, depth = left.pop()
        if isinstance(it, str):
            it.encode()  # a lone surrogate is not text
        elif isinstance(it, (list, dict)):
            deepest = max(deepest, depth + 1)
            left += [(inner, depth + 1) for inner in (it.values() if isinstance(it, dict) else it)]
            left += [(name, depth) for name in (it if isinstance(it, dict) else ())]
    return deepest


def text_of(line):
    """The text of a line that is JSON; None of another."""
    try:
        text = line.decode()
        value, end = DECODER.raw_decode(text, blanks(text, 0))
        return text if blanks(text, end) == len(text) and depth_of(value) <= DEEPEST else None
    except (UnicodeError, ValueError, RecursionError, NotJson):
        return None


# ---- the places at a path
def blanks(text, at):
    while at < len(text) and text[at] in " \t\n\r":
        at += 1
    return at


def end_of(text, at):
    return DECODER.raw_decode(text, at)[1]


def inner(text, at):
    """The values in the object or array that begins at an index: for each its name as it is written, or None, and where it begins."""
    close, at = "}" if text[at] == "{" else "]", blanks(text, at + 1)
    while text[at] != close:
        name = None
        if close == "}":
            end = end_of(text, at)
            name, at = text[at + 1 : end - 1], blanks(text, blanks(text, end) + 1)
        yield name, at
        at = blanks(text, end_of(text, at))
        at = blanks(text, at + 1) if text[at] == "," else at


def places(text, at, steps):
    """Where the values at a path begin, in order, in the value that begins at an index."""
    if not steps:
        yield at
        return
    step, rest = steps[0], steps[1:]
    if isinstance(step, str) and text[at] == "{":
        for name, place in inner(text, at):
            if name == step:
                yield from places(text, place, rest)
    elif not isinstance(step, str) and text[at] == "[":
        for number, (_, place) in enumerate(inner(text, at)):
            if step in (-1, number):
                yield from places(text, place, rest)


# ---- the answer
def steps_of(path):
    """The steps of a path: names, numbers, and -1 for every element; None if it is no path."""
    rest = path[1:] if path == "." or path.startswith(".[") else path
    steps = []
    while rest:
        found = STEP.match(rest)
        if not path.startswith(".") or not found:
            return None
        if found["number"] is not None:
            steps.append(int(found["number"] or -1))
        else:
            steps.append(found["name"] if found["quoted"] is None else found["quoted"])
        rest = rest[found.end() :]
    return steps if path.startswith(".") else None


def answer(line, steps, options):
    """The answer to a line; for a refused one the place of the value from 1, or 0, the refused text and the cause."""
    if len(line) > LONGEST:
        return b"error: line too long", (0, line, b"line too long")
    if options["skip_blank"] and not line.strip(SPACES) or options["comments"] and line.lstrip(SPACES).startswith(options["comments"]):
        return line, None
    written, why = exchanged(line, steps, options)
    if why:
        return line if options["keep"] else b"error: " + why[2], why
    return written, None


def exchanged(line, steps, options):
    text = text_of(line)
    if text is None:
        return None, (0, line, b"not JSON")
    out, done, found = [], 0, False
    for at in places(text, blanks(text, 0), steps):
        end = end_of(text, at)
        place = len(text[:at].encode()) + 1
        if text[at] in "{[":
            return None, (place, text[at].encode(), b"object or array")
        is_string = text[at] == '"'
        raw = text[at + is_string : end - is_string].encode()
        reply, is_fault = column.reply(raw, options)
        if is_fault:
            return None, (place + is_string, raw, reply.removeprefix(b"error: "))
        quote = b'"' if is_string or options["quotes"] else b""
        out += [text[done:at].encode(), quote, reply, quote]
        done, found = end, True
    if not found:
        return None, (0, line, b"no value at the path")
    written = b"".join([*out, text[done:].encode()])
    return (written, None) if len(written) <= LONGEST else (None, (0, line, b"answer too long"))


def told(refused):
    """What standard error begins with."""
    if not refused:
        return b""
    number, (place, text, cause) = refused[0]
    byte = b", byte %d" % place if place else b""
    return b"fixed: lines refused: %d, the first in line %d%s, '%s': %s" % (len(refused), number, byte, shown(text), cause)


# ---- seeded lines
def options_for(pick):
    """What a run asks for, and its words."""
    shapes = [(pick.random() < 0.7, width, pick.choice((0, width, pick.randrange(width + 1)))) for width in (pick.choice(WIDTHS), pick.choice(WIDTHS))]
    options = PLAIN | {
        "from": pick.choice(("text", "text", "text", "bits")), "radix": pick.choice((10, 10, 10, 16, 2)), "source": shapes[0], "target": shapes[1],
        "policy": pick.choice((b"checked", b"checked", b"saturating", b"wrapping")), "mode": pick.choice(("nearest", "floor", "ceil", "zero")),
        "target_mode": pick.choice(("nearest", "floor", "zero")), "print": pick.choice(("text", "text", "bits", "hex", "readmemh", "value", "all")),
        "trim": pick.random() < 0.3, "keep": pick.random() < 0.3, "skip_blank": pick.random() < 0.3,
        "comments": pick.choice((b"", b"", b"#", b"//", b"[", b"{\"a")),
    }
    options["quotes"] = options["print"] in ("hex", "readmemh", "all")
    words = ["--from", options["from"], "--radix", str(options["radix"]), "--policy", options["policy"].decode(), "--mode", options["mode"]]
    words += ["--target-mode", options["target_mode"], "--print", options["print"]]
    words += ["--trim"] * options["trim"] + ["--keep"] * options["keep"] + ["--skip-blank"] * options["skip_blank"]
    words += ["--comments", options["comments"].decode()] if options["comments"] else []
    return options, words


def path_for(pick):
    """The text of a path."""
    text = "" if pick.random() < 0.7 else "."
    for _ in range(pick.choice((0, 1, 1, 1, 2, 2, 3))):
        kind = pick.randrange(4)
        if kind == 0:
            text = (text or ".") + "[]"
        elif kind == 1:
            text = (text or ".") + f"[{pick.choice((0, 0, 1, 2, 10))}]"
        else:
            name = pick.choice(NAMES[:8]).replace('\\"', "q")
            text = ("" if text == "." else text) + ("." + name if name and not re.search(r'[."\[\]]', name) else f'."{name}"')
    return text or "."


def gap(pick):
    return "".join(pick.choice(" \t\r") for _ in range(pick.choice((0, 0, 0, 1, 2))))


def scalar(pick, options):
    kind = pick.randrange(8)
    if kind == 0:
        return pick.choice(WORDS)
    if kind == 1:
        return pick.choice(('"x"', '"{"', '"]"', '"a\\"b"', '"\\\\"', '"\\u0031"', '"é"', '" 1 "', '""', '"1,"', '"\\ud83d\\ude00"', '"\\/"'))
    numeral = numeral_for(pick, options["radix"], options["source"]).decode("latin-1").replace('"', "").replace("\\", "")
    number = re.fullmatch(r"-?(0|[1-9][0-9]*)(\.[0-9]+)?([eE][+-]?[0-9]+)?", numeral)
    return numeral if number and kind < 6 else json.dumps(numeral, ensure_ascii=False) if kind < 7 else str(pick.choice((1, -2, 0.5, 3.25, 100)))


def value_for(pick, options, steps, depth=0):
    """The text of a value, often with a value at the path."""
    if not steps and (depth > 4 or pick.random() < 0.9):
        return scalar(pick, options)
    leads = bool(steps) and pick.random() < 0.95
    is_object = isinstance(steps[0], str) if leads else pick.random() < 0.5
    if depth > 6:
        return scalar(pick, options)
    parts, count = [], pick.choice((0, 1, 2, 3)) if not leads else pick.choice((1, 2, 3, 4))
    at = pick.randrange(count) if count else 0
    for number in range(count):
        on = leads and (number == at if is_object else steps[0] in (-1, number))
        name = steps[0] if on and is_object else pick.choice(NAMES)
        inner_value = value_for(pick, options, steps[1:], depth + 1) if on else value_for(pick, options, [], depth + pick.choice((2, 5)))
        parts.append(f'{gap(pick)}"{name}"{gap(pick)}:{gap(pick)}{inner_value}{gap(pick)}' if is_object else f"{gap(pick)}{inner_value}{gap(pick)}")
    inside = ",".join(parts) if parts else gap(pick)
    return f"{{{inside}}}" if is_object else f"[{inside}]"


def line_for(pick, options, steps):
    """A line, often damaged: cut, with another byte, nested deep, or no JSON at all."""
    text = gap(pick) + value_for(pick, options, steps) + gap(pick)
    kind = pick.randrange(24)
    if kind == 0:
        text = text.replace(pick.choice(("1", "true", "0", "{}")), pick.choice(OTHERS), 1)
    elif kind == 1:
        text = pick.choice(OTHERS)
    elif kind == 2:
        depth = pick.choice((127, 128, 129, 400, 5000))
        text = "[" * depth + "1" + "]" * depth if pick.random() < 0.5 else '{"a":' * depth + "1" + "}" * depth
    elif kind == 3:
        text = gap(pick) + pick.choice(("", "", "\x0c", "# 1", "//"))
    line = text.encode(errors="surrogatepass").replace(b"\n", b" ")
    at = pick.randrange(len(line) + 1)
    if kind == 4:
        return line[:at]
    if kind == 5:
        return line[:at] + bytes((pick.choice(b'\x00\x1f"\\{}[]:,\x80\xff\xc3 0e.-'),)) + line[at + pick.randrange(2) :]
    if kind == 6:
        return line + pick.choice((b",", b"1", b"}", b"//", b"\xef\xbb\xbf", b"\x0b"))
    return line


def compare_rejects(listed, refused, command, tally):
    """Compares the lines of rejects; where a line stops being JSON is not worked out here."""
    tally.same(len(listed), len(refused), (command, "how many lines of rejects"))
    for found, (number, (place, text, cause)) in zip(listed, refused):
        byte = b"%d" % (place or 1) if cause != b"not JSON" else found.split(b"\t")[1]
        tally.same(found, reject_line(number, int(byte), text[:LONGEST], cause)[:-1], command)


def compare(path, pick, given, tally):
    for _ in range(max(1, given.count // LINES)):
        options, words = options_for(pick)
        where = path_for(pick)
        steps = steps_of(where)
        lines = [line_for(pick, options, steps) for _ in range(LINES)]
        lines += [b"[%s1]" % (b"0," * pick.choice((10, 524_286, 524_287)))] * (pick.randrange(12) == 0)
        wanted = [answer(line, steps, options) for line in [lines[0].removeprefix(MARK), *lines[1:]]]
        refused = [(number, why) for number, (_, why) in enumerate(wanted, 1) if why]
        end = pick.choice((b"\n", b""))
        command = ["json", *words, where, word_of(options["source"]), word_of(options["target"])]
        found, listed = run_with_rejects(path, command, b"\n".join(lines) + end)
        last = lines[-1] or end
        texts = [text for text, _ in wanted] if last else [text for text, _ in wanted[:-1]]
        refused = refused if last else [it for it in refused if it[0] < len(lines)]
        tally.all_same(found.stdout.split(b"\n")[:-1], texts, [(where, line) for line in lines[: len(texts)]])
        tally.same((found.returncode, found.stderr[: len(told(refused))]), (1 if refused else 0, told(refused)), command)
        compare_rejects(listed.split(b"\n")[:-1], refused, command, tally)
        for (text, why), line in zip(wanted, lines):
            tally.check(bool(why) or text == line or text_of(text) is not None, f"{line!r}: an answer is no JSON: {text!r}", 0)
    malformed(path, tally)


def malformed(path, tally):
    """Texts that are no paths are refused, and some others are not."""
    for text in ("", "a", "..", ".a.", ".a..b", ".[", ".[1", ".[x]", ".[-1]", ".[123456789]", '."a', '.a"', ".a]", "[0]", ".a[0]b", '.""x', ".a b", ".é",
                 '."a.b"[0].c', ".[12345678]", ".[][]", '.""', ".a[01]"):
        found = run(path, ["json", text, "Q15"], b"")
        tally.same(found.returncode, 2 if steps_of(text) is None else 0, f"the path {text!r}")


def arguments(words):
    for name in ("path", "source", "target"):
        words.add_argument(name, nargs="?")


def answer_alone(given):
    options = PLAIN | {"source": format_named(given.source.encode()), "target": format_named(given.target.encode())}
    lines = sys.stdin.buffer.read().removeprefix(MARK).split(b"\n")
    answers = [answer(line, steps_of(given.path), options) for line in (lines if lines[-1] else lines[:-1])]
    return b"".join(text + b"\n" for text, _ in answers), 1 if any(why for _, why in answers) else 0


if __name__ == "__main__":
    sys.exit(main(__doc__, compare, "lines of JSON compared", 20_000, answer_alone, arguments))
