#!/usr/bin/env python3
"""Prints the commands and options of `fixed` from their one table into its completions and its manual page.

    options.py           writes the printed parts of completion/ and man/fixed.1
    options.py --check   names the files whose printed parts are not up to date
    options.py --built FOLDER   names the options of which the help of the built program tells otherwise than the table

The table is the program's: the pages of crates/fixed/src/commands/, with the rows and operands that they name. A
printed part stands between two comments, "printed by make options: NAME" and "end of NAME"; all else is by hand.
The table "option by command" of the manual also has the reason why a command that reads inputs does not take an option
that others take for theirs. A hole without a reason, and a reason without a hole, stop the printing.
"""
import dataclasses
import os
import re
import subprocess
import sys
import textwrap

TOP = os.path.dirname(os.path.dirname(os.path.abspath(__file__)))
sys.path.insert(0, f"{TOP}/oracle")
from harness import program  # noqa: E402

HOMES = {"crate": "crates/fixed/src", "command_line": "crates/command_line/src"}
FORMATS = "I16F16 U16F16 I8F8 U8F8 I32F32 U32F32 I1F15 I1F31 I4F4 U0F8"
# What may be typed for an operand: formats, files, names of columns, or these words. Of any other nothing is known.
OPERANDS = {
    "SOURCE": "@formats",
    "FORMAT": "@formats",
    "TARGET": "@formats @files",
    "FILE": "@files",
    "COLUMNS": "@columns",
    "PATH": "@any",
    "RADIX": "2 8 10 16 @files",
    "LIMIT": "limit @files",
    "NUMERAL": "@any",
    "WORD": "@any",
}
# What may be typed for a value that the table gives no choices for.
VALUES = {"FILE": "@files", "FORMAT": "@formats", "W": "8 16 32 64"}
MARK = r"^(?P<mark>\S+) printed by make options: {0}\n(?:.*\n)*?(?P=mark) end of {0}\n"
WIDEST = 80


# The options for inputs, which hold for every command that reads some, unless a reason stands here: of these letters, by
# the commands that do not take the option.
NO_INPUT = ("format", "modes")
REASONS = {
    "a": "Raw words have no lines, blanks or text.",
    "b": "A record stays as it is, and CSV has no comments.",
    "c": "A line without a value has no place in the order, and spaces before a numeral are taken as they are.",
    "d": "A line, a value or an operand is one word, or several of which each has its meaning.",
    "e": "A list has one numeral a line.",
    "f": "An answer does not take the place of its text.",
    "g": "A refused line refuses its input, or ends it.",
    "h": "Each answer tells whether it is exact and in range, or the error.",
    "i": "Nothing is rounded, or nothing is written of a list with a refused line.",
    "j": "The answer to a refused text says why.",
    "k": "Raw words have no text that could be listed.",
}
# The heads of columns that would make the table too wide.
HEADS = {"skip-blank": "blank", "comments": "comment", "refused": "token"}
HOLES = {
    "output": {},
    "limit": {},
    "trim": {"a": "unpack repack", "c": "sort"},
    "skip-blank": {"a": "unpack repack", "b": "column", "c": "sort"},
    "comments": {"a": "unpack repack", "b": "column", "c": "sort"},
    "words": {"a": "unpack repack", "d": "column json bits show lines enclose sort", "e": "least fit pack constants"},
    "refused": {"j": "column json", "f": "bits show lines enclose unpack", "g": "least fit pack repack constants sort"},
    "keep": {"f": "bits show lines enclose unpack", "g": "least fit pack repack constants sort"},
    "report": {"h": "bits show lines enclose fit unpack", "i": "least constants sort"},
    "rejects": {"k": "unpack repack", "j": "bits show", "g": "least fit pack constants sort"},
}


@dataclasses.dataclass(frozen=True)
class Row:
    """An option, as in crates/command_line/src/page.rt."""
    name: str
    letter: str | None
    value: str
    choices: tuple[str, ...]
    help: str

    def named(self):
        """The name of its value, which may be left out in brackets, and of which there may be several before points."""
        return self.value.removesuffix("...").strip("[]=")

    def typed(self):
        """What may be typed for its value: words; "" if it takes none."""
        if not self.value:
            return ""
        return " ".join(self.choices) or VALUES.get(self.value, "@any")


@dataclasses.dataclass(frozen=True)
class Operand:
    """The words at one place of a command."""
    name: str
    help: str

    def typed(self):
        """What may be typed: the words that its help lists before a semicolon, or what its name says."""
        listed = self.help.partition(";")[0].split(", ")
        is_list = len(listed) > 2 and all(re.fullmatch("[a-z][a-z-]*", it) for it in listed)
        return " ".join(listed) + " @files" if is_list else OPERANDS[self.name]


@dataclasses.dataclass(frozen=True)
class Page:
    """A command."""
    name: str
    hidden_name: str
    about: str
    usage: str
    operands: tuple[Operand, ...]
    has_numerals: bool
    options: tuple[Row, ...]
    end: str


def text_of(path):
    with open(f"{TOP}/{path}", encoding="utf-8") as file:
        return file.read()


def unescaped(text):
    """A string of Rust, without its quotes."""
    text = re.sub(r"\\\n\s*", "", text)
    text = re.sub(r"\\x([0-9a-f]{2})", lambda it: chr(int(it[1], 16)), text)
    return re.sub(r"\\(.)", lambda it: {"n": "\n", "t": "\t"}.get(it[1], it[1]), text)


STRING = r'"((?:[^"\\]|\\.|\\\n)*)"'


def parts(text):
    """What commas separate, outside of strings and brackets."""
    found, depth, start = [], 0, 0
    text = re.sub(r"^\s*//.*\n", "", text, flags=re.M)
    for it in re.finditer(rf"(?s:{STRING})|[\[\](){{}},]", text):
        depth += (it[0] in "[({") - (it[0] in "])}") if len(it[0]) == 1 else 0
        if it[0] == "," and depth == 0:
            found.append(text[start:it.start()])
            start = it.end()
    return [it.strip() for it in [*found, text[start:]] if it.strip()]


def named(path, name):
    """The value of a constant by its name in a file, which may take it from another."""
    text = text_of(path)
    found = re.search(rf"^\s*(?:pub )?const {name}: [^=]+ = ((?s:{STRING}|[^;\"])*?);", text, re.M)
    if found:
        return value_of(path, found[1])
    for home, module, names in re.findall(r"^use (crate|command_line)((?:::[a-z_]\w*)+)::(\{[^}]*\}|\w+);", text, re.M):
        if name in re.findall(r"\w+", names):
            return named(f"{HOMES[home]}{module.replace('::', '/')}.rt", name)
    raise SystemExit(f"{path} has no {name}, which its table of options names")


def value_of(path, text):
    """The value that an expression of the table has."""
    text = text.strip()
    if re.fullmatch(rf"(?s:{STRING})", text):
        return unescaped(text[1:-1])
    if text in ("None", "true", "false"):
        return {"None": None, "true": True, "false": False}[text]
    if text.startswith("Some('"):
        return text[6:-2]
    if text.startswith("&["):
        return tuple(value_of(path, it) for it in parts(text[2:-1]))
    made = re.fullmatch(r"(Row|Operand|Page) \{(.*)\}", text, re.S)
    if made:
        fields = (it.partition(":") for it in parts(made[2]))
        return globals()[made[1]](**{name.strip(): value_of(path, value) for name, _, value in fields})
    return named(path, text.rpartition("::")[2])


def pages():
    """The commands, in the order of the help."""
    listed = re.search(r"fn pages\(\).*?\n}", text_of("crates/fixed/src/commands.rt"), re.S)[0]
    for name in re.findall(r"(\w+)::page\(\)", listed):
        path = f"crates/fixed/src/commands/{name}.rt"
        made = re.search(r"^    (Page \{.*?^    \})$", text_of(path), re.M | re.S)
        yield value_of(path, made[1])


def shared(table):
    """Each option with the names of the commands that have it, in the order in which they come."""
    found = {}
    for page in table:
        for row in page.options:
            found.setdefault(row, []).append(page.name)
    return found


def quoted(text):
    """A word of a shell."""
    return "'" + text.replace("'", "'\\''") + "'"


# bash

def bash(table):
    names = [page.name for page in table]
    yield f"_fixed_commands='{' '.join(names)}'"
    yield f"_fixed_formats='{FORMATS}'"
    yield "# The options of a command."
    options_of = ((page.name, " ".join(f"--{it.name}" for it in page.options)) for page in table)
    yield from bash_cases("_fixed_options", options_of)
    yield "# What may be typed after an option of a command, where it takes a value."
    yield from bash_cases("_fixed_value", bash_values(table), "$1:$2")
    yield "# What may be typed at the places of a command: the last takes all that are left."
    places = ((page.name, " ".join(it.typed().replace(" ", "+") for it in page.operands)) for page in table)
    yield from bash_cases("_fixed_operands", (it for it in places if it[1]))


def bash_values(table):
    """Each option, of every command if it is the same in all that have it, with what may be typed after it."""
    rows = shared(table)
    for row, commands in rows.items():
        if row.value.startswith("[="):
            continue
        is_one = all(it.typed() == row.typed() for it in rows if it.name == row.name)
        for command in ["*"] if is_one else commands:
            yield f"{command}:--{row.name}", row.typed()
            if row.letter:
                yield f"{command}:-{row.letter}", row.typed()


def bash_cases(name, rows, word="$1"):
    """A function that writes what a row has, one case for those that have the same."""
    heads = {}
    for head, text in rows:
        heads.setdefault(text, {})[head] = None
    yield f"{name}() {{"
    yield f"  case {word} in"
    for text, found in heads.items():
        if text:
            lines = textwrap.wrap("\u00a0| ".join(found), 110, initial_indent="    ", subsequent_indent="      ")
            yield " \\\n".join(lines).replace("\u00a0", " ")
            yield f"      echo {quoted(text)} ;;"
    yield "  esac"
    yield "}"


def joined(lines):
    """Lines, each `echo` on the line of the case before it."""
    return re.sub(r"\n      (echo )", r") \1", "\n".join(lines)) + "\n"


# zsh

def zsh(table):
    yield "_fixed_commands=("
    yield from (f"  {quoted(f'{page.name}[{page.about}]')}" for page in table)
    yield ")"
    yield "_fixed_arguments() {"
    yield "  case $1 in"
    for page in table:
        yield f"    {page.name})"
        rows = [zsh_row(it) for it in page.options]
        rows += [zsh_operand(at, it, at == len(page.operands) - 1) for at, it in enumerate(page.operands)]
        yield "      _arguments " + " \\\n        ".join(rows or ["'*::'"])
        yield "      ;;"
    yield "  esac"
    yield "}"


def zsh_action(typed):
    """What zsh does to complete a word."""
    words = [it for it in typed.split() if not it.startswith("@")]
    actions = [f"words:word:({' '.join(words)})"] if words else []
    actions += [f"formats:format:({FORMATS})"] if "@formats" in typed else []
    actions += ["files:file:_files"] if "@files" in typed else []
    if "@columns" in typed:
        return "_fixed_columns"
    if len(actions) < 2:
        return actions[0].split(":", 2)[2] if actions else ""
    return "_alternative " + " ".join(f'"{it}"' for it in actions)


def zsh_row(row):
    told = row.help.replace("[", "\\[").replace("]", "\\]")
    action = zsh_action(row.typed())
    colons = "::" if row.value.startswith("[") else ":"
    value = f"{colons}{row.named().replace(':', ' ')}:{action}" if row.value else ""
    if not row.letter:
        many = "*" if row.value.endswith("...") else ""
        equals = "=-" if row.value.startswith("[=") else ""
        return quoted(f"{many}--{row.name}{equals}[{told}]{value}")
    return f"{{-{row.letter},--{row.name}}}" + quoted(f"[{told}]{value}")


def zsh_operand(at, operand, is_last):
    action = zsh_action(operand.typed())
    space = " " if action.startswith("_alternative") else ""
    return quoted(f"{'*' if is_last else at + 2}:{operand.name}:{space}{action}")


# fish

def fish(table):
    names = [page.name for page in table]
    yield f"set -l commands {' '.join(names)} help"
    yield "complete -c fixed -n \"not __fish_seen_subcommand_from $commands\" -f"
    yield from (f"complete -c fixed -n __fish_use_subcommand -a {page.name} -d {fished(page.about)}" for page in table)
    yield "complete -c fixed -n __fish_use_subcommand -a help -d 'Show the help of a command'"
    for row, commands in shared(table).items():
        letter = f" -s {row.letter}" if row.letter else ""
        yield f"{fish_seen(commands)}{letter} -l {row.name}{fish_value(row)} -d {fished(row.help)}"
    operands = {}
    for page in table:
        for it in page.operands:
            words = it.typed().replace("@formats", FORMATS)
            words = " ".join(each for each in words.split() if not each.startswith("@"))
            if words:
                operands.setdefault((words, "a format" if "@formats" in it.typed() else it.name), []).append(page.name)
    for (words, told), commands in operands.items():
        yield f"{fish_seen(dict.fromkeys(commands))} -a '{words}' -d {fished(told)}"


def fish_seen(commands):
    return f"complete -c fixed -n '__fish_seen_subcommand_from {' '.join(commands)}'"


def fish_value(row):
    typed = row.typed()
    if not typed or row.value.startswith("["):
        return ""
    if typed == "@files":
        return " -r"
    return " -x" if typed == "@any" else f" -x -a '{typed.replace('@formats', FORMATS)}'"


def fished(text):
    return "'" + text.replace("\\", "\\\\").replace("'", "\\'") + "'"


# the manual page

def synopsis(table):
    """How each command is called, in mdoc."""
    for page in table:
        for line in page.usage.split("\n"):
            words = line.replace("[OPTIONS]", "[options]").split()[2:]
            yield ".Nm"
            yield f".Cm {page.name}"
            yield from called(" ".join(words))
    yield ".Nm"
    yield ".Op Ar COMMAND"
    yield ".Fl -help | -version"
    yield ".Nm"
    yield ".Cm help"
    yield ".Op Ar COMMAND"


def called(text):
    """The words of a usage, a macro each; what is in brackets may be left out."""
    for it in re.findall(r"\[[^]]*\](?:\.\.\.)?|\([^)]*\)|\S+", text):
        rest = " ..." if it.endswith("...") else ""
        inner = it.removesuffix("...")
        if inner.startswith("["):
            yield f".Op {marked(inner[1:-1])}{rest}"
        elif inner.startswith("("):
            yield f".Po {marked(inner[1:-1])} Pc"
        else:
            yield f".{marked(inner)}{rest}"


def marked(text):
    """Words with the macros that say what they are."""
    def macro(word):
        if word.startswith("--"):
            return f"Fl {word[1:]}"
        if word == "|":
            return word
        return f"Ar {word}" if word.isupper() or word == "options" else f"Cm {word}"
    return " ".join(macro(it) for it in text.split())


def options(table):
    """The options, each with its values, what help says of it, and the commands that have it."""
    yield ".Bl -tag -width indent"
    for row, commands in shared(table).items():
        letter = f"Fl {row.letter} , " if row.letter else ""
        value = row.named() + (" ..." if row.value.endswith("...") else "")
        few = f"Cm {' | '.join(row.choices)}" if 0 < len(row.choices) < 7 else f"Ar {value}" if value else ""
        optional = "Ns Op = Ns " if row.value.startswith("[=") else "Op " if row.value.startswith("[") else ""
        yield f".It {letter}Fl -{row.name} {optional}{few}".rstrip()
        yield from prose(f"{row.help}.")
        yield from in_parentheses(commands)
    yield ".El"


def in_parentheses(commands, most=10):
    """The names of commands in parentheses, as many in a line as go there."""
    if len(commands) <= most:
        yield f".Pq Cm {' , '.join(commands)}"
        return
    yield ".Po"
    for i in range(0, len(commands), most):
        yield f".Cm {' , '.join(commands[i:i + most])}{' ,' if i + most < len(commands) else ''}"
    yield ".Pc"


def reason(page, option):
    """The letter of the reason why a command does not take an option for inputs; "+" if it takes it."""
    if option in {row.name for row in page.options}:
        return "+"
    letters = [letter for letter, commands in HOLES[option].items() if page.name in commands.split()]
    return letters[0] if len(letters) == 1 else None


def wrong_holes(table):
    """What is wrong in the reasons: holes without one, and reasons for what is no hole or no command."""
    readers = {page.name: page for page in table if page.name not in NO_INPUT}
    for option, reasons in HOLES.items():
        yield from (f"no one reason why {name} does not take --{option}" for name in readers if not reason(readers[name], option))
        told = [name for commands in reasons.values() for name in commands.split()]
        yield from (f"a reason why {name} does not take --{option}, and no such command" for name in told if name not in readers)
        yield from (f"a reason why {name} does not take --{option}, which it takes" for name in told
                    if name in readers and reason(readers[name], option) == "+")
    used = {letter for reasons in HOLES.values() for letter in reasons}
    yield from (f"a reason {letter} that no hole has" for letter in REASONS if letter not in used)
    yield from (f"no reason {letter}" for letter in sorted(used) if letter not in REASONS)


def grid(table):
    """The table "option by command" of the options for inputs, and the reasons of its holes."""
    heads = [HEADS.get(name, name) for name in HOLES]
    yield f".Bl -column constants {' '.join(heads)} -compact"
    yield f".It Ta {' Ta '.join(heads)}"
    for page in table:
        if page.name not in NO_INPUT:
            yield f".It {page.name} Ta {' Ta '.join(reason(page, option) for option in HOLES)}"
    yield ".El"
    yield ".Pp"
    yield ".Bl -tag -width 3n -compact"
    for letter, told in REASONS.items():
        yield f".It {letter}"
        yield from prose(told)
    yield ".El"


def told_otherwise(table, path):
    """The options of which the help of a command of the built program tells otherwise than the table."""
    if not path:
        print("fixed is not built, and so its help was not looked at")
        return
    for page in table:
        made = subprocess.run([path, page.name, "--help"], capture_output=True, check=True, text=True)
        shown = set(re.findall(r"^ +(?:-\w, )?--([a-z-]+)", made.stdout, re.M)) - {"help", "version"}
        names = {row.name for row in page.options}
        yield from (f"fixed {page.name}: the help has --{name}, and the table has not" for name in sorted(shown - names))
        yield from (f"fixed {page.name}: the table has --{name}, and the help has not" for name in sorted(names - shown))


def modes(table):
    """The rounding modes, with their names elsewhere, from the help of the command that lists them."""
    page = next(it for it in table if it.name == "modes")
    yield '.Bl -tag -width "ties-away"'
    for name, told, others in re.findall(r"^(\S+) +(.*)\n((?: +\S.*\n)*)", page.end.partition("\n\n")[0] + "\n", re.M):
        yield f".It Cm {name}"
        yield from prose(f"{told} ({' '.join(others.split())}).")
    yield ".El"


def prose(text):
    """A sentence as lines of mdoc."""
    lines = textwrap.wrap(text.replace("\\", "\\e"), WIDEST, break_on_hyphens=False, break_long_words=False)
    return (f"\\&{it}" if it[0] in ".'" else it for it in lines)


PRINTED = {
    ("completion/fixed.bash", "completions"): lambda table: joined(bash(table)),
    ("completion/_fixed", "completions"): lambda table: "\n".join(zsh(table)) + "\n",
    ("completion/fixed.fish", "completions"): lambda table: "\n".join(fish(table)) + "\n",
    ("man/fixed.1", "synopsis"): lambda table: "\n".join(synopsis(table)) + "\n",
    ("man/fixed.1", "options"): lambda table: "\n".join(options(table)) + "\n",
    ("man/fixed.1", "option by command"): lambda table: "\n".join(grid(table)) + "\n",
    ("man/fixed.1", "modes"): lambda table: "\n".join(modes(table)) + "\n",
}


def main():
    table = list(pages())
    wrong = list(wrong_holes(table))
    if "--built" in sys.argv:
        wrong += told_otherwise(table, program("fixed", sys.argv[sys.argv.index("--built") + 1]))
    for told in wrong:
        print(f".ci/options.py: {told}")
    if wrong or "--built" in sys.argv:
        return 1 if wrong else 0
    stale = []
    for (path, name), made in PRINTED.items():
        old = text_of(path)
        found = re.search(MARK.format(name), old, re.M)
        if not found:
            print(f"{path} has no part that is printed by make options: {name}")
            return 1
        first, last = (f"{found['mark']} {it} {name}\n" for it in ("printed by make options:", "end of"))
        new = old[:found.start()] + first + made(table) + last + old[found.end():]
        if new != old:
            stale.append(path)
            if "--check" not in sys.argv:
                with open(f"{TOP}/{path}", "w", encoding="utf-8") as file:
                    file.write(new)
    for path in dict.fromkeys(stale):
        print(f"{path}: not as the table of options; run make options" if "--check" in sys.argv else f"{path}: written")
    return 1 if stale and "--check" in sys.argv else 0


if __name__ == "__main__":
    sys.exit(main())
