#!/usr/bin/env python3
"""Makes the man pages of the program from its help texts: docs/man_page.py PROGRAM [FOLDER]

FOLDER is docs/ where none is named. There is a page for the program and one for each subcommand. The selftest compares those of docs/ with what
the program's help texts give now. docs/completions.py takes its words from here.
"""

import re
import subprocess
import sys
from collections import namedtuple
from pathlib import Path

# a subcommand: its name, the first line of its help, its usage, its arguments and options, and the paragraphs of its help
Command = namedtuple("Command", "name about usage arguments options texts")
# an option or an argument: its words, as `-h`, `--help` or `--track`; what its value is called, or nothing; what it does; and `?` or `*` for an
# argument that may be left out, or be there many times
Option = namedtuple("Option", "words value does count")

LISTS = ("Commands:", "Arguments:", "Options:")
EXAMPLE = re.compile(r"(?:\S[^:]*:)? +(dispatch .*?)(?: {2,}(\S.*))?")
STATUS = re.compile(r"(?:^|; )(\d) (.*?)(?=; \d |\. |\.$)")
DOCUMENTS = "/usr/local/share/doc/dispatch"  # `make install` writes its own PREFIX here


# ---- help texts

def said(program, *words):
    return subprocess.run([program, *words], capture_output=True, text=True, check=True).stdout


def paragraphs(text):
    return [part.split("\n") for part in re.split(r"\n{2,}", text.strip("\n"))]


def listed(parts, title):
    """The lines below a title, each as its words and what is said of them. A line that is set farther in goes on with the one above."""
    rows = []
    for part in parts:
        if part[0] != title:
            continue
        for line in part[1:]:
            words, _, does = line.strip().partition("  ")
            if does or len(line) - len(line.lstrip()) < 10:
                rows.append((words, does.strip()))
            else:
                rows[-1] = (rows[-1][0], f"{rows[-1][1]} {words}".strip())
    return rows


def options(parts, title):
    """The options or arguments below a title."""
    for words, does in listed(parts, title):
        value = re.search(r"[<[](\w+)[]>]", words)
        count = "*" if words.endswith("...") else "?" if words.startswith("[") else ""
        yield Option(re.findall(r"--?[\w-]+", words), value and value[1], does, count)


def command(program, name):
    """What the help of a subcommand says."""
    parts = paragraphs(said(program, name, "--help"))
    usage = next(part for part in parts if part[0].startswith("Usage:"))
    texts = [part for part in parts[1:] if part is not usage and part[0] not in LISTS]
    words = " ".join(usage).removeprefix("Usage: ")
    return Command(name, parts[0][0], words, [*options(parts, "Arguments:")], [*options(parts, "Options:")], texts)


def commands(program):
    """The subcommands that the program's help lists, but for `help`."""
    parts = paragraphs(said(program, "--help"))
    return [command(program, name) for name, _ in listed(parts, "Commands:") if name != "help"]


# ---- roff

def plain(text):
    """A text as roff has it; words in backticks are bold."""
    text = text.replace("\\", "\\e").replace("-", "\\-")
    text = re.sub(r"`([^`]+)`", r"\\fB\1\\fR", text)
    return f"\\&{text}" if text[:1] in (".", "'") else text


def usage_of(words):
    """A usage: names of values are slanted, and the rest is bold."""
    values = [re.sub(r"<(\w+)>", r"\\fI\1\\fR", plain(word)) if word[0] in "<[" else f"\\fB{plain(word)}\\fR" for word in words.split()]
    return " ".join(values)


def as_it_stands(lines):
    return [".nf", *map(plain, lines), ".fi"]


def text_of(part):
    """A paragraph: lines that are set in stand as they are, the others are filled."""
    lines, row = [".PP"], []
    for line in part:
        if line.startswith("  "):
            row.append(line)
        else:
            lines += [*as_it_stands(row), *([plain(line)])] if row else [plain(line)]
            row = []
    return lines + (as_it_stands(row) if row else [])


def items(rows):
    """A list: what is named, and what is said of it."""
    return [line for name, does in rows for line in (".TP", name, plain(does) or "\\&")]


def option_items(found):
    rows = []
    for option in found:
        words = ", ".join(f"\\fB{plain(word)}\\fR" for word in option.words)
        rows.append((" ".join(filter(None, [words, option.value and f"\\fI{option.value}\\fR"])), option.does))
    return items(rows)


def section(title, lines):
    return [f".SH {title}", *lines] if lines else []


def heading(program, name, about):
    version = said(program, "--version").strip()
    return [f'.TH {plain(name).upper()} 1 "" "{version}" "Dispatch"', ".SH NAME", f"{plain(name)} \\- {plain(about)}"]


def statuses(found):
    """The exit statuses of a subcommand, and what stands behind them."""
    for part in found.texts:
        text = " ".join(part)
        if text.startswith("Exit status: "):
            text = text.removeprefix("Exit status: ")
            rows = list(STATUS.finditer(text))
            rest = text[rows[-1].end() :].lstrip(". ")
            return items((match[1], f"{match[2]}.") for match in rows) + ([".PP", plain(rest)] if rest else [])
    return []


def examples(program, name=None):
    """The commands that the end of the program's help shows: all, or those of a subcommand."""
    about, rows = {found.name: found.about for found in commands(program)}, []
    for line in paragraphs(said(program, "--help"))[-1]:
        match = EXAMPLE.fullmatch(line)
        if match and name in (None, match[1].split()[1]):
            rows.append((f"\\fB{plain(match[1])}\\fR", match[2] or about[match[1].split()[1]]))
    return items(rows)


def is_example(part):
    return part[0].startswith("  dispatch ") and all(line.startswith("  ") for line in part)


def see_also(*names):
    pages_of = ", ".join(f"\\fB{plain(name)}\\fR(1)" for name in names)
    return section("SEE ALSO", [pages_of, ".PP", ".nf", f"{DOCUMENTS}/README.md", f"{DOCUMENTS}/docs/GUIDE.md", ".fi"])


def main_page(program):
    """The page of the program."""
    about, *parts = paragraphs(said(program, "--help"))
    found = commands(program)
    names = [f"dispatch-{command.name}" for command in found]
    track = next(option.does for option in found[0].options if option.value == "FILE")
    return [
        *heading(program, "dispatch", about[0]),
        *section("SYNOPSIS", [line for command in found for line in (usage_of(command.usage), ".br")][:-1]),
        *section("DESCRIPTION", [
            "\\fBdispatch\\fR turns a signaller's closures and speed restrictions into the ETCS messages for every train that they concern, and",
            "keeps track of who was told and who has acknowledged. Each subcommand has a page of its own.",
        ]),
        *section("COMMANDS", items((f"\\fB{plain(name)}\\fR(1)", command.about) for name, command in zip(names, found))),
        *section("OPTIONS", option_items(options(parts, "Options:"))),
        *section("FILES", [
            *items([
                ("\\fIFILE\\fR", f"{track}. The program needs no other file, and writes none."),
                ("\\fIBATCH\\fR", "The inputs, one a line, on standard input."),
                (f"{DOCUMENTS}/examples/", "Track files and batches to try."),
                (f"{DOCUMENTS}/docs/", "GUIDE.md has the track file, FORMATS.md the lines of a batch and of each output."),
            ]),
        ]),
        *section("EXIT STATUS", [*statuses(found[0]), ".PP", "The page of each subcommand has its own."]),
        *section("EXAMPLES", examples(program)),
        *see_also(*names),
    ]


def page(program, found):
    """The page of a subcommand."""
    texts = [part for part in found.texts if not part[0].startswith("Exit status: ")]
    shown = [line for part in texts if is_example(part) for line in (".PP", *as_it_stands(line[2:] for line in part))]
    return [
        *heading(program, f"dispatch-{found.name}", found.about),
        *section("SYNOPSIS", [usage_of(found.usage)]),
        *section("DESCRIPTION", [line for part in texts if not is_example(part) for line in text_of(part)][1:]),
        *section("ARGUMENTS", option_items(found.arguments)),
        *section("OPTIONS", option_items(found.options)),
        *section("EXIT STATUS", statuses(found)),
        *section("EXAMPLES", examples(program, found.name) + shown),
        *see_also("dispatch"),
    ]


def pages(program):
    """The name of each page, and its text."""
    made = {"dispatch.1": main_page(program)}
    for found in commands(program):
        made[f"dispatch-{found.name}.1"] = page(program, found)
    return {name: "\n".join(lines) + "\n" for name, lines in made.items()}


def main():
    if len(sys.argv) not in (2, 3):
        sys.exit(__doc__)
    folder = Path(sys.argv[2]) if sys.argv[2:] else Path(__file__).resolve().parent
    for name, text in pages(sys.argv[1]).items():
        (folder / name).write_text(text)


if __name__ == "__main__":
    main()
