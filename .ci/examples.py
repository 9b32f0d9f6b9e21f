#!/usr/bin/env python3
"""Runs each command that README.md and docs/ show, and compares what it writes with what they show: .ci/examples.py PROGRAM

    .ci/examples.py PROGRAM            prints each difference, and one line of summary; status 1 where there is a difference
    .ci/examples.py PROGRAM --write    first puts into the documents what the commands write

A command is a line of a fenced block that begins with `$ `, where the block's first line does. What follows it, to the next such
line or to the end of the block, is what it writes to standard output and standard error together. Commands run at the top of the
repository, by bash; `./dispatch` and `dispatch` are the program.
"""

import os
import re
import subprocess
import sys
import tempfile
from pathlib import Path

ROOT = Path(__file__).resolve().parent.parent
BLOCK = re.compile(r"^(```\w*\n)(\$ .*?)^```", flags=re.M | re.S)
SECONDS = 60  # no command takes so long


def documents():
    return [ROOT / "README.md"] + sorted((ROOT / "docs").glob("*.md"))


def commands(block):
    """Each command of a block with the text below it."""
    for part in re.split(r"^\$ ", block, flags=re.M)[1:]:
        command, _, shown = part.partition("\n")
        yield command, shown


def written(folder, command):
    """What a command writes."""
    path = f"{folder}:{os.environ['PATH']}"
    script = re.sub(r"(?<![\w/])\./dispatch\b", "dispatch", command)
    try:
        done = subprocess.run(
            ["bash", "-c", script],
            cwd=ROOT,
            env={**os.environ, "PATH": path},
            stdin=subprocess.DEVNULL,
            stdout=subprocess.PIPE,
            stderr=subprocess.STDOUT,
            timeout=SECONDS,
        )
    except subprocess.TimeoutExpired:
        return f"nothing more, and does not end in {SECONDS} s"
    return done.stdout.decode(errors="replace")


def renewed(folder, text):
    """A document's text with what its commands write now."""

    def renew(match):
        parts = [f"$ {command}\n{written(folder, command)}" for command, _ in commands(match.group(2))]
        return match.group(1) + "".join(parts) + "```"

    return BLOCK.sub(renew, text)


def differences(folder, text):
    """Each command that writes another text than is shown, and how many commands there are."""
    wrong, count = [], 0
    for match in BLOCK.finditer(text):
        for command, shown in commands(match.group(2)):
            count += 1
            now = written(folder, command)
            if now != shown:
                wrong.append(f"`{command}` writes {now[:300]!r}, and shown is {shown[:300]!r}")
    return wrong, count


def main():
    if len(sys.argv) not in (2, 3) or sys.argv[2:] not in ([], ["--write"]):
        sys.exit(__doc__)
    program = os.path.realpath(sys.argv[1])
    if not os.access(program, os.X_OK):
        print(f"examples: there is no program {sys.argv[1]}")
        return 2
    wrong = count = 0
    with tempfile.TemporaryDirectory() as folder:
        os.symlink(program, f"{folder}/dispatch")
        for document in documents():
            if sys.argv[2:]:
                document.write_text(renewed(folder, document.read_text()))
            faults, commands_there = differences(folder, document.read_text())
            count += commands_there
            wrong += len(faults)
            for fault in faults:
                print(f"examples: {document.relative_to(ROOT)}: {fault}")
    print(f"examples: {count - wrong} of {count} commands write what the documents show")
    return 1 if wrong or not count else 0


if __name__ == "__main__":
    sys.exit(main())
