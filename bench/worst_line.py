#!/usr/bin/env python3
"""Measures the dearest commands of `live`: bench/worst_line.py [--instr] PROGRAM [RUNS]

2,000 trains face up on one line, and each holds 254 restrictions. Then a stop and a restriction begin and end over all of the line, so that each
of these four commands sends a message to each train. Prints the least and the median of the answers to each command, in milliseconds, over so many
runs (7). With --instr it prints what callgrind counts of the four commands together, in millions of instructions. It needs valgrind for that.
"""

import re
import statistics
import subprocess
import sys
import tempfile
import time
from pathlib import Path

sys.path.insert(0, str(Path(__file__).resolve().parent.parent / "golden"))
sys.dont_write_bytecode = True

from generated import CROWD, report, text_of  # noqa: E402

LENGTH = 3_000_000  # of the line, in units of 10 cm
RESTRICTIONS = 254
TRACK = f'horizon = {LENGTH}\n[[line]]\nlength = {LENGTH}\n[[group]]\nnid = 1\nline = 0\nat = 0\nnominal = "up"\n'
COMMANDS = {"stop": "stop 1 0:0-3000000", "release": "release 1", "restrict": "restrict 255 0:0-3000000 up 40 1", "lift": "lift 255"}


def opening():
    """The lines that lead to the trains with their restrictions."""
    yield from (f"restrict {number} 0:0-{LENGTH} up 40 1" for number in range(1, RESTRICTIONS + 1))
    for engine in range(1, CROWD + 1):
        yield f"enrol {engine} 2000"
        yield report(engine, 1000, 1, 1000 + engine)


def timed(program, track):
    """The milliseconds from each command to the last line of its answer."""
    with subprocess.Popen([program, "live", "--track", track], stdin=subprocess.PIPE, stdout=subprocess.PIPE) as live:
        for line in opening():
            answer(live, line)
        for command in COMMANDS.values():
            began = time.perf_counter()
            if answer(live, command) != CROWD:
                sys.exit(f"{command} was not told to each train")
            yield (time.perf_counter() - began) * 1000
        live.stdin.close()


def answer(live, line):
    """Gives one line, reads its answer, and says how many messages that has."""
    live.stdin.write(text_of([line]))
    live.stdin.flush()
    _, kind, count = live.stdout.readline().split()
    for _ in range(int(count) if kind == b"ok" else 0):
        live.stdout.readline()
    return int(count) if kind == b"ok" else 0


def instructions(program, track, lines):
    """Millions of instructions for lines."""
    with tempfile.NamedTemporaryFile() as counts:
        words = ["valgrind", "--tool=callgrind", f"--callgrind-out-file={counts.name}", program, "live", "--track", track]
        ended = subprocess.run(words, input=text_of(lines), stdout=subprocess.DEVNULL, stderr=subprocess.PIPE, check=True)
    return int(re.search(rb"Collected : (\d+)", ended.stderr).group(1)) / 1e6


def main(words):
    counts = "--instr" in words
    program, *runs = [word for word in words if word != "--instr"] or sys.exit(__doc__)
    with tempfile.NamedTemporaryFile("w", suffix=".toml") as track:
        track.write(TRACK)
        track.flush()
        if counts:
            before = list(opening())
            all_lines = instructions(program, track.name, [*before, *COMMANDS.values()])
            print(f"{all_lines - instructions(program, track.name, before):.1f} million instructions for {', '.join(COMMANDS)}")
            return
        took = list(zip(*(timed(program, track.name) for _ in range(int(runs[0]) if runs else 7))))
    for command, times in zip(COMMANDS, took):
        print(f"{command}: {min(times):.2f} ms, median {statistics.median(times):.2f} ms")


if __name__ == "__main__":
    main(sys.argv[1:])
