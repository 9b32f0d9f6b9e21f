"""Measures what a report of a train costs as other things grow: growth.py FOLDER RUNS PROGRAM

Each table changes one thing, in three sizes: how many reports a batch has, how many trains there are, how many stops, how many stops of
eight segments and how many restrictions are active on other lines, and how many restrictions a lone train holds that lie ahead of it. Trains stand on
line 0. What a report costs is the processor time of a batch with reports less that of
the same batch without them, divided by their number; least and median of the runs. Where valgrind is installed, the instructions that a
report takes stand beside it, which no other program on the machine changes.
"""

import os
import re
import shutil
import statistics
import subprocess
import sys

from loads import Random, spelled

LINES, LENGTH = 64, 3_000_000
GROUPS = 100  # on line 0
SEGMENTS = 8  # the most that a stop has
REPORTS, TRAINS, STOPS, LONG_STOPS, RESTRICTIONS = 60_000, 500, 20, 0, 100  # where nothing else is said
COUNTED = 5  # one report in so many is enough where instructions are counted
SIZES = {
    "reports": (10_000, 30_000, 90_000),
    "trains": (100, 500, 2_000),
    "stops": (0, 20, 63),
    "stops of 8 segments": (0, 20, 43),
    "restrictions": (0, 100, 299),
}
HELD = (0, 100, 255)  # a train holds at most 255 restrictions


def track():
    """A track of lines of 300 km, with all balise groups on line 0."""
    text = ["horizon = 100000\n"] + [f"[[line]]\nlength = {LENGTH}\n"] * LINES
    for nid in range(GROUPS):
        text.append(f'[[group]]\nnid = {nid}\nline = 0\nat = {nid * LENGTH // GROUPS}\nnominal = "up"\n')
    return "".join(text)


def report(engine, stamp, group, distance):
    """A line with message 136: a train some way behind a balise group, facing up."""
    position = [(0, 8), (114, 13), (0, 2), (group, 24), (distance, 15), (1, 2), (1, 2), (100, 15), (100, 15)]
    rest = [(0, 2), (0, 7), (1, 2), (0, 4), (2, 3)]
    return f"recv {spelled(136, [(stamp, 32), (engine, 24), *position, *rest]).hex().upper()}\n"


def elsewhere(random):
    """A stretch of 100 m of a line without trains."""
    low = random.below(LENGTH - 1_000)
    return f"{random.between(1, LINES - 1)}:{low}-{low + 1_000}"


def batch(reports, trains, stops, long_stops, restrictions):
    """Enrolments, stops and restrictions on other lines, one report of each train, and then so many more."""
    random = Random("growth", trains, stops, restrictions)
    lines = [f"enrol {engine} 2000\n" for engine in range(trains)]
    lines += [report(engine, 1, random.below(GROUPS), random.below(30_000)) for engine in range(trains)]
    for number in range(1, stops + long_stops + 1):
        area = " ".join(elsewhere(random) for _ in range(1 if number <= stops else SEGMENTS))
        lines.append(f"stop {number} {area}\n")
    for number in range(1, restrictions + 1):
        lines.append(f"restrict {number} {elsewhere(random)} both 40 1\n")
    for at in range(reports):
        lines.append(report(at % trains, 2 + at, random.below(GROUPS), random.below(30_000)))
    return "".join(lines)


def lone(reports, held):
    """A train that was told restrictions ahead of it, and so many reports of it."""
    lines = ["enrol 0 2000\n", report(0, 1, 1, 1_000)]
    for number in range(1, held + 1):
        low = 40_000 + 300 * number
        lines.append(f"restrict {number} 0:{low}-{low + 200} both 40 1\n")
    lines += [report(0, 1_000 + at, 1, 1_000 + at % 50) for at in range(reports)]
    return "".join(lines)


def seconds(program, folder, text):
    """The processor time of a run of a batch."""
    with open(f"{folder}/growth.batch", "w", encoding="ascii") as it:
        it.write(text)
    words = [program, "run", "--track", f"{folder}/growth.toml"]
    with open(f"{folder}/growth.batch", "rb") as given:
        process = subprocess.Popen(words, stdin=given, stdout=subprocess.DEVNULL)
        _, status, usage = os.wait4(process.pid, 0)
    if status != 0:
        sys.exit(f"the program ended with status {os.waitstatus_to_exitcode(status)}")
    return usage.ru_utime + usage.ru_stime


def nanoseconds(program, folder, runs, make, reports):
    """What a report costs, in each run. `make` makes a batch with so many reports."""
    empty, full = make(0), make(reports)
    return [1e9 * (seconds(program, folder, full) - seconds(program, folder, empty)) / reports for _ in range(runs)]


def counted(program, folder, text):
    """The instructions of a run of a batch, by callgrind."""
    with open(f"{folder}/growth.batch", "w", encoding="ascii") as it:
        it.write(text)
    words = ["valgrind", "--tool=callgrind", "--callgrind-out-file=/dev/null", program, "run", "--track", f"{folder}/growth.toml"]
    with open(f"{folder}/growth.batch", "rb") as given:
        told = subprocess.run(words, stdin=given, stdout=subprocess.DEVNULL, stderr=subprocess.PIPE, check=True).stderr
    return int(re.search(rb"Collected : (\d+)", told).group(1))


def instructions(program, folder, make, reports):
    """How many instructions a report takes, or a dash where there is no valgrind."""
    if not shutil.which("valgrind"):
        return "-"
    reports = reports // COUNTED
    more = counted(program, folder, make(reports)) - counted(program, folder, make(0))
    return f"{more / reports:,.0f}"


def measure(program, folder, runs, name, value, make, reports):
    """Prints a row of the table."""
    found = nanoseconds(program, folder, runs, make, reports)
    beside = instructions(program, folder, make, reports)
    print(f"| {name} | {value:,} | {min(found):.0f} / {statistics.median(found):.0f} | {beside} |", flush=True)


def main(folder, runs, program):
    os.makedirs(folder, exist_ok=True)
    with open(f"{folder}/growth.toml", "w", encoding="ascii") as it:
        it.write(track())
    print("| what grows | to | ns a report, least / median | instructions a report |\n|---|---|---|---|")
    for at, (name, values) in enumerate(SIZES.items()):
        for value in values:
            sizes = [REPORTS, TRAINS, STOPS, LONG_STOPS, RESTRICTIONS]
            sizes[at] = value
            measure(program, folder, runs, name, value, lambda reports, more=sizes[1:]: batch(reports, *more), sizes[0])
    for held in HELD:
        measure(program, folder, runs, "restrictions held", held, lambda reports, held=held: lone(reports, held), REPORTS)


if __name__ == "__main__":
    main(sys.argv[1], int(sys.argv[2]), sys.argv[3])
