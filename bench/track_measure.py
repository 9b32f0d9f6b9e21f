"""Measures what a run of one line costs on tracks of several sizes: track_measure.py FOLDER RUNS PROGRAM"""

import random
import statistics
import subprocess
import sys
import time
from pathlib import Path

SEED = 20
SIZES = [(1, 0), (2, 1_000), (64, 8_000)]


def track(lines, groups):
    """A track of so many lines of 300 km, with so many balise groups in no order."""
    choose = random.Random(SEED)
    parts = ["horizon = 100000\n"]
    parts += ["[[line]]\nlength = 3000000\n"] * lines
    for nid in choose.sample(range(16_777_215), groups):
        line, at = choose.randrange(lines), choose.randrange(3_000_001)
        nominal = choose.choice(["up", "down"])
        parts.append(f'[[group]]\nnid = {nid}\nline = {line}\nat = {at}\nnominal = "{nominal}"\n')
    return "".join(parts)


def milliseconds(program, path):
    """How long a run of one line takes on a track."""
    began = time.perf_counter()
    done = subprocess.run([program, "run", "--track", path], input=b"enrol 7 2000\n", capture_output=True, check=True)
    taken = time.perf_counter() - began
    if done.stdout != b"1 ok 0\n":
        sys.exit(f"the output is wrong: {done.stdout[:80]!r}")
    return 1_000 * taken


def main():
    folder, runs, program = Path(sys.argv[1]), int(sys.argv[2]), sys.argv[3]
    folder.mkdir(exist_ok=True)
    print("| lines | balise groups | bytes | least ms | median ms |\n|---|---|---|---|---|")
    for lines, groups in SIZES:
        path = folder / f"track-{lines}-{groups}.toml"
        path.write_text(track(lines, groups))
        taken = [milliseconds(program, path) for _ in range(runs)]
        print(f"| {lines} | {groups:,} | {path.stat().st_size:,} | {min(taken):.1f} | {statistics.median(taken):.1f} |")


main()
