"""Finds from how many identifiers on several workers that share messages by train are faster than one.

Called as `python3 crossover.py FOLDER RUNS PROGRAM`. For each number of restrictions it writes a batch to FOLDER: 2,000
trains are enrolled, so many restrictions begin, each train reports that it stands where they concern it, and then come
60,000 more reports. It prints the least time of each number of workers with `--by-train` over RUNS runs, in turn, and how
many messages `--stats` shows in windows with 4 workers. All outputs are compared.
"""

import os
import re
import subprocess
import sys
import time

from loads import Random, spelled

TRAINS, REPORTS = 2_000, 60_000
RESTRICTIONS = (0, 16, 32, 64, 128, 255)
WORKERS = (1, 2, 4)
LENGTH = 3_000_000  # of the line, in units of 10 cm
TRACK = f"horizon = 100000\n[[line]]\nlength = {LENGTH}\n" + "".join(
    f"[[group]]\nnid = {number + 1}\nline = 0\nat = {number * 20_000}\nnominal = \"up\"\n" for number in range(LENGTH // 20_000)
)


def report(random, engine, stamp):
    """A report of a train that faces up, some way ahead of one of the balise groups in the middle of the line."""
    fields = [(stamp, 32), (engine, 24), (0, 8), (114, 13), (0, 2), (random.between(51, 100), 24), (random.below(19_000), 15),
              (1, 2), (1, 2), (100, 15), (100, 15), (0, 2), (40, 7), (1, 2), (0, 4), (2, 3)]
    return b"recv " + spelled(136, fields).hex().upper().encode()


def batch(restrictions):
    """The lines of a batch in which so many restrictions concern each train."""
    random = Random("crossover", restrictions)
    engines = random.some_of(2**24, TRAINS)
    lines = [b"enrol %d %d" % (engine, random.between(1, 5_000)) for engine in engines]
    stamps = {engine: 1_000 for engine in engines}

    def one(engine):
        stamps[engine] += random.between(100, 1_000)
        return report(random, engine, stamps[engine])

    lines += [b"restrict %d 0:%d-%d both %d 1" % (number, 900_000 + number, 2_100_000 + number, 5 * random.between(2, 60))
              for number in range(1, restrictions + 1)]
    lines += [one(engine) for engine in engines]
    lines += [one(random.one_of(engines)) for _ in range(REPORTS)]
    return b"\n".join(lines) + b"\n"


def seconds(program, folder, name, workers):
    with open(f"{folder}/{name}.batch", "rb") as source, open(f"{folder}/{name}.out.{workers}", "wb") as out:
        begun = time.monotonic()
        words = [program, "run", "--stats", "--track", f"{folder}/crossover.toml", "--by-train", "--workers", str(workers)]
        ran = subprocess.run(words, stdin=source, stdout=out, stderr=subprocess.PIPE, check=True, text=True)
        took = time.monotonic() - begun
        return took, re.search(r"^shared by train: (.*)$", ran.stderr, re.MULTILINE)[1]


def main(folder, runs, program):
    os.makedirs(folder, exist_ok=True)
    with open(f"{folder}/crossover.toml", "w") as file:
        file.write(TRACK)
    print("| restrictions | " + " | ".join(f"{workers} workers, s" for workers in WORKERS) + " | windows |")
    print("|" + "---|" * (len(WORKERS) + 2))
    for restrictions in RESTRICTIONS:
        name = f"crossover-{restrictions}"
        with open(f"{folder}/{name}.batch", "wb") as file:
            file.write(batch(restrictions))
        least, said = dict.fromkeys(WORKERS, float("inf")), ""
        for _ in range(runs):
            for workers in WORKERS:
                took, said = seconds(program, folder, name, workers)
                least[workers] = min(least[workers], took)
        outputs = {open(f"{folder}/{name}.out.{workers}", "rb").read() for workers in WORKERS}
        if len(outputs) != 1:
            sys.exit(f"crossover: the outputs for {restrictions} restrictions differ")
        print(f"| {restrictions} | " + " | ".join(f"{least[workers]:.3f}" for workers in WORKERS) + f" | {said} |", flush=True)


if __name__ == "__main__":
    main(sys.argv[1], int(sys.argv[2]), sys.argv[3])
