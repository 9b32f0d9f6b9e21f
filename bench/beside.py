"""Sets the program beside another one, and prints a table: beside.py FOLDER RUNS OTHER PROGRAM

Times are the least wall ms of whole runs, in turn, with output to a file. The ratio is that of the program by one worker to the other program by
one. The exit status is 1 where an output differs.
"""

import glob
import hashlib
import os
import shutil
import subprocess
import sys
import tempfile
import time

# the columns of this program, and the words for each
WAYS = {"by 1": ("1",), "by 2": ("2",), "by 4": ("4",), "by train, 4": ("4", "--by-train")}


class Variant:
    """A program by a number of workers, in some way, and what its runs of one batch took: least wall ms."""

    def __init__(self, program, workers, *more):
        self.words = [program, "run", "--workers", workers, *more]
        self.least = float("inf")

    def run(self, name, output):
        """Runs a batch, and returns the digest of the output."""
        with open(f"{name}.batch", "rb") as given, open(output, "wb") as taken:
            start = time.perf_counter()
            process = subprocess.Popen([*self.words, "--track", f"{name}.toml"], stdin=given, stdout=taken)
            status = process.wait()
            self.least = min(self.least, 1e3 * (time.perf_counter() - start))
        if status:
            sys.exit(f"{' '.join(self.words)} on {name}: status {status}")
        with open(output, "rb") as it:
            return hashlib.sha256(it.read()).digest()

    def peak(self, name):
        """MB of one more run, by GNU time, which is smaller than this process; a dash where that is not there."""
        timer = shutil.which("time")
        if timer is None:
            return "-"
        words = [timer, "-f", "%M", *self.words, "--track", f"{name}.toml"]
        with open(f"{name}.batch", "rb") as given:
            ran = subprocess.run(words, stdin=given, stdout=subprocess.DEVNULL, stderr=subprocess.PIPE, check=True)
        return f"{int(ran.stderr.split()[-1]) / 1024:.0f}"


def row(name, runs, other, program, output):
    """The row of a batch, and whether all outputs were equal."""
    base = Variant(other, "1")
    ours = [Variant(program, *words) for words in WAYS.values()]
    digests = {variant.run(name, output) for _ in range(runs) for variant in [base, *ours]}
    times = [f"{variant.least:.0f}" for variant in ours]
    cells = [os.path.basename(name), f"{base.least:.0f}", *times, f"{ours[0].least / base.least:.1f}"]
    cells += [f"{ours[0].least / ours[-1].least:.2f}", f"{ours[0].peak(name)} : {base.peak(name)}"]
    return f"| {' | '.join(cells)} |", len(digests) == 1


def main(folder, runs, other, program):
    print(f"| batch | the other | {' | '.join(WAYS)} | ratio by one | 1 : 4 by train | peak MB |")
    print("|---|---|---|---|---|---|---|---|---|")
    equal = True
    with tempfile.TemporaryDirectory() as room:
        for batch in sorted(glob.glob(f"{folder}/*.batch")):
            text, same = row(batch.removesuffix(".batch"), runs, other, program, f"{room}/output")
            print(text, flush=True)
            equal = equal and same
    print("all outputs were equal" if equal else "AN OUTPUT DIFFERS")
    sys.exit(0 if equal else 1)


if __name__ == "__main__":
    main(sys.argv[1], int(sys.argv[2]), sys.argv[3], sys.argv[4])
