"""Measures the program on each batch of a folder, and prints a table and whether the bars were met.

Called as `python3 measure.py FOLDER RUNS PROGRAM`. Output goes to a file of the folder, so times hold
what writing it costs. The exit status says nothing of the bars.
"""

import os
import shutil
import statistics
import subprocess
import sys
import time

import loads

SHORT = 0.2  # seconds; a shorter run is made MORE times as often
MORE = 5
RATIO_BAR = 1.3
FULL_BAR, FEEDS_BAR = 2.0, 8.0  # seconds
MEMORY_FACTOR, MEMORY_REST = 8, 32 * 10**6  # bytes for each byte of batch and output, and in all
CHUNK = 2**20


class Row:
    """What was measured on a batch: times in seconds, and sizes in bytes."""

    def __init__(self, name, folder, runs, program):
        self.name = name
        self.batch, self.output = f"{folder}/{name}.batch", f"{folder}/output"
        self.words = [program, "run", "--track", f"{folder}/wide.toml"]
        self.times, self.statuses = [], set()
        planned = runs
        while len(self.times) < planned:
            self.times.append(self.run())
            if len(self.times) == runs and max(self.times) < SHORT:
                planned = MORE * runs
        self.least, self.median = min(self.times), statistics.median(self.times)
        self.bytes_in, self.bytes_out = map(os.path.getsize, (self.batch, self.output))
        self.lines = self.count_lines()
        self.peak = self.peak_memory()
        os.remove(self.output)

    def run(self):
        with open(self.batch, "rb") as given, open(self.output, "wb") as taken:
            start = time.perf_counter()
            ran = subprocess.run(self.words, stdin=given, stdout=taken, check=False)
            seconds = time.perf_counter() - start
        self.statuses.add(ran.returncode)
        return seconds

    def count_lines(self):
        with open(self.batch, "rb") as it:
            return sum(chunk.count(b"\n") for chunk in iter(lambda: it.read(CHUNK), b""))

    def peak_memory(self):
        """The largest resident set of one more run. Without GNU time it is at least this process's own."""
        timer = [shutil.which("time"), "-f", "%M"]
        if timer[0]:
            with open(self.batch, "rb") as given, open(self.output, "wb") as taken:
                ran = subprocess.run(
                    [*timer, *self.words], stdin=given, stdout=taken, stderr=subprocess.PIPE, check=False
                )
            said = ran.stderr.split()
            if said and said[-1].isdigit():
                return 1024 * int(said[-1])
        with open(self.batch, "rb") as given, open(self.output, "wb") as taken:
            started = subprocess.Popen(self.words, stdin=given, stdout=taken)
            _, status, usage = os.wait4(started.pid, 0)
        started.returncode = os.waitstatus_to_exitcode(status)
        return 1024 * usage.ru_maxrss

    def per_line(self, start=0.0):
        """Seconds for each line, of the least time without the start."""
        return (self.least - start) / max(self.lines, 1)

    def memory_ratio(self):
        return self.peak / max(self.bytes_in + self.bytes_out, 1)

    def memory_bar(self):
        return MEMORY_FACTOR * (self.bytes_in + self.bytes_out) + MEMORY_REST


def shown(row):
    cells = [row.name, f"{row.lines:,}", f"{row.bytes_in:,}", f"{row.bytes_out:,}"]
    cells += [f"{1e3 * row.least:.1f}", f"{1e3 * row.median:.1f}", str(len(row.times))]
    cells += [f"{1e9 * row.per_line():.0f}" if row.lines else "", f"{row.peak / 1e6:.1f}"]
    cells += [f"{row.memory_ratio():.2f}" if row.bytes_in else ""]
    return f"| {' | '.join(cells)} |"


def judged(what, found, bar, unit=""):
    verdict = "met" if found <= bar else "MISSED"
    print(f"{verdict}: {what}: {found:.2f}{unit}, at most {bar:.2f}{unit}")


def main(folder, runs, program):
    print("| batch | lines | bytes in | bytes out | least ms | median ms | runs | ns per line | peak MB | peak : bytes |")
    print("|---|---|---|---|---|---|---|---|---|---|")
    rows = {}
    for name, _ in loads.batches():
        rows[name] = Row(name, folder, runs, program)
        print(shown(rows[name]), flush=True)
    print()
    failed = [f"{name} {sorted(row.statuses)}" for name, row in rows.items() if row.statuses != {0}]
    if failed:
        print(f"no bar is judged, since these ended with another exit status than 0: {', '.join(failed)}")
        return
    start, (few, _, many) = rows["empty"].least, loads.SIZES
    for kind in ("mixed", "wrong"):
        ratio = rows[f"{kind}-{many}"].per_line(start) / rows[f"{kind}-{few}"].per_line(start)
        judged(f"{kind}: cost of a line at {many:,} : at {few:,}, without the start", ratio, RATIO_BAR)
    judged("full: median", rows["full"].median, FULL_BAR, " s")
    judged("feeds: median", rows["feeds"].median, FEEDS_BAR, " s")
    worst = max(rows.values(), key=lambda row: row.peak / row.memory_bar())
    what = f"peak memory, most on {worst.name}, of {MEMORY_FACTOR} times batch and output and {MEMORY_REST // 10**6} MB"
    judged(what, worst.peak / 1e6, worst.memory_bar() / 1e6, " MB")


if __name__ == "__main__":
    main(sys.argv[1], int(sys.argv[2]), sys.argv[3])
