"""Runs random batches by several workers for a given time: soak.py ROOT SECONDS SEED PROCESSES

bench/soak.sh tells what it does and prints.
"""

import collections
import concurrent.futures
import os
import re
import statistics
import subprocess
import sys
import tempfile
import time

from loads import Random
from soak_batches import PROFILES, made

from program import program_of

WORKERS = (1, 2, 4, 16)
# the words by which the program runs each batch: one worker, several on the book, and several by train
WAYS = [("--workers", str(count), *more) for more in ((), ("--by-train",)) for count in WORKERS if count > 1 or not more]
SIZES = (50, 300, 300, 1_000, 3_000, 20_000)  # lines of a batch
LONG = 20  # seconds that one process runs one batch over and over, so that its memory is seen to stay
PAUSE = 0.01  # seconds between two looks at the memory of a process
PATIENCE = 3_600  # seconds that no run takes, on a busy machine too
SLACK = 4 * 1024  # KiB that memory may grow by in a process that does the same over and over
# The C library keeps freed memory in up to eight arenas a processor, and threads that come and go fill one after the other. In one arena what grows is
# the program's own.
ONE_ARENA = {**os.environ, "MALLOC_ARENA_MAX": "1"}

Ended = collections.namedtuple("Ended", "status output errors looks seconds")
Batch = collections.namedtuple("Batch", "name lines track text")


def resident(pid):
    """KiB of memory that a process has."""
    with open(f"/proc/{pid}/statm", encoding="ascii") as it:
        return int(it.read().split()[1]) * os.sysconf("SC_PAGE_SIZE") // 1024


def run(words, folder, text=b"", environment=None):
    """Runs a program, and looks at its memory meanwhile."""
    with tempfile.TemporaryFile() as source, tempfile.TemporaryFile() as output, tempfile.TemporaryFile() as errors:
        source.write(text)
        source.seek(0)
        begun, looks = time.monotonic(), []
        with subprocess.Popen(words, cwd=folder, stdin=source, stdout=output, stderr=errors, env=environment) as it:
            while it.poll() is None:
                looks.append(resident(it.pid))
                if time.monotonic() - begun > PATIENCE:
                    it.kill()
                time.sleep(PAUSE)
        output.seek(0)
        errors.seek(0)
        return Ended(it.returncode, output.read(), errors.read(), looks, time.monotonic() - begun)


class Soak:
    """The programs, and what came of their runs so far."""

    def __init__(self, root, seed, processes, folder):
        self.dispatch = program_of(root)
        self.golden = f"{root}/crates/rbc_tests/out/rbc_tests"
        self.seed, self.folder = seed, folder
        self.pool = concurrent.futures.ThreadPoolExecutor(processes)
        self.counts = collections.Counter()
        self.peak = 0  # KiB
        self.growth = 0  # KiB, of one process
        self.again = 0  # inputs that were recomputed

    def note(self, ended, is_right, what):
        """Counts a run."""
        self.counts["runs"] += 1
        self.peak = max([self.peak, *ended.looks])
        if not is_right:
            self.counts["wrong"] += 1
            print(f"soak: {what}: status {ended.status}, {ended.errors[:300]}", file=sys.stderr, flush=True)

    def batch(self, profile, number):
        """A batch of a round, and its track in the folder."""
        seed = f"{self.seed}-{number}"
        lines = Random("soak size", profile, seed).one_of(SIZES)
        track, text = made(profile, seed, lines)
        name = f"{profile}-{seed}"
        self.write(f"{name}.toml", track)
        self.write(f"{name}.batch", text)
        self.counts["batches"] += 1
        self.counts["lines"] += text.count(b"\n")
        return Batch(name, lines, f"{name}.toml", text)

    def write(self, name, text):
        with open(f"{self.folder}/{name}", "wb") as it:
            it.write(text)

    def by_program(self, batch):
        """Runs a batch by the program, in each way side by side; the outputs have to be equal, and are what is expected."""
        words = [self.dispatch, "run", "--track", batch.track]
        all_ended = list(self.pool.map(lambda way: run([*words, *way], self.folder, batch.text), WAYS))
        output = all_ended[0].output
        for way, ended in zip(WAYS, all_ended):
            is_right = ended.status == 0 and ended.output == output and not ended.errors
            self.note(ended, is_right and (output != b"") == (batch.text != b""), f"{batch.name} of {batch.lines} lines, {' '.join(way)}")
        self.write(f"{batch.name}.expected", output)

    def by_golden(self, batches, runs, workers, environment=None):
        """Runs batches so often by so many workers, on a locked book and in windows."""
        with tempfile.TemporaryDirectory(dir=self.folder) as cases:
            for batch in batches:
                for ending in ("toml", "batch", "expected"):
                    os.symlink(f"{self.folder}/{batch.name}.{ending}", f"{cases}/{batch.name}.{ending}")
            with open(f"{cases}/cases.txt", "w", encoding="ascii") as it:
                it.writelines(f"{batch.name} {batch.track}\n" for batch in batches)
            ended = run([self.golden, str(runs), str(workers)], cases, environment=environment)
        wanted = b"".join(rb"%s on %s right, \d+ windows\n" % (re.escape(batch.name.encode()), re.escape(batch.track.encode())) for batch in batches)
        names = " ".join(f"{batch.name} of {batch.lines} lines" for batch in batches)
        for line in ended.errors.splitlines():
            if line.endswith(b" inputs recomputed"):
                self.again += int(line.split()[0])
        return ended, ended.status == 0 and re.fullmatch(wanted, ended.output) is not None, f"{names}, {workers} workers, {runs} runs each"

    def over_and_over(self, batch, workers):
        """Runs a batch by one process for some time, in one arena. Its memory in the last third of the time must be that in the first third, by the
        median: a moment in which one worker waits for a processor makes a stretch longer, and its log too."""
        once, is_right, what = self.by_golden([batch], 1, workers)
        self.note(once, is_right, what)
        runs = max(6, int(LONG / max(once.seconds, 0.002)))
        ended, is_right, what = self.by_golden([batch], runs, workers, ONE_ARENA)
        third = len(ended.looks) // 3
        if third:
            grown = int(statistics.median(ended.looks[-third:]) - statistics.median(ended.looks[:third]))
            self.growth = max(self.growth, grown)
            is_right = is_right and grown <= SLACK
            what += f", grown by {grown} KiB"
        self.note(ended, is_right, what)

    def round(self, number):
        """A batch of each profile, by the program in each way, by rbc_tests a few times, and one of them over and over."""
        batches = [self.batch(profile, number) for profile in PROFILES]
        for batch in batches:
            self.by_program(batch)
        jobs = [self.pool.submit(self.by_golden, batches, 3, workers) for workers in WORKERS]
        for job in jobs:
            self.note(*job.result())
        small = [batch for batch in batches if batch.lines <= 3_000] or batches
        self.over_and_over(small[number % len(small)], WORKERS[number % len(WORKERS)])
        for batch in batches:
            for ending in ("toml", "batch", "expected"):
                os.remove(f"{self.folder}/{batch.name}.{ending}")
        self.counts["rounds"] += 1

    def tell(self, seconds):
        """Prints what came of it so far."""
        told = " | ".join(str(self.counts[name]) for name in ("rounds", "batches", "lines", "runs", "wrong"))
        print(f"| {seconds:.0f} | {told} | {self.again} | {self.peak} | {self.growth} |", flush=True)


def main():
    root, seconds, seed, processes = sys.argv[1:]
    print("| seconds | rounds | batches | lines | runs of a program | wrong | inputs recomputed | most KiB | grown by at most KiB |")
    print("|---|---|---|---|---|---|---|---|---|", flush=True)
    begun = told = time.monotonic()
    with tempfile.TemporaryDirectory() as folder:
        soak, number = Soak(root, seed, int(processes), folder), 0
        while time.monotonic() - begun < float(seconds):
            soak.round(number)
            number += 1
            if time.monotonic() - told > 300:
                told = time.monotonic()
                soak.tell(told - begun)
        soak.tell(time.monotonic() - begun)
    return 1 if soak.counts["wrong"] else 0


if __name__ == "__main__":
    sys.exit(main())
