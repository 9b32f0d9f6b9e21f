"""Measures `live`, and kills it: live.py PROGRAM RUNS TRACK BATCH LINES

Four parts: (a) the process is killed 200 times, at random moments and after random numbers of bytes, while lines of the batch go through a
pipe, and is started again with the log and --from; (b) the time of 10,000 lone lines, each sent when the last one is answered; (c) the time of the whole batch by `live` and by
`run --workers 1`; (d) so many LINES, with the memory of the process after each tenth. It needs /proc.
"""

import os
import random
import statistics
import subprocess
import sys
import threading
import time
from pathlib import Path

KILLS = 200
LONE = 10_000
CRASHED = 3_000  # lines of the batch that go through the crashes
PIECE = 65_536  # bytes asked for in one call
SECONDS = 60  # a process that takes longer is killed


class Live:
    """A process that answers lines, with a thread that takes what it writes."""

    def __init__(self, program, track, first=1):
        words = [program, "live", "--track", str(track), "--from", str(first)]
        self.process = subprocess.Popen(words, stdin=subprocess.PIPE, stdout=subprocess.PIPE, bufsize=0)
        self.said = bytearray()
        self.reader = threading.Thread(target=self.read)
        self.reader.start()
        self.clock = threading.Timer(SECONDS, self.process.kill)
        self.clock.start()

    def read(self):
        while piece := os.read(self.process.stdout.fileno(), PIECE):
            self.said += piece

    def give(self, text):
        """Whether the process takes the text."""
        view = memoryview(text)
        try:
            while view:
                view = view[self.process.stdin.write(view) :]
        except BrokenPipeError:
            return False
        return True

    def end(self):
        """All that it wrote, and its status, after the end of its input."""
        try:
            self.process.stdin.close()
        except BrokenPipeError:
            pass
        self.reader.join()
        self.clock.cancel()
        self.process.stdout.close()
        return bytes(self.said), self.process.wait()


def answers_of(text, first):
    """The whole answers in a text that begins with the answer to this input: the bytes of each, and the bytes behind the last one."""
    lines = text.split(b"\n")
    rest = lines.pop()
    answers, at = [], 0
    while at < len(lines):
        number, kind, count = lines[at].split(b" ")
        more = int(count) if kind == b"ok" else 0
        if int(number) != first + len(answers) or at + more >= len(lines):
            if int(number) != first + len(answers):
                raise ValueError(f"answer {number} in place of {first + len(answers)}")
            break
        answers.append(b"".join(line + b"\n" for line in lines[at : at + more + 1]))
        at += more + 1
    return answers, b"".join(line + b"\n" for line in lines[at:]) + rest


def alone(program, track, text):
    """What one process that is not killed writes."""
    live = Live(program, track)
    live.give(text)
    said, status = live.end()
    assert status == 0, f"status {status}"
    return said


def kill_at(live, moment, size):
    """Kills the process at a moment, in seconds, or as soon as it has written so many bytes; returns the thread that does so."""

    def wait():
        ends = time.monotonic() + moment
        while time.monotonic() < ends and len(live.said) < size:
            time.sleep(0.0001)
        live.process.kill()

    killer = threading.Thread(target=wait)
    killer.start()
    return killer


def crash(program, track, lines, kills, seed):
    """Kills the process, and starts it again with the log, till so many kills are done and all lines are answered. Returns how many answers
    came more than once. The log is written before the line is sent; the caller asks for some answers that it has already."""
    chance = random.Random(seed)
    began = time.monotonic()
    wanted, _ = answers_of(alone(program, track, b"".join(lines)), 1)
    start = time.monotonic() - began
    log, held, part, again = [], [], b"", 0
    for done in range(kills + 1):
        last = done == kills
        first = max(1, len(held) + 1 - chance.randrange(200))
        live = Live(program, track, first)
        share = len(lines) * (done + 1) // (kills + 1)
        size = chance.randrange(sum(map(len, wanted[first - 1 : share])) + 1)
        killer = None if last else kill_at(live, chance.uniform(0.0, 4 * start), size)
        goes = live.give(b"".join(log))
        while goes and len(log) < share:
            log.append(lines[len(log)])
            half = chance.randrange(len(log[-1]) + 1)
            goes = live.give(log[-1][:half]) and live.give(log[-1][half:])
        if killer:
            killer.join()
        said, status = live.end()
        assert not last or status == 0, f"status {status}"
        answers, rest = answers_of(said, first)
        for number, answer in enumerate(answers, first):
            if number <= len(held):
                assert held[number - 1] == answer, f"answer {number} changed"
                again += 1
            else:
                assert answer.startswith(part), f"answer {number} changed"
                held, part = [*held, answer], b""
        if first + len(answers) == len(held) + 1 and len(rest) > len(part):
            assert rest.startswith(part), "an answer that had begun changed"
            part = rest
    assert held == wanted, "the answers are not those of a process that was not killed"
    ran = subprocess.run([program, "run", "--track", str(track)], input=b"".join(lines), capture_output=True, check=True)
    assert sorted(ran.stdout.split(b"\n")) == sorted(b"".join(wanted).split(b"\n")), "the lines are not those of `run`"
    return again


def lone_lines(program, track, lines):
    """The microseconds of each line that is sent when the last one is answered."""
    words = [program, "live", "--track", str(track)]
    times = []
    with subprocess.Popen(words, stdin=subprocess.PIPE, stdout=subprocess.PIPE, bufsize=0) as process:
        for number, line in enumerate(lines, 1):
            said = b""
            began = time.perf_counter()
            process.stdin.write(line)
            while True:
                said += os.read(process.stdout.fileno(), PIECE)
                if answers_of(said, number)[0]:
                    break
            times.append(1e6 * (time.perf_counter() - began))
        process.stdin.close()
        assert process.wait() == 0
    return times


def whole(words, batch, runs):
    """The milliseconds of a run over a whole batch: least and median."""
    times = []
    for _ in range(runs):
        with open(batch, "rb") as file:
            began = time.perf_counter()
            subprocess.run(words, stdin=file, stdout=subprocess.DEVNULL, check=True)
            times.append(1e3 * (time.perf_counter() - began))
    return min(times), statistics.median(times)


def resident(process):
    """The memory of a process in KiB."""
    pages = int(Path(f"/proc/{process.pid}/statm").read_text().split()[1])
    return pages * os.sysconf("SC_PAGE_SIZE") // 1024


def many_lines(program, track, count):
    """Gives so many lines, and prints the memory after each tenth."""
    words = [program, "live", "--track", str(track)]
    with subprocess.Popen(words, stdin=subprocess.PIPE, stdout=subprocess.DEVNULL, bufsize=0) as process:
        given = 0
        for tenth in range(1, 11):
            while given < count * tenth // 10:
                piece = []
                for _ in range(min(10_000, count * tenth // 10 - given)):
                    stop = given // 6 + 1
                    kinds = ("enrol 7 2000", f"stop {stop} 0:0-10", "recv 01", f"release {stop}", "", "withdraw 7")
                    piece.append(kinds[given % 6])
                    given += 1
                view = memoryview("".join(f"{line}\n" for line in piece).encode())
                while view:
                    view = view[process.stdin.write(view) :]
            print(f"{given:>12,} lines {resident(process):>8,} KiB", flush=True)
        process.stdin.close()
        assert process.wait() == 0


def main():
    if len(sys.argv) != 6:
        sys.exit(__doc__)
    program, runs, track, batch, count = sys.argv[1], int(sys.argv[2]), sys.argv[3], sys.argv[4], int(sys.argv[5])
    lines = Path(batch).read_bytes().splitlines(keepends=True)
    began = time.monotonic()
    again = crash(program, track, lines[:CRASHED], KILLS, 1)
    seconds = time.monotonic() - began
    print(f"{KILLS} kills over {min(CRASHED, len(lines)):,} lines: nothing lost; {again:,} answers came again, with the same bytes; {seconds:.0f} s")
    times = lone_lines(program, track, lines[:LONE])
    print(f"{len(times):,} lone lines: median {statistics.median(times):.0f} us, 99 of 100 within {sorted(times)[len(times) * 99 // 100]:.0f} us")
    for words in (["live"], ["run", "--workers", "1"]):
        least, median = whole([program, *words, "--track", track], batch, runs)
        print(f"{len(lines):,} lines by {' '.join(words)}: least {least:.0f} ms, median {median:.0f} ms")
    many_lines(program, track, count)


if __name__ == "__main__":
    main()
