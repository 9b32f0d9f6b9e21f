"""Runs the program at long and broken track files, batches and streams: hostile.py ROOT

bench/hostile.sh tells what it does and prints.
"""

import glob
import importlib.machinery
import importlib.util
import os
import resource
import subprocess
import sys
import tempfile
import time

from program import program_of

MIB = 1024 * 1024
JUNK = 100 * MIB
DEEPEST = 10_000_000  # brackets one in another
CUTS = 600  # how often a pipe is closed: after a number of bytes that is a square


def load(path):
    """The module of a file that has no ending."""
    loader = importlib.machinery.SourceFileLoader("words", path)
    module = importlib.util.module_from_spec(importlib.util.spec_from_loader("words", loader))
    loader.exec_module(module)
    return module


def at_tracks(words, runs):
    """Track files that are long, deep, or no file."""
    track = words.TRACK.encode()
    random = os.urandom(MIB)
    for name, text, wanted in (
        ("random bytes", JUNK // MIB * random, b"track: unreadable\n"),
        ("letters", JUNK * b"x", b"track: Text\n"),
        ("NULs", bytes(JUNK), b"track: Text\n"),
        ("brackets that open", DEEPEST * b"[", b"track: Text\n"),
        ("arrays in arrays", b"horizon = " + DEEPEST * b"[" + DEEPEST * b"]\n", b"track: Text\n"),
        ("tables in tables", b"horizon = " + DEEPEST * b"{a = " + b"1" + DEEPEST * b"}\n", b"track: Text\n"),
        ("a key of parts", DEEPEST * b"a." + b"a = 1\n", b"track: Text\n"),
        ("tables, all alike", MIB * b"[a]\n", b"track: Text\n"),
        ("lines", track + MIB * b"[[line]]\nlength = 1\n", b"track: TooManyLines\n"),
    ):
        words_of = at_track(runs, text)
        for task in ("run", "explain", "picture"):
            runs.check([task, *words_of[1:]], (1, b"", wanted), f"over {len(text)} bytes: {name}")
    for name, text in (("a note", b"#" + JUNK * b"x" + b"\n"), ("line feeds", JUNK * b"\n"), ("notes", JUNK // 2 * b"#\n")):
        runs.check(at_track(runs, text + track), (0, words.ANSWER, b""), f"over {len(text)} bytes before a track: {name}")
    runs.check(["run", "--track", "/dev/null"], (1, b"", b"track: Shape\n"), "over /dev/null")


def at_track(runs, text):
    with open(f"{runs.folder}/made.toml", "wb") as it:
        it.write(text)
    return ["run", "--track", "made.toml"]


def at_batches(words, runs):
    """Batches that are as long as they may be, of one byte over and over, and lines that are half of one."""
    most = words.MAX_BATCH
    runs.check(words.RUN, (0, b"1 refused 1\n", b""), "over NULs", batch=bytes(most))
    runs.check(words.RUN, (1, b"", b"batch too long\n"), "over NULs, one more", batch=bytes(most + 1))
    runs.check(words.RUN, (1, b"", b"too many inputs\n"), "over line feeds", batch=most * b"\n")
    two = most // 2 * b"x" + b"\n" + (most - most // 2 - 1) * b"x"
    runs.check(words.RUN, (0, b"1 refused 1\n2 refused 1\n", b""), "over two lines", batch=two)
    recv = b"recv " + (most - 5) * b"8"
    runs.check(words.RUN, (0, b"1 refused 2\n", b""), "over a message", batch=recv)
    even = b"recv " + (most - 6) * b"8"
    runs.check(words.RUN, (0, b"1 refused 3\n", b""), "over a message of whole bytes", batch=even)
    segments = b"stop 1" + (most - 6) // 4 * b" 0:0" + b"-1"
    runs.check(words.RUN, (0, b"1 refused 1\n", b""), "over segments", batch=segments)
    stops = b"stop 1" + (most - 6) // 6 * b" 0:0-1"
    runs.check(words.RUN, (0, b"1 refused 12\n", b""), "over good segments", batch=stops)
    for workers in ("2", "16"):
        runs.check([*words.RUN, "--workers", workers], (1, b"", b"too many inputs\n"), f"over line feeds, {workers} workers", batch=most * b"\n")
    for told in (words.EXPLAIN, words.PICTURE):
        runs.check(told, (0, words.SOME, b""), "over NULs, one more", batch=bytes(most + 1))
        for name, batch in (("NULs", bytes(most)), ("two lines", two), ("a message", recv), ("segments", segments), ("good segments", stops)):
            runs.check(told, (0, words.SOME, b""), f"over {name}", batch=batch)


def at_filters(words, runs):
    """Lines that no filter changes, 100 MB of them: both pass them on as they are, in little memory."""
    little = words.allow(24 * MIB)
    random = JUNK // MIB * (os.urandom(MIB - 1).replace(b"recv ", b"").replace(b"report ", b"") + b"\n")
    for name, lines in (
        ("random bytes", random),
        ("NULs", bytes(JUNK)),
        ("line feeds", JUNK * b"\n"),
        ("digits", JUNK * b"8"),
        ("a message", b"recv 88" + JUNK * b"0"),
        ("two decimals", JUNK * b"7" + b" 2 1002800000005FFFFFE0"),
        ("words", JUNK // 2 * b" 7"),
    ):
        text = lines if lines.endswith(b"\n") else lines + b"\n"
        for task in ("encode", "decode"):
            runs.check([task], (0, text, b""), f"over {len(lines)} bytes: {name}", batch=lines, preexec_fn=little)
    for line, fault in (
        (b"recv 136 " + JUNK * b"x", b"encode: line 1, word 3: 'stamp'\n"),
        (b"recv 146 stamp 1 engine 7 acked 5" + JUNK * b" ", b"encode: line 1, word 9: the end of the line\n"),
        (b"report " + JUNK * b"0", b"encode: line 1, word 2: a number, 0 to 16777215\n"),
    ):
        runs.check(["encode"], (1, b"", fault), f"over {len(line)} bytes", batch=line, preexec_fn=little)


def at_streams(words, runs):
    """Standard input and output byte by byte, and standard output cut after each number of bytes."""
    words_of = ["run", "--track", f"{words.ROOT}/examples/main_line.toml"]
    for file in sorted(glob.glob(f"{words.ROOT}/examples/*.expected")):
        batch, output = words.read(f"{file.removesuffix('expected')}batch"), words.read(file)
        runs.compare(words_of, (0, output, b""), "byte by byte", byte_by_byte(runs, words_of, batch))
        for room in range(len(output)):
            words.at_small_file(runs, words_of, output, room, batch=batch)
        for task in ("explain", "picture"):
            told = [task, *words_of[1:]]
            text = runs.end(told, batch=batch)[1]
            runs.compare(told, (0, text, b""), "byte by byte", byte_by_byte(runs, told, batch))
            for count in range(int(len(text) ** 0.5)):
                words.at_small_file(runs, told, text, count * count, batch=batch)
    lines = words.MAX_INPUTS * b"\n"
    refused = b"".join(b"%d refused 1\n" % line for line in range(1, words.MAX_INPUTS + 1))
    for count in range(CUTS):
        words.at_cut_pipe(runs, lines, refused, count * count)


def byte_by_byte(runs, words_of, batch):
    """Writes standard input and reads standard output in pieces of one byte."""
    how = {"executable": runs.program, "cwd": runs.folder, "bufsize": 0, "stdin": subprocess.PIPE, "stdout": subprocess.PIPE}
    with subprocess.Popen(["dispatch", *words_of], stderr=subprocess.PIPE, **how) as it:
        for place in range(len(batch)):
            it.stdin.write(batch[place : place + 1])
        it.stdin.close()
        read = b"".join(iter(lambda: it.stdout.read(1), b""))
        return it.wait(), read, it.stderr.read()


def main():
    root = sys.argv[1]
    words = load(f"{root}/.ci/words")
    begun = time.monotonic()
    with tempfile.TemporaryDirectory() as folder:
        for name, text in words.FILES.items():
            with open(f"{folder}/{name}", "wb") as it:
                it.write(text)
        runs = words.Runs(program_of(root), folder)
        at_tracks(words, runs)
        at_batches(words, runs)
        at_filters(words, runs)
        at_streams(words, runs)
    most = resource.getrusage(resource.RUSAGE_CHILDREN).ru_maxrss // 1024
    seconds = time.monotonic() - begun
    print(f"hostile: {runs.count - runs.wrong} of {runs.count} runs of the program ended right, in {seconds:.0f} s, with at most {most} MiB")
    return 1 if runs.wrong else 0


if __name__ == "__main__":
    sys.exit(main())
