"""Refuses one allocation after another, and one thread after another, to the program and to that of the golden batches, and prints a table of
each: refusals_count.py ROOT REFUSE

ROOT is the repository, whose programs are built, and REFUSE is the built refuse.c. The exit status is 1 where a run
ended in another way than with the right answer or with the fault for want of memory.
"""

import collections
import glob
import os
import re
import shutil
import subprocess
import sys
import tempfile

from loads import spelled

from program import program_of

SECONDS = 60  # no run takes so long
SHOWN = 10  # so many wrong ends are printed of each call

# messages, and what they say
DESCRIBED = {
    "1804C00000FA600000A82811C0000000FA2200": b"24 stamp 1001 ack 1 lrbg 5 65 dir 1 scale 0 tsr 0 start 0 length 1000 front 1 speed 8\n",
    "1807000000FA600000A82811C004E200FA2210502380338801F40800": b"24 stamp 1001 ack 1 lrbg 5 65 dir 1 scale 0 tsr 0 start 10000 length 1000 front 1 "
    b"speed 8 65 dir 1 scale 0 tsr 1 start 20000 length 1000 front 0 speed 16\n",
    "8806000000FA000001C000E400000287D0500C8019000830": b"136 stamp 1000 engine 7 0 scale 0 lrbg 5 distance 2000 dir 1 side 1 over 100 under 100\n",
}

# how several workers run a batch of the program: on the book, and by train
WAYS_OF_PROGRAM = {"on the book": (), "by train": ("--by-train",)}

# batches of golden/alarms to which memory is refused
ALARMED = ("sixteenth-stop", "answered-late", "from-restart")

# lines of golden/encoded and golden/decoded to filters of which memory is refused
FILTERED = ("reports.out", "vectors.out", "hundred-packets", "decimals")

# golden batches to which memory is refused, and those to which threads are, with their tracks. Behind the latter stand the numbers of workers
# that do windows of them: each window starts its threads anew, and each thread takes two runs.
SMALL = ("example-unanswered main_line.toml", "example-several main_line.toml")
GOLDEN = {
    "contended-1 contended-1.toml": ("2", "4", "16"),
    "identifiers identifiers.toml": (),
    "limits-1 limits-1.toml": ("2",),
}
# how its workers share them, by its last word
WAYS = {"0": "on a locked book", "1": "in windows of 1 message", "7": "in windows of 7 messages"}

# the line on standard error of the program, where memory was refused to it, and where it was to the reading of the track
OF_PROGRAM = re.compile(rb"out of memory( after \d+ inputs)?\n")
OF_TRACK = b"track: OutOfMemory\n"
# what that of the golden batches says then; the vector that it writes to may be refused memory too
OF_GOLDEN = re.compile(rb"Error: (out of memory( after \d+ inputs)?|memory allocation failed|write fault after 0 bytes)\n")

Ended = collections.namedtuple("Ended", "status output errors was_refused")


def run(words, text, refuse, what, folder=None):
    """Runs a program to which something is refused, if it comes to it: what, as the words of refuse.c say it."""
    from_it, to_us = os.pipe()
    added = {"LD_PRELOAD": refuse, "REFUSE_TELLS": str(to_us), **what}
    try:
        done = subprocess.run(
            words,
            input=text,
            capture_output=True,
            env={**os.environ, **added},
            pass_fds=[to_us],
            timeout=SECONDS,
            cwd=folder,
        )
    finally:
        os.close(to_us)
    with os.fdopen(from_it, "rb") as told:
        was_refused = told.read() != b""
    return Ended(done.returncode, done.stdout, done.stderr, was_refused)


def end_of_program(ended, expected):
    """The same of the program, which has to write an expected output."""
    if ended.status == 0:
        return "answered" if ended.output == expected and not ended.errors else None
    if ended.status != 1 or ended.output:
        return None
    if OF_PROGRAM.fullmatch(ended.errors):
        return "refused"
    return "beside" if ended.errors == OF_TRACK else None


def end_of_live(ended, expected):
    """The same of `live`, which has written whole answers with their alarms before a fault: what it has not written begins with a result, or
    with the alarms that stand before the first answer."""
    if ended.status == 0:
        return "answered" if ended.output == expected and not ended.errors else None
    if ended.status != 1 or not expected.startswith(ended.output):
        return None
    if ended.errors == OF_TRACK:
        return "beside" if not ended.output else None
    begins = re.match(rb"\d+ (ok|refused) ", expected[len(ended.output) :]) or not ended.output
    return "refused" if begins and ended.errors == b"out of memory\n" else None


def end_of_filter(ended, expected):
    """The same of a filter or of `explain`, which has written whole lines before a fault."""
    if ended.status == 0:
        return "answered" if ended.output == expected and not ended.errors else None
    if ended.status != 1 or not expected.startswith(ended.output) or ended.output[-1:] not in (b"", b"\n"):
        return None
    if ended.errors == OF_TRACK:
        return "beside" if not ended.output else None
    return "refused" if ended.errors == b"out of memory\n" else None


def end_of_golden(ended, right):
    """The same of the program of the golden batches, which says that an output is right, or ends with an error. A window that is refused memory
    leaves its messages to one worker; how many, the program says."""
    if ended.status == 0:
        return "answered" if re.fullmatch(re.escape(right[:-1]) + rb"(, \d+ messages not taken over)?\n", ended.output) else None
    return "refused" if ended.status == 1 and not ended.output and OF_GOLDEN.fullmatch(ended.errors) else None


def count(name, words, text, refuse, end_of, folder=None):
    """Refuses one allocation after another, prints the line of a call, and gives how many runs ended wrong."""
    ends, number = collections.Counter(), 0
    while True:
        number += 1
        ended = run(words, text, refuse, {"REFUSE": str(number)}, folder)
        end = end_of(ended)
        # what was refused nothing has to answer
        if end is None or not (ended.was_refused or end == "answered"):
            end = "wrong"
            if ends[end] < SHOWN:
                print(f"{name}: allocation {number} refused: {ended}", file=sys.stderr)
        if not ended.was_refused:
            break
        ends[end] += 1
    wrong = ends["wrong"] + (end == "wrong")
    cells = [number - 1, ends["refused"], ends["beside"], ends["answered"]]
    print("|", " | ".join([name, *map(str, cells)]), "|", flush=True)
    return wrong


def count_threads(name, words, text, refuse, wanted, folder=None):
    """Refuses to start one thread after another, alone and with all behind it, prints the line of a program, and gives how many runs ended
    wrong: each has to write the output that is wanted."""
    tried, wrong = collections.Counter(), 0
    for rest in ("", "1"):
        number, was_refused = 0, True
        while was_refused:
            number += 1
            what = {"REFUSE_THREAD": str(number), **({"REFUSE_REST": rest} if rest else {})}
            ended = run(words, text, refuse, what, folder)
            was_refused = ended.was_refused
            tried[rest] += was_refused
            if ended.status != 0 or ended.output != wanted:
                wrong += 1
                print(f"{name}: thread {number} refused, rest {rest!r}: {ended}", file=sys.stderr)
    print("|", " | ".join([name, str(tried[""]), str(tried["1"]), str(sum(tried.values()) + 2 - wrong)]), "|", flush=True)
    return wrong


def at_program(root, refuse):
    """Refuses memory to the program on each batch of examples/, and where it describes messages."""
    program, wrong = program_of(root), 0
    for message, text in DESCRIBED.items():
        name = f"the program on message {text.split()[0].decode()}, {len(message) // 2} bytes"
        wrong += count(name, [program, "decode", message], b"", refuse, lambda ended: end_of_program(ended, text))
        name = f"the program on the text of message {text.split()[0].decode()}, {len(text) - 1} bytes"
        words, spelled_out = [program, "encode", text[:-1]], f"{message}\n".encode()
        wrong += count(name, words, b"", refuse, lambda ended: end_of_program(ended, spelled_out))
    for file in sorted(glob.glob(f"{root}/examples/*.expected")):
        batch = file.removesuffix("expected") + "batch"
        text, expected = read(batch), read(file)
        words = [program, "run", "--track", f"{root}/examples/main_line.toml"]
        name = f"the program on `{os.path.basename(batch)}`"
        wrong += count(name, words, text, refuse, lambda ended: end_of_program(ended, expected))
        for way, more in WAYS_OF_PROGRAM.items():
            for workers in ("2", "4", "16"):
                some = [*words, "--workers", workers, *more]
                wrong += count(f"{name}, {workers} workers {way}", some, text, refuse, lambda ended: end_of_program(ended, expected))
        for task in ("explain", "explain --json", "picture"):
            words = [program, *task.split(), "--track", f"{root}/examples/main_line.toml"]
            shown = subprocess.run(words, input=text, capture_output=True, check=True).stdout
            end = end_of_program if task == "picture" else end_of_filter
            wrong += count(f"{name}, `{task}`", words, text, refuse, lambda ended, end=end, shown=shown: end(ended, shown))
    return wrong


def at_alarms(root, refuse):
    """Refuses memory to `run --alarms` and `live --alarms` on batches whose alarms are known."""
    program, wrong = program_of(root), 0
    for row in read(f"{root}/golden/alarms/cases.tsv").decode().splitlines()[1:]:
        file, words, batch = row.split("\t")
        name, task = file.rsplit(".", 1)
        if name in ALARMED:
            text, end_of = read(f"{root}/{batch}"), end_of_live if task == "live" else end_of_program
            words = [program, *words.split()]
            expected = subprocess.run(words, input=text, capture_output=True, check=True, cwd=root).stdout
            wrong += count(f"`{task} --alarms` on {name}", words, text, refuse, lambda ended, e=end_of, x=expected: e(ended, x), root)
    return wrong


def at_filters(root, refuse):
    """Refuses memory to `encode` and `decode` on lines whose results are known."""
    program, wrong = program_of(root), 0
    calls = [row.split("\t") for row in read(f"{root}/golden/encoded/cases.tsv").decode().splitlines()[1:]]
    calls += [(os.path.basename(file)[:-3], "decode", os.path.relpath(file, root)) for file in sorted(glob.glob(f"{root}/golden/decoded/*.in"))]
    for name, words, lines in calls:
        if name in FILTERED:
            text, words = read(f"{root}/{lines}"), [program, *words.split()]
            expected = subprocess.run(words, input=text, capture_output=True, check=True, cwd=root).stdout
            wrong += count(f"`{words[1]}` on {name}", words, text, refuse, lambda ended, x=expected: end_of_filter(ended, x), root)
    return wrong


def heavy_batch():
    """Trains on a track of one line, told of many restrictions, that report so often that the lines of the batch are read in threads."""
    lines = [b"enrol %d 2000" % engine for engine in range(1, 9)]
    lines += [recv(engine, 1) for engine in range(1, 9)]
    lines += [b"restrict %d 0:%d-%d both 40 1" % (number, 20_000 + number, 21_000 + number) for number in range(1, 101)]
    lines += [recv(1 + turn % 8, 1_000 + turn) for turn in range(20_000)]
    return b"".join(line + b"\n" for line in lines)


def recv(engine, stamp):
    """A train reports that it is 200 m beyond balise group 1, facing up."""
    place = [(0, 8), (114, 13), (0, 2), (1, 24), (2_000, 15), (1, 2), (1, 2), (0, 15), (0, 15), (0, 2), (0, 7), (1, 2), (0, 4), (3, 3)]
    return b"recv " + spelled(136, [(stamp, 32), (engine, 24), *place]).hex().encode()


HEAVY_TRACK = b'horizon = 100000\n[[line]]\nlength = 300000\n[[group]]\nnid = 1\nline = 0\nat = 10000\nnominal = "up"\n'


def golden(folder, case, words):
    """Leaves one golden batch in a folder. Gives what the program of the golden batches has to write there by these words: that the output is
    right, and in how many windows it was run, as it says where nothing is refused. A book has none, and several workers some."""
    with open(f"{folder}/cases.txt", "w", encoding="ascii") as it:
        it.write(case + "\n")
    said = subprocess.run(words, capture_output=True, check=True, cwd=folder).stdout
    told = re.fullmatch(rb"(.*) right, (\d+) windows\n", said)
    _, _, workers, most = words
    if not told or told[1].decode() != case.replace(" ", " on ") or (int(told[2]) > 0) != (workers != "1" and most != "0"):
        sys.exit(f"{case}: {said}")
    return said


def at_golden(root, refuse, folder):
    """Refuses memory to the program of the golden batches, in which each worker takes part."""
    wrong = 0
    for case in SMALL:
        for workers, most in (("1", "0"), ("2", "0"), ("2", "1"), ("2", "7"), ("3", "7")):
            name = f"`{case.split()[0]}`, {workers} workers {WAYS[most]}"
            words = [f"{root}/crates/rbc_tests/out/rbc_tests", "1", workers, most]
            right = golden(folder, case, words)
            wrong += count(name, words, b"", refuse, lambda ended, right=right: end_of_golden(ended, right), folder)
    return wrong


def at_threads(root, refuse, folder):
    """Refuses threads to the program on a batch for which it starts some, and to that of the golden batches on some of them."""
    with open(f"{folder}/heavy.toml", "wb") as it:
        it.write(HEAVY_TRACK)
    wrong, batch = 0, heavy_batch()
    words = [program_of(root), "run", "--track", f"{folder}/heavy.toml", "--workers"]
    expected = subprocess.run([*words, "1"], input=batch, capture_output=True, check=True).stdout
    for way, more in WAYS_OF_PROGRAM.items():
        for workers in ("2", "4", "16"):
            name = f"the program, {workers} workers {way}"
            wrong += count_threads(name, [*words, workers, *more], batch, refuse, expected)
    for case, of_windows in GOLDEN.items():
        for workers, most in [(count, "0") for count in ("2", "4", "16")] + [(count, "7") for count in of_windows]:
            name = f"`{case.split()[0]}`, {workers} workers {WAYS[most]}"
            words = [f"{root}/crates/rbc_tests/out/rbc_tests", "1", workers, most]
            right = golden(f"{folder}/golden", case, words)
            wrong += count_threads(name, words, b"", refuse, right, f"{folder}/golden")
    return wrong


def read(file):
    with open(file, "rb") as it:
        return it.read()


def main():
    root, refuse = sys.argv[1:]
    print("| call | tried | refused | refused beside it | answered |\n|---|---|---|---|---|")
    wrong = at_program(root, refuse) + at_alarms(root, refuse) + at_filters(root, refuse)
    with tempfile.TemporaryDirectory() as folder:
        shutil.copytree(f"{root}/crates/rbc_tests/data", f"{folder}/golden")
        wrong += at_golden(root, refuse, f"{folder}/golden")
        print("\n| program | threads refused, one a run | and all behind it | right outputs |\n|---|---|---|---|")
        wrong += at_threads(root, refuse, folder)
    return 1 if wrong else 0


sys.exit(main())
