"""Makes the batches that the program is measured on: the same bytes on each machine.

Called as `python3 loads.py FOLDER`, it writes each batch to FOLDER/NAME.batch, and the track that they are
run on to FOLDER/wide.toml, and prints nothing. A batch that this file made earlier is left as it is.
"""

import hashlib
import os
import sys

SEED = 1
ENGINES = 2**24  # an engine is 0 to ENGINES - 1
LONGEST_TRAIN = 40_000  # in units of 10 cm, as each length and place
LINES = 64
LONGEST_LINE = 3_000_000
TRAINS = 2_000
STOPS = 64
SIZES = (10_000, 30_000, 100_000)
MAX_LINES = 100_000
SHORTEST, LONGEST = 20, 60  # bytes of a line in the batch of full size, without its line feed


class Random:
    """SplitMix64, so that no version of Python changes what it gives."""

    def __init__(self, *seed):
        text = repr((SEED, *seed)).encode()
        self.state = int.from_bytes(hashlib.sha256(text).digest()[:8], "little")

    def below(self, n):
        """A number from 0 to n - 1."""
        self.state = (self.state + 0x9E3779B97F4A7C15) % 2**64
        z = self.state
        z = (z ^ z >> 30) * 0xBF58476D1CE4E5B9 % 2**64
        z = (z ^ z >> 27) * 0x94D049BB133111EB % 2**64
        return (z ^ z >> 31) % n

    def between(self, low, high):
        """A number from low to high."""
        return low + self.below(high - low + 1)

    def one_of(self, items):
        return items[self.below(len(items))]

    def some_of(self, n, count):
        """`count` different numbers below n, ascending."""
        found = set()
        while len(found) < count:
            found.add(self.below(n))
        return sorted(found)


def spelled(number, fields):
    """A message of this number: `fields`, each a value and its width, are what is behind L_MESSAGE."""
    width = 18 + sum(width for _, width in fields)
    length = -(-width // 8)
    bits = number << 10 | length
    for value, width_of_one in fields:
        bits = bits << width_of_one | value
    return (bits << 8 * length - width).to_bytes(length, "big")


def segment(random):
    low = random.below(LONGEST_LINE)
    return b"%d:%d-%d" % (random.below(LINES), low, random.between(low, LONGEST_LINE))


def enrolment(random, engine):
    return b"enrol %d %d" % (engine, random.between(1, LONGEST_TRAIN))


def stop(random, number, segments):
    return b"stop %d %s" % (number, b" ".join(segment(random) for _ in range(segments)))


def printable(random, length):
    return bytes(random.between(32, 126) for _ in range(length))


NOISE = printable(Random("noise"), 4096)


def noise(random, length):
    """A word that no line begins with, and printable bytes after it."""
    at = random.below(len(NOISE) - length)
    return b"#" + NOISE[at : at + length - 1]


def wrong_line(random):
    """A line that is refused whatever came before it."""
    engine, train = random.below(ENGINES), random.between(1, LONGEST_TRAIN)
    number, low = random.below(2**32), random.below(LONGEST_LINE)
    return random.one_of(
        (
            lambda: b"",
            lambda: b"enrol",
            lambda: b"enrol %d" % engine,
            lambda: b"enrol %d 0" % engine,
            lambda: b"enrol %d %d" % (engine, LONGEST_TRAIN + train),
            lambda: b"enrol %d %d" % (ENGINES + engine, train),
            lambda: b"enrol %d %d " % (engine, train),
            lambda: b"enrol  %d %d" % (engine, train),
            lambda: b"enrol %d -%d" % (engine, train),
            lambda: b"enrol %d 12345678901" % engine,
            lambda: b"Enrol %d %d" % (engine, train),
            lambda: b"enrol %d %d\r" % (engine, train),
            lambda: b"enrol\t%d %d" % (engine, train),
            lambda: b"stop %d" % number,
            lambda: b"stop %d 0:%d-%d" % (number, low + 1, low),
            lambda: b"stop %d 0:%d" % (number, low),
            lambda: b"stop %d %s:1-2" % (number, noise(random, 3)),
            lambda: b"stop %d %s" % (2**32 + number, segment(random)),
            lambda: stop(random, number, 9),
            lambda: b"halt %d" % number,
            lambda: b"\xff\x00" + noise(random, 6),
            lambda: noise(random, random.between(1, 80)),
        )
    )()


def good_lines(random, trains=TRAINS, stops=STOPS):
    """The enrolments of `trains` trains with `stops` stops spread through them."""
    engines = random.some_of(ENGINES, trains)
    for i in range(trains - 1, 0, -1):
        j = random.below(i + 1)
        engines[i], engines[j] = engines[j], engines[i]
    places = set(random.some_of(trains + stops, stops))
    lines, number = [], 0
    for place in range(trains + stops):
        if place in places:
            number += random.between(1, 9)
            lines.append(stop(random, number, random.between(1, 8)))
        else:
            lines.append(enrolment(random, engines.pop()))
    return lines


def spread(random, good, size, other):
    """`size` lines: the good ones in their order, and others between them."""
    places = set(random.some_of(size, len(good)))
    coming = iter(good)
    return [next(coming) if at in places else other() for at in range(size)]


def mixed(size):
    random = Random("mixed", size)
    return spread(random, good_lines(random), size, lambda: wrong_line(random))


def wrong(size):
    random = Random("wrong", size)
    return [wrong_line(random) for _ in range(size)]


def full_line(random, engines):
    """A line of SHORTEST to LONGEST bytes that is refused after the stops and these trains."""
    while True:
        line = random.one_of(
            (
                lambda: b"enrol %010d %010d" % (random.one_of(engines), random.between(1, LONGEST_TRAIN)),
                lambda: b"enrol %010d %010d" % (random.below(ENGINES), LONGEST_TRAIN + 1),
                lambda: stop(random, 0, random.between(1, 3)),
                lambda: stop(random, random.below(2**32), 2) + b":",
                lambda: noise(random, random.between(SHORTEST, LONGEST)),
            )
        )()
        if SHORTEST <= len(line) <= LONGEST:
            return line


def full():
    """A batch of MAX_LINES lines of SHORTEST to LONGEST bytes, which begins with the trains and the stops."""
    random = Random("full")
    engines = random.some_of(ENGINES, TRAINS)
    good = [b"enrol %010d %010d" % (engine, random.between(1, LONGEST_TRAIN)) for engine in engines]
    for i in range(STOPS):
        good.insert((i + 1) * (TRAINS // STOPS) + i, b"stop %010d %s" % (i + 1, segment(random)))
    return good + [full_line(random, engines) for _ in range(MAX_LINES - len(good))]


def batches():
    """The name of each batch, with a function that gives its bytes."""
    ended = lambda lines: b"".join(line + b"\n" for line in lines)
    for size in SIZES:
        yield f"mixed-{size}", lambda size=size: ended(mixed(size))
    for size in SIZES:
        yield f"wrong-{size}", lambda size=size: ended(wrong(size))
    yield "full", lambda: ended(full())
    yield "feeds", lambda: b"\n" * MAX_LINES
    yield "empty", lambda: b""


def main(folder):
    os.makedirs(folder, exist_ok=True)
    with open(f"{folder}/wide.toml", "w", encoding="ascii") as it:
        it.write(f"horizon = {LONGEST_LINE}\n" + f"[[line]]\nlength = {LONGEST_LINE}\n" * LINES)
    with open(__file__, "rb") as it:
        stamp = hashlib.sha256(it.read()).hexdigest()
    for name, made in batches():
        file, mark = f"{folder}/{name}.batch", f"{folder}/{name}.made"
        if os.path.isfile(file) and os.path.isfile(mark):
            with open(mark, encoding="ascii") as it:
                if it.read() == stamp:
                    continue
        with open(file, "wb") as it:
            it.write(made())
        with open(mark, "w", encoding="ascii") as it:
            it.write(stamp)


if __name__ == "__main__":
    main(sys.argv[1])
