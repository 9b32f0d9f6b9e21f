"""Makes random tracks and batches, of one profile each: the same bytes for the same words.

`track` and `batch` are what bench/soak.py uses. Called as `python3 soak_batches.py PROFILE SEED LINES FOLDER` it writes FOLDER/PROFILE-SEED.toml
and FOLDER/PROFILE-SEED.batch.
"""

import sys

from loads import LONGEST_TRAIN, Random, spelled, wrong_line

UNKNOWN = 2**24 - 1  # NID_LRBG
PLACES = 2**15

# how often each kind of line comes, by profile
PROFILES = {
    "mixed": {"enrol": 4, "withdraw": 1, "report": 12, "ack": 6, "answer": 4, "stop": 3, "release": 3, "restrict": 3, "lift": 3, "wrong": 1},
    "contended": {"enrol": 1, "withdraw": 1, "report": 2, "ack": 2, "stop": 5, "release": 5, "restrict": 3, "lift": 3},
    "disjoint": {"enrol": 1, "report": 40, "ack": 4},
    "acknowledgements": {"report": 2, "ack": 12, "answer": 12, "stop": 4, "release": 4},
    "stops": {"enrol": 2, "report": 6, "stop": 6, "release": 5, "answer": 4, "ack": 4},
    "restrictions": {"enrol": 1, "report": 20, "restrict": 6, "lift": 2, "ack": 2},
    "comings": {"enrol": 8, "withdraw": 8, "report": 4, "stop": 1, "release": 1, "restrict": 1, "lift": 1},
    "hostile": {"enrol": 2, "report": 4, "ack": 2, "answer": 2, "stop": 2, "release": 1, "restrict": 1, "lift": 1, "wrong": 8, "torn": 8, "noise": 8},
}

# how many trains are enrolled first, and on how many lines, at most
TRAINS = {"contended": 3, "disjoint": 60, "comings": 40}
LINES = {"contended": 1, "disjoint": 30, "restrictions": 2}


class Scene:
    """A track, and what a batch has said so far: enough to say more that is to the point."""

    def __init__(self, profile, random):
        self.profile, self.random = profile, random
        self.lengths = [random.between(50_000, 3_000_000) for _ in range(random.between(1, LINES.get(profile, 6)))]
        self.groups = []
        for nid in random.some_of(16_000, random.between(1, 20)):
            line = random.below(len(self.lengths))
            self.groups.append((nid, line, random.between(0, self.lengths[line]), random.one_of(("up", "down"))))
        self.engines = random.some_of(2**24, random.between(1, TRAINS.get(profile, 20)))
        self.stamps = dict.fromkeys(self.engines, 0)
        self.number = 0

    def track(self):
        text = [f"horizon = {self.random.between(1, 3_000_000)}\n"]
        text += [f"[[line]]\nlength = {length}\n" for length in self.lengths]
        text += [f'[[group]]\nnid = {nid}\nline = {line}\nat = {at}\nnominal = "{way}"\n' for nid, line, at, way in self.groups]
        return "".join(text).encode()

    def engine(self):
        return self.random.one_of(self.engines) if self.random.below(50) else self.random.below(2**24)

    def segment(self):
        line = self.random.below(len(self.lengths)) if self.random.below(60) else 9
        length = self.lengths[line] if line < len(self.lengths) else 1000
        low = self.random.below(length)
        high = self.random.between(low, min(length, low + self.random.one_of((10, 1_000, 50_000, length))))
        return b"%d:%d-%d" % (line, low, high)

    def some_number(self):
        """A number of a stop or restriction: mostly a late one."""
        return max(0, self.number - self.random.below(self.random.one_of((2, 10, 100))))

    def next_number(self):
        self.number += self.random.one_of((0, 1, 1, 1, 1, 1, 1, 1, 7))
        return self.number

    def stamp(self, engine):
        """T_TRAIN of a message from a train: mostly later than all before."""
        if self.random.below(40) == 0:
            return self.random.one_of((0, 2**32 - 1, 2**32 - 2, self.random.below(2**32)))
        self.stamps[engine] = self.stamps.get(engine, 0) + self.random.one_of((0, 1, 10, 100))
        return self.stamps[engine] % 2**32

    def position(self):
        """A position packet, mostly at a balise group of the track."""
        random = self.random
        nid = random.one_of(self.groups)[0] if random.below(20) else random.one_of((UNKNOWN, random.below(UNKNOWN)))
        distance = random.below(random.one_of((500, 5_000, PLACES))) if random.below(30) else PLACES - 1
        way = random.one_of((0, 1, 1, 1, 1, 2)) if random.below(30) else 3
        doubts = [(random.below(random.one_of((10, 200, PLACES))), 15) for _ in range(2)]
        two = random.below(6) == 0
        previous = [(random.below(UNKNOWN + 1), 24)] if two else []
        place = [(random.one_of((0, 0, 1, 1, 2)), 2), (nid, 24), *previous, (distance, 15), (way, 2), (way, 2), *doubts]
        place += [(0, 2), (random.below(2**7), 7), (1, 2), (random.below(16), 4), (3, 3)]
        return [(int(two), 8), (21 + sum(width for _, width in place), 13), *place]

    def head(self):
        engine = self.engine()
        return [(self.stamp(engine), 32), (engine, 24)]

    def message(self, kind):
        if kind == "report":
            return spelled(136, self.head() + self.position())
        if kind == "answer":
            said = [(self.random.below(16), 4), (self.random.one_of((0, 1, 2, 3, 3)), 2)]
            return spelled(147, self.head() + said + self.position())
        engine = self.engine()
        acked = (self.stamps.get(engine, 0) + self.random.below(self.random.one_of((3, 20)))) % 2**32
        return spelled(146, [(self.stamp(engine), 32), (engine, 24), (acked, 32)])

    def torn(self):
        """A message of which some bytes are others, or missing, or too many."""
        random = self.random
        bytes_of = bytearray(self.message(random.one_of(("report", "answer", "ack"))))
        for _ in range(random.between(1, 3)):
            bytes_of[random.below(len(bytes_of))] = random.one_of((0, 255, random.below(256)))
        cut = random.one_of((len(bytes_of), len(bytes_of), random.below(len(bytes_of) + 1)))
        word = bytes(bytes_of[:cut] + b"\x00" * random.one_of((0, 0, 1, 5))).hex()
        return b"recv " + (word.upper() if random.below(2) else word[: len(word) - random.below(2)]).encode()

    def noise(self):
        """Any bytes but a line feed."""
        length = self.random.below(self.random.one_of((4, 40, 400)))
        return bytes(byte for byte in (self.random.below(256) for _ in range(length)) if byte != 10)

    def line(self, kind):
        random = self.random
        made = {
            "enrol": lambda: b"enrol %d %d" % (self.engine(), random.between(1, LONGEST_TRAIN)),
            "withdraw": lambda: b"withdraw %d" % self.engine(),
            "stop": lambda: b"stop %d %s" % (self.next_number(), b" ".join(self.segment() for _ in range(random.one_of((1, 1, 2, 8))))),
            "release": lambda: b"release %d" % self.some_number(),
            "restrict": lambda: b"restrict %d %s %s %d %d"
            % (self.next_number(), self.segment(), random.one_of((b"up", b"down", b"both")), 5 * random.below(122), random.below(2)),
            "lift": lambda: b"lift %d" % self.some_number(),
            "wrong": lambda: wrong_line(random),
            "torn": self.torn,
            "noise": self.noise,
        }
        return made[kind]() if kind in made else b"recv " + self.message(kind).hex().upper().encode()


def made(profile, seed, lines):
    """The track and the batch of a profile, of so many lines."""
    random = Random("soak", profile, seed)
    scene = Scene(profile, random)
    track = scene.track()
    kinds = [kind for kind, often in PROFILES[profile].items() for _ in range(often)]
    first = [b"enrol %d %d" % (engine, random.between(1, LONGEST_TRAIN)) for engine in scene.engines]
    first += [b"recv " + spelled(136, [(scene.stamp(engine), 32), (engine, 24), *scene.position()]).hex().encode() for engine in scene.engines]
    rest = [scene.line(random.one_of(kinds)) for _ in range(max(0, lines - len(first)))]
    return track, b"".join(line + b"\n" for line in (first + rest)[:lines])


def main(profile, seed, lines, folder):
    track, batch = made(profile, int(seed), int(lines))
    for text, ending in ((track, "toml"), (batch, "batch")):
        with open(f"{folder}/{profile}-{seed}.{ending}", "wb") as it:
            it.write(text)


if __name__ == "__main__":
    main(*sys.argv[1:])
