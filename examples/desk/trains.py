"""Simulated trains in place of a radio: they move, report and acknowledge; some late, one rejects, one loses its place.

A radio block centre has its radio here: `send` hands over the bytes of a message, and what a train sends is given as an
input, `recv HEX`. The trains remember in a file of their own, LOG.trains: a real train does not die with the desk.
"""

import json
import subprocess
import threading
from collections.abc import Callable
from dataclasses import dataclass, field
from pathlib import Path

from log import DurableLines, Unusable
from process import started

TICKS = 10  # how often a train looks at what it has to answer, between two of its reports
NOWHERE = "0 scale 1 lrbg 16777215 distance 32767 dir 2 side 2 over 32767 under 32767"


@dataclass
class Train:
    """A train, and what it was told. Places and lengths are in units of 10 cm, the speed is in km/h."""

    engine: int
    line: int
    place: int
    way: str
    speed: int
    late: int = 0  # it answers after so many reports
    rejects: bool = False  # it rejects each order to stop before a place
    lost_every: int = 0  # after so many reports, it has no place for three
    stamp: int = 360_000
    reports: int = 0
    groups: dict = field(default_factory=dict)  # balise groups that it knows, with their places
    stops: dict = field(default_factory=dict)  # by identifier, the place before which to stop; None: at once
    waiting: list = field(default_factory=list)  # after which report it answers which message

    def sign(self) -> int:
        """1 if places rise ahead of the train, and -1 if they fall."""
        return 1 if self.way == "up" else -1

    def take(self, text: str) -> None:
        """Takes a message, `15 stamp S ack A ..`. It obeys at once, and answers later."""
        head = text.split()[:7] if text.startswith("24") else text.split()
        words = {"message": int(head[0]), **dict(zip(head[1::2], map(int, head[2::2])))}
        self.stamp = max(self.stamp, words["stamp"])
        if words["message"] == 15 and not self.rejects:
            told = words["stop"] * 10 ** words["scale"] * self.sign()
            self.stops[words["em"]] = self.groups[words["lrbg"]] + told if words["lrbg"] in self.groups else None
        elif words["message"] == 16:
            self.stops[words["em"]] = None
        elif words["message"] == 18:
            self.stops.pop(words["em"], None)
        self.waiting.append((self.reports + self.late, words))

    def move(self, seconds: float, end: int) -> None:
        """Moves as far as it may, and turns back 2 km before the end of its line."""
        self.stamp += max(1, int(seconds * 100))
        self.reports += 1
        if (end - self.place if self.way == "up" else self.place) < min(20_000, end // 4):
            self.way = "down" if self.way == "up" else "up"
        far = int(self.speed * seconds / 0.36)
        for before in self.stops.values():
            far = 0 if before is None else min(far, max(0, (before - self.place) * self.sign() - 500))
        self.place += far * self.sign()


def fleet(lines: list[dict]) -> list[Train]:
    """Trains on the first two lines of the track."""
    a, b = (line["length"] // 1000 for line in (lines[0], lines[:2][-1]))
    last = len(lines[:2]) - 1
    return [Train(1071, 0, 135 * a, "up", 160), Train(1072, 0, 80 * a, "up", 120, late=2),
            Train(1073, 0, 500 * a, "down", 100, late=4), Train(2205, last, 600 * b, "down", 140, rejects=True),
            Train(2206, last, 850 * b, "down", 120, lost_every=12), Train(2207, last, 150 * b, "up", 90)]


class Filter:
    """`dispatch encode` or `decode` as a filter that keeps running: a line in, a line out."""

    def __init__(self, *words: str) -> None:
        self.words, self.process = words, started(words, stderr=subprocess.DEVNULL)

    def __call__(self, line: str) -> str:
        """The filter's line for a line; empty for one that it refuses, which ends it: it is started again."""
        self.process.stdin.write(line.encode() + b"\n")
        self.process.stdin.flush()
        answer = self.process.stdout.readline().decode()
        if not answer:
            self.process.communicate()
            self.process = started(self.words, stderr=subprocess.DEVNULL)
        return answer.rstrip("\n")


class Radio:
    """The trains, what they remember, and the thread in which they live."""

    def __init__(self, program: str, track: str, file: Path, lines: list[dict]) -> None:
        self.lines, self.trains = lines, {train.engine: train for train in fleet(lines)}
        self.encode, self.decode = Filter(program, "encode", "--track", track), Filter(program, "decode")
        self.inbox, self.memory = [], DurableLines(file)
        for line in self.memory.lines:
            self._live_again(json.loads(line))

    def send(self, engine: int, message: bytes) -> None:
        """Brings a message, `ENGINE INPUT HEX`, to its train. It is in the train's memory when this returns."""
        self.memory.append(json.dumps({"engine": engine, "got": message.decode()}).encode())
        self.inbox.append((engine, message.decode()))

    def start(self, give: Callable[[bytes], int], every: float, log: list[bytes]) -> None:
        """Runs the trains in a thread. Each that was never enrolled is enrolled first."""
        for engine in self.trains:
            if b"enrol %d 2000" % engine not in log:
                give(b"enrol %d 2000" % engine)
        threading.Thread(target=self._run, args=(give, every), daemon=True).start()

    def _live_again(self, fact: dict) -> None:
        """Repeats, at the start, what a train lived through before."""
        train = self.trains.get(fact["engine"])
        if train and "got" in fact:
            train.take(self.decode(fact["got"].split()[2]))
        elif train and "answered" in fact:
            train.stamp = fact["stamp"]
            train.waiting = [it for it in train.waiting if it[1]["stamp"] != fact["answered"]]
        elif train:
            train.groups[fact.pop("lrbg")] = fact.pop("at")
            vars(train).update(fact)

    def _run(self, give: Callable[[bytes], int], every: float) -> None:
        clock, ticks = threading.Event(), 0
        while not clock.wait(every / TICKS):
            while self.inbox:
                engine, message = self.inbox.pop(0)
                if engine in self.trains:
                    self.trains[engine].take(self.decode(message.split()[2]))
            try:
                for at, train in enumerate(self.trains.values()):
                    if ticks % TICKS == at:
                        train.move(every, self.lines[train.line]["length"])
                        self._report(train, give)
                    self._answer(train, give)
            except (Unusable, OSError) as error:
                print(f"desk: the trains stand still: {error}", flush=True)
                return
            ticks += 1

    def _position(self, train: Train) -> str:
        """The packet that says where a train is. `encode` makes it, which knows the balise groups."""
        if train.reports >= train.lost_every > 0 and train.reports % train.lost_every < 3:
            return NOWHERE
        line = self.encode(f"report {train.engine} {train.stamp} {train.line}:{train.place} {train.way} 100")
        return self.decode(line).split(f" engine {train.engine} ")[1] if line else NOWHERE  # no balise group behind it

    def _report(self, train: Train, give: Callable[[bytes], int]) -> None:
        """Gives the train's report. Before that, the train remembers where it is, and its balise group."""
        packet = self._position(train)
        words = dict(zip(packet.split()[1::2], map(int, packet.split()[2::2])))
        at = train.place - words["distance"] * 10 ** words["scale"] * train.sign()
        train.groups[words["lrbg"]] = at
        fact = {name: vars(train)[name] for name in ("engine", "place", "way", "stamp", "reports")}
        self.memory.append(json.dumps({**fact, "lrbg": words["lrbg"], "at": at}).encode())
        give(self.encode(f"recv 136 stamp {train.stamp} engine {train.engine} {packet}").encode())

    def _answer(self, train: Train, give: Callable[[bytes], int]) -> None:
        """Gives the answers that are due, in the order in which the messages came."""
        while train.waiting and train.waiting[0][0] <= train.reports:
            words = train.waiting[0][1]
            train.stamp += 1
            kind, text = 146, f"acked {words['stamp']}"
            if words["message"] in (15, 16):
                answer = 2 if words["message"] == 16 else 3 if train.rejects else 1
                kind, text = 147, f"em {words['em']} answer {answer} {self._position(train)}"
            give(self.encode(f"recv {kind} stamp {train.stamp} engine {train.engine} {text}").encode())
            fact = {"engine": train.engine, "answered": words["stamp"], "stamp": train.stamp}
            self.memory.append(json.dumps(fact).encode())
            train.waiting.pop(0)
