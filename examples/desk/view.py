"""What the page shows: the words of `explain`, the drawing of `picture`, the alarms of `live`. It decides nothing."""

import json
import re
import threading
import time

from log import Unusable
from process import Live, output_of

SEARCHED, SHOWN = 500, 20  # the page shows so many of so many last inputs
UNTOLD = ": if it may reach the place, stop it by other means; then release or lift what is not needed, and wait."
ALARMS = {  # what each alarm means, and what to do
    "place": ("has no place", "A stop not told before stops it, and it is told of no restriction. Ask it for a report."),
    "stop": ("is not told of stop", "It may not know of the stop" + UNTOLD),
    "restriction": ("is not told of restriction", "It may not know of the restriction" + UNTOLD),
    "answer": ("reported three times without answering stop", "It is not told to stop at once yet" + UNTOLD),
}


def lines_of(explained: str) -> list[dict]:
    """The lines of the track, as `explain` names them."""
    found = re.findall(r'^  line (\d+)(?: "(.*)")?: km \S+ to km (\d+)\.(\d+)', explained, flags=re.M)
    return [{"number": int(number), "name": f'line {number} "{name}"' if name else f"line {number}",
             "length": int(f"{km}{part:0<4}")} for number, name, km, part in found]


def blocks_of(inputs: str) -> list[list[str]]:
    """The last inputs of `explain`, the newest first, without reports (136, hexadecimal 88) that sent nothing."""
    blocks = [block.strip("\n").split("\n") for block in reversed(inputs.split("\nINPUT ")[1:])]
    return [lines for lines in blocks if ": recv 88" not in lines[0] or not lines[1].endswith(" ok 0")][:SHOWN]


def sections_of(end: str) -> list[dict]:
    """The end of `explain`, each line with those that are indented below it."""
    sections: list[dict] = []
    for line in filter(None, end.split("\n")[1:]):
        above = sections
        for _ in range((len(line) - len(line.lstrip())) // 2):
            above = above[-1]["below"]
        above.append({"text": line.strip(), "below": []})
    return sections


class View:
    """The state as the page shows it, made again when something changed, at most twice a second."""

    def __init__(self, program: str, track: str, live: Live, lines: list[dict]) -> None:
        self.live, self.lines = live, lines
        self.explain, self.draw = ([program, name, "--track", track] for name in ("explain", "picture"))
        self.ready = threading.Condition()  # guards what follows
        self.version, self.state, self.picture = 0, b"", b""
        threading.Thread(target=self._follow, daemon=True).start()

    def newer_than(self, version: int, seconds: float) -> tuple[int, bytes]:
        """The state once it is newer than a version; after these seconds, whatever it is."""
        with self.ready:
            self.ready.wait_for(lambda: self.version > version, seconds)
            return self.version, self.state

    def _facts(self) -> dict:
        live = self.live
        return {"answered": live.answered, "starts": live.starts, "trouble": live.trouble, "alarms": live.alarms,
                "fault": live.log.broken or live.sent.broken or (live.trouble if live.ending else "")}

    def _follow(self) -> None:
        facts: dict = {}
        with self.live.changed:  # nothing is shown before the log was replayed
            self.live.changed.wait_for(lambda: self.live.answered >= len(self.live.log.lines), 5)
        while True:
            with self.live.changed:
                self.live.changed.wait_for(lambda: self._facts() != facts)
                facts = self._facts()
                log = b"".join(line + b"\n" for line in self.live.log.lines[: facts["answered"]])
            began = time.monotonic()
            self._make(log, facts)
            time.sleep(max(0.5, 2 * (time.monotonic() - began)))

    def _make(self, log: bytes, facts: dict) -> None:
        inputs, end, picture, fault = "", "", b"", facts["fault"]
        try:
            some = ["--from", str(max(1, facts["answered"] - SEARCHED))] if log else []
            inputs, _, end = output_of([*self.explain, *some], log).partition("AT THE END")
            picture = output_of(self.draw, log).encode()
        except Unusable as error:
            fault = fault or str(error)
        alarms = [{"text": f"Train {engine} {ALARMS[kind][0]} {number}".strip() + ".", "to_do": ALARMS[kind][1]}
                  for engine, what in sorted(facts["alarms"]) for kind, _, number in [what.partition(" ")]]
        state = {**facts, "fault": fault, "alarms": alarms, "lines": self.lines, "sections": sections_of(end),
                 "last": blocks_of(inputs)}
        with self.ready:
            self.version, self.state, self.picture = self.version + 1, json.dumps(state).encode(), picture
            self.ready.notify_all()
