#!/usr/bin/env python3
"""Runs examples/desk over HTTP, without a browser, kills it and its program, and sends it hostile requests: .ci/desk.py PROGRAM [KILLS]

A day: a stretch is closed, trains are told and answer, a restriction comes and goes, inputs are refused, and the stretch is released. Then the
program and the desk are killed in turn, KILLS times each (20 if left out), at any moment, while inputs are given. After that:

- the log has each input that was answered, under the number of its answer;
- the notes are the messages that `dispatch live` writes for the log, each once and in order;
- each train got the messages that `dispatch run` writes for it, in order; one that came twice came with the same bytes;
- the page shows what `explain` and `live --alarms` say of the log.

The notes and the messages are also compared after the day, after lines were cut off, and after the disk was full. Hostile requests are refused and
change nothing. Each check that fails is a line, and the last line counts those that came out right.
"""

import http.client
import json
import os
import random
import re
import resource
import signal
import socket
import subprocess
import sys
import tempfile
import threading
import time
from itertools import groupby
from pathlib import Path

ROOT = Path(__file__).resolve().parent.parent
DESK = ROOT / "examples/desk/desk.py"
TRACK = ROOT / "examples/main_line.toml"
SECONDS = 60  # nothing that is waited for takes so long
CLOSE = {"do": "close", "line": "0", "from": "15.2", "to": "16,85"}
CLOSE_WORDS = 'Close line 0 "Lindau - Eschen" from km 15.200 to km 16.850?'
RESTRICT = {"do": "restrict", "line": "1", "from": "30", "to": "32", "speed": "80", "ways": "down", "front": "0"}


class Checks:
    """What came out right and wrong."""

    def __init__(self):
        self.right = self.count = 0

    def check(self, name, is_right, more=""):
        self.count += 1
        self.right += bool(is_right)
        if not is_right:
            print(f"desk: {name}: not so {more}".rstrip(), flush=True)

    def equal(self, name, found, wanted):
        self.check(name, found == wanted, f"{str(found)[-300:]!r}, and not {str(wanted)[-300:]!r}")


def until(is_so):
    """Waits until something is so, and says whether it came to that."""
    end = time.monotonic() + SECONDS
    while time.monotonic() < end:
        try:
            if is_so():
                return True
        except (OSError, http.client.HTTPException, ValueError):
            pass  # the desk is not there, or was killed
        time.sleep(0.05)
    return False


class Desk:
    """A desk that runs, and what is asked of it."""

    started = []  # all of them, so that none is left behind

    def __init__(self, program, log, every, *more, most=None):
        words = [sys.executable, DESK, "--program", program, "--log", log, "--port", "0", "--every", str(every), *more]
        limit = most and (lambda: resource.setrlimit(resource.RLIMIT_FSIZE, (most, most)))  # no file of more bytes
        streams = {"stdout": subprocess.PIPE, "stderr": subprocess.PIPE, "text": True}
        self.process = subprocess.Popen([str(word) for word in words], preexec_fn=limit, **streams)
        self.program, self.log, self.token, self.port = program, Path(log), "", 0
        self.started.append(self.process)

    def is_open(self):
        """Whether it printed its address, once it did or ended."""
        found = re.match(r"Open http://127\.0\.0\.1:(\d+)/#(\S+)$", self.process.stdout.readline())
        if found:
            self.port, self.token = int(found[1]), found[2]
        return found is not None

    def ask(self, method, path, body=None, **headers):
        """The status and the body of an answer."""
        connection = http.client.HTTPConnection("127.0.0.1", self.port, timeout=SECONDS)
        try:
            connection.request(method, path, body, {name.replace("_", "-"): text for name, text in headers.items()})
            answer = connection.getresponse()
            return answer.status, answer.read()
        finally:
            connection.close()

    def state(self):
        return json.loads(self.ask("GET", "/state")[1])

    def post(self, fields, **headers):
        wanted = {"Content_Type": "application/json", "X_Token": self.token, **headers}
        status, body = self.ask("POST", "/command", json.dumps(fields).encode(), **wanted)
        return status, json.loads(body)

    def give(self, fields):
        """Gives an input as the page does: it is read back, and given with the words that came."""
        words = self.post(fields)[1].get("read_back")
        return self.post({**fields, "confirmed": words})[1].get("words", "") if words else ""

    def shows(self, pattern):
        """Whether the state comes to have a text."""
        return until(lambda: re.search(pattern, text_of(self.state())))

    def kill_program(self):
        """Kills its `dispatch live`, if that runs at this moment."""
        for children in Path(f"/proc/{self.process.pid}/task").glob("*/children"):
            try:
                for child in children.read_text().split():
                    if b"\0live\0" in Path(f"/proc/{child}/cmdline").read_bytes():
                        os.kill(int(child), signal.SIGKILL)
            except OSError:
                pass

    def end(self, how=signal.SIGTERM):
        """Ends it by a signal: its status, and what it wrote."""
        self.process.send_signal(how)
        try:
            output, errors = self.process.communicate(timeout=SECONDS)
        except subprocess.TimeoutExpired:
            return None, "it does not end"
        return self.process.returncode, output + errors


def text_of(state):
    """What is in force, on one line."""
    return " ".join(line for section in state["sections"] for line in lines_of(section))


def lines_of(section):
    return [section["text"], *(line for entry in section["below"] for line in lines_of(entry))]


def output_of(program, words, text):
    return subprocess.run([program, *words, "--track", TRACK], input=text, stdout=subprocess.PIPE, check=True).stdout.decode()


# ---- starts and ends

def starts(checks, program, folder):
    """The desk says in words why it does not start, and ends when it is asked to."""
    def said(*words):
        done = subprocess.run([sys.executable, DESK, "--program", program, *map(str, words)], capture_output=True, text=True, timeout=SECONDS)
        return done.returncode, done.stdout, done.stderr

    checks.check("--help", said("--help")[0] == 0)
    log = folder / "starts.log"
    for name, words, error in (
        ("no track", ["--track", folder / "no.toml", "--log", log], "desk: dispatch explain: track: unreadable\n"),
        ("no program", ["--program", folder / "no", "--log", log], f"desk: {folder}/no cannot be started: No such file or directory\n"),
        ("a log that is a folder", ["--log", folder], f"desk: [Errno 21] Is a directory: '{folder}'\n"),
        ("a port that is none", ["--port", "99999", "--log", log], "desk: bind(): port must be 0-65535.\n"),
    ):
        checks.equal(name, said(*words), (1, "", error))
    checks.check("nothing was made", not log.exists())
    desk = Desk(program, log, 0)
    checks.check("an empty desk opens", desk.is_open())
    checks.equal("port in use", said("--port", desk.port, "--log", folder / "other.log"),
                 (1, "", f"desk: port {desk.port} is in use: name another one with --port\n"))
    checks.equal("log in use", said("--port", 0, "--log", log), (1, "", f"desk: {log} is in use by another desk\n"))
    checks.check("an empty desk shows no train", desk.shows("Trains: 0 enrolled"))
    status, text = desk.end(signal.SIGINT)
    checks.check("Ctrl-C ends it", status == 0 and "Traceback" not in text, text)
    checks.equal("another track", said("--port", 0, "--log", log, "--track", ROOT / "examples/own.toml"),
                 (1, "", f"desk: {log} was begun with another track file or other rules: begin a new log\n"))


# ---- a day

def a_day(checks, program, folder):
    desk = Desk(program, folder / "day.log", 0.3)
    checks.check("the desk opens", desk.is_open())
    checks.check("the trains have places", desk.shows(r"Train 1071, 200 m long, may be at .* Train 2207, 200 m long, may be at"))
    page = [desk.ask("GET", path) for path in ("/", "/page.css", "/page.js")]
    checks.check("the page is there", all(status == 200 and body for status, body in page))
    checks.check("nothing in it is from elsewhere", not any(b"//" in re.sub(rb"(?m)(^|\s)//.*|http://www\.w3\.org", b"", body) for _, body in page))
    checks.equal("a closure is read back", desk.post(CLOSE), (200, {"read_back": CLOSE_WORDS}))
    status, answer = desk.post({**CLOSE, "to": "17", "confirmed": CLOSE_WORDS})
    checks.check("other words than were confirmed", status == 409 and "error" in answer)
    checks.check("nothing was given", b"stop" not in desk.log.read_bytes())
    checks.check("the closure is given", re.fullmatch(r"Input \d+ was accepted, and sent \d messages?\.", desk.give(CLOSE)))
    checks.check("it is told and answered", desk.shows(r"Stop 1: line 0, km 15.200 to km 16.850\. Told to ([3-9]) trains, answered by \1"))
    checks.check("the picture shows it", until(lambda: b"<title>stop 1: line 0, km 15.200" in desk.ask("GET", "/picture.svg")[1]))
    checks.check("a train that loses its place is an alarm", until(lambda: any(
        alarm["text"] == "Train 2206 has no place." and alarm["to_do"] for alarm in desk.state()["alarms"])))
    checks.check("the alarm goes", until(lambda: not desk.state()["alarms"]))
    checks.check("a restriction is given", "was accepted" in desk.give(RESTRICT))
    checks.check("it is told and acknowledged", desk.shows(r"Restriction 1: .*Told to ([1-9]) trains?, acknowledged by \1"))
    for name, fields, code in (("a place off the line", {**CLOSE, "to": "999"}, "12 bad area"), ("a speed that is none", {**RESTRICT, "speed": "81"}, "12"),
                               ("a stop that is not active", {"do": "release", "number": "7"}, "14 no such number")):
        checks.check(name, f"was refused. Code {code}" in desk.give(fields))
    for words in ("  Refused, no such number", "  Train 1071 answers stop 1, identifier 0: accepted", "= 1071 "):
        checks.check(f"among the last inputs is: {words}", until(lambda: any(
            line.startswith(words) for block in desk.state()["last"] for line in block)))
    checks.check("lifted", "was accepted" in desk.give({"do": "lift", "number": "1"}))
    checks.check("released", "was accepted" in desk.give({"do": "release", "number": "1"}))
    checks.check("all is acknowledged", desk.shows(r"Stops: 0 active; .* Restrictions: 0 active; .*Outstanding: no acknowledgement"))
    with socket.create_connection(("127.0.0.1", desk.port), timeout=SECONDS) as events:
        events.sendall(f"GET /events HTTP/1.1\r\nHost: 127.0.0.1:{desk.port}\r\n\r\n".encode())
        stream = events.makefile("rb")
        states = (json.loads(line[6:]) for line in stream if line.startswith(b"data: "))
        checks.check("events go on", next(states)["answered"] < next(states)["answered"])
    checks.check("a stop is given again", "was accepted" in desk.give(CLOSE))
    desk.process.kill()
    desk.process.communicate()
    compare(checks, program, folder / "day.log", "after the day")
    torn(checks, program, folder / "day.log")


def torn(checks, program, log):
    """Lines that were cut off are dropped, and the desk goes on."""
    whole = {file: file.read_bytes() for file in (log, Path(f"{log}.sent"))}
    for file, text in whole.items():
        file.write_bytes(text + b"1071 9 1002" if file != log else text + b"stop 9 0:1-2")
    desk = Desk(program, log, 0)
    checks.check("the desk opens after a cut", desk.is_open())
    checks.check("it shows what is in force", desk.shows(r"Stop \d+: line 0, km 15.200 to km 16.850"))
    for file, text in whole.items():
        found = file.read_bytes()
        checks.check(f"{file.name} lost what was cut off", found.startswith(text) and b"stop 9" not in found and b"\n1071 9 1002" not in found)
    desk.end()
    compare(checks, program, log, "after a cut")


def full(checks, program, folder):
    """A desk whose disk is full says so, and takes nothing more; with room again, it goes on."""
    desk = Desk(program, folder / "full.log", 0, most=500)
    checks.check("a desk with little room opens", desk.is_open())
    checks.check("it takes no more than there is room for", until(lambda: desk.post({**CLOSE, "confirmed": CLOSE_WORDS})[0] == 503))
    checks.check("the page says so", until(lambda: re.search("cannot be written: .*End the desk", desk.state()["fault"])))
    status, answer = desk.post({"do": "release", "number": "1", "confirmed": desk.post({"do": "release", "number": "1"})[1]["read_back"]})
    checks.check("it takes nothing shorter", status == 503 and "cannot be written" in answer["error"])
    desk.end()
    desk = Desk(program, folder / "full.log", 0.2)
    checks.check("with room again, it opens", desk.is_open())
    checks.check("and takes a closure", "was accepted" in desk.give(CLOSE))
    checks.check("and trains are told and answer", desk.shows(r"Told to ([3-9]) trains, answered by \1"))
    desk.process.kill()
    desk.process.communicate()
    compare(checks, program, folder / "full.log", "after a full disk")


# ---- kills

def kills(checks, program, folder, count, seed=1):
    """Kills the program and the desk in turn, at random moments, while inputs are given."""
    chance, log, given = random.Random(seed), folder / "kills.log", {}
    desk = Desk(program, log, 0.2)
    is_open = desk.is_open()
    for number in range(2 * count):
        giver = threading.Thread(target=some_inputs, args=(desk, chance.random(), given))
        if is_open:
            giver.start()
        time.sleep(chance.random() * 0.4)
        if number % 2:
            desk.kill_program()
        else:
            desk.process.kill()
            desk.process.communicate()
        if is_open:
            giver.join()
        if not number % 2:
            desk = Desk(program, log, 0.2)
            is_open = chance.random() < 0.8 and desk.is_open()  # else it is killed while it starts
            if not is_open:
                time.sleep(chance.random() * 0.3)
                desk.process.kill()
                desk.process.communicate()
                desk = Desk(program, log, 0.2)
                is_open = desk.is_open()
    checks.check("the desk is open", is_open)
    checks.check("inputs were given", len(given) > count // 4, len(given))
    size = log.read_bytes().count(b"\n")
    checks.check("it answers all", until(lambda: desk.state()["answered"] >= size))
    state = desk.state()
    desk.process.kill()
    desk.process.communicate()
    lines = log.read_text().splitlines()
    checks.check("each input that was answered is in the log", all(lines[at - 1].startswith(start) for at, start in given.items()))
    shown(checks, program, "\n".join(lines[: state["answered"]] + [""]).encode(), state)
    return compare(checks, program, log, "after the kills")


def some_inputs(desk, chance, given):
    """Closes, restricts, releases and lifts until the desk is killed; notes each input that was answered, with its first words."""
    for number in range(3):
        for fields, start in ((CLOSE, "stop "), (RESTRICT, "restrict "), ({"do": "release", "number": str(int(chance * 9) + number)}, "release "),
                              ({"do": "lift", "number": str(int(chance * 9) + number)}, "lift ")):
            try:
                found = re.match(r"Input (\d+) was", desk.give(fields))
            except (OSError, http.client.HTTPException, ValueError):
                return
            if found:
                given[int(found[1])] = start


def shown(checks, program, log, state):
    """The page shows what the program says of the log."""
    end = output_of(program, ["explain"], log).partition("AT THE END")[2].split("\n")[1:-1]
    checks.equal("the page shows the state", [line for section in state["sections"] for line in lines_of(section)], [line.strip() for line in end])
    alarms = set()
    for line in output_of(program, ["live", "--alarms"], log).splitlines():
        _, word, engine, *what = [*line.split(), ""]
        if word in ("raised", "cleared"):
            alarms ^= {(engine, *what)}
    words = {"place": "has no place", "stop": "is not told of stop", "restriction": "is not told of restriction",
             "answer": "reported three times without answering stop"}
    wanted = [" ".join(["Train", engine, words[kind], *number]).strip() + "." for engine, kind, *number in alarms]
    checks.equal("the page shows the alarms", sorted(alarm["text"] for alarm in state["alarms"]), sorted(wanted))


def compare(checks, program, log, when):
    """What was sent and noted, beside what the program writes for the log. Returns how many messages there were, and how many came twice."""
    text = log.read_bytes()
    checks.check(f"the log has whole lines {when}", text.endswith(b"\n"))
    live = [line for line in output_of(program, ["live"], text).splitlines() if line.split()[1] not in ("ok", "refused")]
    noted = Path(f"{log}.sent").read_text().split("\n")[:-1]
    checks.equal(f"what was noted is what the program writes, to where it was killed, {when}", noted, live[: len(noted)])
    got = [json.loads(line) for line in Path(f"{log}.trains").read_text().split("\n")[:-1]]
    by_train = {}
    for fact in got:
        if "got" in fact:
            by_train.setdefault(fact["engine"], []).append(fact["got"])
    wanted = {}
    for line in output_of(program, ["run"], text).splitlines():
        if line.split()[1] not in ("ok", "refused"):
            wanted.setdefault(int(line.split()[0]), []).append(line)
    once = {engine: [message for message, _ in groupby(messages)] for engine, messages in by_train.items()}
    checks.equal(f"trains got their messages in order {when}", once,
                 {engine: wanted.get(engine, [])[: len(messages)] for engine, messages in once.items()})
    sent = sum(map(len, once.values()))
    checks.check(f"each message that was noted was sent {when}", set(noted) <= {message for messages in once.values() for message in messages})
    checks.check(f"at most one message was sent and not noted {when}", sent - len(noted) in (0, 1), f"{sent} {len(noted)}")
    return len(live), len(noted), sum(map(len, by_train.values())) - sent


# ---- hostile requests

def raw(desk, request):
    """The status that raw bytes get; 0 if the connection is closed without one."""
    with socket.create_connection(("127.0.0.1", desk.port), timeout=SECONDS) as connection:
        try:
            connection.sendall(request.replace(b"PORT", str(desk.port).encode()).replace(b"TOKEN", desk.token.encode()))
            connection.shutdown(socket.SHUT_WR)
            answer = b"".join(iter(lambda: connection.recv(65_536), b""))
        except OSError:
            return 0, b""
    found = re.match(rb"HTTP/1\.\d (\d+)", answer)
    return int(found[1]) if found else 0, answer


def hostile_requests():
    """Each request by name, with the statuses that it may get."""
    body = json.dumps({**CLOSE, "confirmed": CLOSE_WORDS}).encode()

    def post(body=body, length=None, path=b"/command", host=b"127.0.0.1:PORT", token=b"TOKEN", kind=b"application/json", more=b""):
        length = str(len(body)).encode() if length is None else length
        return b"".join([b"POST ", path, b" HTTP/1.1\r\nHost: ", host, b"\r\nX-Token: ", token, b"\r\nContent-Type: ", kind,
                         b"\r\nContent-Length: ", length, b"\r\n", more, b"\r\n", body])

    yield "another name", post(host=b"evil.example:PORT"), (421,)
    yield "no host", post().replace(b"Host:", b"X:"), (421,)
    yield "another port", post(host=b"127.0.0.1:1"), (421,)
    yield "another origin", post(more=b"Origin: http://evil.example\r\n"), (403,)
    yield "no origin", post(more=b"Origin: null\r\n"), (403,)
    yield "another port of this machine", post(more=b"Origin: http://127.0.0.1:1\r\n"), (403,)
    yield "another site", post(more=b"Sec-Fetch-Site: cross-site\r\n"), (403,)
    for token in (b"", b"x", b"TOKENx", b"\xff\xfe", b"null"):
        yield f"the token {token}", post(token=token), (403,)
    yield "a form of another page", post(kind=b"text/plain"), (400,)
    yield "no length", post().replace(b"Content-Length", b"X"), (411,)
    for length in (b"-1", b"+5", b"1e3", b"0x10", b"9" * 30, b"12, 12"):
        yield f"the length {length}", post(length=length), (411, 413)
    yield "in pieces", post(more=b"Transfer-Encoding: chunked\r\n"), (411,)
    yield "a body that is cut off", post(body=body[:-5], length=str(len(body)).encode()), (400,)
    yield "65,537 bytes", post(body=b" " * (65_537 - len(body)) + body), (413,)
    yield "a megabyte", post(body=b"x" * 1_000_000), (413,)
    yield "a length that never comes", post(length=b"99999999"), (413,)
    bodies = [b"", b"{", b"[]", b"null", b"7", b'"x"', b"\xff\xfe\xfd", b'{"do": "\xff"}', b"[" * 60_000, b'{"do": ' * 9_000, b"\0" * 1000, b"9" * 60_000]
    for wrong in bodies:
        yield f"the body {wrong[:10]}", post(body=wrong), (400,)
    for change in ({"do": None}, {"do": ["close"]}, {"do": "enrol"}, {"line": "9"}, {"line": ["0"]}, {"line": None}, {"line": "0\n"}, {"from": 15},
                   {"from": "-1"}, {"from": "1e3"}, {"from": "15.20001"}, {"from": "\u0661\u0665"}, {"to": "1\nstop 7 0:1-2"}, {"to": "1 0:1-2"}, {"to": ""},
                   {"do": "release"}, {"do": "release", "number": "1\nstop 7 0:1-2"}, {"do": "release", "number": 1}, {"do": "lift", "number": "99999999999"},
                   {"do": "restrict"}, {"do": "restrict", "speed": "80", "ways": "up 1", "front": "0"}, {"do": "restrict", "speed": "x", "ways": "up", "front": "0"}):
        yield f"the fields {change}", post(body=json.dumps({**CLOSE, "confirmed": CLOSE_WORDS, **change}).encode()), (400,)
    yield "confirmed, but other words", post(body=json.dumps({**CLOSE, "confirmed": "yes"}).encode()), (409,)
    yield "confirmed by a number", post(body=json.dumps({**CLOSE, "confirmed": 1}).encode()), (409,)
    for path in (b"/nothing", b"/../desk.py", b"/page.py", b"/desk.py", b"/%2e%2e/log.py", b"/page.js/..", b"/\xff\xfe", b"/?x", b"http://127.0.0.1/", b"*"):
        yield f"the path {path}", b"GET " + path + b" HTTP/1.1\r\nHost: 127.0.0.1:PORT\r\n\r\n", (404, 400)
    yield "a long path", b"GET /" + b"x" * 70_000 + b" HTTP/1.1\r\nHost: 127.0.0.1:PORT\r\n\r\n", (414,)
    yield "many headers", b"GET / HTTP/1.1\r\nHost: 127.0.0.1:PORT\r\n" + b"X: y\r\n" * 200 + b"\r\n", (431,)
    yield "a GET of the command", b"GET /command HTTP/1.1\r\nHost: 127.0.0.1:PORT\r\n\r\n", (404,)
    yield "a POST of the page", post(path=b"/"), (404,)
    for method in (b"PUT", b"DELETE", b"PATCH", b"OPTIONS", b"HEAD"):
        yield method.decode(), method + b" /command HTTP/1.1\r\nHost: 127.0.0.1:PORT\r\n\r\n", (405,)
    yield "a method that is none", b"GIVE /command HTTP/1.1\r\nHost: 127.0.0.1:PORT\r\n\r\n", (501,)
    yield "no HTTP", b"\x16\x03\x01\x02\x00\x01\x00\x01\xfc\x03\x03\r\n\r\n", (0, 400)
    yield "HTTP/9", b"GET / HTTP/9.9\r\nHost: 127.0.0.1:PORT\r\n\r\n", (0, 505)


def hostile(checks, program, folder):
    desk = Desk(program, folder / "hostile.log", 0)
    checks.check("a desk for hostile requests opens", desk.is_open())
    files = {file: file.read_bytes() for file in folder.glob("hostile.log*")}
    for name, request, statuses in hostile_requests():
        status, answer = raw(desk, request)
        checks.check(name, status in statuses and b"Traceback" not in answer and b"desk.py" not in answer, f"{status} {answer[-200:]}")
    idle = []
    for _ in range(120):
        connection = socket.create_connection(("127.0.0.1", desk.port), timeout=SECONDS)
        connection.sendall(b"GET /events HTTP/1.1\r\nHost: 127.0.0.1:%d\r\n\r\n" % desk.port if len(idle) < 10 else b"GET")
        idle.append(connection)
    for connection in idle[10:]:
        connection.close()
    checks.check("the desk answers beside pages that do not read", until(lambda: desk.state()["answered"] == 0))
    for connection in idle[:10]:
        connection.close()
    checks.check("nothing changed", files == {file: file.read_bytes() for file in folder.glob("hostile.log*")})
    with socket.socket() as other:
        other.settimeout(2)
        address = next((line.split()[1] for line in addresses() if not line.split()[1].startswith("127.")), None)
        checks.check("another address of this machine does not answer", address is None or other.connect_ex((address, desk.port)) != 0)
    checks.check("the closure itself is accepted", "was accepted" in desk.give(CLOSE))
    names(checks, program, folder)
    status, text = desk.end()
    checks.check("the desk ends well", status == 0 and "Traceback" not in text, text[-500:])


def names(checks, program, folder):
    """A name of the track that looks like a page stays a name."""
    track, name = folder / "names.toml", "<img src=x onerror=alert(1)> &amp;"
    track.write_text(TRACK.read_text().replace("Lindau - Eschen", name))
    desk = Desk(program, folder / "names.log", 0.5, "--track", track)
    checks.check("a desk on a track of odd names opens", desk.is_open())
    checks.check("the picture has the name as text", until(lambda: b"&lt;img src=x" in desk.ask("GET", "/picture.svg")[1]))
    checks.check("the picture has no element of it", b"<img" not in desk.ask("GET", "/picture.svg")[1])
    checks.equal("the name is read back", desk.post(CLOSE)[1], {"read_back": CLOSE_WORDS.replace("Lindau - Eschen", name)})
    desk.end()


def addresses():
    """The IPv4 addresses of this machine, as `inet ADDRESS`."""
    try:
        return [f"inet {socket.gethostbyname(socket.gethostname())}"]
    except OSError:
        return []


def main():
    if len(sys.argv) not in (2, 3):
        sys.exit(__doc__)
    program = os.path.realpath(sys.argv[1])
    count = int(sys.argv[2]) if sys.argv[2:] else 20
    checks, began = Checks(), time.monotonic()
    signal.signal(signal.SIGINT, signal.default_int_handler)  # a shell that starts this behind itself has it ignored
    with tempfile.TemporaryDirectory() as scratch:
        folder = Path(scratch)
        try:
            for part in (starts, a_day, full, hostile):
                part(checks, program, folder)
            written, noted, twice = kills(checks, program, folder, count)
        finally:
            for process in Desk.started:
                process.kill()
    if sys.argv[2:]:
        took = time.monotonic() - began
        print(f"desk: {count} kills of each; {written} messages, {noted} noted, {twice} came twice; {took:.0f} s in all")
    print(f"desk: {checks.right} of {checks.count} checks came out right")
    return 0 if checks.right == checks.count else 1


if __name__ == "__main__":
    sys.exit(main())
