"""The page's server: on 127.0.0.1 alone, and for the page whose address the desk printed."""

import hmac
import json
import re
import secrets
import threading
from http.server import BaseHTTPRequestHandler, ThreadingHTTPServer
from pathlib import Path

from log import Unusable
from process import Live, output_of

FILES = {"/": ("page.html", "html"), "/page.css": ("page.css", "css"), "/page.js": ("page.js", "javascript")}
MOST_BYTES, MOST_THREADS = 65_536, 80  # of the body of a request; for all connections
SECONDS = 20  # so long a connection may stand still, and so long a request waits for the program
POLICY = "default-src 'self'; base-uri 'none'; form-action 'none'; frame-ancestors 'none'"
HEADERS = {"Content-Security-Policy": POLICY, "X-Content-Type-Options": "nosniff", "Cache-Control": "no-store"}


class Refused(Exception):
    """A request that is refused: its status, and why in words."""


def field(fields: dict, name: str, form: str, wanted: str) -> re.Match:
    """A field of a request, if it is a text of this form."""
    found = re.fullmatch(form, fields[name]) if isinstance(fields.get(name), str) else None
    if found is None:
        raise Refused(400, f"'{name}' has to be {wanted}.")
    return found


def place(fields: dict, name: str) -> tuple[int, str]:
    """A place in km, as units of 10 cm and as words."""
    found = field(fields, name, "([0-9]{1,4})(?:[.,]([0-9]{1,4}))?", "a place such as 15.2, with at most 4 decimals")
    units = int(f"{found[1]}{found[2] or '':0<4}")
    return units, f"km {units // 10_000}.{units % 10_000:04}".removesuffix("0")


def command(fields: dict, lines: list[dict]) -> tuple[str, str]:
    """The input that a form stands for, with `*` for a new number, and the words in which it is read back."""
    what = field(fields, "do", "close|restrict|release|lift", "close, restrict, release or lift")[0]
    if what in ("release", "lift"):
        number = int(field(fields, "number", "[0-9]{1,10}", "a number")[0])
        if what == "lift":
            return f"lift {number}", f"Lift restriction {number}? Its reason has to be gone."
        return f"release {number}", f"Release stop {number}? Its stretches have to be clear: this opens them to trains."
    line = lines[int(field(fields, "line", "|".join(str(line["number"]) for line in lines), "a line of the track")[0])]
    (start, from_km), (end, to_km) = place(fields, "from"), place(fields, "to")
    stretch, where = f"{line['number']}:{start}-{end}", f"{line['name']} from {from_km} to {to_km}"
    if what == "close":
        return f"stop * {stretch}", f"Close {where}?"
    speed = int(field(fields, "speed", "[0-9]{1,3}", "a speed in km/h")[0])
    ways = field(fields, "ways", "up|down|both", "the way that trains face: up, down or both")[0]
    front = field(fields, "front", "0|1", "0 or 1: what of a train ends the restriction")[0]
    facing, part = "either way" if ways == "both" else ways, "front" if front == "1" else "rear"
    return (f"restrict * {stretch} {ways} {speed} {front}",
            f"Restrict {where} to {speed} km/h, for trains facing {facing}, until their {part} has passed the end?")


def take(fields: dict, program: str, live: Live, lines: list[dict]) -> dict:
    """Reads a form back. Once its words come back with it, it is confirmed, and given to the program."""
    template, words = command(fields, lines)
    if fields.get("confirmed") is None:
        return {"read_back": words}
    if fields["confirmed"] != words:
        raise Refused(409, "What was confirmed is not what the form says. Nothing was given.")
    with live.changed:  # until it is in the log, no other input takes its number: one above all that were tried
        kind = template.split()[0].encode() + b" "
        tried = (line.split()[1] for line in live.log.lines if line.startswith(kind))
        number = max((int(number) for number in tried if number.isdigit()), default=0) + 1
        given = live.give(template.replace("*", str(number)).encode())
    word, _, figure = live.result(given, SECONDS).partition(" ")
    if word == "ok":
        return {"words": f"Input {given} was accepted, and sent {figure} message{'s' * (figure != '1')}."}
    if word == "refused":
        code = " ".join(output_of([program, "codes", figure]).split())
        return {"words": f"Input {given} was refused. Code {code}", "refused": True}
    return {"words": f"Input {given} is in the log. The program has not answered it yet."}


class Handler(BaseHTTPRequestHandler):
    """One request. What is wrong with it is said in words, and changes nothing."""

    timeout = SECONDS

    def answer(self) -> None:
        try:
            body = self._body()
            # A page elsewhere may have a name that leads to this address. Its requests bear that name.
            if self.headers.get("Host") not in self.server.names:
                raise Refused(421, "This desk answers to 127.0.0.1 and localhost alone.")
            if self.command not in ("GET", "POST"):
                raise Refused(405, "Only GET and POST are known here.")
            self._get() if self.command == "GET" else self._post(body)
        except (Refused, Unusable) as error:
            status, words = error.args if isinstance(error, Refused) else (503, str(error))
            self._send(status, "application/json", json.dumps({"error": words}).encode())
        except OSError:
            self.close_connection = True  # the other end went away, or stood still for too long

    do_GET = do_POST = do_HEAD = do_PUT = do_PATCH = do_DELETE = do_OPTIONS = answer

    def _body(self) -> bytes:
        """The body of a request. It is read before all else: who still sends reads no answer."""
        length = self.headers.get("Content-Length", "" if self.command == "POST" else "0")
        if not re.fullmatch("[0-9]{1,9}", length) or "Transfer-Encoding" in self.headers:
            raise Refused(411, "The request has to say how many bytes it has.")
        body = self.rfile.read(min(int(length), 16 * MOST_BYTES))
        if int(length) > MOST_BYTES:
            raise Refused(413, f"The request has more than {MOST_BYTES} bytes.")
        if len(body) < int(length):
            raise Refused(400, "The request is cut off.")
        return body

    def _get(self) -> None:
        view = self.server.view
        if self.path in FILES:
            name, kind = FILES[self.path]
            self._send(200, f"text/{kind}; charset=utf-8", Path(__file__).with_name(name).read_bytes())
        elif self.path == "/state":
            self._send(200, "application/json", view.newer_than(0, SECONDS)[1])
        elif self.path == "/picture.svg":
            self._send(200, "image/svg+xml", view.picture)
        elif self.path == "/events":
            self._send(200, "text/event-stream")
            version = 0
            while True:  # a page that does not read holds up this thread alone, and is dropped after SECONDS
                newest, state = view.newer_than(version, 5)
                self.wfile.write(b"data: " + state + b"\n\n" if newest > version else b": nothing new\n\n")
                version = newest
        else:
            raise Refused(404, "There is no such page.")

    def _post(self, body: bytes) -> None:
        if self.path != "/command":
            raise Refused(404, "There is no such page.")
        origins = [None, *(f"http://{name}" for name in self.server.names)]
        if self.headers.get("Origin") not in origins or self.headers.get("Sec-Fetch-Site") not in (None, "same-origin"):
            raise Refused(403, "Another page may give nothing here.")
        if not hmac.compare_digest(self.headers.get("X-Token", "").encode(), self.server.token.encode()):
            raise Refused(403, "The token is missing or wrong: open the address that the desk printed last.")
        try:
            fields = json.loads(body.decode())
        except (ValueError, RecursionError):
            fields = None
        if not isinstance(fields, dict) or self.headers.get("Content-Type") != "application/json":
            raise Refused(400, "The request is no JSON object in UTF-8.")
        answer = take(fields, self.server.program, self.server.live, self.server.view.lines)
        self._send(200, "application/json", json.dumps(answer).encode())

    def _send(self, status: int, kind: str, body: bytes = b"") -> None:
        self.send_response(status)
        for name, value in {"Content-Type": kind, **HEADERS}.items():
            self.send_header(name, value)
        self.end_headers()
        self.wfile.write(body)

    log_message = lambda *_: None  # noqa: E731; what matters of requests is in the log


class Server(ThreadingHTTPServer):
    """A server with a thread for each connection. `program`, `live` and `view` are set before it serves."""

    request_queue_size = MOST_THREADS

    def __init__(self, port: int) -> None:
        super().__init__(("127.0.0.1", port), Handler)
        self.names = [f"{name}:{self.server_port}" for name in ("127.0.0.1", "localhost")]
        self.token = secrets.token_urlsafe(24)

    def verify_request(self, request, client_address) -> bool:
        return threading.active_count() < MOST_THREADS  # idle connections cannot use it up
