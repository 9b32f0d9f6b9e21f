#!/usr/bin/env python3
"""A small radio block centre with a page for the signaller, around the program `dispatch`.

It is an example, and nothing in it is proved: the program beneath decides all that matters. An author of a radio block
centre copies log.py and process.py. trains.py stands in place of a radio; view.py, web.py and page.* are the page.
"""

import argparse
import errno
import shutil
import signal
import subprocess
import sys
from pathlib import Path

sys.dont_write_bytecode = True

from log import DurableLines, Unusable, check_basis  # noqa: E402
from process import Live, output_of  # noqa: E402
from trains import Radio  # noqa: E402
from view import View, lines_of  # noqa: E402
from web import Server  # noqa: E402

ROOT = Path(__file__).resolve().parents[2]


def arguments() -> argparse.Namespace:
    parser = argparse.ArgumentParser(description=__doc__, formatter_class=argparse.RawDescriptionHelpFormatter)
    add, track, log = parser.add_argument, ROOT / "examples/main_line.toml", ROOT / "out/desk.log"
    add("--track", type=Path, metavar="FILE", default=track, help="the track [examples/main_line.toml]")
    add("--log", type=Path, metavar="FILE", default=log, help="the log, begun if it is not there [out/desk.log]")
    add("--port", type=int, metavar="N", default=8765, help="the port of the page, 0 for a free one [8765]")
    add("--program", type=Path, metavar="FILE", help="the program [the one that ./dispatch starts]")
    add("--every", type=float, metavar="SECONDS", default=4, help="how often a train reports, 0 for no trains [4]")
    return parser.parse_args()


def opened(asked: argparse.Namespace) -> Server:
    """The desk, with its log, its program, its trains and its page. If it cannot be opened, nothing was sent."""
    script, found = [ROOT / "dispatch", "--program"], shutil.which("dispatch")
    if script[0].exists() and not asked.program:
        found = subprocess.run(script, stdout=subprocess.PIPE, text=True).stdout.strip() or ROOT / "release/dispatch"
    program, track = str(asked.program or found), str(asked.track)
    lines = lines_of(output_of([program, "explain", "--track", track]))
    if not lines:
        raise Unusable(f"{track} has no line of track")
    server = Server(asked.port)
    asked.log.parent.mkdir(parents=True, exist_ok=True)
    log, sent = DurableLines(asked.log), DurableLines(Path(f"{asked.log}.sent"))
    check_basis(log, asked.track, output_of([program, "--version"]))
    radio = Radio(program, track, Path(f"{asked.log}.trains"), lines)
    server.program, server.live = program, Live([program, "live", "--alarms", "--track", track], log, sent, radio.send)
    server.view = View(program, track, server.live, lines)
    if asked.every > 0:
        radio.start(server.live.give, asked.every, log.lines)
    return server


def main() -> int:
    asked, server = arguments(), None
    signal.signal(signal.SIGTERM, signal.default_int_handler)
    try:
        server = opened(asked)
        print(f"Open http://127.0.0.1:{server.server_port}/#{server.token}")
        print(f"The log is {asked.log}. Ctrl-C ends the desk.", flush=True)
        server.serve_forever()
    except KeyboardInterrupt:
        signal.signal(signal.SIGINT, signal.SIG_IGN)
    except (Unusable, OSError, OverflowError) as error:
        if getattr(error, "errno", None) == errno.EADDRINUSE:
            error = Unusable(f"port {asked.port} is in use: name another one with --port")
        print(f"desk: {error}", file=sys.stderr)
        return 1
    if server:
        server.live.end()
    return 0


if __name__ == "__main__":
    sys.exit(main())
