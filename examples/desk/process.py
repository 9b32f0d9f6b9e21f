"""The program `dispatch` as a process: fed from the log, read in order, started again when it dies. Copy this file.

It keeps the conditions of docs/INTEGRATION.md: an input is in the log first, answers are read while inputs are given,
messages go out in their order, a message that was noted is not sent again, and alarms are kept.
"""

import subprocess
import threading
import time
from collections.abc import Callable, Iterator

from log import DurableLines, Unusable

LONGEST_PAUSE = 5.0  # seconds before a program that keeps dying is started again


class Live:
    """`dispatch live --alarms` over a log. The log is the queue: an input is appended, a thread feeds the program."""

    def __init__(self, words: list[str], log: DurableLines, sent: DurableLines,
                 send: Callable[[int, bytes], None]) -> None:
        self.words, self.log, self.sent, self.send = words, log, sent, send
        self.changed = threading.Condition()  # guards the log and what follows
        self.results: dict[int, str] = {}
        self.alarms: frozenset[tuple[int, str]] = frozenset()  # the train, and what it is not told
        self.answered = self.starts = 0
        self.trouble, self.ending = "", False  # what the program died of last
        self.thread = threading.Thread(target=self._keep_running, daemon=True)
        self.thread.start()

    def give(self, line: bytes) -> int:
        """Takes an input: it is in the log when this returns. Returns its number."""
        with self.changed:
            if self.ending:
                raise Unusable(self.trouble or "the desk is ending")
            number = self.log.append(line)
            self.changed.notify_all()
            return number

    def result(self, number: int, seconds: float) -> str:
        """`ok COUNT` or `refused CODE` of an input; empty if the program has not answered it in time."""
        with self.changed:
            self.changed.wait_for(lambda: number in self.results, seconds)
            return self.results.get(number, "")

    def end(self) -> None:
        """Ends the program, by ending its input."""
        with self.changed:
            self.ending = True
            self.changed.notify_all()
        self.thread.join(LONGEST_PAUSE)

    def _keep_running(self) -> None:
        pause = 0.1
        while not self.ending:
            before, is_over = self.answered, False
            try:
                trouble = self._run_once()
            except OSError as error:  # it cannot be started, or the radio fails
                trouble = str(error)
            except (Unusable, ValueError, IndexError) as error:
                # To go on could send a train a wrong message, or send one and never note it.
                trouble, is_over = f"Nothing is sent any more: {error}", True
            with self.changed:
                self.trouble, self.ending = trouble, self.ending or is_over
                self.changed.notify_all()
            if not self.ending:
                pause = 0.1 if self.answered > before else min(2 * pause, LONGEST_PAUSE)
                time.sleep(pause)

    def _run_once(self) -> str:
        """Starts the program, and reads its answers until they end. Returns what it died of."""
        first = int(self.sent.lines[-1].split()[1]) if self.sent.lines else 1
        noted = [message for message in self.sent.lines if int(message.split()[1]) == first]
        process = started([*self.words, "--from", str(first)], stderr=subprocess.PIPE)
        with self.changed:
            self.starts += 1
        feeder = threading.Thread(target=self._feed, args=(process,), daemon=True)
        feeder.start()
        try:
            self._read(process.stdout, noted)
        finally:
            process.kill()  # it may have closed its output alone
            said = process.stderr.read().decode(errors="replace").strip()
            status = process.wait()
            feeder.join()
        return said or (f"signal {-status} ended it" if status < 0 else f"it ended with status {status}")

    def _feed(self, process: subprocess.Popen) -> None:
        """Gives the program the log from its first line on, and then each line that comes."""
        given = 0
        try:
            while process.poll() is None:
                with self.changed:
                    self.changed.wait_for(lambda: len(self.log.lines) > given or self.ending, 0.5)
                    lines = self.log.lines[given:]  # these are durable
                if self.ending and not lines:
                    break
                process.stdin.write(b"".join(line + b"\n" for line in lines))
                process.stdin.flush()
                given += len(lines)
            process.stdin.close()
        except OSError:
            pass  # the program died: the next one gets all lines again

    def _read(self, output: Iterator[bytes], noted: list[bytes]) -> None:
        """Reads answers until they end. `noted` are the messages of the first input that were noted."""
        alarms: set[tuple[int, str]] = set()  # a start gives all that are active, in place of those that were
        for line in output:
            if not line.endswith(b"\n"):
                return  # cut off as the program died: it comes again
            number, word, *rest = line.decode().split()
            if word in ("raised", "cleared"):
                alarms ^= {(int(rest[0]), " ".join(rest[1:]))}
            elif word not in ("ok", "refused"):
                self._send(int(number), line[:-1], noted)  # a message: its train comes first, and then its input
                continue
            with self.changed:
                if word in ("ok", "refused"):
                    self.results[int(number)] = f"{word} {rest[0]}"
                if int(number) >= self.answered:  # else it is repeated after a crash, and newer alarms are known
                    self.answered, self.alarms = int(number), frozenset(alarms)
                self.changed.notify_all()

    def _send(self, engine: int, message: bytes, noted: list[bytes]) -> None:
        """Sends a message and notes that, unless it was noted before the program died: each train's come in order."""
        before = [other for other in noted if other.startswith(b"%d " % engine)]
        if not before:
            self.send(engine, message)
            self.sent.append(message)
        elif before[0] == message:
            noted.remove(message)
        else:
            raise Unusable(f"{self.log.path} now gives another message than the one that was sent: {message.decode()}")


def started(words: list[str], **more) -> subprocess.Popen:
    """A process with pipes, out of reach of the Ctrl-C that ends the desk: the desk ends it in its own time."""
    return subprocess.Popen(words, stdin=subprocess.PIPE, stdout=subprocess.PIPE, start_new_session=True, **more)


def output_of(words: list[str], text: bytes = b"") -> str:
    """What a command of the program writes."""
    try:
        done = subprocess.run(words, input=text, capture_output=True)
    except OSError as error:
        raise Unusable(f"{words[0]} cannot be started: {error.strerror}") from None
    if done.returncode != 0:
        raise Unusable(f"dispatch {words[1]}: {done.stderr.decode(errors='replace').strip()}")
    return done.stdout.decode()
