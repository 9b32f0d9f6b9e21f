"""The log: an input is on the disk before the program has it, and a message is noted once it is sent. Copy this file.

    LOG         the inputs, one on each line, from the first: what `dispatch live` is given
    LOG.sent    the messages that were sent, one on each line, as the program wrote them: `ENGINE INPUT HEX`
    LOG.basis   what the log is valid for: the rules number of the program, and the sum of the track file
"""

import fcntl
import hashlib
import os
import threading
from pathlib import Path


class Unusable(Exception):
    """Something that the desk cannot work with, in words for a person."""


class DurableLines:
    """A file of lines that one process owns. A line is on the disk when `append` returns."""

    def __init__(self, path: Path) -> None:
        self.path, self.broken, self.guard = path, "", threading.Lock()
        self.file = os.open(path, os.O_RDWR | os.O_CREAT | os.O_APPEND | os.O_CLOEXEC, 0o600)
        try:
            fcntl.flock(self.file, fcntl.LOCK_EX | fcntl.LOCK_NB)
        except BlockingIOError:
            raise Unusable(f"{path} is in use by another desk") from None
        self.lines = self._whole_lines()
        folder = os.open(path.parent, os.O_RDONLY)
        os.fsync(folder)  # else the name of a new file may be gone after a crash, with all that was synced in it
        os.close(folder)

    def _whole_lines(self) -> list[bytes]:
        """The lines of the file. A last line without its line feed is cut off first.

        A crash cut that line short while it was being appended. The program never had it, and no one was told that it
        was taken, so nothing is lost with it. To complete it would be to guess what it was going to say.
        """
        text = self.path.read_bytes()
        whole = text.rfind(b"\n") + 1
        if whole < len(text):
            os.ftruncate(self.file, whole)
            os.fsync(self.file)
        return text[:whole].split(b"\n")[:-1]

    def append(self, line: bytes) -> int:
        """Makes a line durable, and returns its number, counted from 1.

        After an error, nobody knows what is on the disk: a second `fsync` may succeed although the first one lost the
        line. So no further line is taken. The next start reads what is there.
        """
        with self.guard:
            if self.broken or b"\n" in line:
                raise Unusable(self.broken or "an input is one line")
            try:
                if os.write(self.file, line + b"\n") != len(line) + 1:
                    raise OSError(0, "only a part was written")
                os.fsync(self.file)
            except OSError as error:
                self.broken = f"{self.path} cannot be written: {error.strerror}. End the desk, make room, start again"
                raise Unusable(self.broken) from error
            self.lines.append(line)
            return len(self.lines)


def check_basis(log: DurableLines, track: Path, version: str) -> None:
    """Refuses a log of another track file or of other rules: the same lines would give other messages."""
    basis = f"{version.split(', ')[-1].strip()}, track {hashlib.sha256(track.read_bytes()).hexdigest()}".encode()
    kept = DurableLines(Path(f"{log.path}.basis"))
    if not kept.lines and not log.lines:
        kept.append(basis)
    if kept.lines != [basis]:
        raise Unusable(f"{log.path} was begun with another track file or other rules: begin a new log")
