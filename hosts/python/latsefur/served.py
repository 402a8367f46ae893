"""The process `signctl serve`: lines that go in, and the lines of their replies."""
from __future__ import annotations

import contextlib
import os
import select
import subprocess
import tempfile
import time
from typing import IO, NoReturn, Optional

from .errors import LatsefurError
from .values import Text, octets_of

# The variable that names the program, and the most octets of a line that it takes.
PROGRAM = "LATSEFUR_SIGNCTL"
MOST_LINE = 8300
SECONDS_TO_END = 10
# The most milliseconds for which one call of `poll` waits, 24 days.
MOST_WAIT = 2**31 - 1


class SignStopped(LatsefurError, RuntimeError):
    """The process has ended. The message says with which status or by which signal, and what it wrote to its standard error."""


class NoAnswer(LatsefurError, TimeoutError):
    """The process hasn't answered in time. It goes on, and later calls are answered once it has."""


class ProgramNotFound(LatsefurError, FileNotFoundError):
    """The program `signctl` can't be started. The message says what names it."""


class Served:
    """A process that answers each line, within `seconds` if that isn't `None`. It is used by one thread at a time.

    After each line goes an empty one, whose answer `ok` ends the reply. So a reply has any number of lines, and where reading one was cut
    short, the next call first reads what is owed.
    """

    def __init__(self, words: list[str], seconds: Optional[float]) -> None:
        self._seconds = seconds
        self._errors = tempfile.TemporaryFile()
        try:
            self._process = subprocess.Popen(
                words, stdin=subprocess.PIPE, stdout=subprocess.PIPE, stderr=self._errors, bufsize=0
            )
        except OSError as fault:
            self._errors.close()
            how = f"the argument `program` or the variable {PROGRAM} names the program signctl"
            raise ProgramNotFound(f"{words[0]} can't be started ({fault.strerror}); {how}") from fault
        assert self._process.stdin and self._process.stdout
        self._input: IO[bytes] = self._process.stdin
        self._output: IO[bytes] = self._process.stdout
        self._unsent, self._unread = b"", b""
        self._owed = 0  # answers `ok` that are still to come
        self._closed = False
        for stream in (self._input, self._output):
            os.set_blocking(stream.fileno(), False)

    def close(self) -> None:
        """Ends the process. A second call does nothing."""
        if self._closed:
            return
        self._closed = True
        for stream in (self._input, self._output):
            with contextlib.suppress(OSError):
                stream.close()
        try:
            self._process.wait(SECONDS_TO_END if self._seconds is None else min(self._seconds, SECONDS_TO_END))
        except subprocess.TimeoutExpired:
            self._process.kill()
            self._process.wait()
        self._errors.close()

    def ask(self, line: Text) -> list[str]:
        """The lines of the reply to a line. Raises `ValueError` for one that would be cut, `SignStopped` and `NoAnswer`."""
        octets = octets_of(line)
        if b"\n" in octets or octets.endswith(b"\r"):
            raise ValueError("a line has no line feed, and no carriage return at its end, which would be cut off")
        until = None if self._seconds is None else time.monotonic() + self._seconds
        self._come_into_step(until)
        is_passed_over = octets[:1] in (b"", b"#") and len(octets) <= MOST_LINE
        self._owed += 2 if is_passed_over else 1
        self._unsent = octets + b"\n\n"
        self._send(until)
        said, more = [self._line(until)], self._line(until)
        while more != "ok":
            said.append(more)
            more = self._line(until)
        return said

    def _come_into_step(self, until: Optional[float]) -> None:
        """Ends what an earlier call left."""
        self._send(until)
        while self._owed:
            self._line(until)

    def _send(self, until: Optional[float]) -> None:
        while self._unsent:
            self._wait(self._input, select.POLLOUT, until)
            try:
                sent = os.write(self._input.fileno(), self._unsent)
            except OSError:
                self._stopped()
            self._unsent = self._unsent[sent:]

    def _line(self, until: Optional[float]) -> str:
        while b"\n" not in self._unread:
            self._wait(self._output, select.POLLIN, until)
            octets = os.read(self._output.fileno(), 65536)
            if not octets:
                self._stopped()
            self._unread += octets
        line, _, self._unread = self._unread.partition(b"\n")
        self._owed -= line == b"ok"
        return line.decode("ascii")

    def _wait(self, stream: IO[bytes], event: int, until: Optional[float]) -> None:
        """Waits until a stream can be read or written."""
        if self._closed:
            self._stopped()
        poll = select.poll()
        poll.register(stream, event)
        if not poll.poll(None if until is None else min(1000 * max(until - time.monotonic(), 0), MOST_WAIT)):
            raise NoAnswer(f"signctl serve has given no answer within {self._seconds} seconds")

    def _stopped(self) -> NoReturn:
        if self._closed:
            raise SignStopped("signctl serve was closed")
        try:
            status = self._process.wait(SECONDS_TO_END)
        except subprocess.TimeoutExpired:
            raise SignStopped("signctl serve has closed its standard streams") from None
        self._errors.seek(0)
        said = self._errors.read().decode("utf-8", "replace").strip()
        how = f"was killed by signal {-status}" if status < 0 else f"has ended with status {status}"
        raise SignStopped(f"signctl serve {how}" + (f": {said}" if said else ""))
