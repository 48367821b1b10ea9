"""A process that writes lines and reads a reply to each. Its time is limited. If it misbehaves or isn't needed
any more, it is killed, along with every process that it started."""

from __future__ import annotations

import os
import select
import signal
import subprocess
import time
from typing import Iterator, List, Mapping, NamedTuple, Optional

#: a line has at most 200 bytes; output that is longer than this without a line feed isn't one
LONGEST = 4096
#: how many bytes of its standard error are kept
KEPT = 4000


class Limits(NamedTuple):
    """The limits of a process: seconds without a line, seconds in total, and lines."""

    silence: float = 10
    whole: float = 200
    lines: int = 200_000


class Misbehaviour(Exception):
    """How a process misbehaved: a word for the kind, and a message."""

    def __init__(self, kind: str, told: str) -> None:
        super().__init__(told)
        self.kind, self.told = kind, told


class CannotStart(Exception):
    """Why a command can't be started."""


def in_words(status: int) -> str:
    """How a process ended, from its status."""
    return f"was ended by signal {-status} ({signal.strsignal(-status)})" if status < 0 else f"ended with status {status}"


class Child:
    """`lines` yields what the process writes, line by line, until the process ends with status 0. The caller
    replies to each line with `answer`, unless no reply is due. The caller's own time between two lines
    doesn't count against the process. If the process isn't done in time or fails, this raises a
    `Misbehaviour`."""

    def __init__(self, command: List[str], limits: Limits, more: Optional[Mapping[str, str]] = None) -> None:
        pipe, environment = subprocess.PIPE, {**os.environ, **(more or {})}
        try:
            # a separate session, so that everything it starts can be killed with it
            self.process = subprocess.Popen(command, stdin=pipe, stdout=pipe, stderr=pipe, env=environment,
                                            start_new_session=True, bufsize=0)
        except OSError as error:
            raise CannotStart(f"{command[0]}: cannot be started: {error.strerror}") from None
        self.limits, self.begun = limits, time.monotonic()
        self.heard, self.longest_silence, self.count = self.begun, 0.0, 0
        self.outgoing, self.pending, self.errors, self.printed = b"", b"", b"", b""
        assert self.process.stdin and self.process.stdout and self.process.stderr
        self.writer, self.reader = self.process.stdin.fileno(), self.process.stdout.fileno()
        self.errors_reader = self.process.stderr.fileno()
        os.set_blocking(self.writer, False)
        self.polled, self.open = select.poll(), {self.reader, self.errors_reader}
        for each in self.open:
            self.polled.register(each, select.POLLIN)

    def answer(self, reply: str) -> None:
        self.outgoing += reply.encode() + b"\n"
        self.send()

    def send(self) -> None:
        """Writes what fits into the pipe. A process needn't read the replies."""
        try:
            while self.outgoing:
                self.outgoing = self.outgoing[os.write(self.writer, self.outgoing) :]
        except BlockingIOError:
            self.polled.register(self.writer, select.POLLOUT)
        except BrokenPipeError:
            self.outgoing = b""

    def check_time(self, doing: str) -> None:
        now = time.monotonic()
        if now > self.heard + self.limits.silence:
            raise Misbehaviour("hangs", f"{doing} for {self.limits.silence:g} seconds")
        if now > self.begun + self.limits.whole:
            raise Misbehaviour("hangs", f"has not ended after {self.limits.whole:g} seconds")

    def wait(self, seconds: float = 0.05) -> bool:
        """Waits until something can be read or written, or for so long. Returns whether anything can."""
        ready = self.polled.poll(seconds * 1000)
        for file, _ in ready:
            if file == self.writer:
                self.polled.unregister(file)
                self.send()
                continue
            read = os.read(file, 1 << 16)
            if not read:
                self.polled.unregister(file)
                self.open.discard(file)
            elif file == self.reader:
                self.pending += read
            else:
                self.errors, self.printed = (self.errors + read)[-KEPT:], (self.printed + read)[-KEPT:]
        return bool(ready)

    def take(self) -> Optional[bytes]:
        """The next line that arrived."""
        line, feed, rest = self.pending.partition(b"\n")
        if not feed:
            if len(self.pending) > LONGEST:
                raise Misbehaviour("floods", f"writes more than {LONGEST} bytes without a line feed")
            return None
        self.pending, self.count, now = rest, self.count + 1, time.monotonic()
        if self.count > self.limits.lines:
            raise Misbehaviour("floods", f"writes more than {self.limits.lines} lines")
        self.longest_silence, self.heard = max(self.longest_silence, now - self.heard), now
        return line

    def lines(self) -> Iterator[bytes]:
        while True:
            line = self.take()
            if line is not None:
                given = time.monotonic()
                yield line
                own = time.monotonic() - given
                self.begun, self.heard = self.begun + own, self.heard + own
            elif not self.wait() and (self.reader not in self.open or self.process.poll() is not None):
                break
            else:
                # also if something arrived: the process may write to standard error forever
                self.check_time("writes no line")
        if self.pending:
            line, self.pending = self.pending, b""
            yield line
        self.end()

    def end(self) -> None:
        """Waits until a process that has closed its output ends."""
        while self.process.poll() is None:
            self.wait()
            self.check_time("has closed its output, and doesn't end")
        if self.process.returncode:
            raise Misbehaviour("dies", in_words(self.process.returncode))

    @property
    def status(self) -> Optional[int]:
        """The exit status, or None while the process is running."""
        return self.process.poll()

    def read_errors(self) -> None:
        """Reads its standard error, as far as it was written by now. The process may continue forever."""
        for _ in range(16):
            if self.errors_reader not in self.open or not self.wait(0):
                break

    def last_words(self) -> str:
        """The end of its standard error."""
        self.read_errors()
        return self.errors.decode("utf-8", "replace").strip()

    def newly_printed(self) -> str:
        """What it wrote to its standard error since the last call, or the end of that."""
        self.read_errors()
        read, self.printed = self.printed, b""
        return read.decode("utf-8", "replace")

    def close(self) -> None:
        """Kills the process and everything that it started in its session."""
        try:
            os.killpg(self.process.pid, signal.SIGKILL)
        except ProcessLookupError:
            pass
        self.process.wait()
        for stream in (self.process.stdin, self.process.stdout, self.process.stderr):
            if stream:
                stream.close()
