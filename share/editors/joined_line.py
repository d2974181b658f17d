"""An editor's line to a note's engine. If the engine ends, the line joins the next one, or starts it."""
import socket
import subprocess
import threading
import time
from collections.abc import Callable, Sequence
from contextlib import suppress

from share.engine import protocol, server
from share.log.polling import can_read
from share.text.line import PIECE, Assembler, Line

# The seconds after which a watcher looks again whether the editor has read the line.
WATCH_SECONDS = 0.5
# The pause before another engine is started, which grows each time.
FIRST_PAUSE_SECONDS, MOST_PAUSE_SECONDS = 0.5, 5.0
# Gives a line to the engine, if one runs already.
Joins = Callable[[], socket.socket | None]


class NextEngine:
    """Joins the engine of a note, or has one be started by the command that hands lines on."""

    def __init__(self, name: str, command: Sequence[str]):
        self._name, self._command = name, command
        self._starter: subprocess.Popen[bytes] | None = None
        self._due, self._pause = 0.0, FIRST_PAUSE_SECONDS

    def line(self) -> socket.socket | None:
        """A line to the engine; where there is none, one is started."""
        if line := server.connected(self._name):
            self._let_go()
            self._pause = FIRST_PAUSE_SECONDS
            return line
        now = time.monotonic()
        if now >= self._due and (self._starter is None or self._starter.poll() is not None):
            self._let_go()
            self._due, self._pause = now + self._pause, min(2 * self._pause, MOST_PAUSE_SECONDS)
            self._starter = subprocess.Popen(self._command, stdin=subprocess.PIPE, stdout=subprocess.DEVNULL,
                                             stderr=subprocess.DEVNULL, start_new_session=True)
        return None

    def _let_go(self) -> None:
        """Ends the command, by which the engine isn't needed any more."""
        starter, self._starter = self._starter, None
        if starter:
            assert starter.stdin
            starter.stdin.close()
            threading.Thread(target=starter.wait, daemon=True).start()


class JoinedLine:
    """The line. One thread calls it; another one wakes that when something came."""

    def __init__(self, line: socket.socket, joins: Joins, wake: Callable[[], None]):
        self._line: socket.socket | None = line
        self._joins, self._wake = joins, wake
        # An engine's lines have no bound: one may have all the text.
        self._assembler = Assembler(None)
        self._has_read, self._is_closed = threading.Event(), False
        self._watcher = threading.Thread(target=self._watch, daemon=True)

    @property
    def is_there(self) -> bool:
        """Whether it hasn't ended."""
        return self._line is not None

    def watch(self) -> None:
        """Wakes the editor from now on when something comes."""
        self._watcher.start()

    def join(self) -> bool:
        """Joins the next engine, or has one be started; whether it is there."""
        self._line, self._assembler = self._joins(), Assembler(None)
        return self.is_there

    def send(self, line: Line) -> None:
        """Sends a line. That the engine ended is seen as it is read."""
        if self._line:
            with suppress(OSError):
                self._line.sendall(protocol.serialize(line))

    def receive(self, seconds: float) -> list[Line] | None:
        """The lines that come within some time, perhaps none yet; None where nothing comes any more."""
        if not self._line:
            return None
        if not can_read(self._line, seconds):
            return []
        try:
            data = self._line.recv(PIECE)
        except OSError:
            data = b""
        self._has_read.set()
        if not data:
            self.leave()
            return None
        return [*map(protocol.parse, self._assembler.lines(data))]

    def has_come(self) -> bool:
        """Whether something can be read now."""
        return self._line is not None and can_read(self._line, 0)

    def leave(self) -> None:
        """Leaves an engine."""
        if self._line:
            self._line.close()
            self._line = None

    def close(self) -> None:
        """Ends it, and the watcher before another file may get its number."""
        self._is_closed = True
        if self._line:
            with suppress(OSError):
                self._line.shutdown(socket.SHUT_RDWR)
        self._has_read.set()
        if self._watcher.is_alive():
            self._watcher.join()
        self.leave()

    def _watch(self) -> None:
        while not self._is_closed:
            has_come = False
            # It may be closed at any moment.
            with suppress(OSError, ValueError):
                has_come = bool(self._line and can_read(self._line, WATCH_SECONDS))
            self._has_read.clear()
            if has_come:
                self._wake()
            if not self._is_closed and (has_come or not self._line):
                self._has_read.wait(WATCH_SECONDS)
