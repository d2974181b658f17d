"""Terminals for tests: real ones, of tmux, with a command in each."""
import contextlib
import itertools
import os
import pathlib
import pty
import re
import signal
import subprocess

from share.tests.processes import children
from share.tests.support import NOTE, Case, wait_for

WIDTH, HEIGHT = 70, 12
NUMBERS = itertools.count()
# An Emacs at a terminal, which compiles nothing of its own meanwhile: that would take some minutes of a processor, and stay in the home.
# Nor does it say how a command could be called that M-x has called: Emacs 28 does so two seconds later, and then drops keys.
EMACS = ("emacs", "-nw", "-Q", "--eval",
         "(setq native-comp-deferred-compilation nil native-comp-jit-compilation nil suggest-key-bindings nil)")


class Terminal:
    """A terminal with a note in it, or with another command."""

    def __init__(self, case: Case, data: str, *words: str, command: str = NOTE, begins: str = "site ",
                 link: str = ""):
        self.socket = str(case.folder / f"tmux-{next(NUMBERS)}")
        environment = {**os.environ, "VIALSHOAL_DATA": str(case.folder / data), "LC_ALL": "C.UTF-8",
                       "VIALSHOAL_LINK": link, "VIALSHOAL_NAME": " "}
        line = " ".join([command, *words]) + "; echo status $?; cat"
        subprocess.run(["tmux", "-S", self.socket, "-f", "/dev/null", "new-session", "-d", "-x", str(WIDTH),
                        "-y", str(HEIGHT), line], check=True, env=environment)
        case.addCleanup(self.close)
        try:
            wait_for(lambda: any(words in "\n".join(self.lines()) for words in (begins, "Link:")), begins)
        except AssertionError as why:
            raise AssertionError(f"{why}: {self.lines()}") from why
        if "Link:" in "\n".join(self.lines()):
            # A note that isn't here yet is made.
            self.press("Enter")
        self.sees(begins)

    def _tmux(self, *words: str, given: bytes = b"") -> str:
        run = subprocess.run(["tmux", "-S", self.socket, *words], input=given, capture_output=True, check=False)
        return run.stdout.decode()

    def type(self, words: str) -> None:
        """Types characters."""
        self._tmux("send-keys", "-l", "--", words)

    def press(self, *keys: str) -> None:
        """Presses keys by their names."""
        self._tmux("send-keys", *keys)

    def send(self, sequence: bytes) -> None:
        """Has the terminal send bytes, as it does for keys."""
        self._tmux("send-keys", "-H", *(f"{byte:02x}" for byte in sequence))

    def paste(self, text: bytes) -> None:
        """Pastes bytes as they are, in brackets where they are asked for."""
        self._tmux("load-buffer", "-", given=text)
        self._tmux("paste-buffer", "-p", "-r")

    def resize(self, width: int, height: int) -> None:
        """Gives the terminal another size."""
        self._tmux("resize-window", "-x", str(width), "-y", str(height))

    def close(self) -> None:
        """Ends the terminal."""
        self._tmux("kill-server")

    def commands(self) -> list[int]:
        """The processes that run here."""
        return children(int(self._tmux("display", "-p", "#{pane_pid}")))

    def programs(self) -> list[int]:
        """The processes that were started by what runs here."""
        return [child for command in self.commands() for child in children(command)]

    def lines(self) -> list[str]:
        """What the screen shows, without blanks at the ends of lines."""
        return [line.rstrip() for line in self._tmux("capture-pane", "-p").split("\n")[:HEIGHT]]

    def looks(self) -> str:
        """What the screen shows, with its looks as sequences, but for colours."""
        return re.sub("\x1b\\[[34][0-9]m", "", self._tmux("capture-pane", "-p", "-e"))

    def modes(self) -> str:
        """Whether the terminal tells of the mouse, and by which numbers."""
        return self._tmux("display", "-p", "#{mouse_button_flag}#{mouse_sgr_flag}").strip()

    def shows(self, *lines: str) -> None:
        """Waits until the screen begins with these lines and shows no more of the note."""
        wanted = [*lines] + [""] * (HEIGHT - 1 - len(lines))
        try:
            wait_for(lambda: self.lines()[:-1] == wanted, "")
        except AssertionError:
            raise AssertionError(f"waited for {lines}, and saw {self.lines()}") from None

    def sees(self, words: str) -> None:
        """Waits until the screen has words somewhere."""
        try:
            wait_for(lambda: words in "\n".join(self.lines()), "")
        except AssertionError:
            raise AssertionError(f"waited for {words!r}, and saw {self.lines()}") from None

    def cursor_is(self, column: int, line: int) -> None:
        """Waits until the cursor is there."""
        wait_for(lambda: self._tmux("display", "-p", "#{cursor_x} #{cursor_y}") == f"{column} {line}\n",
                 f"the cursor at {column}, {line}")


class Answering:
    """A run of bin/note at a terminal of lines, which asks something."""

    def __init__(self, data: pathlib.Path, *words: str):
        self.shown = ""
        self._status: int | None = None
        self._process, self._terminal = pty.fork()
        if not self._process:
            os.environ.update(VIALSHOAL_DATA=str(data), TERM="xterm-256color", COLUMNS="200")
            os.execv(NOTE, [NOTE, *words])
        os.set_blocking(self._terminal, False)

    def __enter__(self) -> "Answering":
        return self

    def __exit__(self, *_: object) -> None:
        self.status()
        os.close(self._terminal)

    def _read(self) -> str:
        with contextlib.suppress(OSError):
            self.shown += os.read(self._terminal, 65_536).decode("utf-8", "replace")
        return self.shown

    def sees(self, *parts: str) -> None:
        """Waits until it has written all of these."""
        wait_for(lambda: all(part in self._read() for part in parts), f"{parts}")

    def type(self, words: str) -> None:
        """Types an answer, or a key."""
        os.write(self._terminal, words.encode())

    def interrupt(self) -> None:
        """Ends it as Ctrl-C does."""
        os.kill(self._process, signal.SIGINT)

    def status(self) -> int:
        """The status with which it ends; below 0, by which signal."""
        def ended() -> bool:
            self._read()
            process, status = os.waitpid(self._process, os.WNOHANG)
            if process:
                self._status = os.waitstatus_to_exitcode(status)
            return bool(process)

        if self._status is None:
            wait_for(ended, "the end")
            self._read()
        assert self._status is not None
        return self._status
