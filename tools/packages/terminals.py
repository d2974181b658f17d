"""Terminals in which a packaged note is tried: real ones, of tmux."""
from __future__ import annotations

import subprocess
import time
from collections.abc import Sequence
from pathlib import Path

SECONDS = 120


class Terminal:
    """A terminal in which a command runs."""

    def __init__(self, room: Path, name: str, command: Sequence[str]) -> None:
        self.socket = room / f"tmux-{name}"
        self._tmux("-f", "/dev/null", "new-session", "-d", "-x", "70", "-y", "12", *command)
        self._tmux("set-option", "-g", "remain-on-exit", "on")

    def __enter__(self) -> Terminal:
        return self

    def __exit__(self, *_: object) -> None:
        self._tmux("kill-server")

    def _tmux(self, *words: str) -> str:
        ran = subprocess.run(["tmux", "-S", self.socket, *words], stdout=subprocess.PIPE, stderr=subprocess.DEVNULL, text=True)
        return ran.stdout

    def type(self, words: str) -> None:
        self._tmux("send-keys", "-l", "--", words)

    def press(self, *keys: str) -> None:
        self._tmux("send-keys", *keys)

    def screen(self) -> str:
        return self._tmux("capture-pane", "-p")

    def sees(self, *choices: str) -> str:
        """Waits until one of these stands on the screen; which."""
        ends = time.monotonic() + SECONDS
        while time.monotonic() < ends:
            screen = self.screen()
            for words in choices:
                if words in screen:
                    return words
            time.sleep(0.1)
        raise AssertionError(f"waited for {' or '.join(choices)}, and saw\n{self.screen()}")
