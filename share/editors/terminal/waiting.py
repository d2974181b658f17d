"""Waiting for what a thread does, without holding up the user."""
import time
from collections.abc import Callable
from concurrent.futures import Future, wait
from typing import Any, Protocol

from share.editors.terminal.keys import Event
from share.editors.terminal.screen import Screen

# The longest wait for a key, after which the terminal's size and who is on are looked at.
LOOK_AGAIN_SECONDS = 0.5
# How long work may take before the screen is looked at beside; after the longer time the user is informed, and can save
# and quit.
WORK_SECONDS, HANGING_SECONDS = 0.05, 1.0


class UserLeft(Exception):
    """The user quits while something hangs."""


class Desk(Protocol):
    """What goes on while something is waited for."""

    @property
    def quits(self) -> bool:
        """Whether the user quits."""

    @property
    def names_a_file(self) -> bool:
        """Whether keys are the name of a file, for which the note isn't needed."""

    def draw(self) -> None:
        """Draws all."""

    def press_without_note(self, key: Event) -> bool:
        """Does what a key says, where that needs no note; whether it was such a key."""


class Waiting:
    """Waits for work, and keeps the keys that need the note until that answers again."""

    def __init__(self, screen: Screen, desk: Desk):
        self._screen, self._desk = screen, desk
        # How long there has been no answer; where the user quits then, since when.
        self.silent, self.silent_since = 0.0, 0.0
        self._kept: list[Event] = []

    def until_done(self, future: "Future[Any]") -> None:
        """Waits until work is done. Where that takes long, the user can save and quit."""
        wait([future], WORK_SECONDS)
        if future.done():
            return
        begun = time.monotonic()
        future.add_done_callback(lambda _: self._screen.wake())
        try:
            while not future.done():
                self.silent = time.monotonic() - begun
                self._desk.draw()
                self._screen.wait(LOOK_AGAIN_SECONDS)
                if self.silent >= HANGING_SECONDS:
                    self._press_meanwhile()
                if self._desk.quits or self._screen.gone:
                    self.silent_since = begun
                    raise UserLeft
        finally:
            self.silent = 0.0
            self.give_back()

    def for_a_key(self, is_early: Callable[[Event], bool]) -> None:
        """Waits for a key, or for what comes from others."""
        self.give_back()
        keys = self._screen.keys
        self._screen.wait(0 if keys and not is_early(keys[0]) else LOOK_AGAIN_SECONDS)

    def give_back(self) -> None:
        """Puts the kept keys before those that came after them, unless a file is being named."""
        if not self._desk.names_a_file:
            self._screen.keys.extendleft(reversed(self._kept))
            self._kept.clear()

    def _press_meanwhile(self) -> None:
        keys = self._screen.keys
        while keys and not self._desk.quits:
            key = keys.popleft()
            if not self._desk.press_without_note(key):
                self._kept.append(key)
