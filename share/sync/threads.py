"""The threads of a replicator: each does its part until all are stopped, and begins again after what ended it."""
import threading
from collections.abc import Callable
from enum import Enum, auto
from typing import NamedTuple

from share.log.base import Log, LogLost, Unreachable
from share.log.bell import Bell
from share.program.trace import Traced, trace
from share.store.guarded import Damaged, Unkept
from share.store.note_file import Disk
from share.text.errors import Trouble

# The pause before a part whose log or file couldn't be reached begins again, and before one that ended as it should.
RECONNECT_SECONDS, RESTART_SECONDS = 1, 0.03
# How long stopping waits for each thread.
JOIN_SECONDS = 1.0
# The most notices that wait for the user.
MOST_NOTICES = 100


class Ends(NamedTuple):
    """What a thread opens for itself: the file, and the log."""

    disk: Callable[[], Disk]
    log: Callable[[], Log]


class Task(Enum):
    """What a thread does."""

    LOOK = auto()
    GIVE = auto()
    FETCH = auto()
    SHOW = auto()


class Threads:
    """Runs the parts of a replicator. The editor's thread starts and stops them and takes the notices; the parts call the
    rest, each from its own thread."""

    def __init__(self, wake: Callable[[], None], lost: Callable[[], None]):
        # What the user is told.
        self.notices: list[str] = []
        self.stopped = threading.Event()
        self.wake, self._lost = wake, lost
        self._threads: dict[Task, threading.Thread] = {}
        # Why a thread is without the log.
        self._offline: dict[Task, str] = {}
        # What wakes them, which the last of those that use it closes, the editor's thread among them; and how many these are.
        self._bells, self._users, self._leaving = list[Bell](), 1, threading.Lock()

    def start(self, task: Task, part: Callable[[], None]) -> None:
        """Starts a part, unless it runs."""
        if task not in self._threads:
            thread = threading.Thread(target=self._run, args=(task, part), daemon=True)
            with self._leaving:
                thread.start()
                self._threads[task] = thread
                self._users += 1

    def bell(self) -> Bell:
        """What wakes a part, and rings as all stop."""
        self._bells.append(Bell())
        return self._bells[-1]

    def stop(self) -> None:
        """Stops all parts, and waits until they have ended. One that something holds up longer ends by itself, and closes what it has
        open then. It is called once."""
        self.stopped.set()
        for bell in self._bells:
            bell.ring()
        for thread in self._threads.values():
            thread.join(JOIN_SECONDS)
        self._leave()

    def _leave(self) -> None:
        with self._leaving:
            self._users -= 1
            is_last = not self._users
        if is_last:
            for bell in self._bells:
                bell.close()

    def _run(self, task: Task, part: Callable[[], None]) -> None:
        try:
            self._go_on(task, part)
        finally:
            self._leave()

    def offline(self) -> str | None:
        """Why the log can't be reached, where it can't."""
        return next(iter([*self._offline.values()]), None)

    def works(self, task: Task) -> None:
        """Says that a thread reaches what it needs."""
        if self._offline.pop(task, None):
            trace(Traced.RECONNECTED, task=task)
            self.wake()

    def tell(self, words: str) -> None:
        """Tells the user something. A hostile log may have it happen without end."""
        if len(self.notices) < MOST_NOTICES:
            self.notices.append(words)

    def _go_on(self, task: Task, part: Callable[[], None]) -> None:
        """Does a part until all stop; what ends it is told, and it begins again."""
        while not self.stopped.is_set():
            why = ""
            try:
                part()
            except LogLost as lost:
                self.tell(str(lost))
                self._lost()
            except (Unreachable, Unkept, Damaged, Trouble) as known:
                # What happens to the file the editor's own thread mends, or says.
                why = str(known)
            except Exception as fault:  # pylint: disable=broad-except
                # A thread that ended without a word would leave the user believing that all is sent.
                why = f"{type(fault).__name__}: {fault}"
            if why:
                if task not in self._offline:
                    trace(Traced.OFFLINE, task=task)
                self._offline[task] = why
            self.wake()
            self.stopped.wait(RECONNECT_SECONDS if why else RESTART_SECONDS)
