"""A note's file and its log are given what they lack of each other, once, with nobody who looks at the text: no number is claimed, and the
program isn't asked."""
import threading
import time
from contextlib import closing
from typing import NamedTuple

from share.log.opening import opener_of
from share.store import notes
from share.store.note_file import Disk
from share.sync.handover import Handover
from share.sync.replicator import Replicator

# How long nothing may come or be sent before this is given up, and the longest time between two looks.
STILL_SECONDS, LOOK_SECONDS = 30, 0.1


class Errand(NamedTuple):
    """How many entries came; why the log can't be reached, where it can't; and what is told beside."""

    came: int
    offline: str | None
    told: list[str]


def run_errand(name: str, password: str | None) -> Errand:
    """Brings a note's file and its log to the same."""
    with closing(notes.open_note(name, None, None)) as disk:
        url, form, path, had, woken = disk.about.url, disk.form, disk.path, disk.entries.size(), threading.Event()
        replicator = Replicator(lambda: Disk(path), opener_of(url, form, password), form, woken.set, lambda: disk, Handover())
        try:
            offline = _until_done(replicator, woken)
        finally:
            replicator.close(0)
        return Errand(max(0, disk.entries.size() - had), offline, list(replicator.notices))


def _until_done(replicator: Replicator, woken: threading.Event) -> str | None:
    """Waits until all is carried both ways, or it is seen that it won't be; why, then."""
    before, end = None, 0.0
    while not (replicator.has_read() and replicator.is_up_to_date()):
        if offline := replicator.offline():
            return offline
        if (now := (replicator.progress(), replicator.next_to_give(), replicator.reading())) != before:
            before, end = now, time.monotonic() + STILL_SECONDS
        elif time.monotonic() > end:
            return "The log doesn't take what it is given, or give what it has."
        woken.wait(LOOK_SECONDS)
        woken.clear()
    return None
