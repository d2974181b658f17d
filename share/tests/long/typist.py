"""Types numbered words into a note until it is killed, and says which were typed, and up to which all were sent.

Its words are `<tag>.<number>` with a blank after each.
"""
import os
import random
import sys
import time

from share.format.second.key_link import link_of
from share.store import notes
from share.sync.session import Session
from share.tests.note import Note


def say(word: str, number: int) -> None:
    """Prints a line at once, so that a kill doesn't cut it."""
    os.write(1, f"{word} {number}\n".encode())


def main(tag: str, link: str, seed: str) -> None:
    """Types for as long as it is let."""
    chance = random.Random(seed)
    note = Note(Session(notes.open_note("note", None, link_of(link))))
    say("open", 0)
    number = 0
    while True:
        note.take_in()
        status = note.session.status()
        if status.can_type and number < 60:
            # Near the end, where others type, too.
            note.moved_to(len(note.text) - chance.choice((0, 0, 0, *range(min(40, len(note.text) + 1)))))
            while note.cursor < len(note.text) and note.text[note.cursor - 1:note.cursor] not in (b" ", b""):
                note.moved_to(note.cursor + 1)
            before, note.notice = len(note.text), ""
            note.type(f"{tag}.{number} ")
            if note.notice.startswith("The edit was"):
                sys.exit(note.notice)
            # What couldn't be kept is typed again.
            if len(note.text) > before:
                say("typed", number)
                number += 1
        if not status.offline and not status.unsent:
            say("sent", number - 2)
        time.sleep(chance.random() / 50)


if __name__ == "__main__":
    main(*sys.argv[1:])
