"""The notes that a page lists, and the search in them."""
import contextlib
import time

from share.store import notes, read_only
from share.text.errors import Gone, Trouble
from share.text.line import Line
from share.text.rope import swapped

# How long texts are read for one search, how many notes are told, and how much of a line.
TEXTS_SECONDS, MOST_LISTED, MOST_LINE_SHOWN = 20, 500, 120


def is_listed(name: str) -> bool:
    """Whether there is a note of this name."""
    with contextlib.suppress(Gone):
        return notes.is_name(name) and notes.is_here(name)
    return False


def search_notes(words: str) -> list[Line]:
    """The notes that are here, those first that changed last; with words, those that have them in their name or text, and the line."""
    listed, end = list[Line](), time.monotonic() + TEXTS_SECONDS
    for line in _all():
        if words and words.casefold() not in line["name"].casefold():
            shown = _line_with(line["name"], words) if time.monotonic() < end else None
            if shown is None:
                continue
            line["line"] = shown
        listed.append(line)
    return listed[:MOST_LISTED]


def _all() -> list[Line]:
    lines = list[Line]()
    for path in (notes.data_folder() / "notes").glob(f"*{notes.NOTE_SUFFIX}"):
        name = path.name[:-len(notes.NOTE_SUFFIX)]
        with contextlib.suppress(OSError):
            if notes.is_name(name):
                beside = path.with_name(path.name + "-wal")
                changed = max(one.stat().st_mtime for one in (path, beside) if one.exists())
                lines.append({"name": name, "changed": int(changed)})
    return sorted(lines, key=lambda line: (-line["changed"], line["name"]))


def _line_with(name: str, words: str) -> str | None:
    """The first line of a note's text that has some words; None where there is none, or the file can't be read."""
    try:
        text = swapped(read_only.text_of(read_only.found_in(notes.path_of(name))).text).decode("utf-8", "replace")
    except Trouble:
        return None
    wanted = words.casefold()
    return next((line.strip()[:MOST_LINE_SHOWN] for line in text.split("\n") if wanted in line.casefold()), None)
