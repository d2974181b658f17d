"""The verb for scripts that says what changed of a note, and by whom. It is no look at the note."""
import argparse
import os
import sys
from collections.abc import Callable, Iterator, Sequence
from datetime import datetime
from typing import NamedTuple

from share.admission.fronts import parted, parted_by_causes
from share.cli import access
from share.cli.output import print_bytes, print_json, report_missing
from share.editors.terminal.keys import safe_for_terminal
from share.engine.changes import changed_in_units
from share.engine.looked import up_to
from share.format.history import Messages
from share.program.changed import WhatChanged, changed
from share.review.hidden import before_hidden
from share.store import contents, nicknames, notes, read_only, seen
from share.store.read_only import Judged
from share.text.errors import Trouble, counted
from share.text.line import Line
from share.text.rope import readable, swapped
from share.text.units import UNITS

# How many lines are shown before and behind those that changed.
AROUND = 3
# What stands in a line's place where nothing of it is left to be marked.
NEWLINE = "\N{DOWNWARDS ARROW WITH CORNER LEFTWARDS}"
# What stands around what came, what went, and who did that: in CriticMarkup, and in a terminal's colours.
IN_SIGNS = {"came": ("{++", "++}"), "went": ("{--", "--}"), "who": ("{>>", "<<}")}
IN_COLOURS = {"came": ("\x1b[32;4m", "\x1b[m"), "went": ("\x1b[31;9m", "\x1b[m"), "who": ("\x1b[2m (", ")\x1b[m")}


class _Since(NamedTuple):
    """What is compared: the time or place, the same in words, and the messages of then and those that came since."""

    since: int
    words: str
    then: Messages
    later: Messages


class _Piece(NamedTuple):
    """A part of the text: what stayed, came, or went, and by whom."""

    kind: str
    text: str
    who: str = ""


class _Row(NamedTuple):
    """A line as it is printed, the number of the text's line that it is of, and whether something changed in it."""

    number: int
    text: str
    has_changed: bool


def print_changes(given: argparse.Namespace) -> int:
    """Prints what changed."""
    there = contents.found_of(given.name, access.given_url(given), access.given_link(given), access.given_password(given))
    messages, missing, left_out = contents.contents_of(given.name, there)
    since = _compared(given, there, messages)
    found = changed_in_units(changed(since.then, since.later), UNITS["utf-32"])
    text, who = readable(swapped(found.text)), _who_wrote(given.name)
    if given.json:
        line: Line = {"note": given.name, "since": since.since, "text": text, "left_out": left_out}
        line["came"] = [who(one.site) | {"begin": one.begin, "end": one.end, "by": who(one.by)} for one in found.came]
        line["went"] = [who(one.site) | {"at": one.at, "text": readable(swapped(one.data)), "by": who(one.by)} for one in found.went]
        return print_json(line, missing)
    is_coloured = sys.stdout.isatty() and "NO_COLOR" not in os.environ
    rows = [*_rows(_in_pieces(found, text, lambda site: _whose(who(site))), IN_COLOURS if is_coloured else IN_SIGNS)]
    lines = [*_around(rows)] if found.came or found.went else ["Nothing changed."]
    print_bytes("\n".join([f"Since {since.words}:", *lines, ""]).encode())
    return report_missing(missing)


def _compared(given: argparse.Namespace, there: Judged, messages: Messages) -> _Since:
    """What is compared."""
    since = given.since
    if "at" in since:
        until = len(messages) if given.until is None else given.until
        if not 0 <= since["at"] <= until <= len(messages):
            raise Trouble(f"The note's history has {counted(len(messages), 'message')}, and --since and --until have to rise.")
        suggested = contents.suggested(there)
        begin, end = (before_hidden(messages, place, suggested) for place in (since["at"], until))
        return _Since(since["at"], f"message {since['at']:,}", messages[:begin], messages[begin:end])
    if given.until is not None:
        raise Trouble("--until needs --since N.")
    looks = up_to(seen.looks_at(given.name, there.about.form().note), since.get("time"))
    still = seen.still_counting(looks, there.judge, {})
    then, later = (parted if still.is_all else parted_by_causes)(messages, still.fronts)
    time = looks[-1].time if looks else 0
    return _Since(time, f"{datetime.fromtimestamp(time):%Y-%m-%d %H:%M}" if looks else "the note began", then, later)


def _who_wrote(name: str) -> Callable[[int], Line]:
    """What says who has a number."""
    path, names = notes.path_of(name), nicknames.known(name)
    own = read_only.own_sites(path) if path.exists() else set[int]()
    return lambda site: {"site": site, "own": site in own, "name": names.get(site, "")}


def _whose(of: Line) -> str:
    """The same in words."""
    return str(of["name"] or ("you" if of["own"] else f"site {of['site']}"))


def _in_pieces(found: WhatChanged, text: str, who: Callable[[int], str]) -> Iterator[_Piece]:
    """The text with what came to it and what went from it, and who did that."""
    went = [(one.at, one.at, _Piece("went", readable(swapped(one.data)), who(one.by))) for one in found.went]
    came = [(one.begin, one.end, _Piece("came", text[one.begin:one.end], who(one.by))) for one in found.came]
    at = 0
    for begin, end, piece in sorted(went + came, key=lambda one: one[:2]):
        yield _Piece("stayed", text[at:begin])
        yield piece
        at = end
    yield _Piece("stayed", text[at:])


def _rows(pieces: Iterator[_Piece], marks: dict[str, tuple[str, str]]) -> Iterator[_Row]:
    """The lines, with marks around what came and went."""
    number, row, has_changed = 1, list[str](), False
    for kind, text, who in pieces:
        *lines, last = text.split("\n")
        for ends_line, part in [*((True, line) for line in lines), (False, last)]:
            part = safe_for_terminal(part, "\t")
            if kind == "stayed":
                row.append(part)
            elif part or ends_line:
                row += [marks[kind][0], part or NEWLINE, marks[kind][1], marks["who"][0], safe_for_terminal(who), marks["who"][1]]
                has_changed = True
            if ends_line:
                yield _Row(number, "".join(row), has_changed)
                # What went is in no line of the text.
                number, row, has_changed = number + (kind != "went"), [], False
    yield _Row(number, "".join(row), has_changed)


def _around(rows: Sequence[_Row]) -> Iterator[str]:
    """The lines in which something changed, with some around, and where they are."""
    shown = {near for at, row in enumerate(rows) if row.has_changed for near in range(at - AROUND, at + AROUND + 1)}
    for at, row in enumerate(rows):
        if at in shown:
            if at - 1 not in shown or not at:
                yield f"@@ line {row.number} @@"
            yield row.text
