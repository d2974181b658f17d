"""Lists what is said of notes, for which no number is needed. People's words are data: each line of them is behind blanks, and has no
control characters."""
import argparse
import math
from collections.abc import Iterator
from concurrent.futures import ThreadPoolExecutor
from contextlib import closing, suppress
from datetime import datetime
from typing import NamedTuple

from share.cli import access
from share.cli.critic import line_and_column
from share.cli.of_files import NOTES_AT_ONCE
from share.cli.output import print_json, print_text, report_missing
from share.editors.terminal.keys import safe_for_terminal
from share.editors.threads import OPEN, said_in_lines, speaker, state_in_words
from share.engine.margins import threads_of
from share.engine.thread_lines import ToldTo, thread_lines
from share.program import replay
from share.program.site import Site
from share.review.record import MARGIN
from share.store import contents, notes, read_only
from share.store.guarded import Unkept
from share.store.read_only import Judged
from share.sync.margin import NO_MARGIN
from share.text.errors import Refused, Trouble
from share.text.line import Line
from share.text.rope import Measured, readable, swapped
from share.text.units import UNITS

KIND_WORDS = {"remark": "remarks", "suggestion": "suggests"}


class NoteReview(NamedTuple):
    """A note's text, what is said of it, and what is missing in that."""

    text: str
    threads: list[Line]
    missing: list[str]


def remarks(given: argparse.Namespace) -> int:
    """Lists remarks and suggestions."""
    found, missing = list[Line](), list[str]()
    names = given.names or [*_with_margins(missing)]
    with ThreadPoolExecutor(NOTES_AT_ONCE) as pool:
        reviews = [*pool.map(lambda name: _review_or_why(name, given), names)]
    for name, review in zip(names, reviews):
        if isinstance(review, Exception):
            if given.names:
                raise review
            missing.append(str(review))
            continue
        missing += review.missing
        found += [_with_place(name, review.text, one) for one in review.threads if _is_asked_for(one, given)]
    if given.json:
        return print_json({"remarks": found}, missing)
    for one in found:
        print_text("\n".join(_in_lines(one)) + "\n")
    return report_missing(missing)


def review_of(name: str, there: Judged) -> NoteReview:
    """What is said of a note of which there is this."""
    if MARGIN not in there.about.form().texts:
        raise Trouble(NO_MARGIN)
    messages, missing, _ = contents.contents_of(name, there)
    path, knows = notes.path_of(name), contents.knows_of(there)
    own = read_only.own_sites(path) if path.exists() else set[int]()
    with closing(Site(replay.REPLAYING, messages)) as site:
        text = site.text()
        found = threads_of(contents.margin_of(there), site, knows)
    told = ToldTo(Measured(text), UNITS["utf-32"], own.__contains__, knows.data)
    return NoteReview(readable(swapped(text)), thread_lines(found, told, math.inf), missing)


def _with_margins(missing: list[str]) -> Iterator[str]:
    """The notes that are here and have a margin; what can't be read is told."""
    for name in notes.names():
        try:
            if MARGIN in read_only.about(notes.path_of(name)).form().texts:
                yield name
        except Trouble as why:
            missing.append(str(why))


def _review_or_why(name: str, given: argparse.Namespace) -> NoteReview | Exception:
    """The same of one of several notes, of which the others are read all the same; of what is in logs alone where it is named."""
    try:
        path = notes.existing(name)
        return review_of(name, contents.found_of(name, None, None, access.given_password(given)) if given.names else read_only.judged(path))
    except (Trouble, Refused, Unkept, OSError) as why:
        return why


def _is_asked_for(one: Line, given: argparse.Namespace) -> bool:
    is_open = one["state"] == OPEN or not given.open and bool(given.names)
    return is_open and (given.author is None or one.get("name", "").casefold() == given.author.casefold())


def _with_place(name: str, text: str, one: Line) -> Line:
    """A thread with its note, its place as people count it, and the passage as it is now."""
    if "begin" not in one:
        return {"note": name, **one}
    (line, column), (end_line, end_column) = (line_and_column(text, one[place]) for place in ("begin", "end"))
    return {"note": name, "line": line, "column": column, "end_line": end_line, "end_column": end_column,
            "now": text[one["begin"]:one["end"]], **one}


def _in_lines(one: Line) -> Iterator[str]:
    """A thread in lines."""
    place = f"{one['note']}:{one['line']}:{one['column']}" if "line" in one else one["note"]
    words = [place, one["id"], state_in_words(one), _safe_line(speaker(one)), KIND_WORDS.get(one["kind"], ""), _when(one.get("time", 0))]
    yield "  ".join(filter(None, words))
    for line in said_in_lines(one, one["now"] if one.get("now") else one.get("text", "")):
        yield f"  {_safe_line(line)}"


def _safe_line(words: str) -> str:
    return safe_for_terminal(words, "\t")


def _when(seconds: int) -> str:
    """When something was said, by its author's clock, which may say anything."""
    with suppress(ValueError, OverflowError, OSError):
        return datetime.fromtimestamp(seconds).strftime("%Y-%m-%d %H:%M")
    return ""
