"""Prints a note: from its file and its log, without a number. What the log had besides is kept in the file, and nothing else is changed
or made."""
from contextlib import closing
from typing import NamedTuple

from share.admission.judges import judge_of
from share.format.history import Messages
from share.format.operation import TEXT
from share.format.second.key_link import AnyLink
from share.program import replay, retyping
from share.program.site import Site
from share.review.anchor import Knows
from share.review.margin import Margin
from share.review.record import MARGIN
from share.store import nicknames, notes, read_only, renewal
from share.store.note_file import About
from share.store.read_only import Judged, NoteText, Own, uncollected
from share.store.with_log import keep_in, with_log
from share.text.errors import Trouble
from share.text.line import Line
from share.text.names import Names


class Contents(NamedTuple):
    """The messages of a note, each after its causes; what is missing of it, in words; and what was left out for good,
    stretch by stretch."""

    messages: Messages
    missing: list[str]
    left_out: list[Line]


def text_of_note(name: str, url: str | None, link: AnyLink | None, password: str | None) -> NoteText:
    """The text of a note, and what is missing in it."""
    messages, missing, _ = contents_of(name, found_of(name, url, link, password))
    with closing(Site(replay.REPLAYING, messages)) as site:
        return NoteText(site.text(), missing)


def contents_of(name: str, there: Judged, text: int = TEXT) -> Contents:
    """What counts of a text of what there is of a note."""
    judge, path = there.judge, notes.path_of(name)
    messages = judge.let_through_in_order(text)
    own, names = read_only.own(path) if path.exists() else Own(), nicknames.known(name)
    missing = read_only.missing(judge, there.faults)
    if much := retyping.left_out(judge, own.anew):
        missing.append(retyping.telling(retyping.with_names(retyping.as_lines(much, own.clients), names), name))
    if said := renewal.renewed_by(judge, own.clients):
        missing.append(renewal.renewed_in_words(said))
    return Contents(messages, missing, retyping.with_text(retyping.lost(judge, own.anew), own.clients, names))


def margin_of(there: Judged) -> Margin:
    """What is said in the margin of what there is of a note, where that can have one."""
    said = Margin()
    if MARGIN in there.about.form().texts:
        said.add_all(there.judge.let_through_in_order(MARGIN).runs())
    return said


def suggested(there: Judged) -> set[Names]:
    """The replacements that are suggested of what there is of a note."""
    return margin_of(there).suggested()


def knows_of(there: Judged) -> Knows:
    """What of the text counts, shown or not."""
    return Knows(there.judge.inserter, there.judge.inserted, there.judge.is_of_base)


@uncollected()
def found_of(name: str, url: str | None, link: AnyLink | None, password: str | None) -> Judged:
    """What there is of a note, and what was wrong with it."""
    path = notes.path_of(name)
    if path.exists():
        here = read_only.judged(path)
    elif link:
        about = About(link.form == "sealed", link.secret, link.url, link.form_number)
        here = Judged(about, judge_of(about.form()), [], set())
    else:
        raise Trouble(f"There is no note {name} here. To print one that isn't here, give its link.")
    notes.check_agreement(here.about, name, url, link)
    if not (at := url or here.about.url):
        return here
    return with_log(here, at, password, keep_in(path) if path.exists() else lambda new: None)
