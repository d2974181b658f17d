"""A note that goes on under a new key: one that begins with the text as it is, without its history; and the word that others
of the old one are told.

Such a text is typed anew from the front on, each stretch under the number of the site that typed it, after the last
character before it. So editors tell who wrote what as before.
"""
import pathlib
from collections.abc import Iterable, Iterator, Mapping, Sequence, Set
from contextlib import closing, suppress
from typing import NamedTuple

from share.admission.judging import Judging
from share.format.history import Messages
from share.format.operation import INSERT, Operation
from share.format.presence import clean_name
from share.log.base import LogLost, Unreachable
from share.log.opening import opener_of
from share.program.site import Site, split
from share.review.record import MARGIN
from share.store.guarded import Damaged, Unkept
from share.store.note_file import Disk
from share.text.errors import Trouble, counted
from share.text.line import Line
from share.text.looks import Run
from share.text.names import Names

# The number of a site by which is only looked.
LOOKING_SITE = 1


class Styled(NamedTuple):
    """A stretch of a text that one site typed, in one kind of looks, as messages spell these."""

    site: int
    looks: bytes
    data: bytes


class Fresh(NamedTuple):
    """A text as it is typed anew, and how many bytes each site has in it; and those that aren't in it, of which sites."""

    messages: Messages
    sizes: dict[int, int]
    without: dict[int, int]


def fresh(messages: Messages, without: Set[int]) -> Fresh:
    """The text that messages show, typed anew, without what some sites typed of it."""
    made, sizes = Messages(), dict[int, int]()
    for text in sorted({part.holder.text for part in messages.parts()}):
        if text == MARGIN:
            made += Messages(_inserted_anew(messages.of_text(text), without))
            continue
        made += Messages(_typed_anew(_merged_stretches(_kept_of(messages.of_text(text), text, sizes, without)), text))
    return Fresh(made, {site: size for site, size in sizes.items() if site not in without},
                 {site: sizes.get(site, 0) for site in sorted(without)})


def _inserted_anew(messages: Messages, without: Set[int]) -> Iterator[Operation]:
    """The insertions of a margin as they were and in their order, since each is one record, whatever of it is shown; without those of
    some sites."""
    inserted = [one for run in messages.runs() if run.data and run.site not in without for one in run.each()]
    seqs, lengths = dict[int, int](), dict[int, int]()
    for stamp, one in enumerate(sorted(inserted, key=lambda one: (one.stamp, one.site)), 1):
        seqs[one.site], at = seqs.get(one.site, 0) + 1, lengths.get(one.site, 0)
        yield one._replace(seq=seqs[one.site], stamp=stamp, at=at, mentions=())
        lengths[one.site] = at + len(one.data)


def _kept_of(messages: Messages, text: int, sizes: dict[int, int], without: Set[int]) -> Iterator[Styled]:
    """What is shown of a text, without what some sites typed; how much each has in it is added to their sizes."""
    with closing(Site(LOOKING_SITE, messages, text=text)) as site:
        data, runs = site.text(), site.runs()
        names = site.names(0, len(data))
    for one in names:
        sizes[one.site] = sizes.get(one.site, 0) + one.length
    return (one for one in _stretches(data, names, runs) if one.site not in without)


def fresh_in_words(one: Fresh, names: Mapping[int, str]) -> str:
    """What a note is that begins with a text, before it is made."""
    size = sum(one.sizes.values())
    words = (f"The new note begins with the text as it is, {counted(size, 'character')} of {counted(len(one.sizes), 'site')}. "
             "Its history begins there, too: what was before stays in the old note alone.")
    for site, left in one.without.items():
        words += f" Not in it: {counted(left, 'character')} of {_called(site, names.get(site))}."
    return words


def say_so(path: pathlib.Path, name: str, password: str | None) -> None:
    """Tells those who have the old note, whose file this is, that somebody of this name renewed it."""
    with suppress(Unkept, Damaged, Trouble, Unreachable, LogLost), closing(Disk(path)) as disk:
        clients = sorted((one for one in disk.own.clients() if not one.retired), key=lambda one: not one.stood)
        if not clients:
            return
        said = disk.form.renewed(name, clients[0].site, clients[0].author)
        # What its log isn't given now it is given when the old note is opened.
        disk.keep([said], made=True)
        if disk.about.url:
            with closing(opener_of(disk.about.url, disk.form, password)()) as log:
                log.append([said.raw])


def renewed_by(judge: Judging, own: Set[tuple[int, bytes]]) -> Line | None:
    """Who says that a note was renewed, as editors are told it; None where nobody does."""
    for who, name in judge.renewed():
        called = clean_name(name.decode("utf-8", "replace"))
        return {"site": who[0], "own": who in own} | ({"name": called} if called else {})
    return None


def renewed_in_words(line: Line) -> str:
    """What a user is told of a note that was renewed."""
    if line["own"]:
        return "You have renewed this note: others go on in the new one."
    return f"This note was renewed by {_called(line['site'], line.get('name'))}: ask for the new link."


def _called(site: int, name: str | None) -> str:
    return f"{name} (site {site})" if name else f"site {site}"


def _stretches(text: bytes, names: Sequence[Names], runs: Iterable[Run]) -> Iterator[Styled]:
    """A text in stretches that are each of one site and in one kind of looks."""
    coming, looks, at, end = iter(runs), b"", 0, 0
    for one in names:
        last = at + one.length
        while at < last:
            if at == end:
                run = next(coming)
                looks, end = _spelled_looks(run), end + run.length
            size = min(last, end) - at
            yield Styled(one.site, looks, text[at:at + size])
            at += size


def _spelled_looks(run: Run) -> bytes:
    """Looks as a message has them."""
    font = run.font.encode("ascii")
    return bytes([len(font)]) + font + bytes([run.colour, run.offset & 0xFF])


def _merged_stretches(stretches: Iterable[Styled]) -> Iterator[Styled]:
    """Stretches, those in one that follow one another and differ in their text alone."""
    last, data = None, bytearray()
    for one in stretches:
        if last and last[:2] != one[:2]:
            yield last._replace(data=bytes(data))
            data.clear()
        last = one
        data += one.data
    if last:
        yield last._replace(data=bytes(data))


def _typed_anew(stretches: Iterable[Styled], text: int) -> Iterator[Operation]:
    """Messages that type stretches of a text one after the other."""
    seqs, lengths, stamp = dict[int, int](), dict[int, int](), 0
    before: tuple[Names, ...] = ()
    for site, looks, data in stretches:
        for part in split(data):
            seqs[site], stamp = seqs.get(site, 0) + 1, stamp + 1
            at = lengths.get(site, 0)
            yield Operation(INSERT, site, seqs[site], stamp, 1, before, at, part, looks, text)
            lengths[site] = at + len(part)
            before = (Names(site, lengths[site] - 1, 1),)
