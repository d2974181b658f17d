"""Joins the note of a log in a file by the library's `Note`, in one process: it reads the log, opens each entry, whose nonce, seal and
signature are checked, and adds it. The words are the library and the note's link. Printed are processor seconds until the entries were
opened, until they were added, and until they were let through; the bytes that were resident at most; how many letters are shown; and all
processor seconds."""
from __future__ import annotations

import os
import pathlib
import resource
import sys
import time
from collections.abc import Iterator
from itertools import islice

TOP = pathlib.Path(__file__).resolve().parent.parent
sys.path[:0] = [str(TOP), str(TOP / "library" / "python")]
[_, os.environ["VIALSHOAL_LIBRARY"], LINK] = sys.argv

from share.format.second.form import RecordForm  # noqa: E402
from share.format.second.key_link import read_key_link  # noqa: E402
from share.format.second.record import RECORD_HEAD, Record, RecordKind  # noqa: E402
from share.log.base import START  # noqa: E402
from share.log.sqlite import SqliteLog  # noqa: E402
from share.store.note_file import SECOND, About  # noqa: E402
from vialshoal import Entry, Head, Note  # noqa: E402

# As many entries are added in one go.
AT_ONCE = 10_000


def raws(log: SqliteLog) -> Iterator[bytes]:
    """The entries of a log."""
    place = START
    while some := log.read(place):
        yield from (one.raw for one in some if one.raw)
        place = some[-1].place


def opened(form: RecordForm, raw: bytes) -> Record | Entry:
    """An entry that was opened. What messages say nobody here reads but the note."""
    if form.kind(raw) is not RecordKind.MESSAGES:
        return form.open(raw)
    _, _, _, author, site, text, first, count, before = RECORD_HEAD.unpack_from(raw)
    return Entry(Head(author, before, first, count, site, text), form.body(raw))


def note_of(form: RecordForm, opening: Record) -> Note:
    """The note that an opening begins, as a site has it that is nobody's."""
    founding = opening.founding
    assert founding
    return Note(site=65_528, key=form.keys.hash, founder=founding.founder, number=founding.number)


def main() -> None:
    link = read_key_link(LINK)
    form = About(link.form == "sealed", link.secret, link.url, SECOND).form()
    assert isinstance(form, RecordForm)
    log = SqliteLog(pathlib.Path(link.url), form.note)
    entries = (opened(form, raw) for raw in raws(log))
    first = next(entries)
    assert isinstance(first, Record)
    note, opening, adding = note_of(form, first), 0.0, 0.0
    begin = time.process_time()
    while some := [*islice(entries, AT_ONCE)]:
        middle = time.process_time()
        for one in some:
            if isinstance(one, Record):
                note.claim(one.author, one.site, one.rank)
            else:
                note.add(one)
        opening, adding, begin = opening + middle - begin, adding + time.process_time() - middle, time.process_time()
    note.update()
    shown = len(note.text())
    letting_through, memory = time.process_time() - begin, resource.getrusage(resource.RUSAGE_SELF).ru_maxrss * 1024
    print(opening, adding, letting_through, memory, shown, time.process_time())


main()
