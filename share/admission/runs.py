"""Entries that follow one another, which are added in one step."""
from collections.abc import Iterable, Iterator, Sequence

from share.admission.ledger import Row
from share.format.entry import Entry


def runs(rows: Iterable[Row]) -> Iterator[Sequence[Row]]:
    """Rows in their order: entries of messages each of which follows the one before it together, all of them made here or none, and each
    other one by itself."""
    run: list[Row] = []
    for row in rows:
        if run and (row.made != run[-1].made or not _is_next(row.entry, run[-1].entry)):
            yield run
            run = []
        run.append(row)
    if run:
        yield run


def _is_next(entry: Entry, last: Entry) -> bool:
    """Whether an entry of messages follows one of messages in a chain."""
    return (entry.before == last.name and last.size > 0 and entry.first == last.first + last.size and entry.author == last.author
            and entry.site == last.site and entry.text == last.text and entry.kind.has_messages and last.kind.has_messages)
