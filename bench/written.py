"""Notes that two people write in turn, as entries: each of some letters that were typed, or as their authors' engines fold them."""
from __future__ import annotations

import itertools
import random
from collections.abc import Iterator, Sequence

from share.admission.ledger import Row
from share.admission.record_judge import RecordJudge
from share.format.chunk import packed
from share.format.entry import Author, BuiltOn, Entry, Form, digest
from share.format.operation import INSERT, PLAIN_LOOKS, Operation
from share.format.second.claim import found_among
from share.format.second.folding import run_through, due, folding
from share.format.second.form import RecordForm
from share.store.founding import Begun
from share.text.names import Names

# A number of somebody else, where none is searched for.
OTHERS = 65_000
# They write in turn, this many letters each time.
IN_TURN = 1_000
# As notes have it, a line ends with a return.
LETTERS = b"One writes as people do, some of whom end their lines.\r"


class Writers:
    """Who founded a note, and somebody else, whose claim costs what all have to pay."""

    def __init__(self, made: Begun):
        self.form, one, other = made.about.form(), made.clients[0], made.about.form().new_author()
        claim = _claim(self.form, other, one.site)
        self.begin = [*(row.entry for row in made.rows), claim]
        self.authors = {one.site: one.author, claim.site: other}
        self._last = {one.site: made.rows[-1].entry, claim.site: claim}

    def entries(self, letters: int, each: int) -> Iterator[Entry]:
        """All entries of a note in which they have typed so many letters, each entry at most some."""
        yield from self.begin
        sites, typed, end = [*self.authors], dict.fromkeys(self.authors, 0), Names(0, 0, 0)
        for begin in range(0, letters, IN_TURN):
            site = sites[begin // IN_TURN % 2]
            for at in range(begin, min(begin + IN_TURN, letters), each):
                size, stamp = min(each, begin + IN_TURN - at, letters - at), 1 + at
                data = bytes(LETTERS[one % len(LETTERS)] for one in range(at, at + size))
                mentions = (end,) if end.site else ()
                part = packed([Operation(INSERT, site, typed[site] + 1, stamp, size, mentions, typed[site], data, PLAIN_LOOKS)])
                assert part
                on = _built_on(self.form, self._last[end.site]) if end.site not in (0, site) else b""
                self._last[site] = self.form.entry(self._last[site], part, self.authors[site], on)
                yield self._last[site]
                typed[site] += size
                end = Names(site, typed[site] - 1, 1)

    def folded(self, some: Sequence[Entry]) -> list[Entry]:
        """Entries of theirs, with what they fold of them at the end."""
        assert isinstance(self.form, RecordForm)
        judge = RecordJudge(some, form=self.form)
        judge.count()
        for site, author in self.authors.items():
            while (chain := judge.foldable(site)) and (found := run_through(due(chain.extents()))):
                fold = run_through(folding(chain, found, self.form, author))
                assert fold
                judge.add_fold(Row(0, fold, True))
                judge.look_for_folded()
        gone = {one.hash for one in judge.folded()}
        return [row.entry for row in judge.rows() if row.entry.hash not in gone]


def _claim(form: Form, author: Author, taken: int) -> Entry:
    if not isinstance(form, RecordForm):
        return form.claim(OTHERS, author)
    counters = itertools.count(random.getrandbits(48))
    found = next(found_among(counters, form.note, author.name, {taken}, form.zero_bits))
    return form.claim(found.site, author, found.counter)


def _built_on(form: Form, last: Entry) -> BuiltOn:
    """What an entry builds on whose first message mentions the last character of another one."""
    return {0: form.keys.built_on([last.name])} if isinstance(form, RecordForm) else digest(last.hash)
