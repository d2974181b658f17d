"""Folding of what this person wrote, once the log has it, and what is found to be folded of all that came."""
import sys
from contextlib import suppress

from share.admission.foldable import FoldableChain
from share.admission.in_fold import InFold
from share.admission.judging import Judging
from share.admission.ledger import Row
from share.format.second.folding import LEAST_FOLDED, EntrySpan, Steps, due, folding
from share.format.second.form import RecordForm
from share.format.second.record import Record
from share.program.trace import Traced, trace
from share.store.guarded import Unkept
from share.store.own import Client
from share.sync.folded import Folded
from share.sync.lost import who
from share.sync.open_file import OpenFile
from share.sync.replicator import Replicator
from share.sync.state import Holdings

# At how many entries and messages a turn looks for which a key waits, and one that nothing waits for.
MOST_IN_A_TURN, ALL = 12, sys.maxsize


class Folding:
    """Folds own entries, one stretch at a time, in as many turns as that takes. The editor's thread alone calls it."""

    def __init__(self, file: OpenFile, holdings: Holdings, folded: Folded, has_log: bool):
        self._file, self._holdings, self._folded, self._has_log = file, holdings, folded, has_log
        # How many entries there are as it is looked again whether some are to be folded; and for whom it is looked, in which chain.
        self._next = 0
        self._client: Client | None = None
        self._chain: FoldableChain | None = None
        self._begin(holdings.judge)

    def _begin(self, judge: Judging) -> None:
        # How much of what is folded a judge has told; what is folded in own folds that may be withdrawn, and in some that may not, of which
        # this is left to be told; and what is left to do of folding.
        self._judge, self._at = judge, 0
        self._steps: Steps[None] | None = None
        self._waiting: dict[bytes, list[InFold]] = {}
        self._told = self._untold = list[InFold]()

    def found(self, most: int = ALL) -> list[InFold]:
        """What is folded since this was last asked, in what is in the file for good: a fold that was made here and that no log was ever
        offered might be withdrawn. Of own folds no more than this is looked at, and told."""
        judge = self._holdings.judge
        if judge is not self._judge:
            self._begin(judge)
            self._folded.clear()
        is_whole, found = judge.look_for_folded(most), list[InFold]()
        new = judge.folded(self._at)
        self._at += len(new)
        for one in new:
            (self._waiting.setdefault(one.fold, []) if one.fold_made else found).append(one)
        self._folded.add(found)
        self._folded.look_for(found)
        return found + (self._found_in_own(most) if is_whole else [])

    def _found_in_own(self, most: int) -> list[InFold]:
        """So much of what is folded in own folds which are in the file for good."""
        if not self._untold and self._waiting:
            made, self._told = {*self._waiting}, []
            for fold in self._file.mended(lambda: self._file.disk.entries.were_offered(made)) if self._has_log else made:
                self._told += self._waiting.pop(fold)
            self._folded.add(self._told)
            self._untold = self._told
        some, self._untold = self._untold[:most], self._untold[most:]
        if some and not self._untold:
            # The log is looked at once for all of it.
            self._folded.look_for(self._told)
        return some

    def fold(self, form: RecordForm, replicator: Replicator, most: int = ALL) -> None:
        """Goes on with folding what is due of own entries that were read in the log; it looks at so many entries and messages."""
        judge = self._holdings.judge
        if self._steps and not self._holds():
            self._steps = None
        if not self._steps:
            if len(judge) < self._next or judge is not self._judge or self._untold or not (
                    replicator.has_read() and judge.look_for_folded(0)):
                return
            self._steps = self._folds(form, replicator)
        for many in self._steps:
            most -= many
            if most <= 0:
                return
        self._steps = None

    def _holds(self) -> bool:
        """Whether what was looked at is still as it was."""
        if self._judge is not self._holdings.judge or self._client and not self._may_fold(self._client):
            return False
        return not self._chain or self._chain.holds()

    def _may_fold(self, client: Client) -> bool:
        """Whether a number of this person is typed under here, and nowhere else."""
        holdings, of = self._holdings, who(client)
        return holdings.clients.get(of) == client and not (client.retired or client.copied or of in holdings.newer
                                                           or holdings.is_anothers(client))

    def _folds(self, form: RecordForm, replicator: Replicator) -> Steps[None]:
        """Folds the first entries that are due, as many as one fold has room for."""
        judge = self._judge
        for client in [one for one in self._holdings.clients.values() if self._may_fold(one)]:
            for text in form.texts:
                self._client, self._chain = client, judge.foldable(client.site, text)
                if self._chain is None:
                    continue
                some = yield from due(self._chain.extents())
                some = (yield from self._read(some, replicator)) if some else []
                fold = (yield from folding(self._chain, some, form, client.author)) if some else None
                if fold and self._keep(fold, replicator):
                    # There may be more.
                    self._next = 0
                    return
            yield 1
        self._next = len(judge) + LEAST_FOLDED

    @staticmethod
    def _read(some: list[EntrySpan], replicator: Replicator) -> Steps[list[EntrySpan]]:
        """Those of the first of some entries that were read in the log, where they are enough to be folded."""
        many = 0
        while many < len(some) and replicator.were_read([one.hash for one in some[many:many + MOST_IN_A_TURN]]):
            many += MOST_IN_A_TURN
            yield MOST_IN_A_TURN // 4
        return some[:many] if many >= LEAST_FOLDED else []

    def _keep(self, fold: Record, replicator: Replicator) -> bool:
        """Keeps a fold, and has it sent; whether that could be."""
        with suppress(Unkept):
            # Where there is no room now it is folded later.
            places = self._file.mended(lambda: self._file.disk.keep([fold], True))
            if fold.hash not in self._judge:
                self._judge.add_fold(Row(0, fold, True))
            self._holdings.add([fold], places)
            replicator.made(places)
            trace(Traced.FOLDED, messages=fold.size)
            return True
        return False
