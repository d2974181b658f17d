"""What a note's file has, in memory: all entries, the numbers of this person, and what counts of it."""
import math
from collections.abc import Collection, Iterable, Sequence

from share.admission.judges import judge_of
from share.admission.judging import Counted
from share.admission.ledger import Row, Chained, Who
from share.admission.runs import runs
from share.format.entry import Copy, Entry, Form
from share.format.heartbeat import Lack, Way
from share.store.note_file import Disk
from share.store.own import Anew, Client
from share.sync.backlog import Backlog, ReadAgain
from share.sync.handover import Handover
from share.sync.recovered import Recovered
from share.sync.lost import RowsInMemory, WhatWasLost, who
from share.sync.standing import MOST_SAID_BY_OTHERS, Standing

# The most bytes of what doesn't count that are in memory; what is too much is in the file alone until there is room.
MOST_UNCOUNTED_BYTES = 2**27


class Holdings(WhatWasLost):
    """What was read of a file, and what counts of it. The editor's thread alone calls it."""

    def __init__(self, form: Form, handover: Handover) -> None:
        self._form, self._handover = form, handover
        self.clients: dict[Who, Client] = {}
        # The messages made here that others stand for, and what stands for which.
        self.anew: set[Copy] = set()
        self.standing = Standing()
        # What stands for which by the word of all.
        self.standing_for_all = Standing(MOST_SAID_BY_OTHERS)
        # What was typed again of others' text that was left out.
        self.recovered = Recovered()
        # The author, site and seq of each message that hides copies here, or shows them again.
        self.hidings: set[Copy] = set()
        self._withdrawn: dict[bytes, Row] = {}
        self.judge = judge_of(form, room=MOST_UNCOUNTED_BYTES)
        self.rows = RowsInMemory(self.judge, self._withdrawn)
        # Those of this person under whose number somebody else writes, too.
        self._shared: set[Who] = set()
        # Those of this person under which a later version wrote what this one doesn't know.
        self.newer: set[Who] = set()
        # Where entries are in the file for which there was no room, and those of them that are to be read again.
        self._backlog, self._again = Backlog(), ReadAgain()
        self._place = self._number = 0
        # Whether the file may have more than was read.
        self.has_more = False
        self._rejudged = False
        # How many messages count of each text.
        self._many: dict[int, int] = {}

    def read(self, disk: Disk, most: float = math.inf) -> list[Sequence[Row]]:
        """Reads what the file has more, all or until it has this many bytes; the rows that weren't known, as `runs` has them."""
        if not self.rows:
            self.reread_anew(disk)
        before = self._place
        try:
            read, gone, has_more = self._read_on(disk, most)
        except BaseException:
            # What was taken of it already isn't added, and is read there the next time.
            self._place = before
            raise
        new = [run for rows in read for run in self._added(rows)]
        if gone:
            # What was withdrawn may be further on in the file.
            self._number = self._number if has_more else gone[-1][0]
            self.withdraw([of for _, of in gone])
        self.has_more = has_more or bool(self._again)
        return new

    def _read_on(self, disk: Disk, most: float) -> tuple[list[Sequence[Row]], list[tuple[int, bytes]], bool]:
        """The next rows of a file, what was withdrawn, and whether there may be more."""
        read, has_more = self._rows_of(disk, most)
        gone = disk.entries.withdrawn(self._number)
        if any(row.made for rows in read for row in ([rows[0]] if isinstance(rows, Chained) else rows)):
            # Another editor of this person may have claimed a number.
            self.clients |= {who(one): one for one in disk.own.clients()}
        return [*read, self._again.read(disk.entries.row_at, most)], gone, has_more

    def _added(self, rows: Sequence[Row]) -> list[Sequence[Row]]:
        """Adds those of some rows that aren't known, and gives them, as `runs` has them."""
        # What is known can't follow the last entry of a chain; what was withdrawn comes once more where a log had it after all.
        is_new = isinstance(rows, Chained) and self._extends(rows)
        new = [rows] if is_new else [*runs(self.judge.unknown(rows))]
        for row in (row for run in new if not (is_new or self._extends(run)) for row in run):
            self._add(row)
        return new

    def _rows_of(self, disk: Disk, most: float) -> tuple[list[Sequence[Row]], bool]:
        """The next rows of a file, and whether it may have more. Those that were handed over needn't be read there."""
        rows, size = self._handover.take(disk.inode, self._place, most)
        self._place = rows[-1].place if rows else self._place
        read, self._place, has_more = disk.entries.read(self._place, most - size)
        return [rows, *read], has_more

    @property
    def place(self) -> int:
        """Up to which place the file was read."""
        return self._place

    def read_again(self) -> None:
        """Begins the next reading at the front of the file, which was written anew."""
        self._place = self._number = 0
        self._backlog, self._again = Backlog(), ReadAgain()

    def add(self, entries: Iterable[Entry], places: range = range(0)) -> None:
        """Adds entries that were made here and are in the file, perhaps at these places: where they follow what was read they needn't
        be read there."""
        for entry in entries:
            if entry.hash not in self.judge:
                self._add(Row(0, entry, True))
        if places and places[0] == self._place + 1:
            self._place = places[-1]

    def withdraw(self, hashes: Collection[bytes]) -> None:
        """Takes entries out of what counts."""
        if gone := {of: row for of in hashes if of in self.judge and (row := self.judge.row(of))}:
            self._withdrawn |= gone
            before = self.judge
            # Who waits for room is judged anew, too.
            self._backlog.add(before.dropped())
            self._again.add(self._backlog.take_all())
            self.has_more = self.has_more or bool(self._again)
            self.judge = judge_of(self._form, room=MOST_UNCOUNTED_BYTES)
            for row in before.rows():
                if row.entry.hash not in gone:
                    self.judge.add_new(row)
            self.rows, self._rejudged = RowsInMemory(self.judge, self._withdrawn), True

    def let_through(self) -> None:
        """Lets through what can be of what was read, while that is at hand."""
        self.judge.let_through()
        self._take_turns()

    def _take_turns(self) -> None:
        """Has what there was no room for be read again where there may be now."""
        self._backlog.add(self.judge.dropped())
        self._again.add(self._backlog.take(self.judge.turns()))
        self.has_more = self.has_more or bool(self._again)

    def count(self) -> Counted:
        """What counts since this was last asked."""
        found, rejudged = self.judge.count(), self._rejudged
        self._rejudged = False
        if found.anew or rejudged:
            self._many.clear()
        for part in found.messages.parts():
            self._many[part.holder.text] = self._many.get(part.holder.text, 0) + part.end - part.begin
        self._take_turns()
        return Counted(found.messages, found.anew or rejudged)

    def many(self, but: int | None = None) -> int:
        """How many messages count of all texts, or of all but one."""
        return sum(many for text, many in self._many.items() if text != but)

    def is_anew(self) -> bool:
        """Whether what counts next is all of it, judged anew."""
        return self._rejudged or self.judge.is_anew()

    def waiting_for_room(self) -> int:
        """How many entries are in the file alone, since there was no room for them."""
        return len(self._backlog) + len(self._again)

    def broken(self) -> list[Client]:
        """The numbers of this person that can't be gone on with: somebody else writes under them, or what was
        made under them doesn't count. Of one that was given up before what counted may do so no more, too."""
        losing = {who(one.entry) for one in [*self.lost(), *self.left_out()]}
        return [one for one in self.clients.values() if who(one) not in self.newer
                and (who(one) in losing or not one.retired and (self._has_ended(one) or self.is_anothers(one)))]

    def _has_ended(self, client: Client) -> bool:
        """Whether something made under a number doesn't count, so that nothing does that follows it."""
        return any(row.made and not self.judge.is_let_through(message) for row in self._not_counting(who(client))
                   for message in row.entry.messages)

    def is_anothers(self, client: Client) -> bool:
        """Whether somebody else writes under a number, or has it, or it was copied into the note."""
        return (who(client) in self._shared or self.judge.holder(client.site) not in (None, client.author.name)
                or self.judge.is_of_base(client.site))

    def found(self, lack: Lack) -> list[bytes]:
        """The hashes of what others lack and name by a message, or as what begins after a claim."""
        if lack.way is Way.AFTER:
            return [*map(self.judge.fold_of, self.judge.begins(lack.hash))]
        row = self.judge.row(lack.hash)
        return [self.judge.fold_of(row.entry.hash)] if row else []

    def claim_of(self, client: Client) -> Entry | None:
        """The claim of a number of this person, where it has one that is here."""
        return next((row.entry for row in self.judge.of(*who(client)) if row.entry.kind.is_claim), None)

    def reread_anew(self, disk: Disk) -> None:
        """Looks which numbers were given up, and which edits were rebased, by other editors of this person."""
        self.clients = {who(one): one for one in disk.own.clients()}
        self.anew, self.hidings = disk.own.anew(), disk.own.hidings()

    def withdrawn(self) -> frozenset[bytes]:
        """The hashes of the entries that were withdrawn."""
        return frozenset(self._withdrawn)

    def made_by(self, clients: Sequence[Client]) -> list[bytes]:
        """The hashes of the messages' entries that were made under numbers."""
        return [row.entry.hash for one in clients for row in self.judge.of(*who(one)) if row.made and row.entry.size]

    def followed(self) -> set[bytes]:
        """The hashes of the entries made here to which one is chained that wasn't: who made that one had them."""
        found: set[bytes] = set()
        for row in (row for of in self.clients for row in self.judge.of(*of) if not row.made):
            before = self.rows.get(row.entry.before)
            while before and before.made and before.entry.hash not in found:
                found.add(before.entry.hash)
                before = self.rows.get(before.entry.before)
        return found

    def gave_up(self, clients: Sequence[Client]) -> None:
        """Says that numbers were given up."""
        for one in clients:
            self.clients[who(one)] = one._replace(retired=True)

    def made_anew(self, anew: Sequence[Anew], hidings: Sequence[Copy]) -> None:
        """Takes over what was rebased, and which messages hide copies."""
        self.anew |= {one.of for one in anew}
        self.hidings |= set(hidings)

    def counts_up_to(self, author: bytes, site: int, text: int) -> int:
        """How many messages of an author under a number count in a text."""
        return self.judge.front_of(author, site, text)

    def fronts_of_copies(self) -> list[int]:
        """What is to be looked at again where it changes: how far those count of which there are copies, and these."""
        return [*self.standing.fronts(self.counts_up_to), *self.standing_for_all.fronts(self.counts_up_to),
                *self.recovered.fronts(self.counts_up_to)]

    def texts_of_copies(self) -> set[int]:
        """The texts in which something is said to be a copy."""
        return self.standing.texts() | self.standing_for_all.texts() | self.recovered.texts()

    def _is_folded_here(self, of: bytes) -> bool:
        """Whether an entry is folded in one that was made here: it comes back, and nobody else wrote it."""
        fold = self.judge.fold_of(of)
        row = self.judge.row(fold) if fold != of else None
        return row is not None and row.made

    def _extends(self, run: Sequence[Row]) -> bool:
        """Adds entries of messages, each of which follows the one before it, together, where nothing was said of them; whether it did."""
        is_plain = len(run) > 1 and not (self._withdrawn or self.standing.waits or self.standing_for_all.waits)
        is_added = is_plain and self.judge.extend(run)
        if is_added and not run[0].made and (of := who(run[0].entry)) in self.clients:
            self._shared.add(of)
        return is_added

    def _add(self, row: Row) -> None:
        entry, of = row.entry, who(row.entry)
        is_own = of in self.clients
        if self._withdrawn.pop(entry.hash, None):
            self.rows = RowsInMemory(self.judge, self._withdrawn)
        self.judge.add_new(row)
        if is_own and not row.made and entry.kind.is_under_a_number and not self._is_folded_here(entry.hash):
            self._shared.add(of)
        if entry.kind.says_copies and entry.hash not in self.judge:
            # There was no room for it.
            return
        if is_own:
            self.standing.add(row, self.rows)
        self.standing_for_all.add(row._replace(made=True) if entry.kind.says_copies else row, self.rows)
        self.recovered.add(entry, row.made)
        if row.made and entry.kind.is_newer:
            self.newer.add(of)
