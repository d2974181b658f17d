"""A note's file as it is open now: it is read a part at a time, and written anew from memory where it is gone or damaged."""
import math
import pathlib
import time
from collections.abc import Callable, Sequence
from contextlib import ExitStack, suppress
from typing import TypeVar

from share.admission.judging import Counted
from share.admission.ledger import Row
from share.format.history import Messages
from share.log.folder import inode_of
from share.program.intake import Pace
from share.program.trace import Traced, trace
from share.store.guarded import Changed, Damaged, Unkept
from share.store.note_file import Disk, make_note
from share.store.own import anew_of
from share.store.read_only import found_in
from share.sync.lost import who
from share.sync.state import Holdings
from share.sync.status import Notices
from share.text.errors import NEWER, Trouble, entries

# How often the file is looked at for whether somebody took entries out of it.
TAKEN_OUT_SECONDS = 2
# The bytes of entries that are read in one go: at the beginning, and the bounds; and as a note is opened.
PAGES, OPENED_BYTES = (2**14, 2**10, 2**17), 2**20
OfCall = TypeVar("OfCall")


class OpenFile:
    """The file of a session, and what of it was read into memory. The editor's thread alone calls it."""

    def __init__(self, disk: Disk, holdings: Holdings, notices: Notices):
        self.disk, self._holdings, self._notices = disk, holdings, notices
        # Why it can't be read now.
        self.unread: str | None = None
        # Whether the log is to be read again for what the disk damaged.
        self.lacks = False
        # Called with the file that has taken this one's place, and None while the note is opened.
        self.moved: Callable[[Disk], None] | None = None
        self._looked = 0.0
        # Whether another connection wrote something that isn't read.
        self._is_unread = True
        # Whether it was looked at for what others did to it, before the pages that are read now or next.
        self._was_looked_at = False
        # How many bytes of entries are read and judged in one go while editors wait, and now.
        self._page, self._most = Pace(*PAGES), math.inf

    def read_all(self) -> None:
        """Reads what the file has, a part at a time, since it may be much."""
        self._most = OPENED_BYTES
        while not self.unread:
            self.read()
            self._holdings.let_through()
            if not self._holdings.has_more:
                break
        self._most = math.inf

    def read_on(self, seconds: float) -> tuple[list[Sequence[Row]], Counted]:
        """The rows that the file has more, as `runs` has them and as far as there is time to read them, and what counts now."""
        try:
            return self._pages(time.monotonic() + seconds)
        finally:
            self._was_looked_at = False

    def _pages(self, end: float) -> tuple[list[Sequence[Row]], Counted]:
        new, messages, is_anew = list[Sequence[Row]](), Messages(), False
        while True:
            begin, self._most = time.thread_time(), self._page.most
            new += self.read()
            found, self._most = self._holdings.count(), math.inf
            if found.anew:
                messages, is_anew = Messages(), True
            messages += found.messages
            if self._holdings.has_more:
                self._page.took(time.thread_time() - begin)
            if not self._holdings.has_more or time.monotonic() >= end:
                return new, Counted(messages, is_anew)

    def read(self) -> list[Sequence[Row]]:
        """The rows that the file has more, as `runs` has them."""
        try:
            new = self.mended(self._read)
        except Unkept as why:
            self.unread = f"The note's file can't be read now ({why})."
            return []
        self.unread = None
        if any(run[0].entry.kind.is_newer for run in new):
            self._notices.tell_once(NEWER)
        if self.disk.entries.damaged:
            self._notices.tell(f"The disk has damaged {entries(self.disk.entries.damaged)} of the note's file. They are "
                               "taken from whoever has them.")
            self.disk.entries.damaged, self.lacks = 0, True
        return new

    def read_own(self) -> None:
        """Reads again which numbers were given up, and what was rebased."""
        self.mended(lambda: self._holdings.reread_anew(self.disk))

    def look(self, at_end: bool = False) -> bool:
        """Raises Damaged where the file isn't what is in memory; whether that was seen at once. What is read next, as after an edit,
        needn't be looked at again."""
        is_seen = self.disk.look(self._has_all, at_end)
        self._was_looked_at = True
        return is_seen

    def tidy(self) -> None:
        """Does what can be done while there is time, so that the next edit needn't."""
        with suppress(Unkept, Damaged):
            # The next look tells what is wrong.
            self.disk.tidy(self.look)

    def _has_all(self, file: Disk) -> bool:
        """Whether a file has all that is in memory."""
        holdings, own = self._holdings, {one.author for one in file.own.clients()}
        return (file.entries.many_of(holdings.rows) == len(holdings.rows) and holdings.anew <= file.own.anew()
                and holdings.withdrawn() <= {of for _, of in file.entries.withdrawn()}
                and own.issuperset(one.author for one in holdings.clients.values()))

    def mended(self, call: Callable[[], OfCall]) -> OfCall:
        """What a call on the file gives; the file is written anew from memory where it is gone or damaged."""
        try:
            return call()
        except Damaged as why:
            try:
                self._mend(why)
                return call()
            except Damaged as again:
                raise Unkept(str(again)) from again

    def _read(self) -> list[Sequence[Row]]:
        if self.moved and not self._was_looked_at:
            self.look()
        if time.monotonic() - self._looked > TAKEN_OUT_SECONDS:
            self._looked = time.monotonic()
            if self.disk.entries.size() < len(self._holdings.rows) + self._holdings.waiting_for_room():
                raise Damaged(f"{self.disk.path} lacks entries that it had")
        new = self._read_on()
        if not self.moved and not self._holdings.has_more:
            # Only now is there something in memory of which the file can be written anew.
            self._look_what_is_lost()
            self.look()
        return new

    def _read_on(self) -> list[Sequence[Row]]:
        """The same, where another connection wrote since all was read: what this one writes is taken over as it is written."""
        self._is_unread = self.disk.has_changed() or self._is_unread
        if not (self._is_unread or self._holdings.has_more):
            return []
        before = self._holdings.place
        new = self._holdings.read(self.disk, self._most)
        # A portion may have been all that was read in one go.
        self._is_unread = self._holdings.place != before or self.disk.entries.damaged > 0
        return new

    def _look_what_is_lost(self) -> None:
        """Has the file written anew where it lost entries while nobody had it open. What is lost may have been sent: so nothing more is
        typed under the numbers that it has."""
        if many := self.disk.lacks():
            holdings, self.lacks = self._holdings, True
            holdings.gave_up([one for one in holdings.clients.values() if not one.retired and self.disk.lock(one.site)])
            self._notices.tell(f"The note's file has lost {entries(many)} that it had. They are taken from whoever has them.")
            raise Changed(f"it has lost {entries(many)}")

    def _mend(self, why: Damaged) -> None:
        """Puts the note's file in its place again, with all that is in memory."""
        holdings, path = self._holdings, self.disk.path
        disk = self._in_place(why)
        with ExitStack() as failing:
            failing.callback(disk.close)
            if disk.about.secret != self.disk.about.secret:
                raise Trouble(f"{path} is another note's file now. Save this note as a file, and look who moved it.")
            disk.take_locks(self.disk)
            failing.pop_all()
        self.disk.close()
        self.disk = disk
        if self.moved:
            self.moved(disk)
        disk.restore(holdings.rows, holdings.withdrawn(), holdings.hidings, holdings.clients.values(), holdings.anew)
        holdings.read_again()

    def _in_place(self, why: Damaged) -> Disk:
        """The file that has taken this one's place, which may be written anew here."""
        holdings, path = self._holdings, self.disk.path
        inode = inode_of(path)
        try:
            if isinstance(why, Changed) and inode == self.disk.inode:
                raise why
            disk = Disk(path)
            with ExitStack() as failing:
                failing.callback(disk.close)
                disk.check()
                failing.pop_all()
            return disk
        except Damaged:
            aside = make_note(path, self.disk.about, self._rows_and(path), holdings.clients.values(),
                              [anew_of(one) for one in holdings.anew], holdings.withdrawn(), offered=True, damaged=inode)
            self._notices.tell(f"The note's file was gone or damaged ({why}) and was written anew."
                               + (f" What was there is {aside}." if aside else ""))
            trace(Traced.FILE_WRITTEN_ANEW, entries=len(holdings.rows))
            return Disk(path)

    def _rows_and(self, damaged: pathlib.Path) -> list[Row]:
        """All that is in memory, and as the note is opened what can be read of its damaged file besides."""
        holdings = self._holdings
        rows = [*holdings.rows.each()]
        # What has no room in memory, or only a later version knows, is there alone.
        is_more_there = not self.moved or holdings.waiting_for_room() or holdings.judge.has_newer()
        if is_more_there and damaged.exists():
            with suppress(Trouble):
                rows += [Row(0, entry, who(entry) in holdings.clients) for entry in found_in(damaged).entries
                         if entry.hash not in holdings.rows]
        return rows
