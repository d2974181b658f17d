"""What a log is known to have of the file that is in its place now: one owner for all threads."""
import threading
from collections.abc import Callable, Iterable, Iterator, Sequence
from contextlib import suppress

from share.admission.in_fold import InFold
from share.admission.ledger import Row
from share.format.entry import EntryKind
from share.log.bell import Bell
from share.log.folder import Inode
from share.store.entries import Located
from share.store.guarded import Damaged, Unkept
from share.store.note_file import Disk
from share.sync.carried import Carried
from share.sync.folded import Folded
from share.sync.handover import Handover

# The most entries of the file that are looked at in one go.
LOOKED_AT_ONCE = 2_000


class Known:
    """Owns what the log has of the file. Any thread may call it. Its lock has one thread at a time look at the file for
    what is to be sent, or put into it what came."""

    def __init__(self, has_log: bool, handover: Handover, bell: Bell, folded: Folded | None = None) -> None:
        self._has_log, self._handover, self._folded = has_log, handover, folded or Folded()
        # Whether somebody finds what is folded.
        self._finds_folds = folded is not None
        # Of the file that is in its place now; of no file until a thread has looked at one.
        self.now = Carried(None)
        self._lock = threading.Lock()
        # The last edit that was made here: its file and place.
        self.made_last: tuple[Inode | None, int] = None, 0
        # Whether the log is to be read from its front. Any thread may ask for that; the fetcher's does it, which the bell wakes.
        self.reads_from_front = False
        self.bell = bell
        # What came from elsewhere under this person's numbers, by their authors.
        self._by_others: dict[bytes, set[bytes]] = {}
        # The last place of the file to which something came that others may be folded in; up to which it has to be found what is folded
        # before more is given, and up to which it was, of which file.
        self._last_of_many = self._read_up_to = 0
        self._taken_in: tuple[Inode | None, int] = None, 0

    def read_from_front(self) -> None:
        """Has the log be read from its front."""
        self.reads_from_front = True
        self.bell.ring()

    def of(self, disk: Disk) -> Carried:
        """What is known of the log and this file: nothing yet, where the file was written anew."""
        with self._lock:
            if self.now.file != disk.inode and disk.is_in_place():
                new = Carried(disk.inode)
                self._look_on(disk, new)
                for hashes in self._folded.each():
                    new.fold(disk.entries.places_of(hashes).values())
                new.file_says(disk.unsent())
                self.now = new
            return self.now

    def is_of_now(self, disk: Disk, carried: Carried) -> bool:
        """Whether a thread has the file open that is there now, and goes by what is known of that one."""
        return carried is self.now and carried.file == disk.inode and disk.is_in_place()

    def look_at(self, disk: Disk, carried: Carried) -> None:
        """Looks for what the file has more."""
        with self._lock:
            self._look_on(disk, carried)

    def came(self, disk: Disk, carried: Carried, opened: Sequence[Row], held: Iterable[int]) -> None:
        """Puts entries that came from the log into the file, and notes that the log has them and what is held at some places."""
        # Between the two nobody is to take what came for something that the log lacks.
        with self._lock:
            new = self._put(disk, carried, opened) if opened else ()
            carried.read([*held, *new])

    def _put(self, disk: Disk, carried: Carried, opened: Sequence[Row]) -> Sequence[int]:
        """Puts entries into the file, from where the editor's thread has them as they are here; their places."""
        before, rows = disk.receive(opened)
        if rows and carried.looked >= before:
            own = [row.place for row in rows if row.made and row.entry.kind.has_messages]
            by_others = [(row.entry.kind, row.entry.author, row.entry.hash) for row in rows if not row.made]
            self._saw(disk, carried, rows[-1].place, own, by_others)
        if self._finds_folds and disk.form.names_messages:
            self._last_of_many = max((row.place for row in rows if row.entry.size > 1), default=self._last_of_many)
        self._handover.put(disk.inode, before, rows)
        places = [row.place for row in rows]
        if len(rows) < len(opened):
            # Some were there, or another process of this person was quicker.
            new = {row.entry.hash for row in rows}
            places += disk.entries.in_log(row.entry.hash for row in opened if row.entry.hash not in new).values()
        return places

    def made(self, disk: Disk, places: Sequence[int]) -> None:
        """Takes over that this person made edits, at these places of the file."""
        self.made_last = (disk.inode, places[-1]) if places else self.made_last
        if self.now.file == disk.inode:
            self.now.made(places)

    def says(self, disk: Disk, of: bytes, what: Callable[[Carried, int], bool]) -> bool:
        """Whether something is known of an entry."""
        carried = self.now
        try:
            place = disk.entries.places_of([of]).get(of)
        except (Unkept, Damaged):
            # The file is mended first.
            return False
        return place is not None and disk.inode == carried.file and what(carried, place)

    def all_say(self, disk: Disk, hashes: Sequence[bytes], what: Callable[[Carried, int], bool]) -> bool:
        """Whether something is known of each of some entries."""
        carried = self.now
        try:
            places = disk.entries.places_of(hashes)
        except (Unkept, Damaged):
            return False
        return len(places) == len(hashes) and disk.inode == carried.file and all(what(carried, place) for place in places.values())

    def fold(self, disk: Disk, found: Sequence[InFold], taken_in: int) -> None:
        """Takes over what is folded by now, in entries that are in the file for good, and up to which place of the file that was found."""
        # Each key comes here, and doesn't wait for whoever looks at the file.
        if found:
            self._fold(disk, found)
        self._taken_in = disk.inode, taken_in

    def _fold(self, disk: Disk, found: Sequence[InFold]) -> None:
        with self._lock, suppress(Unkept, Damaged):
            # Of a file that is written anew it is taken over then.
            if self.now.file == disk.inode:
                self.now.fold(disk.entries.places_of(one.hash for one in found).values())
            if any(one.fold_made and not one.made for one in found):
                # An own entry comes back that was taken away here.
                self.now.lets_go()

    def read_whole(self) -> None:
        """The log was read whole: where it brought what may be folds it is found first what is folded in them, so that none of this is
        given back."""
        self._read_up_to = self._last_of_many

    def may_give_more(self, disk: Disk) -> bool:
        """Whether it was found what is folded of what was read of the log."""
        return self._taken_in[0] == disk.inode and self._taken_in[1] >= self._read_up_to or not self._read_up_to

    def to_take_out(self, disk: Disk, carried: Carried) -> Iterator[tuple[int, list[int]]]:
        """Folds that were read in the log, each with what is folded in it and was read there, too, by their places. Who comes back for the
        next one has taken that out."""
        for fold, hashes in self._folded.new().items() if carried.whole else ():
            place = disk.entries.places_of([fold]).get(fold)
            if place is not None and carried.was_read(place):
                yield place, [one for one in disk.entries.places_of(hashes).values() if carried.was_read(one)]
                self._folded.looked_for(fold, len(hashes))

    def may_give(self, one: Located) -> bool:
        """Whether an entry may be given. Where somebody else writes under a number of this person, nothing more is
        sent under it, but what may have been sent, and that it was rebased."""
        return not one.made or one.offered or one.kind.says_what_became or not self._is_shared(one.author)

    def _is_shared(self, author: bytes) -> bool:
        """Whether somebody else writes under a number of this person, with its key: what is folded in something that was made here isn't of
        somebody else."""
        return bool(self._by_others.get(author, set()) - self._folded.came_back())

    def _look_on(self, disk: Disk, carried: Carried) -> None:
        while self._has_log and (found := disk.entries.places(carried.looked, LOOKED_AT_ONCE)):
            self._saw(disk, carried, found[-1].place, [one.place for one in found if one.made and one.kind.has_messages],
                      [(one.kind, one.author, one.hash) for one in found if not one.made])
        if gone := disk.entries.taken_back(carried.withdrawn):
            carried.took_back(gone[-1][0], [place for _, place in gone])

    def _saw(self, disk: Disk, carried: Carried, last: int, own_edits: Iterable[int],
             by_others: Sequence[tuple[EntryKind, bytes, bytes]]) -> None:
        """Takes over what the file has up to a place: where this person's edits are, and the kinds, authors and hashes of what others
        made."""
        carried.found(last, own_edits)
        if authors := {author for kind, author, _ in by_others if kind.is_under_a_number}:
            for own in authors & {one.author.name for one in disk.own.clients()}:
                self._by_others.setdefault(own, set()).update(of for kind, author, of in by_others
                                                              if author == own and kind.is_under_a_number)
