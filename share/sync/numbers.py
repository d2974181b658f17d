"""The numbers of this person in a note: which of them can be typed under, claims of more, and those that can't be gone on
with."""
import secrets
import time
from collections.abc import Callable, Iterator, Sequence
from contextlib import contextmanager, suppress

from share.admission.ledger import Who
from share.format.entry import GREATEST_SITE, Form
from share.format.operation import MOST_OF_A_SITE
from share.format.second.form import RecordForm
from share.program.trace import Traced, trace
from share.store.guarded import Unkept
from share.store.note_file import Disk
from share.store.own import Client
from share.sync.number_search import NONE_FOUND_YET, FoundNumber, NumberSearch
from share.sync.open_file import OpenFile
from share.sync.replicator import Replicator
from share.sync.lost import ToRebase, who
from share.sync.state import Holdings
from share.text.errors import Trouble

# The room that a number needs so that it is gone on with, and how edits are refused under one that is full.
LEAST_ROOM_LEFT, FULL = 2**20, (10, 23)
# The pause before another number is looked for again where one is full.
ANOTHER_SECONDS = 5
# The pause before it is tried again to search for a number, or to keep one that was found.
SEARCH_AGAIN_SECONDS = 1
# A number that nobody can claim: where there is none left, a note is read under it.
READING = 65_535


class Numbers:
    """The numbers of this person, of which one is this editor's. The editor's thread alone calls it."""

    def __init__(self, holdings: Holdings, form: Form, has_log: bool, file: OpenFile):
        self._holdings, self._form, self._has_log, self._file = holdings, form, has_log, file
        # Whether another editor of this person got this one's number, since the locks were removed.
        self.is_taken = False
        # Whether all is known of numbers that can't be gone on with. What the disk damaged the log may bring back, so that
        # nothing is known before that was read.
        self.is_settled = False
        # Whether this editor's number can make no more edits; and why it has none, where it has none.
        self.is_full, self.why_none = False, ""
        self._another_after = 0.0
        # Where a number costs a search; and when one is searched for, or kept, again where that couldn't be done.
        self.search = NumberSearch(form) if isinstance(form, RecordForm) else None
        self._search_again = 0.0
        # The numbers that were given up, or copied with the note, and that no other editor has.
        self._held: set[Who] = set()
        self.own = self.locked() or self.claimed()

    @property
    def has_one(self) -> bool:
        """Whether this editor has a number; where one costs a search there may be none yet."""
        return self.own.site != READING or not self.search

    @property
    def is_searching(self) -> bool:
        """Whether this editor has no number, and one is being searched for."""
        return self.search is not None and self.search.goes_on and not self.has_one

    def lock_again(self, disk: Disk) -> None:
        """Locks this editor's number in a file that has taken the other one's place."""
        self.is_taken = not disk.lock(self.own.site)

    def claimed(self, retired: Sequence[Client] = ()) -> Client:
        """A new number, as others are given up; where all are claimed one under which nothing can be typed."""
        try:
            return self.claim(retired=retired)
        except Trouble as why:
            self.why_none = str(why)
            self._retire(retired)
            return Client(READING, self._form.new_author(), retired=True)

    def locked(self, suits: Callable[[Client], bool] = lambda one: True) -> Client | None:
        """A number that nobody uses and that suits, with all that was written under it until it was locked."""
        while found := next((one for one in self._usable() if suits(one) and self._file.disk.lock(one.site)), None):
            # Who had it may have written more, or given it up, since the file was read.
            self._file.read()
            self._file.read_own()
            for one in self._usable():
                if who(one) == who(found) and suits(one):
                    return one
        return None

    def _usable(self) -> list[Client]:
        """The numbers that can be gone on with, those first that can be typed under. Their claims were read: another
        editor may just have made one."""
        holdings, broken = self._holdings, self._holdings.broken()
        usable = [one for one in holdings.clients.values() if not one.retired and one not in broken
                  and who(one) not in holdings.newer and holdings.judge.holder(one.site) == one.author.name]
        return sorted(usable, key=lambda one: not one.stood)

    def claim(self, locks: bool = True, retired: Sequence[Client] = ()) -> Client:
        """A number that nobody has claimed as far as is known here, as others are given up. It is locked before other editors of this
        person can see it, but where it is for one of them. Where it costs a search there is none yet, which Trouble says."""
        taken = self._holdings.judge.claimed()
        if self.search:
            self.search.begin(taken)
            raise Trouble(NONE_FOUND_YET)
        free = [number for number in range(1, GREATEST_SITE + 1) if number not in taken]
        if not free:
            raise Trouble(f"All {GREATEST_SITE:,} numbers of this note are claimed. Copy it by bin/note renew.")
        site = secrets.choice(free)
        while locks and not self._file.disk.lock(site):
            site = secrets.choice(free)
        # Where there is no log nobody else can claim it.
        author = self._form.new_author()
        return self._keep(FoundNumber(site, author, self._form.claim(site, author)), retired)

    def _keep(self, found: FoundNumber, retired: Sequence[Client] = ()) -> Client:
        client = Client(found.site, found.author, stood=not self._has_log)
        self._file.mended(lambda: self._file.disk.keep([found.claim], True, client=client, retired=retired))
        self._holdings.clients[who(client)] = client
        self._holdings.add([found.claim])
        self._holdings.gave_up(retired)
        trace(Traced.NUMBER_CLAIMED, site=found.site)
        return client

    def take_found(self) -> bool:
        """Keeps a number that was searched for; whether this editor, which had none, has it now. What can't be kept, or searched for, now
        is later."""
        search, now = self.search, time.monotonic()
        if not search or now < self._search_again or self.has_one and not search.is_ready():
            return False
        try:
            taken = self._holdings.judge.claimed()
            if not self.has_one:
                search.begin(taken)
            if (found := search.found(taken)) is None:
                return False
            if not self._holdings.judge.begun():
                # Which numbers were copied into the note isn't known yet.
                self.why_none = ""
                return False
            return self._take(found, search)
        except (Unkept, Trouble) as why:
            self._search_again = now + SEARCH_AGAIN_SECONDS
            if not self.has_one:
                self.why_none = str(why)
            return False

    def keep_found(self) -> None:
        """Keeps what a search has found, so that the next editor has it, also before it is known which numbers were copied into the note:
        if it is one of these it is given up then. A search that is broken off is no loss: no counter is likelier than another."""
        if self.search and self.search.is_ready() and (found := self.search.found(self._holdings.judge.claimed())):
            self._keep(found)

    def _take(self, found: FoundNumber, search: NumberSearch) -> bool:
        """Keeps a number that was found; whether it is this editor's."""
        is_for_this = not self.has_one and self._file.disk.lock(found.site)
        client = self._keep(found)
        search.kept()
        if is_for_this:
            self.own, self.why_none = client, ""
        return is_for_this

    def claims_in_log(self, replicator: Replicator) -> set[Who]:
        """The numbers that can't be typed under yet and whose claims were read in the log."""
        return {who(one) for one in self._holdings.clients.values() if not (one.stood or one.retired)
                and (claim := self._holdings.claim_of(one)) and replicator.stands(claim)}

    def look_at_claims(self, in_log: set[Who]) -> None:
        """Notes which of these claims have no other for their numbers before them."""
        holdings = self._holdings
        for one in [*holdings.clients.values()]:
            if who(one) not in in_log or one.stood or one.retired or holdings.judge.holder(one.site) != one.author.name:
                continue
            stood = one._replace(stood=True)
            with suppress(Unkept):
                # Where there is no room now the next opening finds it in the log again.
                self._file.mended(lambda: self._file.disk.own.stands(stood))
            holdings.clients[who(one)] = stood
        # Another editor of this person may have noted in the file that this one's claim is in the log.
        if (own := holdings.clients.get(who(self.own))) and own.stood:
            self.own = own

    def claim_in_advance(self, editors: int) -> None:
        """Claims one more number than there are editors of this person, for one that is opened while the log is
        away."""
        holdings = self._holdings
        if len([one for one in holdings.clients.values() if not one.retired and who(one) not in holdings.newer]) <= editors:
            with suppress(Unkept, Trouble):
                self.claim(locks=False)

    def broken(self) -> list[Client]:
        """The numbers that can't be gone on with and that no other editor has, with all that was written under them."""
        held: set[Who] = set()
        while True:
            broken = [one for one in self._holdings.broken()
                      if who(one) == who(self.own) or self._file.disk.lock(one.site)]
            if held.issuperset(map(who, broken)):
                self._held |= held
                return broken
            # Who had one may have written more under it, or given it up, since the file was read.
            held |= {*map(who, broken)}
            self._file.read()
            self._file.read_own()

    def lost(self, own: bool) -> list[ToRebase]:
        """What was lost of what was made here, or of what others made with a key that is here, under numbers that no other
        editor of this person has."""
        lost = self._holdings.lost() if own else self._holdings.left_out()
        return [one for one in lost if who(one.entry) in self._held]

    def give_up(self, clients: Sequence[Client]) -> list[Client]:
        """Gives numbers up; those that weren't before."""
        retired = [one for one in clients if not one.retired]
        if self.is_taken or who(self.own) in map(who, clients):
            # In one step: what is typed under a number that was given up would never be sent.
            self.own, self.is_taken, self.is_full = self._another_as(retired), False, False
        else:
            self._retire(retired)
        for one in retired:
            trace(Traced.NUMBER_GIVEN_UP, site=one.site)
        return retired

    def _another_as(self, retired: Sequence[Client]) -> Client:
        """Another number, as some are given up. Where one costs a search there is a spare one, which was claimed in advance."""
        if self.search and (spare := self.locked()):
            self._retire(retired)
            return spare
        return self.claimed(retired)

    def _retire(self, clients: Sequence[Client]) -> None:
        if clients:
            self._file.mended(lambda: self._file.disk.keep([], True, retired=clients))
            self._holdings.gave_up(clients)

    def take_another_when_full(self, length: int) -> bool:
        """Takes another number where this editor's has little room left beside this many characters, or can make no more
        edits; whether it did. While the log is away it may be that there is none yet."""
        now, needed = time.monotonic(), min(LEAST_ROOM_LEFT + length, MOST_OF_A_SITE)
        if not (self.is_full or not self._has_room(self.own, needed)) or now < self._another_after:
            return False
        self._another_after = now + ANOTHER_SECONDS
        with suppress(Unkept, Trouble):
            if other := self._another(needed):
                self._file.mended(lambda: self._file.disk.keep([], True, retired=[self.own]))
                self._holdings.gave_up([self.own])
                trace(Traced.NUMBER_TAKEN, site=other.site)
                self.own, self.is_full, self._another_after = other, False, 0.0
                return True
        return False

    def _has_room(self, one: Client, needed: int) -> bool:
        judge = self._holdings.judge
        return all(judge.length(one.site, text) <= MOST_OF_A_SITE - needed for text in self._form.texts)

    @contextmanager
    def as_another(self, site: int) -> Iterator[bool]:
        """Has another number of this person, which can be typed under and no other editor has, be this one's meanwhile; whether it is."""
        other = self.locked(lambda one: one.site == site and one.stood and self._has_room(one, LEAST_ROOM_LEFT))
        if other is None:
            yield False
            return
        before = self.own, self.is_full
        self.own, self.is_full = other, False
        try:
            yield True
        finally:
            self.own, self.is_full = before
            self._file.disk.unlock(site)

    def is_in_use(self, site: int) -> bool:
        """Whether a number can be typed under but for another editor that has it."""
        return any(one.site == site and one.stood for one in self._usable())

    def _another(self, needed: int) -> Client | None:
        """Another number, which can be typed under, has room and is no other editor's; one is claimed where there is
        none."""
        def suits(one: Client) -> bool:
            return who(one) != who(self.own) and self._has_room(one, needed)

        if found := self.locked(lambda one: one.stood and suits(one)):
            return found
        if not self._has_log or not any(map(suits, self._usable())):
            claimed = self.claim(locks=not self._has_log)
            return claimed if claimed.stood else None
        return None
