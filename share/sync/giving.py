"""Gives a log what it lacks of a note's file, whoever wrote it."""
import threading
import time
from contextlib import closing

from share.format.entry import Form, digest
from share.log.base import Log, Unreachable
from share.program.trace import Traced, trace
from share.store.note_file import Disk
from share.sync.backoff import Losses
from share.sync.carried import Carried
from share.sync.known import Known
from share.sync.meeting import Meeting
from share.sync.threads import Ends, Task, Threads

# The most entries that are appended at once.
GIVEN_AT_ONCE = 200
# Nothing more is given while about this much was given and wasn't read in the log yet.
MOST_GIVEN = 20_000
# How often others are answered that lack something.
ANSWER_SECONDS = 1.5
# The longest wait for something to give, and the wait while the log is about to be read from its front.
IDLE_SECONDS, ABOUT_TO_READ_SECONDS = 0.5, 0.03


class Giver:
    """Appends to the log what it isn't known to have. `run` is a thread's part; any thread may call the rest."""

    def __init__(self, ends: Ends, form: Form, known: Known, meeting: Meeting, losses: Losses, threads: Threads):
        self._ends, self._form, self._known = ends, form, known
        self._meeting, self._losses, self._threads = meeting, losses, threads
        self._work = threading.Event()

    def has_work(self) -> None:
        """Says that the file has more, or that the log may lack something."""
        # Without a log nobody ever takes that back, and each key says it.
        if not self._work.is_set():
            self._work.set()

    def is_done(self) -> bool:
        """Whether the log was read, and was given all that it is to have."""
        return self._known.now.is_given() and not self._work.is_set()

    def run(self) -> None:
        """Gives until all stop."""
        with closing(self._ends.disk()) as disk, closing(self._ends.log()) as log:
            disk.quick()
            carried, due = self._known.of(disk), 0.0
            self._claim(disk, log, carried)
            while not self._threads.stopped.is_set() and self._known.is_of_now(disk, carried):
                if time.monotonic() >= due:
                    self._answer(disk, log, carried)
                    due = time.monotonic() + ANSWER_SECONDS
                self._threads.works(Task.GIVE)
                self._work.clear()
                self._take_out(disk, log, carried)
                if not self._give_more(disk, log, carried):
                    self._work.wait(ABOUT_TO_READ_SECONDS if self._known.reads_from_front else IDLE_SECONDS)

    def _claim(self, disk: Disk, log: Log, carried: Carried) -> None:
        """Gives the log the claims of this person before it was read, where the log can say which numbers are claimed: who
        is new can type then as soon as all was read that the log had. Other claims come after it was read."""
        own = {(one.site, one.author.name) for one in disk.own.clients() if not (one.stood or one.retired)}
        new = {place: site for place, site, author in disk.entries.claims_made() if (site, author) in own} if own else {}
        if carried.whole or not new or (taken := log.claimed(self._form.kind_of_claims, self._form.site_at)) is None:
            return
        if free := [place for place, site in new.items() if site not in taken]:
            log.append(disk.entries.offer(free))
            trace(Traced.CLAIMS_GIVEN, entries=len(free))
            carried.gave(free)

    def _give_more(self, disk: Disk, log: Log, carried: Carried) -> bool:
        """Looks what the file has more, and gives the log some of what it lacks; whether there may be more."""
        # Only what was in the log before the file was looked at says whether a number is shared.
        whole = carried.whole
        self._known.look_at(disk, carried)
        if self._losses.is_due():
            carried.lets_go()
        may_give = bool(whole) and carried.many_given() < MOST_GIVEN and self._known.may_give_more(disk)
        return may_give and self._give(disk, log, carried)

    def _give(self, disk: Disk, log: Log, carried: Carried) -> bool:
        """Gives the log some of what it lacks; whether there may be more."""
        if (place := carried.next_lacking()) is not None:
            self._give_from(place, disk, log, carried)
        if carried.next_lacking() is not None:
            return True
        disk.note_unsent(carried.unsent, is_new=False)
        return False

    def _give_from(self, place: int, disk: Disk, log: Log, carried: Carried) -> None:
        """Gives the log what it lacks of what is from a place on."""
        # What is let go meanwhile is looked at once more: the file may say by now that it may be given.
        lettings, found = carried.lettings, disk.entries.places(place - 1, GIVEN_AT_ONCE)
        had = {one.place for one in found if carried.has(one.place)}
        lacks = {one.hash: one.place for one in found if one.place not in had
                 and not carried.is_folded(one.place) and self._known.may_give(one)}
        raws = disk.entries.offer([*lacks.values()])
        given = {lacks[of] for of in map(digest, raws) if of in lacks}
        if raws:
            try:
                log.append(raws)
            except Unreachable:
                # It may have come there, or not.
                disk.note_unsent(carried.unsent, is_new=True)
                raise
            trace(Traced.GIVEN, entries=len(raws))
            carried.gave(given)
            self._threads.wake()
        # Of what was withdrawn, dropped or damaged there is nothing at its place.
        last = found[-1].place if found else carried.looked
        carried.holds_back({*range(place, last + 1)} - had - given, lettings)

    def _take_out(self, disk: Disk, log: Log, carried: Carried) -> None:
        """Takes out of the log what is folded in something that was read there, each once: what comes back stays until the note is opened
        again, since who gives it doesn't know of folds."""
        for fold, folded in self._known.to_take_out(disk, carried) if log.can_take_out else ():
            raws = disk.entries.raws([fold]), disk.entries.raws(folded)
            if all(raws):
                log.take_out(raws[0][0], raws[1])
                trace(Traced.TAKEN_OUT, entries=len(folded))
                carried.took_out(folded)

    def _answer(self, disk: Disk, log: Log, carried: Carried) -> None:
        """Gives the log again what others lack, of what it seemed to have."""
        if had := [place for place in self._meeting.answers(disk) if carried.has(place)]:
            log.append(disk.entries.offer(had))
            trace(Traced.GIVEN_AGAIN, entries=len(had))
