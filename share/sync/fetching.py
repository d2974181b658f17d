"""Fetches what a log has into a note's file, where it is right."""
import time
from collections.abc import Sequence
from contextlib import closing

from share.admission.ledger import Row
from share.format.entry import NO_HASH, Bad, Form, digests
from share.log.base import START, InLog, Log
from share.program.trace import Traced, trace
from share.store.note_file import Disk
from share.sync.backoff import Losses
from share.sync.carried import Carried
from share.sync.giving import Giver
from share.sync.known import Known
from share.sync.meeting import Meeting
from share.sync.threads import Ends, Task, Threads
from share.text.errors import entries

# After a reading from the front the next one begins only once this many times as long has passed, up to a most.
RESTS, MOST_REST_SECONDS = 5, 30
# Of more entries that come together one in this number is looked for in the file before all are.
PROBE = 100
# The most of what a log has that is no entry that are remembered, so that each is told once.
MOST_LEFT_OUT = 10_000


class Fetcher:
    """Reads the log to its end and watches it. `run` is a thread's part; any thread may call `progress`."""

    def __init__(self, ends: Ends, form: Form, known: Known, meeting: Meeting, losses: Losses, giver: Giver, threads: Threads):
        self._ends, self._form, self._known, self._meeting = ends, form, known, meeting
        self._losses, self._giver, self._threads = losses, giver, threads
        # How often the log was read whole, and how many entries were read since that was begun; what was taken out before counts, too.
        self.readings = self.size = 0
        # How many were taken out as that was begun, and as its end was last come to.
        self._taken_out_first = self._taken_out = 0
        # How many entries the log had when it was opened, and whether the editor has taken them in.
        self._first, self.is_taken_in = 0, False
        # Where it is in the log, how many entries it reads until the log was read whole, and for which file.
        self._after = START
        self._goal: int | None = None
        self._read_for: Carried | None = None
        # When reading from the front began, and when it may begin again.
        self._began = self._reads_again = 0.0
        self._left_out: set[bytes | str] = set()
        self._keystrokes = form.one_by_one()

    def progress(self) -> tuple[int, int] | None:
        """How much was read of what the log had when it was opened, until all of that was taken in; None then, and before it
        answers."""
        done = self.size - self._taken_out_first
        return None if not self._first or self.is_taken_in else (min(done, self._first), self._first)

    def run(self) -> None:
        """Reads and watches until all stop."""
        with closing(self._ends.disk()) as disk, closing(self._ends.log()) as log:
            carried = self._known.of(disk)
            while self._goes_on(disk, carried):
                if self._known.reads_from_front or self._read_for is not carried:
                    self._begin_reading(log, carried)
                has_more = self._read_on(disk, log, carried)
                if words := log.told():
                    self._threads.tell(words)
                if self._goal is not None and (self.size >= self._goal or not has_more):
                    self._end_reading(disk, carried)
                elif not has_more and not self._is_as_read(log):
                    # Something was taken out of the log, or put back.
                    self._known.reads_from_front = True
                elif not has_more and not self._known.reads_from_front:
                    log.watch(self._after, log.watch_seconds, self._known.bell)

    def _goes_on(self, disk: Disk, carried: Carried) -> bool:
        # What the bell rings for is looked at after this.
        self._known.bell.silence()
        return not self._threads.stopped.is_set() and self._known.is_of_now(disk, carried)

    def _begin_reading(self, log: Log, carried: Carried) -> None:
        """Goes back to the front of the log. A reading that the log's absence has cut off goes on where it was."""
        if self._read_for is carried:
            # A log that loses something without end would be read without end.
            self._threads.stopped.wait(max(0.0, self._reads_again - time.monotonic()))
        self._began = time.monotonic()
        carried.begin()
        # What is given from now on may be after what the log has by then.
        goal = log.size()
        self._known.reads_from_front, self._read_for, self._goal = False, carried, goal
        self._after, self.size = START, log.taken_out
        self._taken_out = self._taken_out_first = log.taken_out
        self._first = self._first if self.readings else goal - self.size
        trace(Traced.READ_FROM_FRONT, entries=goal)

    def _is_as_read(self, log: Log) -> bool:
        """Whether the log, which was read to its end, has up to there what was read, but for what was taken out, perhaps before it was
        met."""
        size = log.size_to(self._after)
        if not 0 <= size - self.size <= log.taken_out - self._taken_out:
            return False
        self.size, self._taken_out = size, log.taken_out
        return True

    def _end_reading(self, disk: Disk, carried: Carried) -> None:
        """All that the log had as its reading began was read. The giver gives it all that it lacks."""
        # Where that can't be counted now the reading ends once it can, and the loss is told.
        missing = disk.entries.many_at(carried.missing())
        self._goal = None
        self._known.read_whole()
        carried.end()
        if missing:
            self._tell_of_loss(missing)
        if self.readings:
            now = time.monotonic()
            self._reads_again = now + min(RESTS * (now - self._began), MOST_REST_SECONDS)
        self.readings += 1
        self._giver.has_work()
        self._threads.wake()

    def _came_to_end(self, carried: Carried, given: frozenset[int]) -> None:
        """The log was read to its end, after it was given this. What isn't there it is given again; a log that keeps
        losing it, ever later."""
        if lost := carried.came_to_end(given):
            if self._losses.lost():
                self._tell_of_loss(lost)
            self._giver.has_work()
            self._threads.wake()

    def _tell_of_loss(self, many: int) -> None:
        trace(Traced.LOST, entries=many)
        self._threads.tell(f"The log has lost {entries(many)} that it had. It is filled again from here.")

    def _read_on(self, disk: Disk, log: Log, carried: Carried) -> bool:
        """Reads a page more; whether there may be another one."""
        given = carried.given()
        page = log.read(self._after)
        self._threads.works(Task.FETCH)
        if page:
            self._take(disk, carried, page)
            self._after, self.size = page[-1].place, self.size + len(page)
            if not log.at_end:
                return True
        self._came_to_end(carried, given)
        return False

    def _take(self, disk: Disk, carried: Carried, page: Sequence[InLog]) -> None:
        """Puts what came into the file, where it is right, and notes that the log has it."""
        came = [one.raw for one in page if one.raw is not None]
        raws = dict(zip(digests(came), came))
        # Where nothing of a page seems to be in the file, what is put there says what was.
        may_be_held = len(raws) <= PROBE or disk.entries.in_log([*raws][::PROBE])
        held = disk.entries.in_log(raws) if may_be_held else {}
        opened, damaged = self._opened({of: raw for of, raw in raws.items() if of not in held and of not in self._left_out})
        for one in page:
            if one.raw is None:
                self._leave_out(one.place, f"Entry {one.place} of the log can't be one and was left out.")
        trace(Traced.FETCHED, entries=len(page), new=len(opened))
        self._known.came(disk, carried, opened, held.values())
        # What stands there may be asked for by what is before it, where that came; a file knows no messages by their hashes, so of these
        # it is asked anyway.
        of_messages = self._form.names_messages
        self._meeting.damaged([of for of in damaged if of != NO_HASH] if of_messages else disk.entries.places_of(damaged))
        if opened:
            self._threads.wake()

    def _opened(self, raws: dict[bytes, bytes]) -> tuple[list[Row], list[bytes]]:
        """The right ones of what came, which have no place in the file yet; and what is before those that are damaged."""
        opened, damaged = list[Row](), list[bytes]()
        for of, found in zip(raws, self._form.formed([(raw, of) for of, raw in raws.items()])):
            try:
                if isinstance(found, Bad):
                    raise found
                opened.append(Row(0, found, False, self._keystrokes.type_on(found)))
            except Bad as why:
                self._leave_out(of, f"An entry of the log {why} and was left out.")
                damaged.append(self._form.before_of(raws[of]))
        return opened, damaged

    def _leave_out(self, what: bytes | str, words: str) -> None:
        """Says once that something of the log was left out."""
        if what not in self._left_out and len(self._left_out) < MOST_LEFT_OUT:
            self._left_out.add(what)
            self._threads.tell(words)
