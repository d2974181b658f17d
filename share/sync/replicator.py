"""Replicates a note between its file and its log, in threads: a slow or absent log never holds up a keystroke. What either
lacks it is given: the file what is in the log, the log what is in the file, whoever wrote it."""
import time
from collections.abc import Callable, Iterable, Sequence
from contextlib import closing
from itertools import count

from share.admission.in_fold import InFold
from share.format.entry import Entry, Form
from share.format.heartbeat import Lack, new_token
from share.log.base import ON_SECONDS, Log, Unreachable
from share.store.note_file import Disk
from share.sync.backoff import Losses
from share.sync.carried import Carried
from share.sync.fetching import Fetcher
from share.sync.folded import Folded
from share.sync.giving import Giver
from share.sync.handover import Handover
from share.sync.known import Known
from share.sync.meeting import Meeting
from share.sync.presence import Presence
from share.sync.threads import Ends, Task, Threads

# How often the file is looked at for what other editors of this person wrote. To look takes microseconds.
LOOK_AT_FILE_SECONDS = 0.03
# After a look at all of the file this many times as long passes before the next one.
LOOK_RESTS = 20


class Watch:
    """Wakes the editor where another one of this person wrote into the file. `run` is a thread's part."""

    def __init__(self, ends: Ends, known: Known, meeting: Meeting, giver: Giver | None, threads: Threads):
        self._ends, self._known, self._meeting, self._giver, self._threads = ends, known, meeting, giver, threads
        # Whether the editor is to be woken for something that isn't in the file.
        self.has_more: Callable[[], bool] = lambda: False
        # How many editors of this person are on, and when what wasn't looked at of the file is.
        self.here, self._looks = 1, 0.0
        # Where the entries of the file ended, and those that were withdrawn, as it was looked at last.
        self._last = 0, 0

    def run(self) -> None:
        """Looks at the file until all stop."""
        with closing(self._ends.disk()) as disk:
            due, carried = 0.0, self._known.of(disk)
            self._threads.works(Task.LOOK)
            while not self._threads.stopped.wait(LOOK_AT_FILE_SECONDS):
                if time.monotonic() >= due:
                    self._look_who_is_on(disk)
                    due = time.monotonic() + ON_SECONDS / 10
                if self._has_news(disk):
                    self._known.look_at(disk, carried)
                    if self._giver:
                        self._giver.has_work()
                    self._threads.wake()
                if self.has_more():
                    self._threads.wake()
                if not self._known.is_of_now(disk, carried):
                    self._known.bell.ring()
                    self._threads.wake()
                    return
                if time.monotonic() >= self._looks:
                    self._look_at_unseen(disk)

    def _has_news(self, disk: Disk) -> bool:
        """Whether the file has more than what the editor here made: that one takes in what comes before an edit after each."""
        before, self._last = self._last, disk.entries.ends()
        place, number = self._last
        return self._last != before and (number != before[1] or (disk.inode, place) != self._known.made_last)

    def _look_at_unseen(self, disk: Disk) -> None:
        """Looks at what SQLite wrote to the file itself. That takes long where it is long, so it rests after that."""
        begin = time.monotonic()
        if disk.look_at_unseen():
            end = time.monotonic()
            self._looks = end + LOOK_RESTS * (end - begin)

    def _look_who_is_on(self, disk: Disk) -> None:
        self.here = max(1, disk.locked())
        if not self._giver:
            self._meeting.is_on(self.here)


class Replicator:
    """Carries entries of one note, in threads each of which has the file and the log open for itself. The editor's thread
    alone calls it. What the log has is owned by `Known` for all threads; each part has its own state beside that."""

    def __init__(self, open_disk: Callable[[], Disk], open_log: Callable[[], Log] | None, form: Form,
                 wake: Callable[[], None], own_disk: Callable[[], Disk], handover: Handover, folded: Folded | None = None):
        # The file as the editor's thread has it open.
        self._own_disk, self._has_log = own_disk, open_log is not None
        # What tells this one from the others that are on.
        self.token, self._wake, self._is_closed = new_token(), wake, False
        self._threads = Threads(wake, self.read_from_front)
        try:
            self._make(Ends(open_disk, open_log or _no_log), form, handover, folded)
            self._start()
        except BaseException:
            self._threads.stop()
            raise

    def _make(self, ends: Ends, form: Form, handover: Handover, folded: Folded | None) -> None:
        # What is said to others has a count that rises.
        threads, losses, counts = self._threads, Losses(), count(1)
        self._known = Known(self._has_log, handover, threads.bell(), folded)
        self._meeting = Meeting(form, self.token, counts, self._wake)
        self._giver = Giver(ends, form, self._known, self._meeting, losses, threads)
        self._fetcher = Fetcher(ends, form, self._known, self._meeting, losses, self._giver, threads)
        self._presence = Presence(ends, form, counts, self._meeting, threads, self.token)
        self._watch = Watch(ends, self._known, self._meeting, self._giver if self._has_log else None, threads)

    def _start(self) -> None:
        threads = self._threads
        threads.start(Task.LOOK, self._watch.run)
        if self._has_log:
            threads.start(Task.GIVE, self._giver.run)
            threads.start(Task.FETCH, self._fetcher.run)
            threads.start(Task.SHOW, self._presence.run)

    @property
    def on(self) -> int:
        """How many are on, this one included."""
        return self._meeting.on

    @property
    def notices(self) -> list[str]:
        """What the user is to be told; who tells it takes it out."""
        return self._threads.notices

    def show(self, shows: dict[bytes, bytes]) -> None:
        """Shows others what the editors here show of themselves, each under a token of its own, and hears theirs."""
        self._presence.show(shows)

    def shown(self) -> list[bytes]:
        """What others show of themselves."""
        return self._presence.shown()

    def made(self, places: Sequence[int] = ()) -> None:
        """Says that the file has more: edits of this person at these places among it."""
        self._known.made(self._own_disk(), places)
        self._giver.has_work()

    def wake_for(self, has_more: Callable[[], bool]) -> None:
        """Has the editor be woken as soon as, and as long as, this is so."""
        self._watch.has_more = has_more

    def offline(self) -> str | None:
        """Why the log can't be reached, where it can't."""
        return self._threads.offline()

    def has_looked(self) -> bool:
        """Whether the file was looked at, so that it is known what isn't sent."""
        return not self._has_log or self._known.now.file is not None

    def has_read(self) -> bool:
        """Whether all that the log had when it was opened was read; there may be none."""
        return not self._has_log or self._fetcher.readings > 0

    def progress(self) -> tuple[int, int] | None:
        """How much was read of what the log had when it was opened, until all of that was taken in; None then, and before it
        answers."""
        return self._fetcher.progress()

    def took_in(self) -> None:
        """Says that all is taken in that the log had when it was opened."""
        self._fetcher.is_taken_in = True

    def stands(self, entry: Entry) -> bool:
        """Whether an entry was read in the log, so that all before it was too."""
        return self._known.says(self._own_disk(), entry.hash, Carried.was_read)

    def has(self, of: bytes) -> bool:
        """Whether the log is known to have an entry; where there is none nothing has to be sent."""
        return not self._has_log or self._known.says(self._own_disk(), of, Carried.has)

    def were_read(self, hashes: Sequence[bytes]) -> bool:
        """Whether some entries were read in the log; where there is none nothing has to be."""
        return not self._has_log or self._known.all_say(self._own_disk(), hashes, Carried.was_read)

    def fold(self, found: Sequence[InFold], taken_in: int) -> None:
        """Says what is folded by now, which the log needs no more, and up to which place of the file that was found."""
        if self._has_log:
            waits = not self._known.may_give_more(self._own_disk())
            self._known.fold(self._own_disk(), found, taken_in)
            if found or waits:
                self._giver.has_work()

    def unsent(self) -> int:
        """How many edits of this person the log isn't known to have; while it can't be reached, by what the file says."""
        known = self._known.now
        return 0 if not self._has_log else known.unsent_by_file if self.offline() else known.unsent

    def is_up_to_date(self) -> bool:
        """Whether all that the log had was read, and it was given all that it is to have."""
        return not self._has_log or self._giver.is_done()

    def next_to_give(self) -> int | None:
        """The first place of the file that the log lacks, of those that were looked at and that it is to be given."""
        return self._known.now.next_lacking()

    def editors_here(self) -> int:
        """How many editors of this person are on, this one included."""
        return self._watch.here

    def reading(self) -> int:
        """How often the log was read whole."""
        return self._fetcher.readings

    def ask(self, lacked: Callable[[], Iterable[bytes]]) -> None:
        """Asks all who are on to give the log some entries of these hashes again, by turns, even if it seemed to have them. Who asks for
        the same often does so ever more rarely."""
        self._meeting.ask(lacked)

    def find(self, found: Callable[[Lack], list[bytes]]) -> None:
        """Finds what others have asked for by what names a message; the giver gives it again."""
        self._meeting.find(found)

    def read_from_front(self) -> None:
        """Reads the log from its front, and gives it what it lacks. Any thread may call it."""
        self._known.read_from_front()

    def let_go(self) -> None:
        """Gives the log what was held back, where the file says by now that it may be given."""
        self._known.now.lets_go()
        self._giver.has_work()

    def close(self, seconds: float) -> None:
        """Stops, when all is sent or this time has passed. Once stopped it sends nothing more."""
        end = time.monotonic() + seconds
        while not (self._threads.stopped.is_set() or self.is_up_to_date() or self.offline()) and time.monotonic() < end:
            time.sleep(0.01)
        if self._is_closed:
            return
        self._is_closed = True
        # Who waits for work looks whether to stop.
        self._threads.stopped.set()
        self._giver.has_work()
        self._threads.stop()


def _no_log() -> Log:
    raise Unreachable("there is no log")
