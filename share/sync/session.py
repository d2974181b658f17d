"""A note that is open for one editor."""
import math
import time
from collections.abc import Callable, Sequence
from contextlib import ExitStack, suppress

from share.admission.judging import Counted
from share.admission.ledger import Row
from share.format.history import Messages
from share.format.link import is_network
from share.format.operation import TEXT
from share.format.second.form import RecordForm
from share.log.opening import can_take_out, opener_of
from share.program import retyping
from share.program.retyping import Lost
from share.program.site import Told
from share.program.trace import Traced, trace
from share.review.record import MARGIN
from share.store.folded_away import take_away
from share.store.guarded import Unkept
from share.store.note_file import Disk
from share.store.read_only import uncollected
from share.store.renewal import renewed_by
from share.sync.edits import OwnEdits
from share.sync.folded import Folded
from share.sync.folding import ALL, MOST_IN_A_TURN, Folding
from share.sync.handover import Handover
from share.sync.hiding import Hiders
from share.sync.margin import OpenMargin
from share.sync.numbers import Numbers
from share.sync.open_file import OpenFile
from share.sync.edited_note import EditedNote
from share.sync.rebasing import Rebaser
from share.sync.replica import Bar, Replica
from share.sync.replicator import Replicator
from share.sync.lost import who
from share.sync.state import Holdings
from share.sync.status import Notices, Status
from share.sync.texts import OpenText, OpenTexts
from share.text.change import Change
from share.text.errors import Trouble

__all__ = ["SEND_SECONDS", "Bar", "Session", "Status"]
# The longest that opening waits for a log that answers, and closing for what isn't sent.
OPEN_SECONDS = SEND_SECONDS = 3
# After this opening waits no longer where it is seen that all won't be read in time.
TOO_SLOW_SECONDS = 0.5
# The longest that `arrived` takes while a note is opened, between two reports of the progress.
BAR_SECONDS = 0.2


class Session(EditedNote):
    """A note that is open for one editor, whose thread alone calls it. Opening it reads the note's file, takes a number, and
    waits a little for the log. It takes in what came by `arrived`; the threads of its replicator only wake the editor."""

    @uncollected()
    def __init__(self, disk: Disk, password: str | None = None, bar: Bar = lambda done, total: None,
                 wake: Callable[[], None] = lambda: None):
        self._about, self._form = disk.about, disk.form
        # The time that one call of `arrived` spends on taking in what came.
        self.turn_seconds = BAR_SECONDS
        # Whether somebody looks at the text, which nobody does as long as the note is being opened.
        self._looks = self._has_read = False
        self._left_out, self._notices, handover = retyping.Totals(), Notices(), Handover()
        self._holdings = Holdings(self._form, handover)
        self._file, self._folded = OpenFile(disk, self._holdings, self._notices), Folded()
        self.tidy = self._file.tidy
        with ExitStack() as opened:
            # Once nothing of it is open.
            opened.callback(lambda: take_away(self._file.disk.path, self._folded.kept_with_folds()))
            opened.callback(lambda: self._file.disk.close())
            self._open_all(opened, password, bar, wake, handover)
            self._begin()
            trace(Traced.NOTE_OPENED, site=self.number, messages=len(self.site.history), log=bool(self._about.url))
            opened.callback(self._finish)
            self._all_open = opened.pop_all()

    def _open_all(self, opened: ExitStack, password: str | None, bar: Bar, wake: Callable[[], None], handover: Handover) -> None:
        url, path = self._about.url, self._file.disk.path
        if is_network(url) and not self._about.sealed:
            raise Trouble(f"{path} has a note that isn't sealed with a log on a server. Nothing is sent there.")
        self._file.read_all()
        self._numbers = Numbers(self._holdings, self._form, bool(url), self._file)
        self._file.moved = self._numbers.lock_again
        opens = opener_of(url, self._form, password) if url else None
        self._folding = Folding(self._file, self._holdings, self._folded, bool(url))
        with suppress(Unkept):
            self._folding.found()
        self._replicator = Replicator(lambda: Disk(path), opens, self._form, wake, lambda: self._file.disk, handover, self._folded)
        opened.callback(self._replicator.close, 0)
        if search := self._numbers.search:
            self._replicator.wake_for(search.has_ended)
            opened.callback(search.close)
        file, holdings, form, numbers = known = self._file, self._holdings, self._form, self._numbers

        def opened_text(text: int, messages: Messages) -> OpenText:
            replica = Replica(file, holdings, numbers, bar, messages, text)
            with ExitStack() as started:
                started.callback(replica.site.close)
                found = OpenText(replica, OwnEdits(*known, replica, self._replicator, self._notices))
                started.pop_all()
            return found

        self._texts = OpenTexts(holdings, opened_text)
        opened.callback(self._texts.close)
        self._replica, self._edits = self._texts[TEXT]
        self.margin = OpenMargin(holdings, numbers, self._texts, MARGIN in form.texts)
        self._rebaser = Rebaser(*known, self._texts, self._replicator, self._notices)
        self._hiders = Hiders(holdings, form, numbers, self._texts, self._rebaser)

    def lost(self) -> list[Lost]:
        """What was left out for good."""
        return retyping.lost(self._holdings.judge, self._holdings.anew)

    def recover(self) -> list[Lost]:
        """Types again what was left out, and says so of it; what that was."""
        found = self.lost()
        self._replica.remember()
        for text in sorted({one.messages[0].text for one in found}):
            self._texts[text].edits.type_again([one for one in found if one.messages[0].text == text])
        if found:
            # Something may stand for what was left out that nobody has said of it yet.
            self._hiders.hide()
        return found

    def arrived(self) -> Told:
        """Takes in what came, and tells what the text has become."""
        try:
            self._replica.begin_telling()
            told = self._arrived()
            self._replica.end_telling()
            if self._has_read and not self.has_more():
                self._replicator.took_in()
            return told
        except Unkept as why:
            # The text and the site stay as they are; all is looked at again later.
            self._file.unread = f"The note's file can't be written now ({why})."
            self._replica.is_stale = True
            self._rebaser.wait()
            return []
        except BaseException:
            # What was counted hasn't been taken in.
            self._replica.is_stale = True
            raise

    def differing(self, before: bytes, now: bytes) -> list[Change]:
        """What differs since before the last call of `arrived`: character by character, where the site was begun anew."""
        return self._replica.differing(before, now)

    def has_more(self) -> bool:
        """Whether some of what came is still to be taken in."""
        return any(one.replica.has_more() for one in self._texts) or self._holdings.has_more

    def notices(self) -> list[str]:
        """What the user is to be told since this was last asked."""
        notices, of_threads = self._notices, self._replicator.notices
        notices.tell_of_fullness(self._holdings.many(), self._file.disk.path.stem)
        while of_threads:
            notices.tell(of_threads.pop(0))
        notices.tell_of_wrong(self._holdings.judge.wrong())
        return notices.take()

    def status(self) -> Status:
        """How things are."""
        replicator, judge = self._replicator, self._holdings.judge
        trouble = self._notices.trouble or self._file.unread or self.why_no_number or None
        return Status(self.number, replicator.on, replicator.unsent(), replicator.offline(), judge.incomplete(), trouble,
                      self.can_type, bool(self._about.url), replicator.progress(),
                      self._left_out.lines(judge, self._holdings.anew, self.own()), renewed_by(judge, self.own()),
                      self.site.is_unproved, self._numbers.is_searching)

    def close(self) -> None:
        """Closes the note, once; what isn't sent stays in its file."""
        self._all_open.close()

    def _finish(self) -> None:
        with suppress(Unkept, Trouble):
            self._numbers.keep_found()
        self._replicator.close(SEND_SECONDS)
        for one in self._texts:
            one.replica.close()
        with suppress(Unkept, Trouble):
            self._folding.found()
            # From here on all that is kept of the note is its file.
            self._file.mended(lambda: self._file.look(at_end=True))
        trace(Traced.NOTE_CLOSED)

    def _begin(self) -> None:
        """Takes in what a log has that answers soon, and waits until it has the claim of this number."""
        begin = time.monotonic()
        while True:
            self.arrived()
            passed = time.monotonic() - begin
            if passed > OPEN_SECONDS or not self.has_more() and self._replicator.has_looked() and (
                    self._replicator.offline() or (self.can_type or self.why_not_begun) and self._replicator.is_up_to_date()
                    or self._is_slow(passed)):
                break
            if not self.has_more():
                time.sleep(0.005)
        self.turn_seconds, self._looks = math.inf, True

    def _is_slow(self, passed: float) -> bool:
        """Whether reading the log, as it went until now, takes longer than opening waits."""
        done, total = self._replicator.progress() or (0, 0)
        return passed > TOO_SLOW_SECONDS and done * OPEN_SECONDS < total * passed

    def _arrived(self) -> Told:
        found, has_read = self._counted()
        self._replicator.fold(self._folding.found(self._most_folded()), self._holdings.place)
        is_other = self._rebaser.settle(found.messages if found.anew else None, has_read)
        self._rebaser.say_what_was_rebased()
        if found.anew or is_other:
            self._hiders.look_again()
        if is_other:
            if not self.has_more():
                self._hiders.hide()
            return self.site.text() if self._looks else []
        self._ask_for_what_is_missing()
        if (why := self.why_not_begun) or self._holdings.judge.begun():
            self._notices.tell_of_begin(why)
        self._notices.tell_of_room(self._holdings.waiting_for_room())
        self._texts.comes(found)
        for one in self._texts.others():
            one.replica.take_in(self.turn_seconds / 2, False)
        told = self._replica.take_in(self.turn_seconds / 2, self._looks)
        hidden = [] if self.has_more() else self._hiders.hide()
        self._fold()
        if isinstance(told, list) and isinstance(hidden, list):
            return told + hidden
        return self.site.text() if self._looks else []

    def _fold(self) -> None:
        """Folds own entries that are due, while nothing waits."""
        if isinstance(self._form, RecordForm) and can_take_out(self._about.url) and not self.has_more():
            self._folding.fold(self._form, self._replicator, self._most_folded())

    def _most_folded(self) -> int:
        """At how many entries and messages of own folds a turn looks: while the note is opened no key waits for it."""
        return MOST_IN_A_TURN if self._looks else ALL

    def _counted(self) -> tuple[Counted, bool]:
        """What counts of the note since this was last asked, and whether all was read that the log had."""
        # Only what the log had before the file is read says what is lost, and which claims come before all others.
        has_read, in_log = self._replicator.has_read(), self._numbers.claims_in_log(self._replicator)
        new, found = self._file.read_on(self.turn_seconds / 2)
        if self._holdings.has_more:
            has_read, in_log = False, set()
        self._has_read = has_read
        if found.anew or any(map(self._is_of_this_person, new)):
            self._numbers.is_settled = False
        if self._numbers.take_found():
            self._texts.go_on_under_another_number()
        self._numbers.look_at_claims(in_log)
        if self.can_type and (self._form.is_searched or is_network(self._about.url)) and self._replicator.has_read():
            self._numbers.claim_in_advance(self._replicator.editors_here())
        if self._texts.is_stale():
            found = Counted(self._holdings.judge.let_through_in_order(), True)
        return found, has_read

    def _is_of_this_person(self, run: Sequence[Row]) -> bool:
        """Whether entries are claims, or of a number of this person, and weren't made by another editor, which looks at them itself."""
        return not run[0].made and (run[0].entry.kind.is_claim or who(run[0].entry) in self._holdings.clients)

    def _ask_for_what_is_missing(self) -> None:
        """Asks the others for what is missing, finds what they ask for, and has the log be read again for what the disk damaged."""
        judge = self._holdings.judge
        self._replicator.find(self._holdings.found)
        if not self._holdings.has_more and judge.is_lacking():
            self._replicator.ask(judge.missing)
        if self._file.lacks:
            self._file.lacks = False
            self._replicator.read_from_front()
