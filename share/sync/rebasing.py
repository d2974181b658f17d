"""When edits are rebased: what was made under numbers that can't be gone on with, or builds on what was left out, is made again
under this editor's number."""
import time
from collections.abc import Sequence
from contextlib import suppress

from share.format.entry import Form
from share.format.history import Messages
from share.format.operation import TEXT
from share.program.trace import Traced, trace
from share.store.guarded import Unkept
from share.store.own import Client, Overtaken
from share.sync.backoff import Turns, told_of_edits, told_of_numbers
from share.sync.numbers import FULL, Numbers
from share.sync.open_file import OpenFile
from share.sync.rebase import Rebased, at_once, length_of, rebase, with_claims
from share.sync.replicator import Replicator
from share.sync.lost import ToRebase
from share.sync.state import Holdings
from share.sync.status import Notices
from share.sync.texts import OpenTexts
from share.text.errors import Refused, Trouble, counted

# The pause before what couldn't be rebased is tried again.
REBASE_AGAIN_SECONDS = 5


class Rebaser:
    """Gives up numbers that can't be gone on with, and rebases what doesn't count. The editor's thread alone calls it."""

    def __init__(self, file: OpenFile, holdings: Holdings, form: Form, numbers: Numbers, texts: OpenTexts, replicator: Replicator,
                 notices: Notices):
        self._file, self._holdings, self._form, self._numbers = file, holdings, form, numbers
        self._texts, self._replicator, self._notices = texts, replicator, notices
        self._turns, self._again = Turns(), 0.0
        # What was told last of what couldn't be rebased.
        self._trouble: str | None = None
        # What was made under numbers that were given up, is kept since others have it, and was let go for the log to be given it.
        self._let_go: set[bytes] = set()

    def may_write(self) -> bool:
        """Whether what couldn't be written lately may be tried again."""
        return time.monotonic() >= self._again

    def wait(self) -> None:
        """Tries again later what can't be written now."""
        self._numbers.is_settled, self._again = False, time.monotonic() + REBASE_AGAIN_SECONDS

    def later(self, why: Exception) -> None:
        """Tries again later what couldn't be rebased, which is told."""
        self._trouble = (f"Edits couldn't be made anew yet ({why}). Make room on the disk." if isinstance(why, Unkept)
                         else f"Edits couldn't be made anew yet. {why}")
        self._notices.trouble = self._trouble
        self.wait()

    def _is_done(self) -> None:
        """Nothing is to be tried again."""
        if self._notices.trouble == self._trouble:
            self._notices.trouble = None

    def settle(self, anew: Messages | None, has_read: bool) -> bool:
        """Gives up the numbers of this person that can't be gone on with, and rebases what doesn't count, when its turn
        comes. `anew` has all messages that count where the site has some that don't. Whether the site began anew."""
        holdings = self._holdings
        # Before what a note begins with is here nothing counts of it, and nothing is lost.
        may = has_read and holdings.judge.begun() and self.may_write()
        broken = self._given_up() if may else []
        is_due = may and self._numbers.has_one and self._turns.is_due()
        if is_due or self._texts.has_other_number() or holdings.is_anew():
            found = holdings.count()
            anew = found.messages if found.anew else holdings.judge.let_through_in_order()
        if anew is not None:
            self._texts.begin_anew(anew)
        if is_due:
            self._rebase(broken)
        elif broken:
            self._say_that_it_waits(broken)
        return anew is not None

    def say_what_was_rebased(self) -> None:
        """Says so of what others would wait for. It is sent after what was rebased."""
        if made := [self._form.made_anew(last, one.author) for one, last in self._holdings.waited_for()]:
            with suppress(Unkept):
                # Where there is no room now it is said later.
                self._file.mended(lambda: self._file.disk.keep(made, True))
                self._holdings.add(made)
                self._replicator.made()

    def withdraw(self, clients: Sequence[Client]) -> bool:
        """Takes back what was made under numbers and that nobody else has; whether there was any. What others have and the log
        lacks it is given."""
        holdings = self._holdings
        made = holdings.made_by(clients)
        in_log = {of for of in made if self._replicator.has(of)}
        known = holdings.followed().intersection(made) | in_log
        gone = self._file.mended(lambda: self._file.disk.entries.withdraw(set(made) - known, known))
        holdings.withdraw(gone)
        if new := known - in_log - self._let_go:
            # It was held back until now. A log that goes on lacking it is given it as whatever else it loses.
            self._let_go |= new
            self._replicator.let_go()
        return bool(gone)

    def _given_up(self) -> list[Client]:
        """The numbers that were given up now, since they can't be gone on with and no other editor has them, this editor's
        among them; what was made under them and not sent is withdrawn, and this editor has a number that can be gone on
        with."""
        numbers = self._numbers
        if numbers.is_settled and not numbers.is_taken:
            return []
        numbers.is_settled, number = True, numbers.own.site
        try:
            while (broken := numbers.broken()) and self.withdraw(broken):
                # What a copy of this folder sends of it counts, and has to be kept when it comes. What was typed after what
                # was withdrawn, under another number, counts no more either.
                self._replicator.read_from_front()
            given_up = numbers.give_up(broken)
            if numbers.own.site != number:
                self._texts.goes_on()
            own, others = bool(numbers.lost(own=True)), bool(numbers.lost(own=False))
            self._turns.found(own, others)
            if not (own or others):
                self._is_done()
            return given_up
        except Unkept as why:
            self.later(why)
            return []
        except BaseException:
            # They are looked at again.
            self.wait()
            raise

    def _rebase(self, broken: Sequence[Client]) -> None:
        """Rebases, under this number, what was made under others and doesn't count, and whose turn it is. Where that can't be all of a text
        is as if nothing had been made, and it is tried again later: what is lost is found again by what counts."""
        own, many = self._turns.is_own_due(), 0
        lost, is_all = at_once(self._numbers.lost(own))
        try:
            for text in sorted({one.entry.text for one in lost}) or [TEXT]:
                many += self._rebase_in(text, [one for one in lost if one.entry.text == text], own)
        except Overtaken:
            # Another editor of this person was quicker.
            self._numbers.is_settled = False
            self._file.read_own()
            self._texts.begin_anew(self._holdings.judge.let_through_in_order())
        except (Unkept, Trouble, Refused) as why:
            self._rebase_later(why)
            self._say_that_it_waits(broken)
        except Exception:
            self._turns.failed()
            raise
        else:
            self._say_what_was_made(broken, many, own, is_all)

    def _rebase_in(self, text: int, lost: Sequence[ToRebase], own: bool) -> int:
        """Does again what remains of lost messages of a text, and keeps it; how many were lost."""
        holdings, (replica, edits) = self._holdings, self._texts[text]
        rows = [*holdings.rows.each()]
        messages = [*dict.fromkeys(message for one in lost for message in one.messages)]
        edits.make_room(length_of(messages))
        done = rebase(self._form, rows, messages, holdings.judge, replica.site, () if own else with_claims(rows, lost)) if lost else []
        rebased = Rebased(holdings, lost, done, edits.last)
        edits.keep([one.new for one in done if one.new], rebased.anew() if own else (),
                   lambda last: rebased.copies(self._form, last), rebased.hidings())
        trace(Traced.REBASED, messages=len(messages), made=len(done), own=own)
        return len(messages)

    def _rebase_later(self, why: Exception) -> None:
        """As if nothing had been made; it is tried again later, and ever later where no room on the disk is all that it lacks."""
        if not isinstance(why, Unkept):
            self._turns.failed()
        if isinstance(why, Refused) and why.number in FULL:
            self._numbers.is_full = True
        self.later(why)
        self._texts.begin_anew(self._holdings.judge.let_through_in_order())

    def _say_what_was_made(self, broken: Sequence[Client], many: int, own: bool, is_all: bool) -> None:
        """Notes and tells what was rebased."""
        self._is_done()
        if is_all:
            self._turns.made(own)
        self._say_of(broken, told_of_edits(many if own else 0, 0 if own else many))

    def _say_that_it_waits(self, broken: Sequence[Client]) -> None:
        """Says that numbers were given up, and when what was lost is rebased, where something was."""
        if seconds := self._turns.seconds():
            self._say_of(broken, f"What doesn't count any more is typed again in {counted(seconds, 'second')}.")
        else:
            self._say_of(broken, "" if self._holdings.judge.left_out() else "No edit was lost.")

    def _say_of(self, broken: Sequence[Client], words: str) -> None:
        """Tells of numbers that were given up, and of what became of what was made under them."""
        shared = [one for one in broken if self._holdings.is_anothers(one)]
        numbers = told_of_numbers(self._numbers.own.site if self._numbers.has_one else None, broken, shared)
        more = " Give each machine its own data folder, and don't copy it." if shared else ""
        if numbers or words:
            self._notices.tell(f"{numbers}{words}{more}")
