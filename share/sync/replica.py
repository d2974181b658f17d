"""The replica of a note that an editor shows: the site, which the program runs, and what counts and isn't taken in yet."""
import math
import pathlib
from collections.abc import Callable, Sequence
from contextlib import closing, suppress

from share.admission.fronts import parted
from share.admission.judging import Counted
from share.admission.ledger import Branch
from share.admission.lines import Path
from share.format.history import Messages, Part
from share.format.operation import TEXT, Operation
from share.program.difference import Shown, differences, shown_by
from share.program.intake import Coming
from share.program.site import SLICE, Progress, Site, Told
from share.program.trace import Traced, trace
from share.store import snapshot
from share.store.guarded import Damaged, Unkept
from share.sync.numbers import READING, Numbers
from share.sync.open_file import OpenFile
from share.sync.state import Holdings
from share.text.change import Change, change_of_words
from share.text.errors import Trouble

Bar = Callable[[int, int], None]
# The longest history that is run once more to tell what differs.
MOST_SHOWN_AGAIN = 5_000


class Replica:
    """Owns the site of a session, of one text. The editor's thread alone calls it."""

    def __init__(self, file: OpenFile, holdings: Holdings, numbers: Numbers, bar: Bar, messages: Messages, text: int = TEXT):
        self.text = text
        self._file, self._holdings, self._numbers, self._bar = file, holdings, numbers, bar
        # Told as soon as the program stands still, and as it answers again.
        self.stands: Callable[[bool], None] = lambda stands: None
        # Whether the site may lack something that counts, or have something that doesn't.
        self.is_stale = False
        # What counts and isn't taken in yet; how many messages that was at its longest, and whether some are of this number.
        self._coming, self._came, self._has_own = Coming(), 0, False
        # What was shown when the site began anew, until it is told what differs.
        self._was: Shown | None = None
        # The history of what was shown as it was told last, and how many messages of it that had; whether it was told since.
        self._shown: tuple[Messages, int] | None = None
        self._is_told = True
        # How many messages the snapshot has.
        self.packed = 0
        messages = messages.of_text(text)
        self.site = self._new_site(messages, lambda done: bar(done, len(messages)))

    def _all_that_counts(self) -> Messages:
        return self._holdings.judge.let_through_in_order(self.text)

    @property
    def number(self) -> int:
        """The number under which the program runs: any one where nothing can be typed, since all are claimed."""
        return 1 if self._numbers.own.site == READING else self._numbers.own.site

    def has_more(self) -> bool:
        """Whether something counts that isn't taken in yet."""
        return bool(self._coming)

    def comes(self, messages: Messages) -> None:
        """Adds messages of the text that count to what is to be taken in."""
        if not self._coming:
            self._came, self._has_own = 0, False
        self._came += len(messages)
        self._has_own |= any(map(self._is_own, messages.parts()))
        self._coming.add(messages)
        if messages:
            trace(Traced.COUNTED, messages=len(messages))

    def take_in(self, seconds: float, looks: bool = True) -> Told:
        """Takes in what came, as far as there is time; all of it where some is of this number, since what is typed follows
        that. To one who looks at the text it tells what that has become."""
        told = self.site.take_some(self._coming, math.inf if self._has_own else seconds, looks)
        if self._came > SLICE:
            self._bar(self._came - len(self._coming), self._came)
        if not self._coming:
            self.pack(max(snapshot.MANY_NEW, self.packed // snapshot.SHARE))
        return told

    def made(self, messages: Sequence[Operation], found: Counted) -> None:
        """Takes over what counts, after messages that the site made were kept."""
        own, others = Messages(), Messages()
        for part in found.messages.of_text(self.text).parts():
            (own if self._is_own(part) else others).add(part)
        if others:
            self.comes(others)
        history, made = self.site.history, [*messages]
        if not found.anew and len(own) == len(made) <= len(history) and history.last(len(made)) == made == own.last(len(made)):
            # As entries have it, it takes less memory.
            history.cut(len(history) - len(made))
            history += own
        # Else something else counts now than what is shown, and own edits perhaps don't.
        self.is_stale |= found.anew

    def begin_anew(self, messages: Messages) -> None:
        """Begins another site, under the number of now, with these messages, which are all that count of the text."""
        trace(Traced.SITE_BEGUN_ANEW, messages=len(messages))
        self._coming = Coming()
        with suppress(Trouble):
            # Where the program has ended it is told as a whole.
            self._was = self._was or shown_by(self.site)
        self._replace(lambda: self._new_site(messages))

    def go_on_under_another_number(self) -> None:
        """Goes on under the number of now with all that the site has."""
        history, self.packed = self.site.history, 0
        if len(history) != len(self._all_that_counts()):
            # Some of it may be of the new number.
            self.is_stale = True
            return
        self._replace(lambda: Site(self.number, history, folder=self._folder(), stands=lambda stands: self.stands(stands), text=self.text))
        self.site.beside = self._beside

    def _replace(self, new: Callable[[], Site]) -> None:
        self.site.close()
        try:
            self.site = new()
        except BaseException:
            # The next taking in begins one anew.
            self.is_stale = True
            raise

    def pack(self, least: int) -> None:
        """Writes the snapshot where it lacks at least this many messages."""
        many = len(self.site.history)
        if many < self.packed + least or self.is_stale or self._numbers.is_taken:
            return
        self.packed = many
        with suppress(Unkept, Damaged, Trouble):
            # Where there is no room, or the program ends as it writes, the next opening takes longer.
            snapshot.keep(self._file.disk, self._holdings.judge, self.site)

    def remember(self) -> None:
        """Notes what is shown now, with which later text is compared."""
        self._was = shown_by(self.site)

    def begin_telling(self) -> None:
        """Notes that what the site has now is shown, but where it wasn't told what it became."""
        if self._is_told:
            self._was, self._shown, self._is_told = None, (self.site.history, len(self.site.history)), False

    def end_telling(self) -> None:
        """Notes that it is told what the site has become."""
        self._is_told = True

    def differing(self, before: bytes, now: bytes) -> list[Change]:
        """What differs between the text that was shown before and the one that is shown now: character by character, where
        the site began anew meanwhile; else as one stretch of words."""
        with suppress(Trouble):
            was, self._was, self._is_told = self._was or self._shown_again(), None, True
            if was and was.text == before and (shows := shown_by(self.site)).text == now:
                if (found := differences(was, shows)) is not None:
                    return found
        trace(Traced.DIFFERS_AS_A_WHOLE, messages=len(self.site.history))
        return [change_of_words(before, now)]

    def _shown_again(self) -> Shown | None:
        """What was shown as it was told last, where that isn't much: the site has since taken in more, or ended as it did."""
        history, many = self._shown or (Messages(), 0)
        if not 0 < many <= MOST_SHOWN_AGAIN:
            return None
        with closing(Site(self.number, history[:many], text=self.text)) as site:
            return shown_by(site)

    def close(self) -> None:
        """Writes the snapshot, and ends the program."""
        self.pack(snapshot.AT_END)
        self.site.close()
        snapshot.leave(self._file.disk, self._numbers.own.site, self.text)

    def _new_site(self, messages: Messages, progress: Progress = lambda done: None) -> Site:
        """A site under the number of now, with these messages, which are all that count. It goes on from its snapshot where
        that can be."""
        fronts, folder, own = dict[int, int](), self._folder(), self._numbers.own.site
        with suppress(Unkept, Damaged):
            # Where the note's file can't be read now it is mended later.
            fronts = snapshot.fronts_of(self._file.disk, self._holdings.judge, own, folder, self.text)
        packed, others = parted(messages, fronts)
        self.packed = len(packed)
        site = Site(self.number, others, progress, folder, packed, lambda stands: self.stands(stands), self.text)
        site.beside = self._beside
        return site

    def _beside(self) -> int:
        return self._holdings.many(but=self.text)

    def _folder(self) -> pathlib.Path | None:
        return snapshot.folder_of(self._file.disk, self._numbers.own.site, self.text)

    def _is_own(self, part: Part) -> bool:
        """Whether messages are of this editor's number."""
        return isinstance(part.holder, Branch | Path) and part.holder.site == self._numbers.own.site
