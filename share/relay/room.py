"""The room of a note: who is at it, its log in a thread of its own, and what is told to all of them."""
import asyncio
from collections import deque
from collections.abc import Callable, Sequence
from concurrent.futures import ThreadPoolExecutor
from typing import Protocol, TypeVar

from share.format.entry import MOST_BYTES
from share.format.second.form import BEFORE_BOX, BOX_TAG_BYTES, SealedRecords
from share.format.second.keys import IDENTITY_BYTES
from share.format.second.signature import SIGNED_BYTES
from share.log.base import START, InLog, LogLost, Unreachable
from share.log.relay_messages import UNASKED, Refusal, RelayPage, Why, presence_message
from share.relay.kept import KeptNote, News, NoSuchPlace, NoteIsFull
from share.relay.limits import Allowance, Limits, NewNotes
from share.text.errors import Trouble

# How often a log is looked at for what was lost, or others wrote.
LOOK_AT_LOG_SECONDS = 5.0
# The bytes of the last entries that are in memory, and what is told at once of new ones.
MOST_TAIL = 2**17
# Presence of so many a second, in all, is passed on of a note; what is more isn't.
PRESENCE_A_SECOND = 200.0
LEAST_ENTRY = BEFORE_BOX + BOX_TAG_BYTES + SIGNED_BYTES
FoundInLog = TypeVar("FoundInLog")


class NotDone(Exception):
    """A request isn't done, for this reason."""

    def __init__(self, why: Why, words: str):
        super().__init__(words)
        self.why, self.words = why, words


class AtNote(Protocol):
    """Somebody who is at a note, as its room knows him."""

    address: str
    # Up to where he was told all; None where he has to ask.
    told_up_to: str | None
    # Whether he was told that the note is full.
    knows_full: bool

    def has_room(self) -> bool:
        """Whether little waits for him."""

    def tell(self, page: RelayPage) -> None:
        """Tells of new entries."""

    def pass_on(self, presence: bytes) -> None:
        """Hands on what somebody says of himself."""

    def warn(self, refusal: Refusal) -> None:
        """Tells of something that others were refused."""


class Tail:
    """The last entries of a log."""

    def __init__(self) -> None:
        self._entries, self._bytes = deque[InLog](), 0
        # The place before the first of them, and where the log ends.
        self._begin = self.end = START

    def add(self, news: News) -> None:
        """Takes over what is new."""
        if news.after != self.end or not news.entries:
            self._entries.clear()
            self._begin, self._bytes = news.end, 0
        else:
            self._entries.extend(news.entries)
            self._bytes += sum(len(one.raw or b"") for one in news.entries)
        while self._bytes > MOST_TAIL:
            first = self._entries.popleft()
            self._begin, self._bytes = first.place, self._bytes - len(first.raw or b"")
        self.end = news.end

    def after(self, place: str) -> list[InLog] | None:
        """What stands after a place; None where that isn't known here."""
        if place == self._begin:
            return [*self._entries]
        found = [*self._entries]
        for number in range(len(found) - 1, -1, -1):
            if found[number].place == place:
                return found[number + 1:]
        return None


class NoteRoom:
    """A note's room, which is there as long as somebody is in it. The loop's thread alone calls it."""

    def __init__(self, note: bytes, kept: KeptNote, limits: Limits, new_notes: NewNotes, pace: Allowance, says: Callable[[str], None]):
        # Who is told what is new, and how many have or are about to have it open.
        self.members, self.users = set[AtNote](), 0
        self._note, self._kept, self._limits, self._new_notes, self._says = note, kept, limits, new_notes, says
        self._thread = ThreadPoolExecutor(1, thread_name_prefix="note")
        self.pace, self._presence = pace, Allowance(PRESENCE_A_SECOND)
        self._tail, self._size, self._is_open, self._may_begin = Tail(), 0, False, False
        # What all are told while the note is full.
        self._full = ""
        self._looking = asyncio.create_task(self._look_on())

    async def close(self) -> None:
        """Ends it, once what is being appended is."""
        self._looking.cancel()
        await asyncio.get_running_loop().run_in_executor(self._thread, self._kept.close)
        self._thread.shutdown()

    async def read(self, who: AtNote, number: int, after: str, most: int) -> RelayPage:
        """What stands after a place, of no more bytes unless one entry alone has more."""
        page: Sequence[InLog] | None = self._tail.after(after) if self._is_open else None
        at_end = True
        if page is None or sum(len(one.raw or b"") for one in page) > most:
            try:
                found = await self._work(lambda: self._kept.read(after, most))
            except NoSuchPlace as why:
                raise NotDone(Why.LOST, "The log has lost entries.") from why
            self._publish(found.news)
            page, at_end = found.entries, found.at_end
        if at_end:
            who.told_up_to = self._tail.end
            self._tell_full(who)
        return RelayPage(number, at_end, self._size, after, page)

    async def size(self, number: int, after: str) -> RelayPage:
        """How many entries there are."""
        if not self._is_open:
            self._publish(await self._work(self._kept.look))
        return RelayPage(number, False, self._size, after, [])

    async def append(self, who: AtNote, raws: Sequence[bytes]) -> None:
        """Appends entries, so that they last."""
        if not all(is_record(self._note, raw) for raw in raws):
            raise NotDone(Why.WRONG, "That isn't an entry of this note.")
        if not raws:
            return
        if (wait := self.pace.wait(len(raws))) is None:
            raise NotDone(Why.RATE, f"This relay takes {self._limits.entries_a_second:,} entries a second of a note (--entries-a-second), "
                                    "and more came. They are sent later.")
        await asyncio.sleep(wait)
        if not (self._may_begin or await self._work(self._kept.is_there) or self._new_notes.take(who.address)):
            raise NotDone(Why.NEW, f"This relay takes {self._limits.new_notes_an_hour:,} new notes an hour from an address "
                                   "(--new-notes-an-hour). This one is sent later.")
        # What is begun goes on where its log is lost, or can't be written now.
        self._may_begin = True
        try:
            news = await self._work(lambda: self._kept.append(raws))
        except NoteIsFull as why:
            self._full = (f"The note is full at this relay, which keeps {self._limits.note_bytes:,} bytes of one (--note-bytes). "
                          "What is new stays on your disk.")
            who.knows_full = True
            self._tell_full(*self.members)
            raise NotDone(Why.FULL, self._full) from why
        if self._full:
            self._full = ""
            self._tell_full(*self.members)
        self._publish(news)

    def pass_on(self, presence: bytes) -> None:
        """Hands presence on to all, who sent it too, and keeps nothing of it."""
        if self._presence.wait(1, 0.0) is not None:
            message = presence_message(presence)
            for one in [*self.members]:
                one.pass_on(message)

    def _publish(self, news: News) -> None:
        """Takes over what is new, and tells those of it who have read to the end."""
        self._is_open, self._size = True, news.size
        if news.is_empty() and news.end == self._tail.end:
            return
        self._tail.add(news)
        for one in self.members:
            if one.told_up_to is None or one.told_up_to == news.end:
                continue
            # Who reads slowly is told once that there is more, and asks for it when he comes to it.
            goes_on = one.told_up_to == news.after and news.entries and one.has_room()
            one.tell(RelayPage(UNASKED, bool(goes_on), news.size, one.told_up_to, news.entries if goes_on else []))
            one.told_up_to = news.end if goes_on else None

    def _tell_full(self, *members: AtNote) -> None:
        """Tells of a full note also those who only read, once until there is room again; who reads slowly as he has read to the end."""
        for one in members:
            if not self._full:
                one.knows_full = False
            elif not one.knows_full and one.has_room():
                one.knows_full = True
                one.warn(Refusal(UNASKED, Why.FULL, self._full))

    def _have_all_ask(self) -> None:
        """Tells all that there is something to be seen, once until they have read to the end again."""
        for one in self.members:
            if one.told_up_to is not None:
                one.tell(RelayPage(UNASKED, False, self._size, one.told_up_to, []))
                one.told_up_to = None

    async def _look_on(self) -> None:
        while True:
            await asyncio.sleep(LOOK_AT_LOG_SECONDS)
            try:
                self._publish(await self._work(self._kept.look))
            except NotDone:
                # Who asks next is told, and the operator was.
                pass

    async def _work(self, work: Callable[[], FoundInLog]) -> FoundInLog:
        """Does something with the log, in its thread; what keeps it from that is told without what only the operator is to know."""
        try:
            return await asyncio.get_running_loop().run_in_executor(self._thread, work)
        except (NoteIsFull, NoSuchPlace):
            raise
        except LogLost as why:
            self._says(str(why))
            # All read from the front, and what they have fills it again.
            self._publish(News(START, [], START, 0))
            self._is_open = False
            raise NotDone(Why.LOST, "The log has lost entries.") from why
        except Exception as why:  # pylint: disable=broad-except
            # Whoever asked is to know that it wasn't done, and the others look, too.
            self._is_open = False
            self._have_all_ask()
            self._says(str(why) if isinstance(why, (Unreachable, Trouble, OSError)) else f"{type(why).__name__}: {why}")
            what = "has no room left" if "full" in str(why) or "no memory left" in str(why) else "can't be used now"
            raise NotDone(Why.AWAY, f"The log that this relay keeps {what}. What is new stays on your disk.") from why


def is_record(note: bytes, raw: bytes) -> bool:
    """Whether bytes can be a sealed entry of a note."""
    return LEAST_ENTRY <= len(raw) <= MOST_BYTES and raw[0] == SealedRecords.number and raw[2:2 + IDENTITY_BYTES] == note
