"""What is asked of a note that is open, and done to its texts."""
from collections.abc import Callable, Sequence, Set

from share.admission.ledger import Who
from share.format.entry import Entry, Form
from share.format.history import Messages
from share.format.operation import TEXT, Operation
from share.program.site import Edited, Site
from share.store.note_file import About
from share.store.seen import Look, Still, still_counting
from share.sync.edits import OwnEdits
from share.sync.margin import OpenMargin
from share.sync.numbers import Numbers
from share.sync.replica import Replica
from share.sync.replicator import Replicator
from share.sync.state import Holdings
from share.sync.status import Notices
from share.sync.texts import OpenTexts
from share.text.errors import BEGIN_LOST, NOT_BEGUN, Trouble


class EditedNote:
    """A note that is open for one editor. Where a text isn't given it is the first one."""

    _about: About
    _form: Form
    _holdings: Holdings
    _numbers: Numbers
    _replica: Replica
    _edits: OwnEdits
    _texts: OpenTexts
    _replicator: Replicator
    _notices: Notices
    margin: OpenMargin
    # Whether all that the log had when it was opened was read before the file was read last.
    _has_read: bool

    @property
    def site(self) -> Site:
        """The site that the program runs now."""
        return self._replica.site

    @property
    def number(self) -> int:
        """The site's number. The names of what was typed under another one are that one's."""
        return self._numbers.own.site

    @property
    def can_type(self) -> bool:
        """Whether something can be typed under the site's number."""
        return self._numbers.own.stood and self._holdings.judge.begun()

    @property
    def why_not_begun(self) -> str:
        """Why nothing can be typed where what the note begins with isn't here, and wasn't in the log; else nothing."""
        if not self._has_read or self._holdings.judge.begun():
            return ""
        return NOT_BEGUN if self._about.url else BEGIN_LOST

    @property
    def why_no_number(self) -> str:
        """Why nothing can be typed, where that isn't just for the log to answer."""
        return self.why_not_begun or self._numbers.why_none

    @property
    def stands(self) -> Callable[[bool], None]:
        """Told as soon as the program stands still, and as it answers again."""
        return self._replica.stands

    @stands.setter
    def stands(self, stands: Callable[[bool], None]) -> None:
        self._replica.stands = stands

    def text(self, text: int = TEXT) -> bytes:
        """What the site shows, or the site of another text."""
        return self._texts[self._checked(text)].replica.site.text()

    def insert(self, position: int, data: bytes, text: int = TEXT) -> Edited:
        """Types bytes at a position of a text."""
        return self.edit(lambda site: site.insert(position, data), text)

    def cut(self, begin: int, end: int, text: int = TEXT) -> Edited:
        """Deletes a stretch."""
        return self.edit(lambda site: site.cut(begin, end), text)

    def edit(self, work: Callable[[Site], Edited], text: int = TEXT) -> Edited:
        """Does several things at the site of a text as one edit: all that they made is kept, or nothing of it."""
        if why := self.why_not_begun:
            raise Trouble(why)
        return self._texts[self._checked(text)].edits.make(work)

    def _checked(self, text: int) -> int:
        if text not in self._form.texts:
            raise Trouble(f"This note has no text {text}.")
        return text

    def messages(self, text: int = TEXT) -> Messages:
        """All messages of a text that count, each after its causes."""
        return self._holdings.judge.let_through_in_order(text)

    def message(self, site: int, seq: int, text: int = TEXT) -> Operation:
        """A message of a text that counts; LookupError if there is none."""
        return self._holdings.judge.message(site, seq, text)

    @property
    def identity(self) -> bytes:
        """What tells the note from others."""
        return self._form.note

    def still_counting(self, looks: Sequence[Look]) -> Still:
        """What was seen in the last of some looks, as far as it still counts."""
        return still_counting(looks, self._holdings.judge, self._holdings.rows)

    def is_own(self, site: int) -> bool:
        """Whether a number is one of this person's, and nobody else holds it."""
        holder = self._holdings.judge.holder(site)
        return any(one.site == site and not one.copied and holder in (None, one.author.name) for one in self._holdings.clients.values())

    def own(self) -> Set[Who]:
        """The sites and authors that are this person's."""
        return {of for of, one in self._holdings.clients.items() if not one.copied}

    def show(self, shows: dict[bytes, bytes]) -> list[bytes]:
        """Shows others what editors here show of themselves, by their tokens; what others show."""
        self._replicator.show(shows)
        return self._replicator.shown()

    def token(self) -> bytes:
        """What tells this session from others that are on."""
        return self._replicator.token

    def tell(self, words: str) -> None:
        """Tells the user something."""
        self._notices.tell(words)

    def has_sent(self, entry: Entry) -> bool:
        """Whether the log is known to have an entry; without a log, whether the file has it."""
        return self._replicator.has(entry.hash)

    def last(self) -> Entry:
        """The last entry that was made here."""
        return self._edits.last
