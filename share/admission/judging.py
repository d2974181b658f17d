"""What is asked of a judge, whichever form its note has: which entries came, what counts of them, and what is told of the rest.

What names a message is the hash of its entry in the first form, and its own in the second; so is what names the last of some, in words of
copies and of what was made anew. Where a text isn't given the first one is meant, the only one of a note of the first form.
"""
from abc import ABC, abstractmethod
from collections.abc import Callable, Iterable, Iterator, Sequence
from typing import NamedTuple

from share.admission.copies import Copies
from share.admission.in_fold import WithFolds
from share.admission.ledger import Row, Who
from share.admission.left_out import LeftOut
from share.format.entry import BuiltOn, Copy, Entry
from share.format.history import Messages
from share.format.operation import TEXT, Operation
from share.text.names import Name, Names


class Counted(NamedTuple):
    """What counts now: the messages let through since this was last asked, or, where what was let through
    before doesn't all count any more, all of them anew."""

    messages: Messages
    anew: bool


class Judging(WithFolds, ABC):
    """The set of entries that came, what counts of it, and what is told of the rest."""

    # What is here.

    @abstractmethod
    def __contains__(self, of: bytes) -> bool:
        """Whether an entry is in memory, by its hash or by what names a message that it has."""

    @abstractmethod
    def __len__(self) -> int:
        """How many entries are in memory."""

    @abstractmethod
    def unknown(self, rows: Iterable[Row]) -> list[Row]:
        """Those of some entries that aren't here."""

    @abstractmethod
    def rows(self) -> Iterator[Row]:
        """All that is in memory."""

    @abstractmethod
    def hashes(self) -> Iterator[bytes]:
        """The hashes of all that is in memory."""

    @abstractmethod
    def row(self, of: bytes) -> Row | None:
        """The entry that has a hash, or a message that is named so; None where it isn't in memory."""

    def begins(self, claim: bytes) -> list[bytes]:
        """The hashes of the entries with which the chains of somebody begin, by what names his claim, where a claim isn't what is before
        them."""
        return []

    # What comes, and what counts of it.

    @abstractmethod
    def add(self, entry: Entry, place: int = 0, made: bool = False, types_on: bool = False) -> None:
        """Adds an entry that was opened. What is known already changes nothing."""

    @abstractmethod
    def add_new(self, row: Row) -> None:
        """Adds an entry that isn't known yet."""

    @abstractmethod
    def extend(self, run: Sequence[Row]) -> bool:
        """The same of entries of messages, each of which follows the one before it, in one step; whether that is the same."""

    @abstractmethod
    def begun(self) -> bool:
        """Whether all is here before which nothing counts."""

    @abstractmethod
    def let_through(self) -> None:
        """Lets through what can be of what came, while what was read of it last is at hand; not where all is let through anew next,
        which might happen with each part of it."""

    @abstractmethod
    def count(self) -> Counted:
        """What counts since this was last asked, of all texts."""

    @abstractmethod
    def is_anew(self) -> bool:
        """Whether what counts next is all of it, let through anew."""

    @abstractmethod
    def let_through_in_order(self, text: int | None = None) -> Messages:
        """All messages that are let through, each after its causes: of a text, or of all, one after the other."""

    # What is told of a site, and of an author under it.

    @abstractmethod
    def holder(self, site: int) -> bytes | None:
        """Whose number this is."""

    @abstractmethod
    def claimed(self) -> set[int]:
        """All numbers that nobody else can have."""

    @abstractmethod
    def last(self, site: int, text: int = TEXT) -> Entry:
        """The entry that has the last message of a site's chain; without messages what gives the number to who holds it."""

    @abstractmethod
    def front(self, site: int, text: int = TEXT) -> int:
        """How many messages of a site are let through."""

    @abstractmethod
    def length(self, site: int, text: int = TEXT) -> int:
        """How many characters of a site are let through."""

    @abstractmethod
    def front_of(self, author: bytes, site: int, text: int = TEXT) -> int:
        """How many messages of an author and site are let through."""

    @abstractmethod
    def front_up_to(self, author: bytes, site: int, last: bytes, text: int = TEXT) -> int:
        """How many messages of an author and site are let through that are the last that is named, or before it; all where it isn't said
        which."""

    @abstractmethod
    def of(self, site: int, author: bytes) -> Iterator[Row]:
        """What is in memory of a site and an author, of all texts."""

    @abstractmethod
    def not_through(self, site: int, author: bytes) -> Iterator[Row]:
        """The entries of a site and author that have messages of which not all are let through, of all texts."""

    @abstractmethod
    def not_counting(self, site: int, author: bytes) -> Iterator[Entry]:
        """The same, without those that lack one before them."""

    @abstractmethod
    def held_up(self, site: int, text: int = TEXT) -> list[Entry]:
        """The entries of a site's chain that aren't let through as a whole, without what is wrong, and without those whose author says
        that they were made anew."""

    # What is told of an entry, of a message, and of copies.

    @abstractmethod
    def entry_of(self, site: int, seq: int, text: int = TEXT) -> bytes | None:
        """What names the message of a site, where that is let through."""

    @abstractmethod
    def name_in(self, last: bytes, seq: int) -> bytes | None:
        """What names the message of a seq that is the last of some, or before it; None where it isn't here."""

    @abstractmethod
    def is_chained(self, of: bytes, last: bytes) -> bool:
        """Whether what is named is the last of some, or before it."""

    @abstractmethod
    def is_loose(self, of: bytes) -> bool:
        """Whether what is named lacks one before it."""

    @abstractmethod
    def message(self, site: int, seq: int, text: int = TEXT) -> Operation:
        """A message that is let through."""

    @abstractmethod
    def message_in(self, last: bytes, seq: int) -> Operation | None:
        """The message of a seq that is the last of some, or before it; None where it isn't here."""

    # What is told of characters that count, shown or not, by which a review knows that its text is the one that its author saw. A note of
    # the first form, which has no margin, tells nothing.

    def inserter(self, name: Name, text: int = TEXT) -> bytes | None:
        """What names the message that inserted a character; None where none that counts did."""
        return None

    def inserted(self, names: Names, text: int = TEXT) -> bytes | None:
        """The bytes of characters; None where not all of them are there."""
        return None

    def is_of_base(self, site: int) -> bool:
        """Whether a number's messages were copied into the note as it began."""
        return False

    @abstractmethod
    def built_on(self, messages: Sequence[Operation], before: Sequence[Operation] = ()) -> BuiltOn:
        """What messages build on, as their entry says it, that go on from a site's chain, and from others that follow it and aren't here
        yet. All that they mention is let through."""

    @abstractmethod
    def copies_in(self, text: int = TEXT) -> Copies:
        """What is said of copies in a text."""

    @abstractmethod
    def is_copied(self, entry: Entry, seq: int) -> bool:
        """Whether something stands for a message of an entry that counts."""

    @abstractmethod
    def not_copied(self, entry: Entry) -> list[Operation]:
        """Those of an entry's messages for which nothing stands that counts."""

    def message_counts(self, author: bytes, site: int, seq: int, text: int = TEXT) -> bool:
        """Whether the message of this author, site and seq is let through."""
        return 0 < seq <= self.front_of(author, site, text)

    def is_let_through(self, message: Operation) -> bool:
        """Whether just this message of its place is let through."""
        site, seq, text = message.site, message.seq, message.text
        return seq <= self.front(site, text) and self.message(site, seq, text) == message

    def copies_of(self, author: bytes, site: int, seq: int, suits: Callable[[Operation], bool], text: int = TEXT) -> list[Copy]:
        """The messages that stand for one of these that suits, as its author says, whether they count or not; that of the least
        number first. Another history of the number has another message of this seq."""
        return [copy for copy, _ in self._made_for(author, site, seq, suits, text)]

    def is_made_anew(self, author: bytes, site: int, seq: int, suits: Callable[[Operation], bool], text: int = TEXT) -> bool:
        """Whether one of these counts."""
        return any(copy.seq <= self.front_up_to(copy.author, copy.site, last, text)
                   for copy, last in self._made_for(author, site, seq, suits, text))

    def _made_for(self, author: bytes, site: int, seq: int, suits: Callable[[Operation], bool], text: int) -> list[tuple[Copy, bytes]]:
        return self.copies_in(text).of(author, site, seq, lambda last: (found := self.message_in(last, seq)) is not None and suits(found))

    # What is told of all that came.

    @abstractmethod
    def wrong(self) -> list[Operation]:
        """The messages that are wrong, and with which what follows of their sites is left out."""

    @abstractmethod
    def incomplete(self) -> int:
        """How many messages came that something is missing for; nothing could make what builds on what was left out count."""

    @abstractmethod
    def left_out(self) -> list[LeftOut]:
        """What doesn't count since something lesser holds in its place, and what builds on that; without what has a copy that counts."""

    @abstractmethod
    def renewed(self) -> list[tuple[Who, bytes]]:
        """Those under whose own numbers it is said that the note was renewed, and their names."""

    @abstractmethod
    def has_newer(self) -> bool:
        """Whether there are entries of kinds that this version doesn't know."""

    @abstractmethod
    def loose(self) -> list[Entry]:
        """The entries for which something before them is missing, the lowest first of each site."""

    @abstractmethod
    def is_lacking(self) -> bool:
        """Whether something is missing."""

    @abstractmethod
    def missing(self) -> Iterator[bytes]:
        """The names of what is missing."""

    # What there is no room for.

    @abstractmethod
    def dropped(self) -> list[Row]:
        """What was dropped since this was last asked, since there was no room for it."""

    @abstractmethod
    def turns(self) -> set[int]:
        """The sites of which entries were dropped, and for which there may be room now. Says so once."""
