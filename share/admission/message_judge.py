"""Which messages count in a note of the second form: one function of the set of entries that came, as docs/NOTES.md has it under "What
counts". It has no input or output, no clock and no chance in it. Each rule has a module of its own:

- `sayings`: messages by their hashes, however they are cut into entries; `lines`: which of several that go on from one holds.
- `based`: what was copied into the note.
- `building`: what becomes of the message that is next in a line; `one_text`, `passage`: letting messages through, and waiting.

Texts have nothing of one another but their claims. More entries can end the count of a message only where a lesser rank or hash came;
then what counts of that text is let through anew.
"""
from collections.abc import Iterable, Iterator, Mapping, Sequence
from enum import IntEnum
from typing import Protocol

from share.admission.aside import Aside
from share.admission.based import Based, WithLinks
from share.admission.building import Digest
from share.admission.one_text import OneText, Turn
from share.admission.reasons import ROOTS, Reason
from share.admission.room import GivenBack
from share.admission.sayings import Whose, Root, Sayings, WithMessages
from share.format.entry import NO_HASH
from share.format.history import Messages
from share.format.operation import Operation

GREATEST_NUMBER = 65_528


class Speaks(IntEnum):
    """Which entries say what counts."""

    OPENING = 1
    CLAIM = 2
    BASE = 3
    MESSAGES = 4


class Begins(Protocol):
    """What a note begins with."""

    @property
    def root(self) -> bytes:
        """What names the base's last message."""

    @property
    def founder(self) -> bytes:
        """Who founded it."""

    @property
    def number(self) -> int:
        """His number."""


class Spoken(WithLinks, Protocol):
    """An entry, as far as it says what counts."""

    @property
    def kind(self) -> int:
        """What it is."""

    @property
    def founding(self) -> Begins | None:
        """An opening's."""

    @property
    def rank(self) -> bytes:
        """A claim's."""

    @property
    def hashes(self) -> Sequence[bytes]:
        """The hashes of its messages."""

    @property
    def ons(self) -> Sequence[bytes]:
        """What each of them builds on."""


class MessageJudge:
    """The set of entries that came, and what counts of it."""

    def __init__(self, digest: Digest, entries: Iterable[Spoken] = (), ranks: Mapping[bytes, bytes] | None = None):
        self._digest = digest
        self.sayings, self.aside, self.base = Sayings(ranks), Aside(), Based()
        self.room = GivenBack()
        self.texts: dict[int, OneText] = {}
        # Who claims numbers; and who holds each, by which rank.
        self.claims: set[tuple[int, bytes]] = set()
        self._holders: dict[int, tuple[bytes, bytes]] = {}
        self.has_opening = self.has_begun = False
        # Rises where somebody claims a number, and where it is begun to let messages through.
        self.changes = 0
        for entry in entries:
            self.add(entry)

    # What comes.

    def add(self, entry: Spoken) -> Sequence[int]:
        """Adds an entry that was opened, and gives the numbers of those of its messages that weren't here, of the base among themselves.
        What is known already changes nothing, nor what says nothing of what counts."""
        if entry.kind == Speaks.MESSAGES:
            return self._say(entry, entry.hashes, entry.ons)
        if entry.kind == Speaks.CLAIM:
            self.claim(entry.site, entry.author, entry.rank)
        elif entry.kind == Speaks.BASE:
            new = self.base.add(entry)
            self._begin()
            return new
        elif entry.kind == Speaks.OPENING and entry.founding and not self.has_opening:
            self.has_opening = True
            self.base.begin(entry.founding.root)
            if 1 <= entry.founding.number <= GREATEST_NUMBER:
                # No rank is less.
                self.claim(entry.founding.number, entry.founding.founder, b"")
            self._begin()
        return ()

    def _say(self, entry: WithMessages, hashes: Sequence[bytes], ons: Sequence[bytes]) -> Sequence[int]:
        """Adds messages, and gives the numbers of those that weren't here."""
        new, client = self.sayings.add(entry, hashes, ons), Whose(entry.author, entry.site, entry.text)
        if new and self.has_begun and self.holder(client.site) == client.author:
            text = self._text(client.text)
            text.look(new[0], client)
            has = text.lines[client.site].has
            self.aside.add(client, [number for number in new if not has(number)])
        else:
            self.aside.add(client, new)
        return new

    def extend(self, begin: WithMessages, operations: Iterable[Operation], hashes: Sequence[bytes], ons: Sequence[bytes]) -> range | None:
        """Adds messages that begin with those of an entry, of who holds their number, which go on from the end of his line, where that
        doesn't wait and nobody has spoken of them; their numbers, or None where that isn't so."""
        client, sayings = Whose(begin.author, begin.site, begin.text), self.sayings
        if not self.has_begun or self.holder(client.site) != client.author:
            return None
        text = self._text(client.text)
        end = text.end(client.site)
        place = (NO_HASH, 1) if end is None else (sayings.hash(end), sayings.seq(end) + 1)
        if (begin.before, begin.first) != place or client.site in text.passage.blocked or client.site in text.passage.ended or (
                sayings.has_any(hashes)):
            return None
        numbers = sayings.extend(client, end, operations, hashes, ons)
        text.extend(client.site, numbers)
        return numbers

    def claim(self, site: int, author: bytes, rank: bytes) -> None:
        """Gives a number to who claims it, where nobody does by a lesser rank."""
        self.claims.add((site, author))
        self.changes += 1
        before = self._holders.get(site)
        if not self.would_hold(site, rank):
            return
        self._holders[site] = rank, author
        if self.has_begun and site not in self.base.sites and (before is None or before[1] != author):
            known = {number for number, text in self.texts.items() if site in text.lines}
            for text in sorted(known.union(self.sayings.texts(author, site))):
                self._text(text).begin(Whose(author, site, text))

    def _begin(self) -> None:
        """Begins to let messages through, once all of the base is there."""
        if self.has_begun or not self.base.is_whole:
            return
        self.has_begun = True
        self.changes += 1
        for client, line in self.base.lines():
            self._text(client.text).put(client.site, line)
        for client in self.sayings.clients():
            if self.holder(client.site) == client.author:
                self._text(client.text).begin(client)

    def _text(self, text: int) -> OneText:
        if text not in self.texts:
            self.texts[text] = OneText(text, self.sayings, self.base.sites, self._digest, self.aside, self.room)
        return self.texts[text]

    # What counts of it.

    def count(self) -> dict[int, Turn]:
        """What is otherwise since this was last asked, of each text where something is."""
        turns = {number: text.count() for number, text in sorted(self.texts.items())}
        return {number: turn for number, turn in turns.items() if turn.counting or turn.ceased}

    def in_order(self, text: int) -> Messages:
        """All messages of a text that count, each after its causes."""
        return self.texts[text].in_order() if text in self.texts else Messages()

    def holder(self, site: int) -> bytes | None:
        """Whose number this is; nobody's where the base has it."""
        return self.claimant(site) if site not in self.base.sites else None

    def claimant(self, site: int) -> bytes | None:
        """Who would hold a number, also one of the base."""
        found = self._holders.get(site)
        return found[1] if found else None

    def would_hold(self, site: int, rank: bytes) -> bool:
        """Whether a claim by this rank holds a number."""
        return site not in self._holders or rank < self._holders[site][0]

    @property
    def numbers(self) -> int:
        """How many numbers are claimed."""
        return len(self._holders)

    def held(self) -> set[int]:
        """All numbers that somebody holds, or that the base has."""
        return {*self._holders, *self.base.sites}

    def front(self, site: int, text: int) -> int:
        """How many messages of a number and a text count."""
        return self.texts[text].front(site) if text in self.texts else 0

    def hashes(self, site: int, text: int) -> Iterator[bytes]:
        """The hashes of those messages; of the base, what names them."""
        return self.texts[text].hashes(site) if text in self.texts else iter(())

    def __contains__(self, of: bytes) -> bool:
        number = self.sayings.number(of)
        return number is not None and self.sayings.is_here(number)

    def reason(self, of: bytes) -> Reason | None:
        """Why a message that is here doesn't count; None where it does."""
        sayings, number = self.sayings, self.sayings.number(of)
        if number is None or not sayings.is_here(number):
            raise KeyError(of)
        if not self.has_begun:
            return Reason.NO_OPENING
        root, (author, site, text) = sayings.root(number), sayings.client(number)
        if site in self.base.sites and root is not Root.MISPLACED:
            return Reason.BASE
        if root is not Root.ROOTED:
            return ROOTS[root]
        if self.holder(site) != author:
            return Reason.HOLDER if (site, author) in self.claims else Reason.UNCLAIMED
        return self.texts[text].reason(number, site)

    def unclaimed(self) -> Iterator[Whose]:
        """Of whom there are messages from the first one on, and no claim."""
        for client in self.aside.clients():
            if (client.site, client.author) not in self.claims and client.site not in self.base.sites and (
                    self.sayings.least(client) is not None):
                yield client

    def missing(self) -> Iterator[bytes]:
        """The hashes of the messages that are missing, after which others came."""
        return self.sayings.missing()
