"""What was copied into a note of the second form as it began: its base, of which the opening says the last message."""
from array import array
from collections.abc import Sequence
from itertools import groupby
from typing import Protocol

from share.admission.lines import MessageChain
from share.admission.sayings import Whose, Sayings, WithMessages
from share.format.entry import NO_HASH


class WithLinks(WithMessages, Protocol):
    """An entry of the base."""

    @property
    def links(self) -> Sequence[bytes]:
        """What names each of its messages, with all before it."""


class Based:
    """The messages that may be of the base, and those that are, which are found from the last one back as they come."""

    def __init__(self) -> None:
        # Whether all of it is here, and in its order.
        self.is_here = self.is_whole = False
        self.sites: frozenset[int] = frozenset()
        self.sayings = Sayings()
        # What is found yet, the last message first, and what is before that.
        self._found, self._wanted = array("I"), b""

    def begin(self, root: bytes) -> None:
        """Speaks which message is the last one."""
        self._wanted = root
        self._look()

    def add(self, entry: WithLinks) -> Sequence[int]:
        """Adds what may be of the base; the numbers of the messages that weren't here."""
        if self.is_here:
            # Nothing else is a part of it.
            return []
        new = self.sayings.add(entry, entry.links, [b""] * len(entry.links))
        self._look()
        return new

    def missing(self) -> bytes:
        """What names the last message that is missing, as far as it is known; nothing where none is."""
        return b"" if self._wanted == NO_HASH else self._wanted

    def _look(self) -> None:
        """Goes on back, as far as messages are here."""
        sayings = self.sayings
        while self._wanted not in (b"", NO_HASH) and (number := sayings.number(self._wanted)) is not None and sayings.is_here(number):
            self._found.append(number)
            before = sayings.before(number)
            self._wanted = NO_HASH if before is None else sayings.hash(before)
        if self._wanted == NO_HASH:
            self.is_here, self.is_whole = True, self._is_in_order()
        if self.is_whole:
            self.sites = frozenset(sayings.client(number).site for number in self._found)

    def _is_in_order(self) -> bool:
        """Whether messages are by text and site, those of each from seq 1 on."""
        places, before = list[tuple[int, int]](), 0
        for number in reversed(self._found):
            _, site, text = self.sayings.client(number)
            if not places or places[-1] != (text, site):
                places.append((text, site))
                before = 0
            if self.sayings.seq(number) != before + 1:
                return False
            before += 1
        return all(one < other for one, other in zip(places, places[1:]))

    def lines(self) -> list[tuple[Whose, MessageChain]]:
        """The lines of its sites, where all of it is here."""
        stretches = groupby(reversed(self._found), self.sayings.client)
        return [(client, MessageChain(self.sayings, client.site, client.text, numbers)) for client, numbers in stretches]
