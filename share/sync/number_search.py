"""The search for a number of a note in which one costs a search: it goes on in a process of its own, and one at a time."""
from collections.abc import Collection
from typing import NamedTuple

from share.format.entry import GREATEST_SITE, Author, Entry
from share.format.second.form import RecordForm
from share.log.polling import can_read
from share.program.claim_search import ClaimSearch
from share.text.errors import Trouble

NONE_FOUND_YET = "A number is being searched for under which to type here, which takes some seconds."


class FoundNumber(NamedTuple):
    """A number that a search found, under which an author can write, and the claim of it."""

    site: int
    author: Author
    claim: Entry


class NumberSearch:
    """Searches for numbers of a note, one after the other. The editor's thread alone calls it, but for `has_ended`."""

    def __init__(self, form: RecordForm):
        self._form, self._author = form, form.new_author()
        self._search: ClaimSearch | None = None
        # What was found and isn't kept yet.
        self._found: FoundNumber | None = None

    def begin(self, taken: Collection[int]) -> None:
        """Searches for a number that isn't taken, unless that is done already."""
        if self._search or self._found:
            return
        if len(taken) >= GREATEST_SITE:
            raise Trouble(f"All {GREATEST_SITE:,} numbers of this note are claimed. Copy it by bin/note renew.")
        self._author = self._form.new_author()
        self._search = ClaimSearch(self._form.note, self._author.name, taken, self._form.zero_bits)

    @property
    def goes_on(self) -> bool:
        """Whether a number is being searched for."""
        return self._search is not None

    def has_ended(self) -> bool:
        """Whether what it found is to be taken. Any thread may call it."""
        search = self._search
        try:
            return bool(search and can_read(search, 0))
        except (OSError, ValueError):
            # It was closed meanwhile.
            return False

    def is_ready(self) -> bool:
        """Whether something was found, or a search has ended."""
        return self._found is not None or self.has_ended()

    def found(self, taken: Collection[int]) -> FoundNumber | None:
        """What it found, until that is kept. Where somebody has claimed that number meanwhile another one is searched for; Trouble where
        it ended with nothing."""
        if self._found is None:
            if not self.has_ended():
                return None
            self._found = self._taken()
        if self._found.site in taken:
            self._found = None
            self.begin(taken)
        return self._found

    def _taken(self) -> FoundNumber:
        """What it ended with."""
        assert self._search
        try:
            found = self._search.found()
        finally:
            self.close()
        assert found
        return FoundNumber(found.site, self._author, self._form.claim(found.site, self._author, found.counter))

    def kept(self) -> None:
        """Notes that what it found is kept."""
        self._found = None

    def close(self) -> None:
        """Ends the search."""
        search, self._search = self._search, None
        if search:
            search.close()
