"""The editors of others that are on: what they are called, and where their cursors are."""
import time
from collections.abc import Callable, Sequence
from dataclasses import dataclass

from share.format import presence
from share.format.presence import AT_FRONT, NamedPlace, Present
from share.program.site import Site
from share.text.change import Change
from share.text.line import Line
from share.text.names import Names

# The most editors of others that are shown.
MOST_OTHERS = 200
# The time between two searches for a character that isn't here yet, and how many searches there are.
SEARCH_SECONDS, SEARCHES = 0.3, 30


@dataclass
class _Other:
    """An editor of somebody else, and its places in bytes, as far as they are known."""

    who: int
    said: Present
    cursor: int | None = None
    anchor: int | None = None
    # How many searches are left for what it said last, and when the next one is due.
    searches: int = SEARCHES
    due: float = 0.0


class OtherEditors:
    """Others' editors, by their tokens. The engine's thread alone calls it."""

    def __init__(self, new_who: Callable[[], int]):
        self._new_who = new_who
        self._others: dict[bytes, _Other] = {}
        self._said: Sequence[bytes] = ()

    def heard(self, said: Sequence[bytes], site: Site) -> None:
        """Takes over what others say."""
        if said is not self._said:
            self._said = said
            read = {one.editor: one for one in map(presence.read_presence, said[:MOST_OTHERS]) if one}
            for token in self._others.keys() - read.keys():
                del self._others[token]
            for token, one in read.items():
                self._take(token, one)
        for other in self._others.values():
            if other.searches and time.monotonic() >= other.due:
                self._find(other, site)

    def _take(self, token: bytes, one: Present) -> None:
        other = self._others.get(token)
        if other is None:
            self._others[token] = _Other(self._new_who(), one)
        elif other.said != one:
            if (other.said.text, other.said.cursor, other.said.anchor) != (one.text, one.cursor, one.anchor):
                other.searches, other.due = SEARCHES, 0.0
            other.said = one

    def _find(self, other: _Other, site: Site) -> None:
        """Finds where the characters are shown before the cursor and the other end. One that isn't here yet is searched
        again; one that was deleted leaves its place. Of another text nothing is shown: its characters have the names of others here."""
        cursor, anchor = (other.said.cursor, other.said.anchor) if other.said.text == site.text_number else (None, None)
        places = [self._place(site, one) for one in (cursor, anchor)]
        is_found = all(place is not None or one is None for place, one in zip(places, (cursor, anchor)))
        other.searches, other.due = 0 if is_found else other.searches - 1, time.monotonic() + SEARCH_SECONDS
        other.cursor = None if cursor is None else other.cursor if places[0] is None else places[0]
        other.anchor = None if anchor is None else other.anchor if places[1] is None else places[1]

    @staticmethod
    def _place(site: Site, one: NamedPlace | None) -> int | None:
        if one is None or one == AT_FRONT:
            return None if one is None else 0
        found = site.where([Names(one[0], one[1], 1)])[0]
        return found[0].position + 1 if found else None

    def moved(self, change: Change, names: list[Names] | None) -> None:
        """Moves their places along with a change; the cursor of who types goes behind what was typed."""
        for other in self._others.values():
            typed = bool(names) and change.begin == change.end == other.cursor and all(
                one.site == other.said.site for one in names or ())
            if other.cursor is not None:
                other.cursor, other.anchor = change.moved_both(other.cursor, other.anchor)
            if typed:
                other.cursor = change.begin + len(change.new)

    def names(self) -> dict[int, str]:
        """What they are called, by their sites."""
        return {other.said.site: other.said.name for other in self._others.values() if other.said.name}

    def colours(self) -> list[str]:
        """Their colours."""
        return [other.said.colour for other in self._others.values()]

    def people(self) -> list[Line]:
        """Who they are."""
        return [{"who": other.who, "name": other.said.name, "colour": other.said.colour, "site": other.said.site,
                 "own": False} for other in self._others.values()]

    def cursors(self, position: Callable[[int], int]) -> list[Line]:
        """Their cursors that are shown, by positions in an editor's units."""
        found = []
        for other in self._others.values():
            if other.cursor is not None:
                line = {"who": other.who, "name": other.said.name, "colour": other.said.colour,
                        "at": position(other.cursor)}
                if other.anchor is not None:
                    line["anchor"] = position(other.anchor)
                found.append(line)
        return found
