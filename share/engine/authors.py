"""What the people of a note are called."""
from collections.abc import Iterable, Sequence

from share.program import retyping
from share.program.replay import Wrote
from share.program.retyping import Lost
from share.store import nicknames
from share.sync.session import Session
from share.text.line import Line


class Authors:
    """Who has which number, for the users. The engine's thread alone calls it."""

    def __init__(self, note: str, session: Session):
        self._note, self._session = note, session
        self._names = nicknames.known(note)

    def are_called(self, names: dict[int, str]) -> None:
        """Remembers what people are called, by their numbers."""
        if names.items() - self._names.items():
            self._names |= names
            nicknames.remember(self._note, self._names)

    def of(self, site: int) -> Line:
        """Who has a number."""
        line: Line = {"site": site, "own": self._session.is_own(site)}
        if name := self._names.get(site):
            line["name"] = name
        return line

    def stretches(self, wrote: Sequence[Wrote]) -> list[Line]:
        """Who wrote what."""
        return [{"begin": one.begin, "end": one.end, **self.of(one.site)} for one in wrote]

    def with_names(self, lines: Iterable[Line]) -> list[Line]:
        """These lines, with what their sites are called."""
        return retyping.with_names(lines, self._names)

    def lost(self, found: Iterable[Lost]) -> list[Line]:
        """What was left out, and whose it was."""
        return retyping.with_text(found, self._session.own(), self._names)
