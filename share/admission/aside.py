"""Messages of the second form that are in no line: they lack one before them, their author doesn't hold the number, or another branch
holds."""
from collections.abc import Collection, Iterable

from share.admission.sayings import Whose


class Aside:
    """The numbers of these messages, by whose they are. `changes` rises where others are."""

    def __init__(self) -> None:
        self.changes = 0
        self._of: dict[Whose, set[int]] = {}
        self._changed: set[Whose] = set()

    def add(self, client: Whose, numbers: Iterable[int]) -> None:
        """Adds messages."""
        if some := {*numbers}:
            self._of.setdefault(client, set()).update(some)
            self.changes += 1
            self._changed.add(client)

    def take(self, client: Whose, numbers: Iterable[int]) -> None:
        """Takes those out that are in a line now."""
        if found := self._of.get(client):
            before = len(found)
            found.difference_update(numbers)
            if len(found) < before:
                self.changes += 1
                self._changed.add(client)
            if not found:
                del self._of[client]

    def clients(self) -> Collection[Whose]:
        """Whose messages they are."""
        return self._of.keys()

    def changed(self) -> Collection[Whose]:
        """Those of whom others are aside since this was last asked."""
        changed, self._changed = self._changed, set()
        return changed

    def of(self, client: Whose) -> Collection[int]:
        """Those of a client."""
        return self._of.get(client, ())
