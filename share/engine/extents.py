"""Where in the text of now an editor's edits are, for an undo within a stretch of it."""
from collections import deque
from collections.abc import Iterator
from contextlib import contextmanager

from share.text.change import Change

# The most changes of the text, of whomever, that are remembered: edits before them are in no stretch.
MOST_CHANGES = 10_000


class Extents:
    """The changes of the text since an editor opened it, from which a stretch of now is followed back. The engine's thread alone
    calls it."""

    def __init__(self) -> None:
        # From where to where something gave way, by how many bytes, and the key of the step of undo that this is of, if any.
        self._changes: deque[tuple[int, int, int, int | None]] = deque()
        self._of: int | None = None
        # The last step a part of which is forgotten.
        self._forgotten: int | None = None

    @contextmanager
    def are_of(self, step: int | None) -> Iterator[None]:
        """Takes the changes that come meanwhile for those of a step."""
        self._of = step
        try:
            yield
        finally:
            self._of = None

    def changed(self, change: Change) -> None:
        """Remembers a change of the text."""
        self._changes.append((change.begin, change.end, len(change.new), self._of))
        if len(self._changes) > MOST_CHANGES:
            *_, step = self._changes.popleft()
            self._forgotten = self._forgotten if step is None else step

    def within(self, begin: int, end: int) -> set[int]:
        """The keys of the steps all of whose changes were made within a stretch of the text of now."""
        found: dict[int, bool] = {}
        for first, last, size, step in reversed(self._changes):
            if step is not None:
                found[step] = found.get(step, True) and begin <= first and first + size <= end
            grew = size - (last - first)
            # What came in at an end of the stretch is within it where its change was, and what stood there before, too.
            begin = begin if begin <= first else begin - grew if begin >= first + size else last
            end = end - grew if end >= first + size else end if end <= first else first
        return {step for step, is_within in found.items() if is_within and step != self._forgotten}
