"""What is folded of a file's entries, and which of it is to be taken out of the log."""
import threading
from collections.abc import Iterator, Sequence
from itertools import groupby
from operator import attrgetter
from typing import NamedTuple

from share.admission.hashes import HASH_BYTES
from share.admission.in_fold import InFold
from share.admission.ledger import HASH_OF


class OfFold(NamedTuple):
    """A fold, and whether it stands for what is folded in it on this disk, too: what was made here does where that was."""

    hash: bytes
    stands_here: bool


class Folded:
    """The hashes of what is folded, by those of the folds. The editor's thread adds to them; any thread may call the rest."""

    def __init__(self) -> None:
        self._lock = threading.Lock()
        self._hashes: dict[OfFold, bytearray] = {}
        # What wasn't looked for in the log yet.
        self._new: dict[bytes, bytearray] = {}
        # What came back that was made here, and of which the file has no more than the fold.
        self._again: set[bytes] = set()

    def add(self, found: Sequence[InFold]) -> None:
        """Adds what was found to be folded."""
        with self._lock:
            for (fold, fold_made, made), some in groupby(found, attrgetter("fold", "fold_made", "made")):
                hashes = b"".join(map(HASH_OF, some))
                self._hashes.setdefault(OfFold(fold, fold_made or not made), bytearray()).extend(hashes)
                if fold_made and not made:
                    self._again.update(_in_hashes(hashes))

    def look_for(self, found: Sequence[InFold]) -> None:
        """Has what was found to be folded be looked for in the log."""
        with self._lock:
            for fold, some in groupby(found, attrgetter("fold")):
                self._new.setdefault(fold, bytearray()).extend(b"".join(map(HASH_OF, some)))

    def clear(self) -> None:
        """Nothing is known to be folded, until it is found again."""
        with self._lock:
            self._hashes.clear()
            self._new.clear()
            self._again.clear()

    def each(self) -> Iterator[list[bytes]]:
        """All that is folded, some at a time."""
        with self._lock:
            found = [*map(bytes, self._hashes.values())]
        return map(_in_hashes, found)

    def came_back(self) -> frozenset[bytes]:
        """What came back that was made here."""
        with self._lock:
            return frozenset(self._again)

    def kept_with_folds(self) -> dict[bytes, list[bytes]]:
        """What a file needs no more where it has the folds, by these."""
        with self._lock:
            return {fold.hash: _in_hashes(hashes) for fold, hashes in self._hashes.items() if fold.stands_here}

    def new(self) -> dict[bytes, list[bytes]]:
        """What wasn't looked for in the log, by the folds."""
        with self._lock:
            return {fold: _in_hashes(hashes) for fold, hashes in self._new.items()}

    def looked_for(self, fold: bytes, many: int) -> None:
        """Says that the first so many of what is folded in one were looked for in the log."""
        with self._lock:
            if hashes := self._new.pop(fold, bytearray())[many * HASH_BYTES:]:
                self._new[fold] = hashes


def _in_hashes(hashes: bytes | bytearray) -> list[bytes]:
    return [bytes(hashes[at:at + HASH_BYTES]) for at in range(0, len(hashes), HASH_BYTES)]
