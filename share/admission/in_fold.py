"""What is asked of a judge about folds: entries that have all messages of others."""
import math
from typing import NamedTuple

from share.admission.foldable import FoldableChain
from share.admission.ledger import Row
from share.format.operation import TEXT


class InFold(NamedTuple):
    """An entry all messages of which another one has, its fold, and more: the hashes of both, and whether they were made here."""

    hash: bytes
    made: bool
    fold: bytes
    fold_made: bool


class WithFolds:
    """What is folded: nothing in the first form, where what names a message is the hash of its entry."""

    def folded(self, since: int = 0) -> list[InFold]:
        """What is folded, in the order in which that was found, but for so many of the first."""
        return []

    def fold_of(self, of: bytes) -> bytes:
        """The hash of the fold that has all messages of an entry; that of the entry itself where none has."""
        return of

    def foldable(self, site: int, text: int = TEXT) -> FoldableChain | None:
        """The chain of a number, of whose entries that count some may be folded; None where it has none."""
        return None

    def add_fold(self, row: Row) -> None:
        """Adds a fold that was made here of entries which are here, too; what is folded in it is found as it is looked for."""

    def look_for_folded(self, most: float = math.inf) -> bool:
        """Looks for what is folded in such folds, at so many of their messages; whether at all of them by now."""
        return True
