"""Records of one letter each that were typed one after the other, in columns, as nearly all are of a note that was typed by hand."""
from collections.abc import Iterator, Sequence

from share.admission.ledger import MOST_IN_RUN, Chained
from share.format.operation import Operation
from share.format.second.form import RecordForm
from share.format.second.record import RecordKind


class Letters(Chained):
    """Such records: the letters are one operation, and each has a message, of which these are the hashes."""

    def __init__(self, form: RecordForm, places: Sequence[int], hashes: Sequence[bytes], raws: Sequence[bytes], bodies: Sequence[bytes],
                 made: bool, operation: Operation, names: Sequence[bytes]):
        many = len(places)
        firsts = range(operation.seq, operation.seq + many)
        super().__init__(form, places, hashes, raws, bodies, bytes([RecordKind.MESSAGES]) * many, firsts, [1] * many, made)
        self.names, self._operation = names, operation

    def operations(self) -> Iterator[Operation]:
        """The letters, some at a time."""
        one = self._operation
        return (one.part(begin, min(begin + MOST_IN_RUN, one.size)) for begin in range(0, one.size, MOST_IN_RUN))
