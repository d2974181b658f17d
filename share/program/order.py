"""All characters that a text ever had, in their order, shown or not: no event of the program tells where a hidden one stands. So a second
run of it is handed the insertions alone, of which it shows all; a character's place among all decides its place among those that are
shown. Nothing is ever made there."""
import threading
from contextlib import suppress

from share.format.history import Messages
from share.format.operation import Operation
from share.program.site import Site
from share.text.errors import Trouble
from share.text.names import Name, Names

# The number under which it runs, which nothing hangs on.
ORDERING = 1
# How many characters before one are looked at first, and by how much more each time none of them is shown.
LOOKED_BEFORE, TIMES_MORE = 64, 8


class FullOrder:
    """The order of all characters of a history, as far as it was taken in. Any thread may call it."""

    def __init__(self) -> None:
        self._lock = threading.Lock()
        self._site: Site | None = None
        # Which history it is, how many messages of it were taken in, and how many insertions of each site.
        self._of: object = None
        self._many, self._seqs = 0, dict[int, int]()

    def lacks(self, of: object, many: int) -> int:
        """How many messages of a history, which begins anew as another one, aren't taken in."""
        return many - self._many if of is self._of and many >= self._many else many

    def take(self, of: object, messages: Messages) -> None:
        """Takes in what it lacks of a history's messages."""
        with self._lock:
            if self.lacks(of, len(messages)) == len(messages):
                self._end()
                self._of = of
            try:
                self._site = self._site or Site(ORDERING)
                self._site.take(self._insertions(messages[self._many:]))
                self._many = len(messages)
            except BaseException:
                # It may have taken in a part.
                self._end()
                raise

    def _insertions(self, new: Messages) -> list[Operation]:
        """The insertions of messages, with seqs as if there were no others."""
        found = list[Operation]()
        for run in new.runs():
            if run.data:
                seq = self._seqs.get(run.site, 0)
                found.append(run._replace(seq=seq + 1))
                self._seqs[run.site] = seq + run.size
        return found

    def place(self, name: Name, site: Site) -> int | None:
        """Where a character of the history that was taken in would be shown at a site that has just that one; None where it isn't there
        yet."""
        with self._lock:
            assert self._site
            (found,) = self._site.where([Names(*name, 1)])
            if not found:
                return None
            end, many = found[0].position, LOOKED_BEFORE
            while end > 0:
                begin = max(0, end - many)
                before = self._site.names(begin, end)
                if shown := [one for one in site.where(before) if one]:
                    # The last one before it that is shown.
                    return shown[-1][-1].position + len(shown[-1][-1].data)
                end, many = begin, many * TIMES_MORE
            return 0

    def close(self) -> None:
        """Ends the run of the program."""
        with self._lock:
            self._end()

    def _end(self) -> None:
        if self._site:
            with suppress(Trouble):
                self._site.close()
        self._site, self._of, self._many, self._seqs = None, None, 0, {}
