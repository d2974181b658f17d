"""A text as an editor shows it, with the names of its characters."""
from collections.abc import Iterable, Sequence

from share.engine.shared_text import change_in_units, changes_in
from share.engine.transform import op_of
from share.program.difference import Shown, differences_by
from share.text.change import change as difference
from share.text.delta import Op, of_changes
from share.text.names import Names
from share.text.rope import Measured
from share.text.units import Units

# The site of characters that are in no message. No site has this number.
NO_SITE = 0


class NamedText:
    """A text that an editor changes. If no names are given, it has only the text."""

    def __init__(self, data: bytes, names: Iterable[Names] | None = None):
        self.measured = Measured(data)
        self._names = None if names is None else [*names]

    def edit(self, changes: Sequence[tuple[int, int, str]], units: Units, new: Sequence[Names] = ()) -> None:
        """Make an edit. `new` has the names of the inserted characters in the order of the text, if they are known."""
        made = changes_in(self.measured, op_of(changes, self.measured.length(units), units), units)
        if self._names is not None:
            sizes = [len(one.new) for one in reversed(made)]
            is_known = sum(sizes) == sum(one.length for one in new)
            found = _names_in_parts(new, sizes) if is_known else [[Names(NO_SITE, 0, size)] for size in sizes]
            for one, names in zip(made, reversed(found)):
                self._names = [*_names_between(self._names, 0, one.begin), *names, *_names_after(self._names, one.end)]
        for one in made:
            self.measured.replace(self.measured.whole(one))

    def until(self, now: Shown, units: Units) -> Op:
        """Return the change from this text to the text that is shown now."""
        before = Shown(self.measured.as_note(), self._names or [], now.messages)
        found = differences_by(before, now) if self._names is not None else None
        if found is None:
            found = [difference(before.text, now.text)]
        measured, made = Measured(before.text), list[tuple[int, int, bytes]]()
        for one in found:
            whole = measured.whole(one)
            made.append(change_in_units(measured, whole, units))
            measured.replace(whole)
        return of_changes([one for one in made if one[0] < one[1] or one[2]], units)


def _names_between(names: Iterable[Names], begin: int, end: int) -> Iterable[Names]:
    """Yield the names between two places in their row."""
    at = 0
    for one in names:
        first, last = max(begin, at), min(end, at + one.length)
        if first < last:
            yield Names(one.site, one.at + first - at, last - first)
        at += one.length
        if at >= end:
            return


def _names_after(names: Iterable[Names], begin: int) -> Iterable[Names]:
    return _names_between(names, begin, 1 << 60)


def _names_in_parts(names: Sequence[Names], sizes: Iterable[int]) -> list[list[Names]]:
    """Split names into parts of these sizes."""
    found, at = list[list[Names]](), 0
    for size in sizes:
        found.append([*_names_between(names, at, at + size)])
        at += size
    return found
