"""What is typed and deleted where that is to be suggested: it isn't done, but gathered, as long as it goes on at one place, into one
suggestion. All editors join it so; share/engine/vectors has the cases."""
import re
from typing import NamedTuple

from share.editors.terminal.layout import clusters
from share.editors.threads import stretch_after
from share.text.change import Change

LAST_WORD = re.compile(r"(\S+\s*|\s+)\Z")


class Meant(NamedTuple):
    """What a user's key would do: a text takes the place of a stretch. Of a key that deletes backwards, how many signs that would take."""

    begin: int
    end: int
    new: str
    back: int = 0


class Gathered(NamedTuple):
    """A suggestion that isn't sent yet."""

    begin: int
    end: int
    new: str


def joined(before: Gathered, meant: Meant) -> Gathered | None:
    """What is gathered with what a key would do besides; None where that is elsewhere."""
    if meant.end < before.begin or before.end < meant.begin:
        return None
    if _takes_typed(before, meant):
        return before._replace(new=_without_last(before.new, meant.back))
    return Gathered(min(before.begin, meant.begin), max(before.end, meant.end), before.new + meant.new)


def _takes_typed(before: Gathered, meant: Meant) -> bool:
    """Whether a key takes back what was typed, which is seen behind the stretch."""
    return bool(meant.back and before.new and meant.end == before.end)


def _without_last(text: str, back: int) -> str:
    """A text without its last sign; or its last word, by a key that takes more."""
    return "".join(clusters(text)[:-1]) if back == 1 else LAST_WORD.sub("", text)


class Gathering:
    """What is gathered, in an editor's units."""

    def __init__(self) -> None:
        self.now: Gathered | None = None

    def add(self, meant: Meant) -> tuple[Gathered | None, int]:
        """Adds what a key would do; what is to be sent, since this is elsewhere, and where the cursor is then."""
        before = self.now
        after = joined(before, meant) if before else None
        done = before if after is None else None
        one = after or Gathered(meant.begin, meant.end, meant.new)
        is_behind = bool(meant.new) or bool(before and after and _takes_typed(before, meant))
        self.now = one if one.begin < one.end or one.new else None
        return done, one.end if is_behind else meant.begin if meant.back else meant.end

    def taken(self) -> Gathered | None:
        """What is gathered, and isn't any more."""
        one, self.now = self.now, None
        return one

    def follow(self, change: Change) -> None:
        """Moves along with a change of the text."""
        if one := self.now:
            begin, end = stretch_after(one.begin, one.end, change)
            self.now = one._replace(begin=begin, end=end) if begin < end or one.new else None
