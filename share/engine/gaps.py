"""Where an editor deleted something last, so that what is typed in its place stands inside what went: behind a first character of that,
and before the others. What others put before or behind all of it at the same time stays before or behind what is typed."""
from dataclasses import dataclass

from share.format.operation import Operation
from share.program.site import Rewrite, Site
from share.text.change import Change
from share.text.graphemes import inside
from share.text.names import Names
from share.text.rope import Measured


@dataclass
class Gap:
    """The place, in bytes; the characters, one to a reader, behind which what is typed there stands, and whether others went that
    stood behind these."""

    place: int
    before: list[Names]
    is_wide: bool

    def takes(self, places: range) -> bool:
        """Whether what is typed at one of some places is typed in this one."""
        return self.is_wide and self.place in places


class Cut:
    """A change that deletes and brings nothing, before it is made."""

    def __init__(self, change: Change, text: Measured, site: Site):
        self._change = change
        end, begin = inside(text.slice(change.begin, change.end))
        # Those of a single grapheme are told by the message.
        self._before = site.names(change.begin + begin, change.begin + end) if end else []

    def gap(self, messages: list[Operation], last: Gap | None) -> Gap:
        """The gap that is there after it was made, which goes on with the last one where that was beside it."""
        begin, end = self._change.begin, self._change.end
        if last and last.place == begin:
            return Gap(begin, last.before, True)
        before = self._before or [names for message in messages for names in message.mentions]
        return Gap(begin, before, bool(self._before) or last is not None and begin < last.place <= end)


def cut_by(changes: list[Change], text: Measured, site: Site) -> Cut | None:
    """What some changes are, where that is one that brings nothing."""
    if len(changes) == 1 and not changes[0].new and changes[0].begin < changes[0].end:
        return Cut(changes[0], text, site)
    return None


def rewrite_of(change: Change, text: Measured) -> Rewrite:
    """How a change is made at a site."""
    begin, end, new = change.begin, change.end, change.new
    return Rewrite(begin, end, new, inside(text.slice(begin, end))[0] if new and end > begin + 1 else 0)
