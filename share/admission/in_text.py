"""What is asked of one text of a note of the second form, as copies are looked at."""
from bisect import bisect_left

from share.admission.lines import MessageChain
from share.admission.message_judge import MessageJudge
from share.admission.twigs import Twig, Twigs
from share.format.entry import NO_HASH
from share.format.operation import Operation


class InText:
    """A text, of which all is let through that can be, as it is now."""

    def __init__(self, judge: MessageJudge, twigs: Twigs, text: int):
        self._sayings, self._twigs, self._texts, self._text = judge.sayings, twigs, judge.texts, text
        # How many messages of each twig are a message that is named or before it, by that, and the message of a line below them.
        self._below: dict[bytes, tuple[dict[int, int], int | None]] = {}

    def front_up_to(self, author: bytes, site: int, last: bytes) -> int:
        """How many messages of an author and site are let through that are the one that is named or before it; all where none is."""
        line = self._line(site)
        if line is None or not line.branch.numbers or line.client.author != author:
            return 0
        if last == NO_HASH:
            return line.front
        below = self._down(last)[1]
        return min(line.front, self._sayings.seq(below)) if below is not None and self._is_of(line, below) else 0

    def message(self, site: int, seq: int) -> Operation:
        """A message that is let through."""
        line = self._line(site)
        if line is None or not 0 < seq <= line.front:
            raise KeyError((site, seq))
        return line.message(seq)

    def chained_up_to(self, some: Twig, last: bytes) -> int:
        """The seq up to which messages are the one that is named or before it; 0 where none is."""
        if some.sayings is not self._sayings:
            # Nobody names messages of the base.
            return 0
        # Where one is, those before it are.
        count = bisect_left(some.numbers, True, key=lambda number: not self.is_chained(number, last))
        return some.first + count - 1 if count else 0

    def is_chained(self, number: int, last: bytes) -> bool:
        """Whether a message is the one that is named, or before it."""
        found, below = self._down(last)
        if twig := self._twigs.twig(number):
            return found.get(id(twig), 0) > self._sayings.seq(number) - twig.first
        return (below is not None and self._sayings.client(below) == self._sayings.client(number)
                and self._sayings.seq(number) <= self._sayings.seq(below))

    def before(self, last: bytes, seq: int) -> int | None:
        """The message of a seq that is the one that is named, or before it."""
        sayings = self._sayings
        for twig, number in self._twigs.down(sayings.number(last)):
            if twig is None:
                # What follows a message of another text is in no line, but may be spoken of.
                _, site, text = sayings.client(number)
                return self._texts[text].lines[site].branch.numbers[seq - 1] if 0 < seq <= sayings.seq(number) else None
            if twig.first <= seq < twig.first + number:
                return twig.numbers[seq - twig.first]
        return None

    def _is_of(self, line: MessageChain, number: int) -> bool:
        """Whether a message is in a line that isn't of the base."""
        return line.branch.sayings is self._sayings and line.has(number)

    def _down(self, last: bytes) -> tuple[dict[int, int], int | None]:
        """How many messages of each twig are a message that is named or before it; and the message of a line below them."""
        if last not in self._below:
            found, below = dict[int, int](), None
            for twig, number in self._twigs.down(self._sayings.number(last)):
                if twig:
                    found[id(twig)] = number
                else:
                    below = number
            self._below[last] = found, below
        return self._below[last]

    def _line(self, site: int) -> MessageChain | None:
        one = self._texts.get(self._text)
        return one.lines.get(site) if one else None
