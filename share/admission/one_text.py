"""What counts of one text of a note of the second form."""
from collections.abc import Collection, Iterable, Iterator, Sequence
from typing import NamedTuple

from share.admission.aside import Aside
from share.admission.building import Building, Digest
from share.admission.chain import last_of_others
from share.admission.chains import Outcome
from share.admission.lines import MessageChain, Path
from share.admission.passage import Passage
from share.admission.reasons import REASONS, Reason
from share.admission.room import GivenBack
from share.admission.sayings import Whose, Sayings
from share.format.history import Messages, Part
from share.format.operation import Operation


class Turn(NamedTuple):
    """What is otherwise since this was last asked: the messages that count now and didn't, each after its causes, and those that
    count no more."""

    counting: Messages
    ceased: Messages


class OneText:
    """The lines of a text, and what is let through of them."""

    def __init__(self, text: int, sayings: Sayings, base_sites: Collection[int], digest: Digest, aside: Aside, room: GivenBack):
        self.text = text
        self.lines: dict[int, MessageChain] = {}
        self._sayings, self._aside = sayings, aside
        self.causes = Building(self.lines, base_sites, digest)
        self.passage = Passage(self.lines, room, self.causes)
        # What was told to count, of each site: its path, and up to where.
        self._told: dict[int, tuple[Path, int]] = {}

    # What comes.

    def put(self, site: int, line: MessageChain) -> None:
        """Puts a line into its place, which nothing changes any more."""
        self.lines[site] = line
        self.passage.stir(site)

    def begin(self, client: Whose) -> None:
        """Gives a number to who holds it now: his messages count in place of those before."""
        line = self._line(client.site)
        is_anew = bool(len(line.branch)) and self._cut(line, 0)
        self._aside.take(client, line.go_on(client))
        self._take(client.site, Outcome.ANEW if is_anew else Outcome.CUT)

    def look(self, number: int, client: Whose) -> None:
        """Looks where a message goes that came, of who holds its number."""
        line, at = self._line(client.site), self._sayings.seq(number) - 1
        numbers = line.branch.numbers
        before = self._sayings.before(number)
        if at > len(numbers) or at and before != numbers[at - 1]:
            return
        least = self._sayings.least_after(numbers[at - 1]) if at else self._sayings.least(client)
        if at < len(numbers) and numbers[at] == least:
            return
        outcome = Outcome.LONGER
        if at < len(numbers):
            outcome = Outcome.ANEW if self._cut(line, at) else Outcome.CUT
        self._aside.take(client, line.go_on(client))
        self._take(client.site, outcome)

    def end(self, site: int) -> int | None:
        """The last message of a site's line; None where it has none."""
        line = self.lines.get(site)
        return line.branch.numbers[-1] if line and line.branch.numbers else None

    def extend(self, site: int, numbers: Iterable[int]) -> None:
        """Lengthens a line by messages that go on from its end, after which there are none."""
        self._line(site).branch.numbers.extend(numbers)
        self._take(site, Outcome.LONGER)

    def _cut(self, line: MessageChain, at: int) -> bool:
        """Takes the messages from a place on out of a line; whether all has to be let through anew."""
        gone = line.branch.numbers[at:]
        self._aside.add(self._sayings.client(gone[0]), gone)
        return line.cut(at)

    def _line(self, site: int) -> MessageChain:
        if site not in self.lines:
            self.lines[site] = MessageChain(self._sayings, site, self.text)
        return self.lines[site]

    def _take(self, site: int, outcome: Outcome) -> None:
        """Looks again at a line that isn't as it was."""
        if outcome is not Outcome.LONGER:
            self.passage.forget(site)
            if outcome is Outcome.ANEW:
                self.passage.begin_anew()
        self.passage.stir(site)

    # What counts.

    def count(self) -> Turn:
        """What is otherwise since this was last asked."""
        self.passage.let_through()
        is_anew = self.passage.is_anew
        out = self.passage.taken()
        turn = self._compared(out) if is_anew else Turn(out, Messages())
        for part in out.parts():
            path = part.holder
            assert isinstance(path, Path)
            self._told[path.site] = path, part.end
        return turn

    def _compared(self, out: Messages) -> Turn:
        """What is otherwise where all was let through anew."""
        ceased, counted = Messages(), dict[int, int]()
        for site, (path, end) in self._told.items():
            line = self.lines[site]
            counted[site] = line.branch.shared(path, min(end, line.front))
            ceased.add(Part(path, counted[site], end))
        self._told.clear()
        counting = Messages()
        for holder, begin, end in out.parts():
            assert isinstance(holder, Path)
            known = counted.get(holder.site, 0)
            if end > known:
                counting.add(Part(holder, max(begin, known), end))
        return Turn(counting, ceased)

    def let_through(self) -> None:
        """Lets through what can be of what came."""
        self.passage.let_through()

    def in_order(self) -> Messages:
        """All messages that count, each after its causes."""
        self.passage.let_through()
        return self.passage.in_order()

    def front(self, site: int) -> int:
        """How many messages of a site count."""
        self.passage.let_through()
        return self.lines[site].front if site in self.lines else 0

    def hashes(self, site: int) -> Iterator[bytes]:
        """The hashes of the messages of a site that count."""
        front = self.front(site)
        return map(self.lines[site].branch.hash, range(front)) if front else iter(())

    def built_on(self, site: int, messages: Sequence[Operation], before: Sequence[Operation]) -> dict[int, bytes]:
        """What messages build on that go on from a site's line, and from others that are to follow it, by the indexes of those that have
        to say it."""
        ons, index = dict[int, bytes](), 0
        seen = None
        for run in messages:
            if last_of_others((run,)):
                seen = self._line(site).mentioned(before) if seen is None else seen
                if beyond := self.causes.beyond(run, seen):
                    ons[index] = self.causes.built_on(beyond)
                    seen.update(beyond)
            index += run.size
        return ons

    def reason(self, number: int, site: int) -> Reason | None:
        """Why a message of who holds its number doesn't count; None where it does."""
        self.passage.let_through()
        line, place = self.lines[site], self._sayings.seq(number) - 1
        if place >= len(line.branch) or line.branch.numbers[place] != number:
            return Reason.BRANCH
        if place < line.front:
            return None
        run = line.next() if place == line.front else None
        if run is None:
            return Reason.WRONG if line.ended and place == line.front else Reason.AFTER
        return REASONS[self.causes.verdict(line, run, self.passage.greatest)]
