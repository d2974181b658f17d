"""How much of what doesn't count of a note of the second form is kept in memory: half of it in equal parts for the numbers that are
claimed, half for all who hold none, and as much as both for what may be of the base, until that is whole. A record that may count at once
is always kept; of others what is too much is given back as it comes, and may be added again when its turn comes, so room never changes
what counts.
"""
import heapq

from share.admission.ledger import Row, Who
from share.admission.message_judge import MessageJudge
from share.admission.room import STRETCH_OVERHEAD, GivenBack
from share.admission.sayings import Whose
from share.format.entry import NO_HASH
from share.format.second.record import Record, RecordKind

# What a record and each of its messages cost beside what the record says.
RECORD_OVERHEAD, MESSAGE_OVERHEAD = 400, 250
OF_WHAT_WAS_MADE_ANEW = frozenset((RecordKind.ANEW, RecordKind.COPIES))


class RecordRoom(GivenBack):
    """What there is room for."""

    def __init__(self, size: int | None, judge: MessageJudge):
        super().__init__(size)
        self._judge = judge
        # How many bytes there are of what couldn't count as it came, by number and author, of those of them who don't hold the number,
        # and of what may be of the base; and the sites of that of which something was given back.
        self._weights: dict[Who, int] = {}
        self._of_others = self._of_base = 0
        self._lacking_base: set[int] = set()
        # Of each chain the records that couldn't count as they came, that whose last message has the least seq first: this, the hash of
        # the message, and their bytes.
        self._waiting: dict[Whose, list[tuple[int, bytes, int]]] = {}

    def admits(self, row: Row, entry: Record) -> bool:
        """Whether a record is to be kept; else it is given back."""
        if not self.is_bounded or row.made:
            return True
        if entry.kind in OF_WHAT_WAS_MADE_ANEW:
            many = len(entry.copied.stretches) if entry.kind is RecordKind.COPIES else 0
            weight, holds = RECORD_OVERHEAD + len(entry.body) + STRETCH_OVERHEAD * many, self._judge.holder(entry.site) == entry.author
            return self.admits_what_is_said(row, weight, holds, self._judge.numbers)
        if self._may_count(entry):
            return True
        weight = RECORD_OVERHEAD + MESSAGE_OVERHEAD * entry.size + len(entry.body)
        if self._is_too_much(entry, weight):
            self.give_back(row)
            if entry.kind is RecordKind.BASE:
                self._lacking_base.add(entry.site)
            return False
        self._charge(entry, weight)
        return True

    def _may_count(self, entry: Record) -> bool:
        """Whether a record may count as soon as it is added, or end the count of another one."""
        judge = self._judge
        if entry.kind is RecordKind.MESSAGES:
            return judge.holder(entry.site) == entry.author and self._goes_on(entry)
        if entry.kind is RecordKind.CLAIM:
            return judge.would_hold(entry.site, entry.rank)
        if entry.kind is RecordKind.BASE:
            return not judge.base.is_here and judge.base.missing() in entry.links
        return entry.kind is not RecordKind.OPENING or not judge.has_opening

    def _goes_on(self, entry: Record) -> bool:
        """Whether messages of who holds their number go on from the end of their line, which doesn't wait, or hold in the place of some
        in it."""
        judge, sayings = self._judge, self._judge.sayings
        text = judge.texts.get(entry.text)
        if text is None:
            return judge.has_begun and entry.before == NO_HASH
        first = next((at for at, of in enumerate(entry.hashes) if of not in judge), None)
        if first is None:
            # A fold of what holds is kept as that is.
            return self._holds(entry)
        before, place, line = entry.hashes[first - 1] if first else entry.before, 0, text.lines.get(entry.site)
        if before != NO_HASH:
            number = sayings.number(before)
            if line is None or number is None or not sayings.is_here(number) or not line.has(number):
                return False
            place = sayings.seq(number)
        if entry.first + first != place + 1:
            return False
        if line is None or place == len(line.branch):
            return entry.site not in text.passage.blocked and entry.site not in text.passage.ended
        return entry.hashes[first] < line.branch.hash(place)

    def _holds(self, entry: Record) -> bool:
        """Whether the messages of a record, which are all here, are in the line of who holds their number."""
        number, text = self._judge.sayings.number(entry.hashes[-1]), self._judge.texts.get(entry.text)
        line = text.lines.get(entry.site) if text else None
        return line is not None and number is not None and line.has(number)

    def _is_too_much(self, entry: Record, weight: int) -> bool:
        """Whether there is no room for so many bytes."""
        who = entry.site, entry.author
        if entry.kind is RecordKind.BASE and not self._judge.base.is_here:
            return self._of_base + weight > self._size
        if self._judge.holder(entry.site) != entry.author:
            return self._of_others + weight > self._size // 2
        share = self.share(self._judge.numbers)
        if self._weights.get(who, 0) + weight > share:
            self._release(who)
        return self._weights.get(who, 0) + weight > share

    def _release(self, who: Who) -> None:
        """Notes which records of a number and its holder count by now."""
        site, author = who
        for text in self._judge.sayings.texts(author, site):
            waiting, one = self._waiting.get(Whose(author, site, text), []), self._judge.texts.get(text)
            line = one.lines.get(site) if one else None
            while line and waiting and waiting[0][0] <= line.front:
                _, of, weight = heapq.heappop(waiting)
                number = self._judge.sayings.number(of)
                if number is not None and line.has(number):
                    self._weights[who] -= weight

    def _charge(self, entry: Record, weight: int) -> None:
        """Notes that a record is kept that can't count yet."""
        who = entry.site, entry.author
        if entry.kind is RecordKind.BASE and not self._judge.base.is_here:
            self._of_base += weight
            return
        self._weights[who] = self._weights.get(who, 0) + weight
        if self._judge.holder(entry.site) != entry.author:
            self._of_others += weight
        if entry.kind is RecordKind.MESSAGES:
            waiting = self._waiting.setdefault(Whose(entry.author, entry.site, entry.text), [])
            heapq.heappush(waiting, (entry.last, entry.hashes[-1], weight))

    # What makes room, or needs none any more.

    def changed_hands(self, site: int, before: bytes | None, after: bytes | None) -> None:
        """Notes that somebody else holds a number."""
        if before != after:
            for author, sign in (before, 1), (after, -1):
                self._of_others += sign * self._weights.get((site, author), 0) if author else 0
            self.moved(site)

    def base_moved(self) -> None:
        """Notes that more of the base was found."""
        for site in self._lacking_base:
            self.moved(site)
        self._lacking_base.clear()

    def begun(self) -> None:
        """Notes that all of the base is here, so that others may count."""
        self._of_base = 0
        for site in self.lacking:
            self.moved(site)
