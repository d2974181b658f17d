"""What doesn't count, as it is told.

- **Left out.** What a smaller hash keeps from counting, and what builds on that, is told, unless a copy of it counts, or its
  author, who says of nothing what stands for it, says that it was made anew.
- **Made anew.** An author who knows that his messages will never count, since what they build on was never sent,
  makes them anew under another number, and says so of the first ones: of those up to an entry of his. They aren't
  waited for then. It is nothing but a word: where they do count they go on counting.
- **Incomplete.** All else that came and isn't let through lacks something that may yet come.
"""
from bisect import bisect_left, bisect_right
from collections.abc import Iterable, Iterator, Sequence
from typing import NamedTuple

from share.admission.causes import LEAP
from share.admission.chain import Chain, last_of_others
from share.admission.chains import Chains
from share.admission.copies import Copies, Counting, MessagesInARow, SomeMessages
from share.admission.passage import Passage
from share.admission.statements import Statements
from share.format.entry import Entry, Kind


class LeftOut(NamedTuple):
    """Messages of a site and author that were left out: the seqs of the first and the last one, how many they are, how many characters
    they inserted, and in which text."""

    site: int
    author: bytes
    first: int
    last: int
    messages: int
    characters: int
    text: int = 1


class Uncounted:
    """What isn't let through, and which of it was left out. What was told of that holds until something changes that it hangs on."""

    def __init__(self, statements: Statements, chains: Chains, passage: Passage[Chain]):
        self._statements, self._chains, self._passage = statements, chains, passage
        self._ledger, self._outside, self._copies = chains.ledger, chains.outside, statements.copies
        self._incomplete: int | None = None
        self._left_out: list[LeftOut] | None = None
        self._changes = (0, 0, 0)
        # Where what lost its place ends that its number didn't come to yet, by the sites; they rise.
        self._ends_of_lost: dict[int, list[int]] = {}
        # How many characters entries inserted that aren't let through, of those that this was asked of.
        self._typed_by: dict[int, int] = {}

    def incomplete(self) -> int:
        """How many messages came that something is missing for. What builds on what was left out isn't among
        them: nothing that comes could make it count."""
        self._look_again()
        if self._incomplete is None:
            held = [self._held_up(site) for site in self._passage.blocked - self._built_on_what_was_left_out()]
            self._incomplete = sum(end - begin for begin, end in held) + self._outside.loose_messages
        return self._incomplete

    def left_out(self) -> list[LeftOut]:
        """What doesn't count since a smaller hash holds in its place, and what builds on that; without what a copy stands
        for that counts."""
        self._look_again()
        if self._left_out is None:
            self._ends_of_lost.clear()
            self._left_out = joined_stretches([*self._lost(), *self._after_what_was_lost()])
            for ends in self._ends_of_lost.values():
                ends.sort()
        return self._left_out

    def held_up(self, site: int) -> list[Entry]:
        """The entries of a site's chain that aren't let through as a whole, without what is wrong, and without those
        whose author says that they were made anew."""
        if site not in self._passage.blocked:
            return []
        begin, _ = self._held_up(site)
        branch = self._chains.by_site[site].branch
        return [*map(self._ledger.entry, branch.numbers[branch.at_seq(begin + 1):])]

    def _look_again(self) -> None:
        """Forgets what was told, where it may be so no more."""
        changes = self._statements.changes, self._chains.changes, self._passage.changes
        passed = self._passage.first_passed()
        if changes != self._changes or any(self._hangs_on(site, first) for site, first in passed.items()):
            self._changes, self._incomplete, self._left_out = changes, None, None

    def _hangs_on(self, site: int, first: int) -> bool:
        """Whether what was told hangs on a site's messages from one on, as far as they are let through: copies are among them, or
        something that lost its place ends there."""
        ends = self._ends_of_lost.get(site, ())
        return first <= self._copies.sites.get(site, 0) or (
            bisect_left(ends, first) < bisect_right(ends, self._chains.by_site[site].front))

    def _held_up(self, site: int, is_told: bool = False) -> tuple[int, int]:
        """The messages of a site that aren't let through, but those of which it is said that they were made anew: after
        which seq they begin, and which the last one is. Where it is told what was left out it is looked at which messages
        stand for which, if that is said."""
        chain = self._chains.by_site[site]
        who = self._ledger.client(chain.branch.numbers[0])
        said = self._statements.made_anew_without_copies(who) if is_told else self._statements.made_anew(who)
        found = [chain.branch.at(number) for of in said if (number := self._ledger.number(of)) is not None]
        up_to = max([chain.branch.lasts[at] for at in found if at is not None], default=0)
        last = chain.branch.lasts[-1]
        return min(max(chain.front, up_to), last), last

    # What builds on what was left out.

    def _after_what_was_lost(self) -> Iterator[LeftOut]:
        """What isn't let through since it builds on what was left out."""
        for site in sorted(self._built_on_what_was_left_out()):
            (begin, end), branch = self._held_up(site, is_told=True), self._chains.by_site[site].branch
            for number in branch.numbers[branch.at_seq(begin + 1):] if begin < end else ():
                yield from not_copied(self._ledger.entry(number), begin + 1, self._typed(number), self._copies, self._chains)

    def _built_on_what_was_left_out(self) -> set[int]:
        """The sites whose next message mentions what was left out. What is loose may yet count."""
        lacking: dict[int, list[int]] = {}
        found: list[int] = []
        for site in self._passage.blocked:
            of = self._builds_on(self._chains.by_site[site])
            if of is None:
                found.append(site)
            for other in of or ():
                lacking.setdefault(other, []).append(site)
        known = set(found)
        while found:
            for site in lacking.get(found.pop(), ()):
                if site not in known:
                    known.add(site)
                    found.append(site)
        return known

    def _builds_on(self, chain: Chain) -> set[int] | None:
        """The sites of which a blocked chain's next message lacks characters; None where it builds on characters that were
        left out: they aren't there, or others are in their place. What is held back for its stamp isn't looked at further."""
        ends, run = self._outside.ends, chain.next()
        if run is None or run.stamp > self._passage.greatest + LEAP:
            return set()
        if chain.needs:
            is_left_out = any(begin < ends.get(site, 0) for site, (begin, _) in chain.needs.items())
            return None if is_left_out else set(chain.needs)
        # It lacks nothing, so others are there than it builds on.
        last = last_of_others(chain.runs())
        return None if any(last[site] < ends.get(site, 0) for site in last) else set()

    def _typed(self, number: int) -> int:
        """How many characters an entry of a chain inserted that isn't let through."""
        if number not in self._typed_by:
            self._typed_by[number] = sum(len(run.data) for run in self._ledger.runs(number))
        return self._typed_by[number]

    # What lost its place.

    def _lost(self) -> Iterator[LeftOut]:
        """What lost its place to a smaller hash, and what is chained to that."""
        known: dict[bytes, bool] = {}
        for entry, typed in self._outside.settled():
            if entry.size and self._is_lost(entry, known) and not (self._stands_elsewhere(entry) or self._was_made_anew(entry)):
                yield from not_copied(entry, 1, typed, self._copies, self._chains)

    def _is_lost(self, entry: Entry, known: dict[bytes, bool]) -> bool:
        """Whether an entry that is in no chain had its place, or has it after one that lost its."""
        path: list[bytes] = []
        while True:
            if entry.hash in known or entry.kind is Kind.CLAIM:
                found = known.get(entry.hash, True)
                break
            path.append(entry.hash)
            if entry.before not in self._outside:
                number = self._ledger.number(entry.before)
                found = number is not None and self._chains.follows(entry, number)
                break
            before = self._outside.row(entry.before).entry
            if (before.site, before.author, before.last + 1) != (entry.site, entry.author, entry.first):
                found = False
                break
            entry = before
        known.update(dict.fromkeys(path, found))
        return found

    def _was_made_anew(self, entry: Entry) -> bool:
        """Whether the author of an entry says that it was made anew, by the word of versions that don't know copies."""
        said = self._statements.made_anew_without_copies((entry.site, entry.author))
        return any(self._chains.is_chained(entry.hash, last) for last in said)

    def _stands_elsewhere(self, entry: Entry) -> bool:
        """Whether another entry that counts has the same messages; looked at again once that may be so."""
        chain = self._chains.by_site.get(entry.site)
        if chain is None or entry.last > chain.front:
            self._ends_of_lost.setdefault(entry.site, []).append(entry.last)
            return False
        at = chain.branch.at_seq(entry.first)
        return chain.branch.first(at) == entry.first and self._ledger.spelled(chain.branch.numbers[at]) == entry.spelled


def joined_stretches(stretches: Iterable[LeftOut]) -> list[LeftOut]:
    """Stretches of messages, those in one that follow one another."""
    out: list[LeftOut] = []
    for one in sorted(stretches, key=lambda one: (one.text, *one)):
        if out and (out[-1].text, *out[-1][:2]) == (one.text, *one[:2]) and out[-1].last + 1 == one.first:
            before = out.pop()
            one = one._replace(first=before.first, messages=before.messages + one.messages,
                               characters=before.characters + one.characters)
        out.append(one)
    return out


def not_copied(entry: Entry, begin: int, typed: int, copies: Copies, counting: Counting[Entry]) -> Iterator[LeftOut]:
    """Those of an entry's messages, from a seq on, for which no copy stands that counts. `typed` is how many characters all of them
    insert."""
    if begin <= entry.first and not copies.speak_of(entry.author, entry.site):
        # What they are nobody has to look at.
        yield LeftOut(entry.site, entry.author, entry.first, entry.last, entry.size, typed)
        return
    yield from of_stretches(entry, without_copied([(max(begin, entry.first), entry.last)], entry, copies, counting))


def without_copied(left: list[tuple[int, int]], some: SomeMessages, copies: Copies,
                   counting: Counting[SomeMessages]) -> list[tuple[int, int]]:
    """Those of stretches of messages for which no copy stands that counts."""
    for first, last in copies.stretches(some, counting) if copies.speak_of(some.author, some.site) else ():
        left = [part for begin, end in left for part in ((begin, min(end, first - 1)), (max(begin, last + 1), end)) if part[0] <= part[1]]
    return left


def of_stretches(some: MessagesInARow, left: Sequence[tuple[int, int]], text: int = 1) -> Iterator[LeftOut]:
    """What is told of stretches of messages, those typed one after the other together."""
    for run in some.operations if left else ():
        for begin, end in left:
            first, last = max(begin, run.seq), min(end, run.seq + run.size - 1)
            if first <= last:
                size = last - first + 1
                yield LeftOut(some.site, some.author, first, last, size, size * (len(run.data) // run.size), text)
