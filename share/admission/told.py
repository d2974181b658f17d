"""What doesn't count in a note of the second form, as it is told, by the rules of `left_out`: message by message, and text by text."""
from collections.abc import Callable, Collection, Iterator, Mapping

from share.admission.causes import LEAP
from share.admission.in_text import InText
from share.admission.left_out import LeftOut, joined_stretches, of_stretches, without_copied
from share.admission.lines import MessageChain
from share.admission.message_judge import MessageJudge
from share.admission.one_text import OneText
from share.admission.sayings import Root, Whose
from share.admission.twigs import Twig, Twigs
from share.admission.words import Words


class ToldOfMessages:
    """What isn't let through, and which of it was left out. What was told of that holds until something changes that it hangs on."""

    def __init__(self, judge: MessageJudge, words: Words):
        self._judge, self._sayings, self._words = judge, judge.sayings, words
        self._twigs = Twigs(judge.sayings, judge.aside)
        self._incomplete: int | None = None
        self._left_out: list[LeftOut] | None = None
        self._changes = (0, 0, 0, 0)
        # What lost its place and goes further than what counts in it, by number and text.
        self._beyond: dict[tuple[int, int], list[Twig]] = {}
        # The texts as they are while it is looked what was left out.
        self._in_texts: dict[int, InText] = {}

    def incomplete(self) -> int:
        """How many messages came that something is missing for. What builds on what was left out isn't among them: nothing that comes
        could make it count."""
        self._look_again()
        if self._incomplete is None:
            waiting = ((one, one.passage.blocked - self._built_on_what_was_left_out(one)) for one in self._texts())
            held = [self._held_up(one.lines[site], self._words.made_anew) for one, sites in waiting for site in sites]
            self._incomplete = sum(end - begin for begin, end in held) + sum(twig.size for twig in self._twigs.all() if self._waits(twig))
        return self._incomplete

    def left_out(self) -> list[LeftOut]:
        """What doesn't count since something lesser holds in its place, and what builds on that; without what a copy stands for that
        counts."""
        self._look_again()
        if self._left_out is None:
            self._beyond.clear()
            self._in_texts.clear()
            self._left_out = joined_stretches([*self._lost(), *self._after_what_was_lost()])
        return self._left_out

    def held_up(self, one: OneText, site: int) -> tuple[int, int]:
        """The messages of a line that aren't let through, without what is wrong, and without those whose author says that they were made
        anew: after which seq they begin, and which the last one is."""
        one.let_through()
        return self._held_up(one.lines[site], self._words.made_anew) if site in one.passage.blocked else (0, 0)

    def not_through(self, site: int, author: bytes) -> list[int]:
        """The messages of an author and number that aren't let through, of all texts: of each those of its line first."""
        found = list[int]()
        for one in self._texts():
            line = one.lines.get(site)
            if line and line.branch.sayings is self._sayings and line.branch.numbers and line.client.author == author:
                found += line.branch.numbers[line.front:]
        for text in self._sayings.texts(author, site):
            found += sorted(self._judge.aside.of(Whose(author, site, text)), key=self._sayings.seq)
        return found

    def loose(self) -> Iterator[int]:
        """The messages that lack one before them."""
        return (number for twig in self._twigs.all() if self.is_loose(twig.numbers[0]) for number in twig.numbers)

    def in_text(self, text: int) -> InText:
        """What copies ask of a text."""
        return InText(self._judge, self._twigs, text)

    def is_loose(self, number: int) -> bool:
        """Whether a message lacks one before it, with which it may count: under a number of the base nothing more does."""
        of_base = self._judge.has_begun and self._sayings.client(number).site in self._judge.base.sites
        return self._sayings.root(number) is Root.LOOSE and not of_base

    def _texts(self) -> Iterator[OneText]:
        """The texts, of which all is let through that can be."""
        for _, one in sorted(self._judge.texts.items()):
            one.let_through()
            yield one

    def _look_again(self) -> None:
        """Forgets what was told, where it may be so no more."""
        judge, passed, hangs = self._judge, 0, False
        for one in judge.texts.values():
            one.let_through()
            passed += one.passage.changes
            for site, first in one.passage.first_passed().items():
                hangs = hangs or self._hangs_on(one, site, first)
        changes = self._words.changes, judge.changes + judge.aside.changes, self._sayings.found, passed
        if hangs or changes != self._changes:
            self._changes, self._incomplete, self._left_out = changes, None, None

    def _hangs_on(self, one: OneText, site: int, first: int) -> bool:
        """Whether what was told hangs on a site's messages from one on, as far as they are let through: copies are among them, or
        something that lost its place stands there."""
        if first <= self._words.copies(one.text).sites.get(site, 0):
            return True
        line, beyond = one.lines[site], self._beyond.get((site, one.text), ())
        return any(True for twig in beyond for _ in _equal(twig, line, first, line.front))

    def _held_up(self, line: MessageChain, said: "SaidAnew") -> tuple[int, int]:
        """The messages of a line that aren't let through, but those of which it is said that they were made anew."""
        sayings, last = line.branch.sayings, len(line.branch)
        numbers = (sayings.number(of) for of in said(line.client))
        up_to = max((sayings.seq(number) for number in numbers if number is not None and line.has(number)), default=0)
        return min(max(line.front, up_to), last), last

    def _waits(self, twig: Twig) -> bool:
        """Whether messages that are in no line are said to wait: one before them is missing, or a claim of their number. Where somebody
        else holds that, who has no claim of it holds nothing up: it costs nothing to write without one."""
        root, site = self._sayings.root(twig.numbers[0]), twig.site
        if not self._judge.has_begun or self.is_loose(twig.numbers[0]):
            return True
        return root is Root.ROOTED and site not in self._judge.base.sites and self._judge.claimant(site) is None

    # What builds on what was left out.

    def _after_what_was_lost(self) -> Iterator[LeftOut]:
        """What isn't let through since it builds on what was left out."""
        for one in self._texts():
            for site in sorted(self._built_on_what_was_left_out(one)):
                line = one.lines[site]
                begin, end = self._held_up(line, self._words.made_anew_without_copies)
                if begin < end:
                    numbers = line.branch.numbers[begin:]
                    yield from self._without_copied(Twig(line.branch.sayings, line.client, [*numbers], None), [(begin + 1, end)])

    def _built_on_what_was_left_out(self, one: OneText) -> set[int]:
        """The sites whose next message mentions what was left out. What is loose may yet count."""
        lacking: dict[int, list[int]] = {}
        found, ends = list[int](), self._ends(one.text) if one.passage.blocked else {}
        for site in one.passage.blocked:
            of = _builds_on(one, one.lines[site], ends)
            if of is None:
                found.append(site)
            for other in of or ():
                lacking.setdefault(other, []).append(site)
        known = set(found)
        while found:
            for site in lacking.get(found.pop(), ()):
                if site not in known:
                    known.add(site)
                    found.append(site)
        return known

    def _ends(self, text: int) -> dict[int, int]:
        """How far the insertions of each site go that were left out of a text."""
        ends: dict[int, int] = {}
        for twig in self._twigs.all():
            if twig.text == text and not self._waits(twig):
                ends[twig.site] = max(ends.get(twig.site, 0), twig.end)
        return ends

    # What lost its place.

    def _lost(self) -> Iterator[LeftOut]:
        """What lost its place to something lesser, and what goes on from that."""
        anew: dict[Whose, dict[int, int]] = {}
        for twig in self._twigs.all():
            if self._sayings.root(twig.numbers[0]) is Root.MISPLACED or self._waits(twig):
                continue
            if twig.client not in anew:
                anew[twig.client] = self._said_anew(twig.client)
            begin = twig.first + anew[twig.client].get(id(twig), 0)
            if begin <= twig.last and (left := self._not_elsewhere(twig, begin)):
                yield from self._without_copied(twig, left)

    def _said_anew(self, client: Whose) -> dict[int, int]:
        """How many messages of each twig their author says to be made anew, by the word of who doesn't know copies."""
        found: dict[int, int] = {}
        for of in self._words.made_anew_without_copies(client):
            for twig, count in self._twigs.down(self._sayings.number(of)):
                if twig is None or found.get(id(twig), 0) >= count:
                    break
                found[id(twig)] = count
        return found

    def _not_elsewhere(self, twig: Twig, begin: int) -> list[tuple[int, int]]:
        """The stretches of messages, from a seq on, that don't count in another branch; looked at again once they may."""
        one = self._judge.texts.get(twig.text)
        line = one.lines.get(twig.site) if one else None
        if line is None or line.front < twig.last:
            self._beyond.setdefault((twig.site, twig.text), []).append(twig)
        if line is None:
            return [(begin, twig.last)]
        left = [(begin, twig.last)]
        for seq in _equal(twig, line, begin, line.front):
            first, last = left.pop()
            left += [part for part in ((first, seq - 1), (seq + 1, last)) if part[0] <= part[1]]
            if seq == last:
                break
        return left

    def _without_copied(self, twig: Twig, left: list[tuple[int, int]]) -> Iterator[LeftOut]:
        """What is told of stretches of messages, without those for which a copy stands that counts."""
        copies = self._words.copies(twig.text)
        if copies.speak_of(twig.author, twig.site):
            if twig.text not in self._in_texts:
                self._in_texts[twig.text] = self.in_text(twig.text)
            left = without_copied(left, twig, copies, self._in_texts[twig.text])
        if left == [(twig.first, twig.last)]:
            yield from twig.told
        else:
            yield from of_stretches(twig, left, twig.text)


# What says up to which messages an author says that they were made anew.
SaidAnew = Callable[[Whose], Collection[bytes]]


def _builds_on(one: OneText, line: MessageChain, ends: Mapping[int, int]) -> set[int] | None:
    """The sites of which a blocked line's next message lacks characters; None where it builds on characters that were left out: they
    aren't there, or others are in their place. What is held back for its stamp isn't looked at further."""
    run = line.next()
    if run is None or run.stamp > one.passage.greatest + LEAP:
        return set()
    if line.needs:
        return None if any(begin < ends.get(site, 0) for site, (begin, _) in line.needs.items()) else set(line.needs)
    # It lacks nothing, so others are there than it builds on.
    return None if any(last < ends.get(site, 0) for site, last in one.causes.beyond(run, line.seen)) else set()


def _equal(twig: Twig, line: MessageChain, begin: int, end: int) -> Iterator[int]:
    """The seqs, from one to another, of messages of a twig that a line has, too."""
    begin, end = max(begin, twig.first), min(end, twig.last)
    if begin <= end:
        for message, other in zip(twig.messages[begin - twig.first:], line.branch.between(begin - 1, end)):
            if message == other:
                yield message.seq
