"""Sets of entries of the second form in which somebody who has the link means to part others, with what is right entry by entry."""
from functools import cache
from itertools import takewhile

from share.tests.naive_chunks import DELETE, RESTORE, Message, Range, inserting, is_chunk
from share.tests.naive_second import LEAP, ZEROS, Author, Kind, Saying, based, claim, judged, searched
from share.tests.second_sets import COPIED, SITES, ZERO_BITS, Branch, Set, counters, cut, made

GREATEST_SEQ, GREATEST_STAMP = 2**32 - 1, 2**48 - 1


@cache
def later_counter(form: int, has_base: bool, author: Author, site: int) -> int:
    """By which counter an author claims a number once more."""
    return searched(made(form, has_base).note.identity, author.name, ZERO_BITS, {site}, counters(form, has_base, author)[site] + 1)[0]


class Attacked(Set):
    """A set with such entries."""

    def splice(self) -> None:
        """What may be of the base: some of it in other entries, after something else, or otherwise than it was copied."""
        base, chance = self.made.base, self._chance
        known = chance.choice(base or [Saying(inserting(1, COPIED[0], 1, 1, None, 0, b"s"), b"", b"", ZEROS, b"")])
        some = [one.message for one in takewhile(lambda one: one.place == known.place, base[base.index(known):] if base else [known])]
        before = chance.choice([known.before, known.before, chance.choice([ZEROS, *(one.hash for one in base)])])
        what, site = chance.randrange(6), chance.choice(SITES)
        changed = [one._replace(text=3 - one.text) if what == 1 else one._replace(site=site) if what == 2 else one._replace(
            seq=one.seq + 1) if what == 3 else one for one in some[:chance.randint(1, len(some))]]
        if what == 4:
            changed[-1] = changed[-1]._replace(stamp=changed[-1].stamp + 1)
        if is_chunk(changed):
            self.raws.append(based(self.note, before, changed))

    def claim_again(self) -> None:
        """Somebody has several claims of a number."""
        author, site = self._who()
        self.raws.append(claim(self.note, author, later_counter(self.form, self.has_base, author, site), site))

    def take_place(self) -> None:
        """An author takes the place of a message of his, on which others may build, by a lesser hash where he finds one, and goes on."""
        if (one := self._leaf()) is None:
            return
        begin = self._chance.randrange(len(one.said))
        before, gone = one._replace(said=one.said[:begin]), one.said[begin]
        cause = (one.site, before.length - 1) if before.length else None
        data = max(1, len(gone.message.data))
        letters = self._chance.sample(range(0x41, 0x5A), 6)
        found = (before.gone_on(self.note, inserting(one.text, one.site, before.next_seq, before.stamp + 1, cause, before.length,
                                                     bytes([letter]) * data)) for letter in letters)
        branch = min(found, key=lambda other: other.said[-1].hash)
        self._send(branch, begin)
        self._write(branch)

    def speak_of_many(self) -> None:
        """A message mentions characters of several others at once, and says what it builds on: rightly, in another order, or not all."""
        counting = self._counting() if self._chance.random() < 0.6 else []
        own = [one for one in counting if one.author.secret]
        if (one := self._chance.choice(own) if own else self._leaf()) is None:
            return
        some = [other for other in counting if other.text == one.text] if own else self._others(one)
        others = {other.site: other for other in self._chance.sample(some, len(some)) if other.length}
        sites = sorted(self._chance.sample(sorted(others), self._chance.randint(min(2, len(others)), len(others))))
        ranges, builds, stamps = list[Range](), list[bytes](), [one.stamp]
        for site in sites:
            at = self._chance.randrange(others[site].length)
            length = self._chance.randint(1, others[site].length - at)
            inserters = [others[site].inserter(offset) for offset in range(at, at + length)]
            ranges.append((site, at, length))
            stamps += [each.message.stamp for each in inserters if each]
            last = inserters[-1]
            if site != one.site and not (self.has_base and site in COPIED) and at + length - 1 > one.seen(site):
                builds.append(last.hash if last else ZEROS)
        if not ranges:
            return
        wrong = self._chance.randrange(8)
        builds = builds[::-1] if wrong == 0 else builds[1:] if wrong == 1 else builds
        stamp = max(1, max(stamps) + self._chance.choice([0, 1, 1, 1, 2]))
        message = Message(self._chance.choice([DELETE, RESTORE]), one.text, one.site, one.next_seq, stamp, tuple(ranges))
        self._send(one.gone_on(self.note, message, self.note.built_on(builds) if builds else b""), len(one.said))

    def _counting(self) -> list[Branch]:
        """What counts by now."""
        known, answer = {one.name: one for one in self.authors}, judged(self.note, self.raws, ZERO_BITS)
        return [Branch(known.get(said[0].author, Author(said[0].author, b"")), *place, tuple(said))
                for place, said in sorted(answer.through.items()) if said]

    def bound(self) -> None:
        """A stamp is about as far above all others of the text as it may be, or the greatest that can be."""
        if (one := self._leaf()) is None:
            return
        greatest = max(each.stamp for each in self.branches if each.text == one.text)
        stamp = self._chance.choice([greatest + LEAP + self._chance.choice([-1, 0, 1]), one.stamp + LEAP, GREATEST_STAMP])
        cause = (one.site, one.length - 1) if one.length else None
        branch = one.gone_on(self.note, inserting(one.text, one.site, one.next_seq, stamp, cause, one.length, b"^"))
        self.raws += cut(self.note, branch, self._chance, len(one.said))
        if stamp < GREATEST_STAMP:
            # Nothing can follow the greatest one.
            self.branches.append(branch)

    def cross(self) -> None:
        """An author goes on in another text from a message, or begins there with what he wrote."""
        if one := self._leaf():
            self._write(one._replace(text=3 - one.text), skipped=self._chance.choice([0, 0, 1]))

    def say_again(self) -> None:
        """It is said again what became of messages: up to an earlier one and a later one, and of two that each is the other's copy."""
        one, other = self._leaf(), self._leaf()
        if one and other:
            for each in one.said[0], one.said[-1], self._chance.choice(one.said):
                self._add(Kind.ANEW, one.author, one, each.hash, b"")
            for old, new in (one, other), (other, one):
                stretch = self._chance.choice([1, 1, 2]), self._chance.choice([0, 1, 2]), self._chance.choice([1, 2, 3])
                self._add(Kind.COPIES, old.author, old, self._chance.choice([ZEROS, old.said[-1].hash]), self._copies(old, new, stretch))

    def say_anything(self) -> None:
        """What became of messages is said of whatever there is: of any text, up to messages of any other, and of more than there are."""
        some, chance = [one for branch in self.branches for one in branch.said], self._chance
        one, old, new = self._leaf(), self._leaf(), self._leaf()
        if not (one and old and new):
            return
        seqs = [*range(1, 7), GREATEST_SEQ // 2]
        stretch, (last, before) = (chance.choice(seqs), chance.choice([0, *seqs]), chance.choice(seqs)), chance.choices(some, k=2)
        by = chance.choice([old, new])._replace(text=chance.choice([1, 2]))
        self._add(Kind.ANEW, one.author, one._replace(text=by.text), before.hash, b"")
        self._add(Kind.COPIES, by.author, by, before.hash, self._copies(old, new._replace(said=(last,)), stretch))


ATTACKS = ["splice", "claim_again", "take_place", "take_place", "speak_of_many", "speak_of_many", "bound", "cross", "say_again",
           "say_anything"]
