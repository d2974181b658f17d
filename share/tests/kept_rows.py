"""Rows of random entries as they come, as lines for a test of the core: what each does to what is kept, and what is kept in the end.

    new                                              nothing is kept
    claim same|first|other AUTHOR SITE RANK          a claim comes
    claimant AUTHOR SITE                             who claims a number; AUTHOR is - for nobody
    say repeat|greater|first|lesser AUTHOR HASH BEFORE ON MESSAGE    a message comes; ON is - where it says nothing
    least HASH AUTHOR TEXT SITE SEQ BEFORE           the message that is kept in a place; HASH is - for none
"""
import random
import sys
from collections.abc import Iterator, Sequence
from typing import NamedTuple

from share.tests.fate_rows import fields
from share.tests.naive_second import Saying, judged
from share.tests.second_sets import ZERO_BITS
from share.tests.test_note_definitions import random_set

SITES = 1, 2, 65535


class Claim(NamedTuple):
    """A claim of a number."""

    rank: bytes
    author: bytes
    site: int


class InChain(NamedTuple):
    """Where in a chain a message stands."""

    author: bytes
    text: int
    site: int
    seq: int
    before: bytes

    def others(self, chance: random.Random) -> "list[InChain]":
        """Places that differ in one thing."""
        return [self._replace(author=chance.randbytes(32)), self._replace(text=self.text + 1), self._replace(site=self.site % 65535 + 1),
                self._replace(seq=self.seq + 1), self._replace(before=chance.randbytes(32))]


def rows(seed: int, sets: int) -> Iterator[str]:
    """The rows of so many sets."""
    chance = random.Random(seed)
    for _ in range(sets):
        one = random_set(chance)
        yield "new"
        yield from _of_claims(chance)
        said = judged(one.note, one.raws, ZERO_BITS).said
        yield from _of_messages([said[of] for of in sorted(said)], chance)


def _of_claims(chance: random.Random) -> Iterator[str]:
    authors = [chance.randbytes(32) for _ in range(2)]
    came = list[Claim]()
    for _ in range(20):
        again = came and chance.random() < 0.2
        claim = chance.choice(came) if again else Claim(chance.randbytes(32), chance.choice(authors), chance.choice(SITES[:2]))
        before, after = (min((one for one in some if one.site == claim.site), default=None) for some in (came, [*came, claim]))
        what = "first" if before is None else "same" if after and after.author == before.author else "other"
        yield f"claim {what} {claim.author.hex()} {claim.site} {claim.rank.hex()}"
        came.append(claim)
    for site in SITES:
        holder = min((one for one in came if one.site == site), default=None)
        yield f"claimant {holder.author.hex() if holder else '-'} {site}"


def _of_messages(said: Sequence[Saying], chance: random.Random) -> Iterator[str]:
    some = chance.sample(said, k=min(len(said), 10))
    some += [one._replace(hash=chance.randbytes(32)) for one in some for _ in range(2)]
    came = list[Saying]()
    for one in chance.choices(some, k=40):
        beside = [other.hash for other in came if _place(other) == _place(one)]
        least = min(beside, default=None)
        what = ("first" if least is None else "repeat" if least == one.hash else "greater" if least < one.hash else "lesser")
        yield f"say {what} {fields(one)}"
        came.append(one)
    for place in sorted({place for one in some for place in [_place(one), *_place(one).others(chance)]}):
        kept = min((one.hash for one in came if _place(one) == place), default=None)
        yield f"least {kept.hex() if kept else '-'} {place.author.hex()} {place.text} {place.site} {place.seq} {place.before.hex()}"


def _place(one: Saying) -> InChain:
    return InChain(one.author, one.message.text, one.message.site, one.message.seq, one.before)


if __name__ == "__main__":
    sys.stdout.writelines(f"{row}\n" for row in rows(int(sys.argv[1]), int(sys.argv[2])))
