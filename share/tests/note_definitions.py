"""Which messages of a note count, by the definitions of crates/note_laws and crates/set_laws, word by word: each asks all that there is,
so an admission is found by trying. Hashes, ranks and keys are bytes here, of one length, so they are ordered as the numbers are."""
import random
from collections.abc import Callable, Sequence
from typing import NamedTuple

from share.tests.naive_chunks import INSERT
from share.tests.naive_second import ZEROS, Answer, Kind, Name, Saying, rank

MAX_LEAP = 2**20
Admitted = Sequence[Saying]


class Claim(NamedTuple):
    author: bytes
    site: int
    rank: bytes


class Noted(NamedTuple):
    """A note and its entries: `Note` and `Entries`."""

    founder: bytes
    number: int
    base: Sequence[Saying]
    digest: Callable[[Sequence[bytes]], bytes]
    claims: Sequence[Claim]
    said: Sequence[Saying]


def noted(answer: Answer) -> Noted:
    """What entries give."""
    assert answer.founding is not None and answer.base is not None
    note, founding = answer.note, answer.founding
    claims = [Claim(one.head.author, one.head.site, rank(note.identity, one.head.author, one.counter))
              for one in answer.entries if one.head.kind == Kind.CLAIM]
    return Noted(founding.founder, founding.number, answer.base, note.built_on, claims, [*answer.said.values()])


# specs/Note.antt


def is_of_base(note: Noted, site: int) -> bool:
    return any(s.message.site == site for s in note.base)


def is_least_claim(note: Noted, claim: Claim) -> bool:
    return all(claim.rank <= other.rank for other in note.claims if other.site == claim.site)


def is_holder(note: Noted, site: int, author: bytes) -> bool:
    if site == note.number:
        return not is_of_base(note, site) and author == note.founder
    return not is_of_base(note, site) and any(
        is_least_claim(note, claim) and (claim.site, claim.author) == (site, author) for claim in note.claims)


# specs/Chains.antt


def is_held(admitted: Admitted, site: int, seq: int) -> bool:
    return any((p.message.site, p.message.seq) == (site, seq) for p in admitted)


def is_predecessor(p: Saying, s: Saying) -> bool:
    return p.message.site == s.message.site and p.message.seq + 1 == s.message.seq


def are_branches(a: Saying, b: Saying) -> bool:
    return (a.author, a.place, a.message.seq, a.before) == (b.author, b.place, b.message.seq, b.before)


def is_of_holder(note: Noted, s: Saying) -> bool:
    return s in note.said and is_holder(note, s.message.site, s.author) and all(
        s.hash <= other.hash for other in note.said if are_branches(s, other))


def names_the_one_before(admitted: Admitted, s: Saying) -> bool:
    return (s.message.seq != 1 or s.before == ZEROS) and all(s.before == p.hash for p in admitted if is_predecessor(p, s))


def comes_next(note: Noted, text: int, admitted: Admitted, s: Saying) -> bool:
    is_new = s.message.seq > 0 and not is_held(admitted, s.message.site, s.message.seq)
    follows = s.message.seq <= 1 or any(is_predecessor(p, s) for p in admitted)
    return s.message.text == text and is_new and follows and (s in note.base or is_of_holder(note, s)) and (
        s in note.base or names_the_one_before(admitted, s))


# specs/Admission.antt


def inserts(s: Saying, name: Name) -> bool:
    return s.message.kind == INSERT and name[0] == s.message.site and 0 <= name[1] - s.message.at < len(s.message.data)


def file_len(admitted: Admitted, site: int) -> int:
    return sum(len(p.message.data) for p in admitted if p.message.site == site)


def is_here(admitted: Admitted, name: Name) -> bool:
    return name[1] < file_len(admitted, name[0])


def mentions_beyond(note: Noted, admitted: Admitted, s: Saying, name: Name) -> bool:
    return name in s.mentions() and name[0] != s.message.site and not is_of_base(note, name[0]) and all(
        seen[1] < name[1] for p in admitted if p.message.site == s.message.site for seen in p.mentions() if seen[0] == name[0])


def is_last_beyond(note: Noted, admitted: Admitted, s: Saying, name: Name) -> bool:
    return mentions_beyond(note, admitted, s, name) and all(other[1] <= name[1] for other in s.mentions() if other[0] == name[0])


def builds_on(note: Noted, admitted: Admitted, s: Saying) -> bool:
    lasts = sorted(name for name in s.mentions() if is_last_beyond(note, admitted, s, name))
    hashes = [p.hash for name in lasts for p in admitted if inserts(p, name)]
    return len(hashes) == len(lasts) and s.on == (note.digest(hashes) if hashes else b"")


def is_well_made(note: Noted, admitted: Admitted, s: Saying) -> bool:
    above = all(p.message.stamp < s.message.stamp for p in admitted if is_predecessor(p, s))
    fits = (s.message.kind != INSERT or s.message.at == file_len(admitted, s.message.site)) and all(
        is_here(admitted, name) for name in s.mentions() if name[0] == s.message.site)
    return above and fits and (s.on != b"") == any(mentions_beyond(note, admitted, s, name) for name in s.mentions())


def is_above_causes(admitted: Admitted, s: Saying) -> bool:
    return all(p.message.stamp < s.message.stamp for p in admitted
               if is_predecessor(p, s) or any(inserts(p, name) for name in s.mentions()))


def fate(note: Noted, admitted: Admitted, s: Saying) -> str:
    if not is_well_made(note, admitted, s):
        return "wrong"
    if s.message.stamp > max((p.message.stamp for p in admitted), default=0) + MAX_LEAP:
        return "held back"
    if not all(is_here(admitted, name) for name in s.mentions() if name[0] != s.message.site):
        return "lacks"
    if not builds_on(note, admitted, s):
        return "on others"
    return "counts" if is_above_causes(admitted, s) else "wrong"


def next_ones(note: Noted, text: int, admitted: Admitted) -> dict[Saying, str]:
    """The next messages of all chains, and what becomes of each."""
    return {s: fate(note, admitted, s) for s in {*note.base, *note.said} if comes_next(note, text, admitted, s)}


def admission(note: Noted, text: int, chance: random.Random) -> list[Saying]:
    """An admission, one message that counts after the other, in any order."""
    admitted = list[Saying]()
    while counting := [s for s, of in next_ones(note, text, admitted).items() if of == "counts"]:
        admitted.append(chance.choice(sorted(counting)))
    return admitted
