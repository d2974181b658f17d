"""What somebody has typed again of others' text that was left out, as entries of copies say it: where it is there twice, who
made the copy that isn't to stay hides it.

Of a message and all that stands for it the message itself stays, else what its author made anew, else of those copies
that have its bytes the one of the least site and seq.
"""
from collections.abc import Iterable, Iterator
from typing import NamedTuple

from share.admission.judging import Judging
from share.format.entry import NO_HASH, Copy, Entry
from share.sync.standing import CountsUpTo, WhoseText

# Somebody with the link could speak of copies without end: the most that is looked at of what is said of an author's messages, and of what
# others typed.
MOST_SAID = MOST_OF_OTHERS = 1_000


class _Said(NamedTuple):
    """Messages of an author from a seq on, how many they are, the first of those that were typed for them, and the last entry of
    their history; none where that isn't said."""

    seq: int
    size: int
    by: Copy
    own: bool
    last: bytes
    # The last entry that has what was typed for them.
    until: bytes

    def copy(self, seq: int) -> Copy | None:
        """What was typed for the message of a seq."""
        return self.by._replace(seq=self.by.seq + seq - self.seq) if self.seq <= seq < self.seq + self.size else None


class _Typed(NamedTuple):
    """A message that was typed for one of an author, by the seq and the last entry of its history, where that is said."""

    whose: WhoseText
    seq: int
    copy: Copy
    last: bytes


class Recovered:
    """What entries say that speak of copies that their authors made of others' messages."""

    def __init__(self) -> None:
        # By whose messages they stand for; and those of which a copy was made here.
        self._said: dict[WhoseText, list[_Said]] = {}
        self._own: set[WhoseText] = set()
        # The same by who typed it again, with whose messages these stand for.
        self._by: dict[WhoseText, list[tuple[WhoseText, _Said]]] = {}
        # What others typed of it, message by message; and what may be made to hide copies of others, by whoever says so.
        self._others: list[_Typed] = []
        self.hidings: set[Copy] = set()

    def add(self, entry: Entry, own: bool) -> None:
        """Adds what an entry says; whether it was made here."""
        if not entry.kind.says_copies:
            return
        copied = entry.copied
        whose = copied.site, copied.author, entry.text
        if (entry.site, entry.author) == (copied.by_site, copied.by) != whose[:2]:
            said = self._said.setdefault(whose, [])
            if own or len(said) < MOST_SAID:
                new = [_Said(seq, size, Copy(copied.by, copied.by_site, by, entry.text), own, entry.before, copied.last)
                       for seq, by, size in copied.stretches if by]
                said += new
                self._by.setdefault((copied.by_site, copied.by, entry.text), []).extend((whose, one) for one in new)
            if own:
                self._own.add(whose)
            for seq, by, size in copied.stretches if not own else ():
                size = min(size if by else 0, MOST_OF_OTHERS - len(self._others))
                self._others += [_Typed(whose, seq + at, Copy(copied.by, copied.by_site, by + at, entry.text), entry.before)
                                 for at in range(size)]
            if len(self.hidings) < MOST_OF_OTHERS and len(copied.stretches) == 1 == copied.stretches[0][2]:
                self.hidings.add(Copy(copied.by, copied.by_site, copied.stretches[0][1], entry.text))

    def originals(self, copy: Copy, of: bytes, judge: Judging) -> Iterator[tuple[Copy, bytes]]:
        """The messages for which one of an entry was typed again, each with the last entry of its history."""
        for (site, author, text), one in self._by.get((copy.site, copy.author, copy.text), ()):
            if one.by.seq <= copy.seq < one.by.seq + one.size and judge.is_chained(of, one.until):
                yield Copy(author, site, one.seq + copy.seq - one.by.seq, text), one.last

    def fronts(self, counts_up_to: CountsUpTo) -> list[int]:
        """What is to be looked at again where it changes: how far those count that were typed again, and all that was said of
        them."""
        own = [number for whose in sorted(self._own) for one in self._said[whose] for number in (
            min(counts_up_to(whose[1], whose[0], whose[2]), one.seq + one.size - 1),
            min(counts_up_to(one.by.author, one.by.site, one.by.text), one.by.seq + one.size - 1))]
        return own + [min(counts_up_to(author, site, text), seq) for (of_site, of_author, of_text), of_seq, copy, _ in self._others
                      for author, site, seq, text in ((of_author, of_site, of_seq, of_text), copy)]

    def texts(self) -> set[int]:
        """The texts of what was typed again."""
        return {text for _, _, text in self._said}

    def made_here(self, judge: Judging) -> Iterator[tuple[Copy, bool]]:
        """What was typed again here and counts, and whether each message of it is to be hidden."""
        return self._to_be_seen(judge, (_Typed(whose, seq, copy, one.last) for whose in sorted(self._own) for one in self._said[whose]
                                        if one.own for seq in range(one.seq, one.seq + one.size) if (copy := one.copy(seq))))

    def made_by_others(self, judge: Judging) -> Iterator[tuple[Copy, bool]]:
        """What others typed again and counts, as far as it is looked at, and whether each message of it is to be hidden."""
        return self._to_be_seen(judge, self._others)

    def _to_be_seen(self, judge: Judging, typed_again: Iterable[_Typed]) -> Iterator[tuple[Copy, bool]]:
        """A copy may stand for several messages, that were copies themselves: it gives way where it does so for one of them."""
        found: dict[Copy, bool] = {}
        for one in typed_again:
            if not found.get(one.copy) and judge.message_counts(*one.copy):
                found[one.copy] = self._gives_way(judge, one)
        yield from found.items()

    def _gives_way(self, judge: Judging, one: _Typed) -> bool:
        """Whether something else stays that stands for a message."""
        (site, author, text), seq, copy, last = one
        data, of = judge.message(copy.site, copy.seq, text).data, judge.message_in(last, seq) if last != NO_HASH else None
        if judge.is_made_anew(author, site, seq, lambda message: message == of if of else message.data == data, text):
            return True
        if judge.is_let_through(of) if of else _has(judge, Copy(author, site, seq, text), data):
            return True
        others = (other.copy(seq) for other in self._said[one.whose] if not of or other.last == NO_HASH
                  or judge.message_in(other.last, seq) == of)
        return any(other and (other.site, other.seq) < (copy.site, copy.seq) and _has(judge, other, data) for other in others)


def _has(judge: Judging, of: Copy, data: bytes) -> bool:
    """Whether a message counts and inserts this."""
    return judge.message_counts(*of) and judge.message(of.site, of.seq, of.text).data == data
