"""Rows of random notes as lines for a test of the core: entries in any order, also doubled, and what the plain program says that counts,
what becomes of the next messages, and what its texts show.

    note HASHING BASE FOUNDER NUMBER     a note begins: its key of hashes, that of its base, and who founded it
    base AUTHOR BEFORE MESSAGE           a message of its base; messages have numbers, from 0 on
    message AUTHOR BEFORE ON MESSAGE     another; BEFORE is a number or a hash, ON is - where nothing is said
    claim AUTHOR SITE RANK               claims have numbers of their own
    begin SITE                           as this site has it, none of them came but the base
    says NUMBER ..                       these messages come
    claims NUMBER
    counts TEXT NUMBER ..                what counts
    next TEXT SITE FATE NUMBER           the next message of a chain
    text TEXT SITE.OFFSET.BYTE.COLOUR ..
"""
import random
import sys
from collections.abc import Iterator, Sequence

from share.tests.fate_rows import FATES
from share.tests.naive_chunks import Message, spelled
from share.tests.naive_second import ZEROS, Answer, Bad, Kind, Saying, derived, rank
from share.tests.second_agreement import Reader, a_set, parts
from share.tests.second_sets import Set
from tools.converging.shown import Character, shown
from tools.packed.messages import Name, read_message

TEXTS = 1, 2, 3
PLAIN = b"Oberon10.Scn.Fnt", 0
# Others that have the note: one who wrote in it, or one who didn't.
READERS = 1, 60_000
# Of a set that was made so many parts have rows.
PARTS = 4


class Rows:
    """The rows of a note, whose messages and claims are numbered as they come."""

    def __init__(self, one: Set, reader: Reader, chance: random.Random):
        self.one, self.reader, self.chance = one, reader, chance
        self.numbers = dict[bytes, int]()
        self.claims = dict[bytes, int]()

    def of_note(self) -> Iterator[str]:
        """What it begins with."""
        note, founding = self.one.note, self.one.made.founding
        base = derived(founding.secret, "base")
        yield f"note {note.hashing.hex()} {base.hex()} {founding.founder.hex()} {founding.number}"
        for one in self.one.made.base:
            yield f"base {one.author.hex()} {self._number(one.before)} {spelled(one.message).hex()}"
            self.numbers[one.hash] = len(self.numbers)

    def of_part(self, raws: Sequence[bytes]) -> Iterator[str]:
        """What comes of these entries, in any order, some more than once, and what counts in the end, and perhaps before."""
        begin, rest = [*self.one.made.begin], [raw for raw in raws if raw not in self.one.made.begin]
        yield f"begin {self.chance.choice(READERS)}"
        coming = [*rest, *self.chance.choices(rest, k=len(rest) // 4)] if rest else []
        self.chance.shuffle(coming)
        asked = self.chance.randrange(4 * len(coming) + 1)
        for at, raw in enumerate(coming):
            yield from self._of_entry(raw)
            if at == asked:
                yield from self._of_answer(self.reader.judged(self.one.note, [*begin, *coming[:at + 1]]))
        yield from self._of_answer(self.reader.judged(self.one.note, [*begin, *rest]))

    def _number(self, of: bytes) -> str:
        """How a row names the message of a hash."""
        if of == ZEROS:
            return "-"
        return str(self.numbers[of]) if of in self.numbers else of.hex()

    def _of_entry(self, raw: bytes) -> Iterator[str]:
        try:
            entry = self.reader.entry(raw)
        except Bad:
            return
        if entry.head.kind == Kind.CLAIM:
            if raw not in self.claims:
                self.claims[raw] = len(self.claims)
                of = rank(entry.head.note, entry.head.author, entry.counter)
                yield f"claim {entry.head.author.hex()} {entry.head.site} {of.hex()}"
            yield f"claims {self.claims[raw]}"
        for one in entry.says:
            yield from self._of_message(one)
        if entry.says:
            several = self.chance.sample(entry.says, k=len(entry.says))
            yield " ".join(["says", *(str(self.numbers[one.hash]) for one in several)])

    def _of_message(self, one: Saying) -> Iterator[str]:
        if one.hash not in self.numbers:
            yield f"message {one.author.hex()} {self._number(one.before)} {one.on.hex() or '-'} {spelled(one.message).hex()}"
            self.numbers[one.hash] = len(self.numbers)

    def _of_answer(self, answer: Answer) -> Iterator[str]:
        for text in TEXTS:
            counted = [one for (_, of), said in answer.through.items() if of == text for one in said]
            yield " ".join(["counts", str(text), *(str(self.numbers[one.hash]) for one in counted)])
            yield " ".join(["text", str(text), *map(_spelled, shown_of([one.message for one in counted]))])
        for (site, text), rest in sorted(answer.following.items()):
            if rest:
                yield f"next {text} {site} {FATES[answer.verdict(rest[0]).why]} {self.numbers[rest[0].hash]}"


def shown_of(messages: Sequence[Message]) -> list[Character]:
    """What messages that count show, by the definition."""
    return shown([read_message(spelled(one)) for one in messages])


def _spelled(one: Character) -> str:
    assert (one.font, one.offset) == PLAIN, one
    name: Name = one.name
    return f"{name.site}.{name.offset}.{one.byte}.{one.colour}"


def rows(seed: int, sets: int) -> Iterator[str]:
    """The rows of so many sets."""
    chance = random.Random(seed)
    for _ in range(sets):
        one = a_set(chance)
        found = Rows(one, Reader(one), chance)
        yield from found.of_note()
        for some, _ in zip(parts(one, chance), range(PARTS)):
            yield from found.of_part(some)


if __name__ == "__main__":
    sys.stdout.writelines(f"{row}\n" for row in rows(int(sys.argv[1]), int(sys.argv[2])))
