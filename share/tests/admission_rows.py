"""Rows of random notes as lines for a test of the core: entries in any order, and what counts of those that came so far.

    note FOUNDER NUMBER                              a note begins
    base AUTHOR HASH BEFORE ON MESSAGE               a message of its base; ON is - where nothing is said
    digest HASH = HASH                               what is said of a hash
    begin                                            all of that is here
    claim AUTHOR NUMBER RANK
    say AUTHOR HASH BEFORE ON MESSAGE
    admitted TEXT HASH ..                            what counts of a text
    head TEXT NUMBER FATE HASH                       the next message of a chain
"""
import random
import sys
from collections.abc import Iterator

from share.tests.fate_rows import FATES, fields
from share.tests.naive_second import Answer, Entry, Kind, judged, opened, rank
from share.tests.second_sets import ZERO_BITS
from share.tests.test_note_definitions import TEXTS, random_set


def rows(seed: int, sets: int) -> Iterator[str]:
    """The rows of so many sets."""
    chance = random.Random(seed)
    for _ in range(sets):
        one = random_set(chance)
        begin, raws = one.raws[:len(one.made.begin)], one.raws[len(one.made.begin):]
        whole = judged(one.note, one.raws, ZERO_BITS)
        yield from _begun(whole)
        came = list[bytes]()
        for raw in _in_any_order(raws, chance):
            came.append(raw)
            yield from _of_entry(opened(one.note, raw, ZERO_BITS), chance)
            if chance.random() < 0.2:
                yield from _counted(judged(one.note, [*begin, *came], ZERO_BITS))
        yield from _counted(whole)


def _in_any_order(raws: list[bytes], chance: random.Random) -> list[bytes]:
    """All entries, some more than once: shuffled, the last first, or as they were made."""
    several = [*raws, *chance.choices(raws, k=len(raws) // 3)]
    order = chance.randrange(4)
    if order < 2:
        chance.shuffle(several)
    return several[::-1] if order == 2 else several


def _begun(answer: Answer) -> Iterator[str]:
    founding = answer.founding
    assert founding
    yield f"note {founding.founder.hex()} {founding.number}"
    for one in answer.base or ():
        yield f"base {fields(one)}"
    said = {one.on for one in answer.said.values()}
    for one in answer.said.values():
        if (of := answer.note.built_on([one.hash])) in said:
            yield f"digest {of.hex()} = {one.hash.hex()}"
    yield "begin"


def _of_entry(entry: Entry, chance: random.Random) -> Iterator[str]:
    """What an entry says; of its messages any may come first."""
    if entry.head.kind == Kind.CLAIM:
        yield f"claim {entry.head.author.hex()} {entry.head.site} {rank(entry.head.note, entry.head.author, entry.counter).hex()}"
    if entry.head.kind == Kind.MESSAGES:
        for one in chance.sample(entry.says, k=len(entry.says)):
            yield f"say {fields(one)}"


def _counted(answer: Answer) -> Iterator[str]:
    for text in TEXTS:
        counted = [one.hash.hex() for (_, of), said in answer.through.items() if of == text for one in said]
        yield " ".join(["admitted", str(text), *sorted(counted)])
    for (site, text), rest in sorted(answer.following.items()):
        if rest:
            yield f"head {text} {site} {FATES[answer.verdict(rest[0]).why]} {rest[0].hash.hex()}"


if __name__ == "__main__":
    sys.stdout.writelines(f"{row}\n" for row in rows(int(sys.argv[1]), int(sys.argv[2])))
