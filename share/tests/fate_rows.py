"""Rows of random notes, text by text, as lines for a test of the core: what becomes of the next message of each chain, and which one is
admitted then.

    base SITE ..                                     a text begins; the numbers of the note's base
    digest HASH = HASH ..                            what is said of hashes
    fate FATE AUTHOR HASH BEFORE ON MESSAGE          ON is - where nothing is said
    admit INDEX                                      of the rows of fates since the last one
"""
import random
import sys
from collections.abc import Iterator

from share.tests.naive_chunks import spelled
from share.tests.naive_second import Answer, Saying, Why, judged
from share.tests.second_sets import ZERO_BITS
from share.tests.test_note_definitions import TEXTS, random_set

FATES = {None: "counts", Why.WRONG: "wrong", Why.STAMP: "held", Why.LACKS: "lacks", Why.OTHERS: "others"}


def rows(seed: int, sets: int) -> Iterator[str]:
    """The rows of so many sets."""
    chance = random.Random(seed)
    for _ in range(sets):
        one = random_set(chance)
        answer = judged(one.note, one.raws, ZERO_BITS)
        for text in TEXTS:
            yield from _of_text(answer, text, chance)


def _of_text(answer: Answer, text: int, chance: random.Random) -> Iterator[str]:
    """The rows of a text: all is admitted anew."""
    following = {place: [*chain] for place, chain in answer.chains.items() if place[1] == text}
    answer.through = {place: [] for place in answer.chains}
    answer.stamps.clear()
    answer.inserted_by.clear()
    yield " ".join(["base", *map(str, sorted(answer.base_sites))])
    while heads := [rest[0] for rest in following.values() if rest]:
        counting = list[int]()
        for index, head in enumerate(heads):
            if beyond := answer.beyond(head, answer.through[head.place]):
                hashes = [answer.inserted_by.get((text, name)) for name in beyond]
                if all(hashes):
                    yield " ".join(["digest", answer.note.built_on(filter(None, hashes)).hex(), "=", *(of.hex() for of in hashes if of)])
            why = answer.verdict(head).why
            counting += [index] if why is None else []
            yield f"fate {FATES[why]} {fields(head)}"
        if not counting:
            return
        index = chance.choice(counting)
        yield f"admit {index}"
        one = following[heads[index].place].pop(0)
        answer.through[one.place].append(one)
        for offset in range(len(one.message.data)):
            name = text, (one.message.site, one.message.at + offset)
            answer.stamps[name], answer.inserted_by[name] = one.message.stamp, one.hash


def fields(one: Saying) -> str:
    """What a message says, word by word."""
    return f"{one.author.hex()} {one.hash.hex()} {one.before.hex()} {one.on.hex() or '-'} {spelled(one.message).hex()}"


if __name__ == "__main__":
    sys.stdout.writelines(f"{row}\n" for row in rows(int(sys.argv[1]), int(sys.argv[2])))
