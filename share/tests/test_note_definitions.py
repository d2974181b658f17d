"""Whether the definitions of crates/note_laws, of which laws are proved, say what the plain program of the second form says."""
import random
import unittest

from share.tests.naive_chunks import inserting
from share.tests.naive_second import PLAIN, ZEROS, Answer, Founding, Note, Why, base_hashes, based, judged, opening, written
from share.tests.note_definitions import admission, next_ones, noted
from share.tests.second_sets import STEPS, ZERO_BITS, Set, authors, base_messages

SETS, TEXTS = 250, (1, 2, 3)
FAULTS = ["leap", "put_wrong", "stamp_wrong", "stamp_wrong", "mention_nobody", "build_wrong"]
FATES = {Why.WRONG: "wrong", Why.STAMP: "held back", Why.LACKS: "lacks", Why.OTHERS: "on others"}


def random_set(chance: random.Random) -> Set:
    steps = [(step, chance.randrange(2**32)) for step in ["claim"] * 4 + ["begin"] * 3 + chance.choices(STEPS + FAULTS, k=25)]
    return Set(steps, chance.random() < 0.5)


class Definitions(unittest.TestCase):
    def test_they_admit_what_the_plain_program_admits(self) -> None:
        chance = random.Random(77)
        for _ in range(SETS):
            one = random_set(chance)
            begin = len(one.made.begin)
            some = chance.sample(one.raws[begin:], k=chance.randint((len(one.raws) - begin) // 2, len(one.raws) - begin))
            self.assert_agree(judged(one.note, [*one.raws[:begin], *some], ZERO_BITS), chance)

    def test_a_number_of_the_base_is_nobodys(self) -> None:
        messages, founder = base_messages(), authors()[0]
        hashes = [ZEROS, *base_hashes(b"S" * 32, messages)]
        founding = Founding(b"S" * 32, hashes[-1], founder.name, messages[0].site)
        note = Note(founding.key(), PLAIN)
        raws = [opening(note, founding), *(based(note, before, [one]) for before, one in zip(hashes, messages)),
                written(note, founder, ZEROS, [inserting(TEXTS[-1], founding.number, 1, 1, None, 0, b"x")])]
        self.assert_agree(judged(note, raws, ZERO_BITS), random.Random(7))

    def assert_agree(self, answer: Answer, chance: random.Random) -> None:
        note = noted(answer)
        for text in TEXTS:
            admitted = admission(note, text, chance)
            through = [said for place, some in answer.through.items() if place[1] == text for said in some]
            self.assertEqual(sorted(admitted), sorted(through), note)
            following = {rest[0]: FATES[answer.left_out[rest[0].hash][1]] for place, rest in answer.following.items()
                         if rest and place[1] == text and rest[0].hash in answer.left_out}
            others = {said: of for said, of in next_ones(note, text, admitted).items() if said.hash in answer.said}
            self.assertEqual(others, following, note)


if __name__ == "__main__":
    unittest.main()
