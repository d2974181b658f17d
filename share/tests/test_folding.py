"""Folding: entries of an author become one that has their messages, with the same hashes. What counts is the same, what a fold has is found
by hashes alone, and which entries become a fold hangs on counts."""
import random
import unittest
from collections.abc import Iterable
from unittest import mock

from hypothesis import given

from share.admission.ledger import Row
from share.admission.record_judge import RecordJudge
from share.format.entry import Author, Bad
from share.format.operation import DELETE
from share.format.second.folding import LEAST_FOLDED, LEFT_AFTER, MOST_FOLDED, run_through, due, fold_of, folding
from share.format.second.form import PlainRecords, SealedRecords
from share.format.second.record import Record, RecordKind
from share.sync.folding import MOST_IN_A_TURN, Folding
from share.tests.counting import instructions
from share.tests.record_agreement import Judged, agrees_on_records
from share.tests.second_agreement import Reader, Typed
from share.tests.test_message_judge import SEEDS, sets, tries
from share.tests.support import type_at_the_end
from share.tests.test_record_judge import Writer, founded, handed
from share.tests.test_second_form import counted, reasons, what_is_told
from share.tests.test_second_notes import OfSecondForm
from share.text.names import Names


def folded(one: Typed, chance: random.Random) -> list[bytes]:
    """The entries of a set, some of each author folded where one can have them: in place of what is folded, or beside it."""
    records = Judged(one).records(one.raws)
    lengths = {said.hash: sum(len(each.message.data) for each in branch.said[:at])
               for branch in one.branches for at, said in enumerate(branch.said)}
    authors, raws = {author.name: Author(*author) for author in one.authors}, [*one.raws]
    after: dict[bytes, list[Record]] = {}
    for record in records:
        if record.kind is RecordKind.MESSAGES:
            after.setdefault(record.before, []).append(record)
    for first in chance.sample(records, len(records)):
        some = [first] if first.hashes and first.author in authors else []
        while some and (nexts := after.get(some[-1].name)) and len(some) < chance.choice([2, 3, 8]):
            some.append(chance.choice(nexts))
        form, length = PlainRecords(one.note.key, 0), lengths.get(first.hashes[0], 0) if first.hashes else 0
        if len(some) > 1 and (found := fold_of(form, some, authors[first.author], length)):
            if chance.random() < 0.7:
                raws = [raw for raw in raws if raw not in {each.raw for each in some}]
            raws.append(found.raw)
    return raws


class Laws(unittest.TestCase):
    """A set and the set folded."""

    @tries(30)
    @given(sets(), SEEDS)
    def test_a_set_and_the_set_folded_count_the_same(self, one: Typed, seed: int) -> None:
        chance, reader = random.Random(seed), Reader(one)
        raws = folded(one, chance)
        answer, of_folded = reader.judged(one.note, one.raws), reader.judged(one.note, raws)
        self.assertEqual((counted(of_folded), reasons(of_folded), what_is_told(of_folded)),
                         (counted(answer), reasons(answer), what_is_told(answer)))
        agrees_on_records(one, of_folded, raws, chance)

    @tries(20)
    @given(sets(), SEEDS)
    def test_what_is_folded_is_what_another_one_has_whatever_the_order(self, one: Typed, seed: int) -> None:
        chance, judged = random.Random(seed), Judged(one)
        records = judged.records([*one.raws, *folded(one, chance)])
        chance.shuffle(records)
        judged.come(records)
        found = {each.hash: each.fold for each in judged.judge.folded()}
        messages = {record.hash: {*record.hashes} for record in records if record.kind is RecordKind.MESSAGES}
        for of, some in messages.items():
            self.assertEqual(of in found, any(some < more for more in messages.values()))
            last = judged.judge.fold_of(of)
            self.assertTrue(some < messages[last] if of in found else last == of)
            self.assertFalse(any(messages[last] < more for more in messages.values()))
        self.assertTrue(all(messages[of] < messages[by] for of, by in found.items()))


class OfOneAuthor(unittest.TestCase):
    """Ada, who founded the note and types."""

    def setUp(self) -> None:
        self.ada = Author(bytes([1]) * 32, b"")
        self.form, self.opening, _ = founded(self.ada.name)
        self.writer = Writer(self.form, self.ada, 1)

    def judge(self, *records: Iterable[Record]) -> RecordJudge:
        """What has the opening and these."""
        judge = RecordJudge([self.opening], form=self.form)
        for some in records:
            handed(judge, some)
        judge.count()
        return judge

    def due(self, judge: RecordJudge, text: int = 1) -> Record | None:
        """The fold that is due."""
        chain = judge.foldable(1, text)
        assert chain
        return run_through(folding(chain, run_through(due(chain.extents())), self.form, self.ada))

    def test_a_fold_has_the_same_hashes_and_what_its_messages_build_on(self) -> None:
        self.writer.type(b"abc")
        self.writer.type(b"de", cause=Names(7, 3, 1), on=bytes(range(32)))
        self.writer.put(DELETE, (Names(7, 5, 2),), on=bytes(32 * [9]))
        self.writer.type(b"f")
        for begin in range(len(self.writer.made) - 1):
            some = self.writer.made[begin:]
            found = fold_of(self.form, some, self.ada, begin)
            assert found
            self.assertEqual((found.first, found.before), (some[0].first, some[0].before))
            self.assertEqual([*found.hashes], [of for one in some for of in one.hashes])
            self.assertEqual(found.ons, tuple(on for one in some for on in one.ons))
            self.assertEqual([*found.messages], [each for one in some for each in one.messages])
            self.assertEqual(self.form.open(found.raw), found)

    def test_what_doesn_t_follow_isn_t_folded(self) -> None:
        made = self.writer.type(b"abcd")
        other = self.writer.fork(2)
        other.type(b"xy")
        for some in ([made[0], made[2]], [made[1], made[0]], [made[1], other.made[3]], [*made, self.writer.fork(0).type(b"a")[0]]):
            self.assertIsNone(fold_of(self.form, some, self.ada, some[0].first - 1))

    def test_so_many_and_so_many_after_them_are_folded_at_once(self) -> None:
        made = self.writer.type(bytes(97 + number % 26 for number in range(LEAST_FOLDED + LEFT_AFTER - 1)))
        judge = self.judge(made)
        self.assertIsNone(self.due(judge))
        handed(judge, self.writer.type(b"z"))
        judge.count()
        found = self.due(judge)
        assert found
        self.assertEqual([*found.hashes], [of for one in made[:LEAST_FOLDED] for of in one.hashes])
        handed(judge, [found])
        self.assertEqual({one.hash: one.fold for one in judge.folded()}, {one.hash: found.hash for one in made[:LEAST_FOLDED]})
        self.assertIsNone(self.due(judge))
        handed(judge, self.writer.type(b"y" * LEAST_FOLDED))
        judge.count()
        again = self.due(judge)
        assert again
        # As many more came as the fold has, which is folded with them.
        self.assertEqual((again.first, again.size), (1, 2 * LEAST_FOLDED))

    def test_a_fold_that_is_full_is_folded_no_more(self) -> None:
        judge, folds = self.judge(), list[Record]()
        for _ in range(110):
            handed(judge, self.writer.type(bytes(97 + number % 26 for number in range(LEAST_FOLDED))))
            judge.count()
            while found := self.due(judge):
                self.assertLessEqual(len(found.body), MOST_FOLDED)
                folds.append(found)
                handed(judge, [found])
        stands = [one for one in folds if judge.fold_of(one.hash) == one.hash]
        self.assertGreater(len(stands[0].body), MOST_FOLDED // 2)
        # The folds that stand have twice as many messages each time at least, so each was folded as often as that goes.
        self.assertLess(sum(one.size for one in folds), 8 * len(self.writer.made))
        again = self.judge(stands, self.writer.made[stands[-1].last:])
        self.assertEqual(again.front(1), len(self.writer.made))
        self.assertEqual([again.entry_of(1, seq) for seq in range(1, 300)], [judge.entry_of(1, seq) for seq in range(1, 300)])

    def test_of_a_fork_no_more_than_what_holds_is_folded(self) -> None:
        common = self.writer.type(b"c" * 10)
        other = self.writer.fork(10)
        mine, theirs = self.writer.type(b"m" * 500), other.type(b"t" * 500)
        judge = self.judge(common, mine, theirs)
        found = self.due(judge)
        assert found
        holds = mine if judge.entry_of(1, 11) == mine[0].name else theirs
        self.assertEqual([*found.hashes], [one.name for one in [*common, *holds][:found.size]])
        # The fold of the other branch is one of it alone, and takes nothing away.
        lost = theirs if holds is mine else mine
        other_fold = fold_of(self.form, [*common, *lost][:300], self.ada)
        assert other_fold
        handed(judge, [found, other_fold])
        judge.count()
        names = {of for one in (found, other_fold) for of in one.hashes}
        folds = {one.hash for one in judge.folded()}
        self.assertEqual(folds, {one.hash for one in [*common, *mine, *theirs] if one.name in names})
        self.assertEqual([judge.entry_of(1, seq) for seq in range(11, 511)], [one.name for one in holds])

    def test_of_two_folds_the_first_message_that_differs_decides(self) -> None:
        common, other = self.writer.type(b"c" * 10), self.writer.fork(5)
        other.type(b"other")
        self.writer.type(b"more!")
        folds = [fold_of(self.form, one.made, self.ada) for one in (self.writer, other)]
        assert folds[0] and folds[1]
        for some in folds, folds[::-1], [*folds, *common]:
            judge = self.judge([one for one in some if one])
            names = min((self.writer.made[5:], other.made[5:]), key=lambda made: made[0].name)
            self.assertEqual([judge.entry_of(1, seq) for seq in range(6, 11)], [one.name for one in names[:5]])
            # What lost is told, and nothing of it is gone.
            self.assertEqual(sum(one.characters for one in judge.left_out()), 5 if names[0] is self.writer.made[5] else 10)

    def test_what_is_folded_in_own_folds_is_found_in_parts_as_at_once(self) -> None:
        made = self.writer.type(b"c" * 60)
        some = [fold_of(self.form, made[begin:end], self.ada, begin) for begin, end in ((0, 20), (20, 50), (0, 60))]
        folds = [one for one in some if one]
        judge, at_once_found = self.judge(made), self.judge(made, folds)
        for place, one in enumerate(folds, 61):
            judge.add_fold(Row(place, one, True))
        self.assertEqual(judge.folded(), [])
        counts = [len(judge.folded())]
        while not judge.look_for_folded(7):
            counts.append(len(judge.folded()))
        self.assertLessEqual(max(after - before for before, after in zip(counts, counts[1:])), 2 * 7)
        self.assertEqual({(one.hash, one.fold) for one in judge.folded()}, {(one.hash, one.fold) for one in at_once_found.folded()})
        self.assertEqual({judge.fold_of(one.hash) for one in made}, {folds[-1].hash})

    def test_what_was_looked_at_holds_until_another_branch_does(self) -> None:
        common, other = self.writer.type(b"c" * 5), self.writer.fork(5)
        self.writer.type(b"m" * 300)
        other.type(b"t" * 300)
        less, more = sorted((self.writer, other), key=lambda one: one.made[5].name)
        judge = self.judge(common, more.made[5:])
        chain = judge.foldable(1)
        assert chain
        handed(judge, more.type(b"on"))
        judge.count()
        self.assertTrue(chain.holds())
        handed(judge, less.made[5:])
        judge.count()
        self.assertFalse(chain.holds())

    def test_another_s_messages_nobody_folds(self) -> None:
        form = SealedRecords(bytes(32), 0)
        ada, eve = form.new_author(), form.new_author()
        made = Writer(form, ada, 1).type(b"c" * 9)
        found = fold_of(form, made, ada)
        assert found
        self.assertEqual(form.open(found.raw).hashes, found.hashes)
        # By her own name they are other messages, and in Ada's name it isn't signed by her.
        self.assertIsNone(fold_of(form, made, eve))
        forged = fold_of(form, made, Author(ada.name, eve.secret))
        assert forged
        self.assertEqual(forged.hashes, found.hashes)
        with self.assertRaises(Bad):
            form.open(forged.raw)

    def test_what_comes_with_little_room_is_folded_as_with_much(self) -> None:
        made = self.writer.type(b"c" * 300)
        found = fold_of(self.form, made, self.ada)
        assert found
        judge = RecordJudge([self.opening], form=self.form, room=1)
        handed(judge, made)
        judge.count()
        judge.add_new(Row(301, found, False))
        self.assertEqual((len(judge.dropped()), len(judge.folded())), (0, 300))


class Turns(OfSecondForm):
    """What a turn of an open note takes beside what is folded."""

    def test_a_turn_looks_at_few_entries_however_many_are_due(self) -> None:
        for many in LEAST_FOLDED + LEFT_AFTER, 2 * LEAST_FOLDED + LEFT_AFTER:
            note = self.opened(self.person(f"ann{many}"))
            folding_of, judge = note.session._folding, note.session._holdings.judge
            with mock.patch.object(Folding, "fold"):
                for _ in range(many):
                    type_at_the_end(note, "k")
                least = instructions(note.session.arrived)
            worked = list[int]()
            while folding_of._next <= len(judge):
                worked.append(instructions(note.session.arrived) - least)
            self.assertEqual((len({one.fold for one in judge.folded()}), len(judge.folded())), (1, many - LEFT_AFTER))
            self.assertGreater(len(worked), many // MOST_IN_A_TURN)
            self.assertLess(max(worked), 500 * MOST_IN_A_TURN)

    def test_what_is_withdrawn_meanwhile_is_not_folded(self) -> None:
        note = self.opened(self.ann)
        holdings = note.session._holdings
        with mock.patch.object(Folding, "fold"):
            for _ in range(LEAST_FOLDED + LEFT_AFTER):
                type_at_the_end(note, "k")
        for _ in range(50):
            note.session.arrived()
        holdings.withdraw([holdings.judge.last(note.session.number).hash])
        for _ in range(100):
            note.session.arrived()
        self.assertEqual(holdings.judge.folded(), [])


if __name__ == "__main__":
    unittest.main()
