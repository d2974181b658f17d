"""Judging records of notes of the second form: what is told of them is what the plain programs tell, whatever came in whatever order, with
little room and with much."""
import random
import tracemalloc
import unittest
from collections.abc import Iterable, Sequence
from functools import partial

from hypothesis import given

from share.admission.judging import Judging
from share.admission.ledger import Row
from share.admission.record_judge import RecordJudge
from share.format.chunk import Packed, packed
from share.format.entry import NO_HASH, Author, Copied, Entry
from share.format.operation import DELETE, INSERT, PLAIN_LOOKS, Operation
from share.format.second.form import PlainRecords, RecordForm, SealedRecords
from share.format.second.keys import Founding
from share.format.second.record import Record, RecordKind
from share.format.second.signature import public_of
from share.program import retyping
from share.tests.counting import instructions
from share.tests.naive_second import Answer, Saying, is_loose, searched
from share.tests.record_agreement import Judged, agrees_on_records, in_parts, record_differences, with_little_room
from share.tests.second_agreement import Reader, Typed, operation, parts
from share.tests.test_message_judge import MOST_BYTES_OF_A_LETTER, MOST_TIMES, SEEDS, sets, tries
from share.text.names import Names

SECRET, ROOM = bytes(range(32)), 2**20


def founded(author: bytes, root: bytes = NO_HASH) -> tuple[PlainRecords, Record, Founding]:
    """The form of a note that an author founded under number 1, in which claims cost little, its opening, and what that says."""
    founding = Founding(SECRET, root, author, 1)
    form = PlainRecords(founding.key(), 0)
    return form, form.opening(founding), founding


class Writer:
    """An author who types letter by letter, each in a record."""

    def __init__(self, form: RecordForm, author: Author, site: int, text: int = 1):
        self.form, self.author, self.site, self.text = form, author, site, text
        self.made: list[Record] = []
        self.length = self.stamp = 0

    def type(self, data: bytes, stamp: int = 0, cause: Names | None = None, on: bytes = b"") -> list[Record]:
        """Types letters one after the other, the first perhaps after a character of another one."""
        begin = len(self.made)
        for letter in data:
            own = (Names(self.site, self.length - 1, 1),) if self.length else ()
            mentions = (cause,) if cause and len(self.made) == begin else own
            self.put(INSERT, mentions, bytes([letter]), stamp, on if len(self.made) == begin else b"")
        return self.made[begin:]

    def put(self, kind: int, mentions: tuple[Names, ...], data: bytes = b"", stamp: int = 0, on: bytes = b"") -> Record:
        """Makes a record of one message."""
        self.stamp = max(self.stamp + 1, stamp)
        one = Operation(kind, self.site, len(self.made) + 1, self.stamp, 1, mentions, self.length if data else 0, data,
                        PLAIN_LOOKS if data else b"", self.text)
        before = self.made[-1].hashes[-1] if self.made else NO_HASH
        self.made.append(self.form.messages(whole(one, self.length), before, self.author, {0: on} if on else {}))
        self.length += len(data)
        return self.made[-1]

    def fork(self, at: int) -> "Writer":
        """The same author after some of the records alone, as by a copied folder."""
        other = Writer(self.form, self.author, self.site, self.text)
        other.made = self.made[:at]
        runs = [run for record in other.made for run in record.operations]
        other.length, other.stamp = sum(len(run.data) for run in runs), max((run.stamp for run in runs), default=0)
        return other


def whole(one: Operation, length: int) -> Packed:
    """The chunk of an operation."""
    part = packed([one], length)
    assert part
    return part


def claim(form: PlainRecords, author: Author, site: int, begin: int = 0) -> Record:
    """A claim of a number."""
    counter, _ = searched(form.note, author.name, 0, {site}, begin)
    return form.claim(site, author, counter)


def handed(judge: Judging, entries: Iterable[Entry]) -> None:
    """Adds entries."""
    for one in entries:
        judge.add(one)


class Agreement(unittest.TestCase):
    """The quick program and the plain ones."""

    @tries(40)
    @given(sets(), SEEDS)
    def test_of_what_is_told(self, one: Typed, seed: int) -> None:
        chance = random.Random(seed)
        for some, _ in zip(parts(one, chance), range(4)):
            agrees_on_records(one, Reader(one).judged(one.note, some), some, chance)

    @tries(25)
    @given(sets(), SEEDS)
    def test_with_little_room_the_same_counts(self, one: Typed, seed: int) -> None:
        chance = random.Random(seed)
        for some, _ in zip(parts(one, chance), range(3)):
            answer, coming = Reader(one).judged(one.note, some), chance.sample(some, len(some))
            for room in 1, 3_000, 20_000:
                judge = with_little_room(one, coming, room, chance)
                self.assertEqual({place: judge.front(*place) for place in answer.through},
                                 {place: len(said) for place, said in answer.through.items()})
                if answer.base is not None:
                    self.assertEqual({site: judge.holder(site) for site in answer.holders}, answer.holders)
                if room == 1:
                    self.assertEqual(judge.loose(), [])

    @tries(25)
    @given(sets(), SEEDS)
    def test_what_is_asked_of_messages_and_of_those_before_them(self, one: Typed, seed: int) -> None:
        chance = random.Random(seed)
        answer = Reader(one).judged(one.note, one.raws)
        judge = agrees_on_records(one, answer, one.raws, chance)
        for last in answer.said.values():
            path, before = self.path(answer, last), dict[int, Saying]()
            for said in path:
                before.setdefault(said.message.seq, said)
            for seq in range(last.message.seq + 2):
                found = before.get(seq)
                self.assertEqual(judge.name_in(last.hash, seq), found.hash if found else None)
                self.assertEqual(judge.message_in(last.hash, seq), operation(found.message) if found else None)
            for other in answer.said.values():
                self.assertEqual(judge.is_chained(other.hash, last.hash), other in path)
            through = answer.through.get(last.place, [])
            self.assertEqual(judge.front_up_to(last.author, last.message.site, last.hash, last.message.text),
                             len([said for said in through if said in path and said.author == last.author]))
            self.assertEqual(judge.is_loose(last.hash), is_loose(answer, last))

    def path(self, answer: Answer, last: Saying) -> list[Saying]:
        """A message and those before it, as far as they are here."""
        found = [last]
        while before := answer.said.get(found[-1].before):
            found.append(before)
        return found

    @tries(25)
    @given(sets(), SEEDS)
    def test_what_one_saw_is_found_again(self, one: Typed, seed: int) -> None:
        chance, judged = random.Random(seed), Judged(one)
        some = judged.records(chance.sample(one.raws, chance.randrange(len(one.raws) + 1)))
        before = RecordJudge(some, form=judged.form)
        before.count()
        seen = {record.hash for record in some if self.is_seen(before, record)}
        everything = judged.records(chance.sample(one.raws, len(one.raws)))
        after = RecordJudge(everything, lambda record: bytes([record.hash not in seen]), form=judged.form)
        for site, text in {(record.site, record.text) for record in some if record.size}:
            for seq in range(1, before.front(site, text) + 1):
                self.assertEqual(after.entry_of(site, seq, text), before.entry_of(site, seq, text))

    def is_seen(self, judge: RecordJudge, record: Record) -> bool:
        """Whether a record holds a number, or has a message of a chain that holds, as far as it counts."""
        if record.kind is RecordKind.CLAIM:
            return judge.holder(record.site) == record.author
        return any(judge.entry_of(record.site, seq, record.text) == of for seq, of in enumerate(record.hashes, record.first))

    @tries(15)
    @given(sets(), SEEDS)
    def test_records_come_back_byte_for_byte_by_their_hashes_and_by_those_of_their_messages(self, one: Typed, seed: int) -> None:
        judged = Judged(one)
        records = judged.records(random.Random(seed).sample(one.raws, len(one.raws)))
        handed(judged.judge, records)
        known = {record.hash: record for record in records if record.kind is not RecordKind.NEWER}
        self.assertEqual(({*judged.judge.hashes()}, len(judged.judge)), ({*known}, len(known)))
        self.assertEqual({row.entry.hash: row.entry for row in judged.judge.rows()}, known)
        for record in known.values():
            names = [*record.hashes, record.hash]
            if record.kind is RecordKind.CLAIM:
                names.append(judged.form.keys.claim_name(record.author, record.site))
            elif record.kind is RecordKind.BASE:
                # What is no part of it nobody asks for.
                names += {*record.linked(Founding(*one.made.founding)).links}.intersection(said.hash for said in one.made.base)
            elif record.kind is RecordKind.OPENING:
                names.append(judged.form.keys.opening_name())
            for name in names:
                row = judged.judge.row(name)
                assert row
                self.assertTrue(name in judged.judge)
                self.assertEqual((row.entry.kind, row.entry.author, row.entry.site), (record.kind, record.author, record.site))

    @tries(25)
    @given(sets(), SEEDS)
    def test_what_comes_in_pages_counts_as_what_comes_one_by_one(self, one: Typed, seed: int) -> None:
        chance, judged = random.Random(seed), Judged(one)
        answer = Reader(one).judged(one.note, one.raws)
        for _ in range(3):
            judged = Judged(one)
            for some in in_parts(judged.records(one.raws), chance):
                judged.come(some)
                if chance.random() < 0.5:
                    judged.judge.count()
            self.assertEqual(record_differences(answer, judged.judge), [])

    def test_typed_letters_are_added_in_one_step_but_for_what_was_spoken_of(self) -> None:
        ada = Author(bytes([1]) * 32, b"")
        form, opening, _ = founded(ada.name)
        letters = Writer(form, ada, 1).type(b"abcdefgh")
        rows = [Row(0, letter, False) for letter in letters]
        for first, begin, is_added in ((0, 0, True), (0, 1, False), (2, 2, True), (6, 0, False), (3, 5, False)):
            # Those before the first ones are here, or the one at that place alone.
            judge = RecordJudge([opening, *(letters[:first] if first < 4 else letters[first:first + 1])], form=form)
            self.assertEqual(judge.extend(rows[begin:]), is_added)
            handed(judge, letters)
            self.assertEqual((judge.front(1), [judge.entry_of(1, seq) for seq in range(1, 9)]), (8, [one.hashes[0] for one in letters]))
            self.assertEqual([*judge.rows()][1:], [row for row in judge.rows() if row.entry in letters])


class Sealed(unittest.TestCase):
    """Records that are sealed and signed."""

    def test_they_come_back_byte_for_byte(self) -> None:
        key = Founding(SECRET, NO_HASH, public_of(SECRET), 1).key()
        form = SealedRecords(key, 0)
        ada = Author(public_of(SECRET), SECRET)
        opening = form.opening(Founding(SECRET, NO_HASH, ada.name, 1))
        letters = Writer(form, ada, 1).type(b"sealed")
        word = form.made_anew(letters[2], ada)
        judge = RecordJudge([opening, word, *letters], form=form)
        self.assertEqual(([row.entry for row in judge.rows()], judge.front(1)), ([opening, word, *letters], 6))
        self.assertEqual([form.open(row.entry.raw) for row in judge.rows()], [opening, word, *letters])


class Typing(unittest.TestCase):
    """What is made by what a judge says counts with everybody."""

    def test_what_editors_make_counts(self) -> None:
        for seed in range(6):
            chance = random.Random(seed)
            author = Author(bytes([1]) * 32, b"")
            form, opening, _ = founded(author.name)
            authors = {1: author, 2: Author(bytes([2]) * 32, b""), 3: Author(bytes([3]) * 32, b"")}
            begin = [opening, *(claim(form, authors[site], site) for site in (2, 3))]
            judges = {site: RecordJudge(begin, form=form) for site in authors}
            made = list[Record]()
            for _ in range(120):
                site = chance.choice([*authors])
                judge = judges[site]
                if chance.random() < 0.4:
                    handed(judge, chance.sample(made, len(made)))
                    judge.count()
                else:
                    made += self.edit(form, judge, authors[site], site, chance)
            for judge in judges.values():
                handed(judge, made)
                judge.count()
                self.assertEqual((judge.left_out(), judge.incomplete(), judge.wrong()), ([], 0, []))
            self.assertEqual(len({tuple(sorted(judge.let_through_in_order())) for judge in judges.values()}), 1)
            self.assertGreater({record.text for record in made}, {1})

    def edit(self, form: PlainRecords, judge: RecordJudge, author: Author, site: int, chance: random.Random) -> list[Record]:
        """An edit of some messages, perhaps in several records, that the judge has afterwards."""
        text = chance.choice([1, 1, 2])
        counting = [*judge.let_through_in_order(text)]
        stamp, length, seq = max((one.stamp for one in counting), default=0), judge.length(site, text), judge.front(site, text)
        messages = list[Operation]()
        for _ in range(chance.choice([1, 1, 3])):
            stamp, seq = stamp + 1, seq + 1
            others = [names for one in [*counting, *messages] if (names := one.new)]
            names = chance.choice(others) if others else None
            at = Names(names.site, names.at + chance.randrange(names.length), 1) if names else None
            if at and chance.random() < 0.3:
                messages.append(Operation(DELETE, site, seq, stamp, 1, (at,), text=text))
            else:
                messages.append(Operation(INSERT, site, seq, stamp, 1, (at,) if at else (), length, b"ab", PLAIN_LOOKS, text))
                length += 2
        found, before, name = list[Record](), list[Operation](), judge.last_name(site, text)
        for one in messages:
            record = form.messages(whole(one, one.at), name, author, judge.built_on([one], before))
            found.append(record)
            before.append(one)
            name = record.hashes[-1]
        handed(judge, found)
        judge.count()
        return found


class Lacking(unittest.TestCase):
    """What is missing is asked for by name, and whoever has it knows it by that."""

    def test_all_of_it_is_asked_for(self) -> None:
        ada, bob = Author(bytes([1]) * 32, b""), Author(bytes([2]) * 32, b"")
        base = Writer(PlainRecords(bytes(32), 0), ada, 7)
        form, opening, founding, records = based(ada, [run for record in base.type(b"base") for run in record.operations])
        letters = Writer(form, ada, 1).type(b"letters")
        others = [claim(form, bob, 2), *Writer(form, bob, 2).type(b"of another")]
        everything = RecordJudge([opening, *records, *letters, *others], form=form)
        judge = RecordJudge([letters[6], letters[3], others[4]], form=form)
        for _ in range(30):
            self.assertEqual(judge.is_lacking(), bool([*judge.missing()]))
            for name in [*judge.missing()][:2]:
                row = everything.row(name)
                assert row
                judge.add_new(row)
        self.assertEqual(([*judge.missing()], judge.is_lacking(), judge.loose(), judge.begun()), ([], False, [], True))
        self.assertEqual((judge.front(1), judge.front(2), judge.front(7)), (7, 4, 4))
        self.assertEqual(judge.claimed(), {1, 2, 7})

    def test_what_goes_on_from_the_base_is_left_out(self) -> None:
        ada, eve = Author(bytes([1]) * 32, b""), Author(bytes([2]) * 32, b"")
        base = Writer(PlainRecords(bytes(32), 0), ada, 7)
        form, opening, founding, records = based(ada, [run for record in base.type(b"base") for run in record.operations])
        more = Operation(INSERT, 7, 5, 9, 1, (), 4, b"!", PLAIN_LOOKS)
        for before in founding.root, bytes(31) + b"?":
            # Nothing that comes could make it count: the numbers of the base are nobody's.
            judge = RecordJudge([opening, *records[1:], form.messages(whole(more, 4), before, eve, {})], form=form)
            self.assertEqual((judge.incomplete(), judge.left_out()), (1, []))
            judge.add(records[0])
            self.assertEqual(judge.incomplete(), 0)
            self.assertEqual([(one.site, one.author, one.first, one.last) for one in judge.left_out()], [(7, eve.name, 5, 5)])
            self.assertEqual([one.text for one in retyping.lost(judge)], [b"!"])

    def test_what_nobody_claims_waits_where_the_number_is_free_alone(self) -> None:
        ada, bob, eve = (Author(bytes([number]) * 32, b"") for number in (1, 2, 3))
        form, opening, _ = founded(ada.name)
        bobs, strangers = Writer(form, bob, 2).type(b"bob"), [Writer(form, eve, site).type(b"a remark") for site in (1, 2)]
        judge = RecordJudge([opening, *bobs, *strangers[0], *strangers[1]], form=form)
        # Ada founded the note, so nobody else ever has her number: what is written under it holds nothing up.
        self.assertEqual((judge.incomplete(), [(one.site, one.messages) for one in judge.left_out()]), (11, [(1, 8)]))
        judge.add(claim(form, bob, 2))
        self.assertEqual((judge.front(2), judge.incomplete()), (3, 0))
        self.assertEqual([(one.site, one.author, one.messages) for one in judge.left_out()], [(1, eve.name, 8), (2, eve.name, 8)])
        # A claim may have been lost, so it is asked for all the same.
        self.assertEqual([*judge.missing()], [form.keys.claim_name(eve.name, site) for site in (1, 2)])


def based(author: Author, messages: Sequence[Operation]) -> tuple[PlainRecords, Record, Founding, list[Record]]:
    """A note that begins with messages: its form, its opening, what that says, and the records of the base, each of one message."""
    links = [NO_HASH, *Founding(SECRET, NO_HASH, author.name, 1).links(NO_HASH, messages)]
    form, opening, founding = founded(author.name, links[-1])
    return form, opening, founding, [form.base(whole(one, one.at), link) for one, link in zip(messages, links)]


class LeftOutByOnesOwnKey(unittest.TestCase):
    """Who holds a key can take the text of its number out of the count: it is told how much, and whose, until somebody typed it again."""

    def setUp(self) -> None:
        self.ada, self.bob = Author(bytes([1]) * 32, b""), Author(bytes([2]) * 32, b"")
        self.form, opening, _ = founded(self.ada.name)
        self.judge = RecordJudge([opening, claim(self.form, self.bob, 2)], form=self.form)
        self.first = Writer(self.form, self.bob, 2)
        # A branch after its first letter holds in the place of the other letters.
        words = self.first
        words.type(b"abcdef")
        branches = (self.branch(stamp) for stamp in range(3, 60))
        self.other = next(one for one in branches if one.made[1].hashes < words.made[1].hashes)

    def branch(self, stamp: int) -> Writer:
        """Other letters after the first one."""
        branch = self.first.fork(1)
        branch.type(b"XY", stamp=stamp)
        return branch

    def told(self) -> list[tuple[int, int, int, int]]:
        """The number, the first and the last message that were left out, and how many characters."""
        return [(one.site, one.first, one.last, one.characters) for one in self.judge.left_out()]

    def test_it_is_told_how_much_and_whose_and_of_which_text(self) -> None:
        margin = Writer(self.form, self.bob, 2, text=2).type(b"a remark")
        handed(self.judge, [*self.first.made, *margin])
        self.assertEqual((self.judge.front(2), self.told()), (6, []))
        handed(self.judge, self.other.made)
        self.assertEqual((self.judge.front(2), self.judge.front(2, 2)), (3, 8))
        self.assertEqual([(one.site, one.author, one.first, one.last, one.messages, one.characters, one.text)
                          for one in self.judge.left_out()], [(2, self.bob.name, 2, 6, 5, 5, 1)])
        self.assertEqual([record.hash for record in self.judge.not_counting(2, self.bob.name)],
                         [record.hash for record in self.first.made[1:]])

    def test_what_builds_on_it_is_told_too(self) -> None:
        ada = Writer(self.form, self.ada, 1)
        handed(self.judge, self.first.made)
        on = self.judge.built_on([Operation(INSERT, 1, 1, 99, 1, (Names(2, 5, 1),), 0, b"!", PLAIN_LOOKS)])
        handed(self.judge, ada.type(b"!?", stamp=99, cause=Names(2, 5, 1), on=on[0]))
        self.assertEqual((self.judge.front(1), self.told()), (2, []))
        handed(self.judge, self.other.made)
        self.assertEqual((self.judge.front(1), self.told(), self.judge.incomplete()), (0, [(1, 1, 2, 2), (2, 2, 6, 5)], 0))

    def test_whoever_types_it_again_says_so_and_it_is_told_no_more(self) -> None:
        handed(self.judge, [*self.first.made, *self.other.made])
        ada = Writer(self.form, self.ada, 1)
        again = ada.type(b"bcd")
        word = self.form.copies(Copied(self.bob.name, 2, self.ada.name, 1, ((2, 1, 5),), again[-1].hashes[0]), self.ada, 1,
                                self.first.made[-1].hashes[0])
        handed(self.judge, [word])
        self.assertEqual(self.told(), [(2, 2, 6, 5)])
        handed(self.judge, again)
        self.assertEqual(self.told(), [(2, 5, 6, 2)])
        # Where something else stands in their place that is no copy.
        self.assertEqual([self.judge.is_copied(record, record.first) for record in self.first.made],
                         [False, True, True, True, False, False])
        self.assertEqual([len(self.judge.not_copied(record)) for record in self.first.made], [1, 0, 0, 0, 1, 1])

    def test_nothing_is_said_of_what_was_withdrawn(self) -> None:
        handed(self.judge, [*self.first.made, *self.other.made])
        withdrawn = self.first.type(b"g")[0]
        handed(self.judge, [self.form.made_anew(self.first.made[3], self.bob)])
        self.assertFalse(self.judge.is_copied(withdrawn, withdrawn.first))
        self.assertEqual(self.judge.not_copied(withdrawn), [*withdrawn.messages])

    def test_who_made_it_anew_says_so(self) -> None:
        handed(self.judge, [*self.first.made, *self.other.made])
        handed(self.judge, [self.form.made_anew(self.first.made[3], self.bob)])
        self.assertEqual(self.told(), [(2, 5, 6, 2)])


class WithTheSameMessages(unittest.TestCase):
    """Somebody writes under a number that another one holds, who has written nothing yet."""

    def test_it_is_told_until_the_holder_has_the_same(self) -> None:
        form, opening, _ = founded(bytes([1]) * 32)
        judge, (own, others) = RecordJudge([opening], form=form), (
            Writer(form, Author(bytes([who]) * 32, b""), 1).type(b"ab") for who in (1, 2))
        handed(judge, others)
        self.assertEqual(sum(one.messages for one in judge.left_out()), 2)
        handed(judge, own)
        self.assertEqual(judge.left_out(), [])


class WithRoom(unittest.TestCase):
    """How much of what doesn't count is in memory."""

    def setUp(self) -> None:
        self.authors = [Author(bytes([number]) * 32, b"") for number in range(1, 30)]
        self.form, self.opening, _ = founded(self.authors[0].name)

    def typed(self, number: int, many: int, site: int | None = None) -> list[Record]:
        """What an author typed under a number, his own where none is given."""
        return Writer(self.form, self.authors[number], site or number + 1).type(b"x" * many)

    def kept(self, judge: RecordJudge, records: Iterable[Record]) -> int:
        """How many of some records are in memory."""
        return sum(record.hash in judge for record in records)

    def test_numbers_have_equal_parts_and_those_who_hold_none_one_half(self) -> None:
        bobs, eves, strangers = self.typed(1, 300)[1:], self.typed(2, 300)[1:], self.typed(3, 300)
        judge = RecordJudge([self.opening, *(claim(self.form, self.authors[at], at + 1) for at in (1, 2))], form=self.form, room=80_000)
        handed(judge, [one for each in zip(bobs, eves, strangers[1:]) for one in each])
        parts_of = self.kept(judge, bobs), self.kept(judge, eves), self.kept(judge, strangers)
        self.assertEqual(parts_of[0], parts_of[1])
        # Half of the room is that of the three numbers and one part more; the other half is everybody's else.
        self.assertTrue(3.5 < parts_of[2] / parts_of[0] < 4.5, parts_of)
        self.assertEqual(len(judge.dropped()), 3 * 299 - sum(parts_of))
        # What comes of one person's numbers takes nothing from another.
        handed(judge, self.typed(4, 300))
        self.assertEqual((self.kept(judge, bobs), self.kept(judge, eves)), parts_of[:2])

    def test_what_was_dropped_has_its_turn_as_the_chain_goes_on(self) -> None:
        adas = self.typed(0, 300)
        judge = RecordJudge([self.opening], form=self.form, room=20_000)
        handed(judge, adas[:0:-1])
        dropped = judge.dropped()
        self.assertTrue(200 < len(dropped) < 299)
        self.assertEqual(judge.turns(), set())
        handed(judge, adas[:1])
        self.assertEqual((judge.count().messages != [], judge.turns()), (True, {1}))
        for row in sorted(dropped, key=lambda row: row.entry.first):
            judge.add_new(row)
        self.assertEqual((judge.front(1), judge.dropped()), (300, []))

    def test_what_waits_in_a_chain_has_a_part_and_what_counts_by_then_takes_none(self) -> None:
        judge = RecordJudge([self.opening, claim(self.form, self.authors[1], 2)], form=self.form, room=40_000)
        bobs, ada = Writer(self.form, self.authors[1], 2), Writer(self.form, self.authors[0], 1)
        adas = ada.type(b"ada")
        on = self.form.keys.built_on([adas[2].hashes[0]])
        waiting = [bobs.type(b"b", stamp=9, cause=Names(1, 2, 1), on=on)[0], *bobs.type(b"o" * 99)]
        handed(judge, waiting[:1])
        judge.count()
        handed(judge, waiting[1:])
        kept = self.kept(judge, waiting[1:])
        self.assertTrue(5 < kept < 20)
        dropped = judge.dropped()
        handed(judge, adas)
        judge.count()
        self.assertEqual(judge.turns(), {2})
        for row in dropped:
            judge.add_new(row)
        self.assertEqual((judge.front(2), judge.dropped()), (100, []))
        # Others may wait now.
        more = bobs.type(b"b" * 40)[1:]
        handed(judge, more)
        self.assertTrue(kept - 1 <= self.kept(judge, more) <= kept + 1)

    def test_what_was_made_here_and_what_may_count_is_always_kept(self) -> None:
        judge, adas = RecordJudge([self.opening], form=self.form, room=1), self.typed(0, 9)
        handed(judge, self.typed(0, 9))
        self.assertEqual((judge.front(1), judge.dropped()), (9, []))
        for record in self.typed(1, 9):
            judge.add(record, made=True)
        self.assertEqual(self.kept(judge, self.typed(1, 9)), 9)
        forks = [one for stamp in range(2, 20) for one in self.fork(adas, stamp)]
        least = min(forks, key=lambda one: one.hashes)
        handed(judge, forks)
        self.assertEqual(judge.entry_of(1, 2), min(least.hashes[0], adas[1].hashes[0]))

    def fork(self, records: Sequence[Record], stamp: int) -> list[Record]:
        """Another letter after the first one."""
        other = Writer(self.form, self.authors[0], 1)
        other.made, other.length, other.stamp = [records[0]], 1, 1
        return other.type(b"y", stamp=stamp)

    def test_claims_that_hold_nothing_have_no_more_room_than_others(self) -> None:
        judge = RecordJudge([self.opening], form=self.form, room=10_000)
        claims = [claim(self.form, author, 9, begin) for author in self.authors for begin in (0,)]
        handed(judge, claims)
        least = min(claims, key=lambda record: record.rank)
        self.assertEqual(judge.holder(9), least.author)
        self.assertTrue(self.kept(judge, claims) < 29 and judge.dropped())

    def said(self, number: int, many: int, site: int | None = None) -> list[Record]:
        """What an author says under a number, each of many messages that were copied."""
        author, site = self.authors[number], site or number + 1
        stretches = tuple((3 * seq, 2 * seq, 1) for seq in range(1, 50))
        return [self.form.copies(Copied(author.name, site, author.name, site, stretches), author, site, bytes([1, at // 256, at % 256]) * 10
                                 + b"of") for at in range(many)]

    def test_what_is_said_of_copies_has_a_part_too(self) -> None:
        strangers, eves, bobs = self.said(3, 300), self.said(2, 300), self.said(1, 1)
        judge = RecordJudge([self.opening, *(claim(self.form, self.authors[at], at + 1) for at in (1, 2))], form=self.form, room=2**20)
        handed(judge, [*strangers, *eves, *bobs])
        # Whoever says more than there is room for takes nothing from who holds another number.
        self.assertEqual(self.kept(judge, bobs), 1)
        self.assertTrue(0 < self.kept(judge, strangers) < 20 and 0 < self.kept(judge, eves) < 20, "what is said is bounded")
        self.assertEqual({row.entry.hash for row in judge.dropped()}, {one.hash for one in [*strangers, *eves] if one.hash not in judge})
        # It has no other turn: nothing makes room for it.
        handed(judge, self.typed(2, 9))
        judge.count()
        self.assertEqual(judge.turns(), set())
        # What is said here is always kept.
        for one in self.said(0, 100):
            judge.add(one, made=True)
        self.assertEqual(self.kept(judge, self.said(0, 100)), 100)

    def test_the_base_is_found_with_no_room_at_all(self) -> None:
        letters = [run for record in Writer(self.form, self.authors[3], 4).type(b"words of before") for run in record.operations]
        form, opening, _, records = based(self.authors[0], letters)
        fakes = [form.base(whole(one, one.at), bytes([number]) * 32) for number, one in enumerate(letters, 1)]
        judge, waiting = RecordJudge(form=form, room=1), [*fakes, *records]
        adas = Writer(form, self.authors[0], 1).type(b"ada")
        handed(judge, [*adas, opening])
        for _ in range(len(records) + 2):
            handed(judge, waiting)
            waiting = [row.entry for row in judge.dropped() if isinstance(row.entry, Record)]
            judge.turns()
        self.assertEqual((judge.begun(), judge.front(4), judge.front(1)), (True, 15, 3))


class Costs(unittest.TestCase):
    """What comes costs what it is about, whatever else is there."""

    def setUp(self) -> None:
        self.ada, self.eve = Author(bytes([1]) * 32, b""), Author(bytes([2]) * 32, b"")
        self.form, self.opening, _ = founded(self.ada.name)
        self.adas = Writer(self.form, self.ada, 1).type(b"words and more")

    def letter(self, entries: Sequence[Record]) -> int:
        """How many instructions a letter takes after records came, and looking at what is told."""
        judge = RecordJudge([self.opening, *self.adas[:9]], form=self.form, room=ROOM)
        handed(judge, entries)

        def look() -> None:
            judge.count()
            judge.left_out()
            judge.incomplete()

        def come(record: Record) -> None:
            judge.add(record, made=True)
            look()

        look()
        come(self.adas[9])
        taken = min(instructions(partial(come, one)) for one in self.adas[10:])
        self.assertEqual(judge.front(1), len(self.adas))
        return taken

    def assert_no_dearer(self, one: Sequence[Record], three: Sequence[Record]) -> None:
        self.assertLess(self.letter(three), MOST_TIMES * self.letter(one))

    def test_of_records_that_lost_a_fork(self) -> None:
        def forks(many: int) -> list[Record]:
            found = [claim(self.form, self.eve, 2)]
            for stamp in range(many):
                found += Writer(self.form, self.eve, 2).type(b"eve", stamp=stamp + 1)
            return found

        self.assert_no_dearer(forks(40), forks(120))

    def test_of_records_that_lack_one_before_them(self) -> None:
        loose = [claim(self.form, self.eve, 2), *Writer(self.form, self.eve, 2).type(b"e" * 600)[1:]]
        self.assert_no_dearer(loose[:200], loose)

    def test_of_records_of_who_claims_nothing(self) -> None:
        records = Writer(self.form, self.eve, 2).type(b"e" * 600)
        self.assert_no_dearer(records[:200], records)

    def test_of_chains_that_wait_for_what_never_comes(self) -> None:
        def waiting(many: int) -> list[Record]:
            authors = {site: Author(site.to_bytes(32, "big"), b"") for site in range(3, many)}
            return [record for site, author in authors.items() for record in (claim(self.form, author, site), *Writer(
                self.form, author, site).type(b"eve", cause=Names(2, site, 1), on=bytes([site]) * 32))]

        self.assert_no_dearer(waiting(15), waiting(45))

    def test_of_claims(self) -> None:
        claims = [claim(self.form, author, 3) for author in (Author(number.to_bytes(32, "big"), b"") for number in range(60))]
        self.assert_no_dearer(claims[:20], claims)

    def test_of_words(self) -> None:
        words = [self.form.anew_up_to(number.to_bytes(32, "big"), self.eve, 2, 1) for number in range(1, 601)]
        self.assert_no_dearer(words[:200], words)

    def test_of_kinds_that_nobody_knows(self) -> None:
        before = self.adas[0].raw
        newer = [self.form.open(self.newer(before, number)) for number in range(600)]
        self.assertEqual({record.kind for record in newer}, {RecordKind.NEWER})
        self.assert_no_dearer(newer[:200], newer)

    def newer(self, raw: bytes, number: int) -> bytes:
        """What a later version wrote."""
        return self.form._unsigned(raw[:1] + bytes([99]) + raw[2:self.form.head_bytes], number.to_bytes(9, "big"))

    def test_a_base_that_is_linked_late_takes_as_long_as_it_is_whatever_the_order(self) -> None:
        def taken(many: int, seed: int) -> int:
            base = Writer(PlainRecords(bytes(32), 0), self.ada, 7).type(b"b" * many)
            _, opening, founding, records = based(self.ada, [run for record in base for run in record.operations])
            form = PlainRecords(founding.key(), 0)
            random.Random(seed).shuffle(records)
            for coming in [*records, opening], [opening, *records], [*records[:many // 2], opening, *records[many // 2:]]:
                judge = RecordJudge(form=form)
                found.append(instructions(partial(handed, judge, coming)))
                self.assertEqual((judge.begun(), judge.front(7)), (True, many))
            return sum(found[-3:])

        found = list[int]()
        self.assertLess(taken(300, 1), 3 * MOST_TIMES * taken(100, 2))

    def test_all_of_a_burst_with_a_look_at_the_end_takes_as_long_as_it_is(self) -> None:
        def taken(many: int, order: int) -> int:
            letters = Writer(self.form, self.ada, 1).type(b"w" * many)[::order]

            def come() -> None:
                judge = RecordJudge([self.opening, *letters], form=self.form)
                judge.count()
                judge.left_out()
                judge.incomplete()
                self.assertEqual(judge.front(1), many)

            return instructions(come)

        for order in (1, -1):
            self.assertLess(taken(450, order), 3 * MOST_TIMES * taken(150, order))

    def test_a_key_takes_little_memory(self) -> None:
        count = 3_000
        letters = Writer(self.form, self.ada, 1).type(b"w" * count)
        tracemalloc.start()
        judge = RecordJudge([self.opening, *letters], form=self.form)
        judge.count()
        held, _ = tracemalloc.get_traced_memory()
        tracemalloc.stop()
        self.assertEqual(judge.front(1), count)
        self.assertLess(held / count, MOST_BYTES_OF_A_LETTER)


if __name__ == "__main__":
    unittest.main()
