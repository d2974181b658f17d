"""Judging messages in notes of the second form: the quick program says what the plain one does, whatever came in whatever order, and
what comes costs what it changes."""
import os
import random
import tracemalloc
import unittest
from collections.abc import Iterable, Sequence
from functools import partial
from hashlib import sha256

from hypothesis import HealthCheck, given, settings
from hypothesis import strategies as st

from share.admission.causes import LEAP
from share.admission.message_judge import MessageJudge
from share.admission.reasons import Reason
from share.format.operation import DELETE, INSERT, PLAIN_LOOKS, Operation
from share.tests.counting import instructions
from share.tests.naive_chunks import Message, inserting
from share.tests.naive_second import PLAIN, ZEROS, Author, Founding, Kind, Why, searched
from share.tests.naive_second import claim as claimed
from share.tests.record_agreement import agrees_on_records
from share.tests.second_agreement import TYPING, Counting, Reader, Record, Typed, agreed, agrees, joined, parts
from share.tests.second_attacks import ATTACKS
from share.tests.second_sets import STEPS, ZERO_BITS, Branch, Set
from share.text.names import Names

SEEDS = st.integers(0, 2**16 - 1)
TIMES = int(os.environ.get("VIALSHOAL_EXAMPLES", "0"))
ADA, BOB, EVE = (bytes([number]) * 32 for number in (1, 2, 3))
# Of three times as much a letter may take this many times the instructions.
MOST_TIMES = 1.6
MOST_BYTES_OF_A_LETTER = 350


def tries(count: int) -> settings:
    """That a test tries so many examples, the same ones each time unless more are asked for."""
    return settings(max_examples=count * max(TIMES, 1), derandomize=not TIMES, database=None, deadline=None,
                    suppress_health_check=list(HealthCheck))


def sets() -> st.SearchStrategy[Typed]:
    """Sets of entries, some claims and some chains first."""
    first = st.tuples(*(st.tuples(st.just(what), SEEDS) for what in ["claim"] * 6 + ["begin"] * 3))
    others = st.lists(st.tuples(st.sampled_from(STEPS + TYPING + ATTACKS), SEEDS), min_size=5, max_size=25)
    return st.builds(lambda one, two, has_base: Typed([*one, *two], has_base), first, others, st.booleans())


def digest(data: bytes) -> bytes:
    """What these hashes are made by."""
    return sha256(b"a note's key" + data).digest()


def opening(root: bytes = ZEROS) -> Record:
    """The opening of a note that Ada founded under number 1."""
    return Record(Kind.OPENING, bytes(32), 0, 0, 0, 0, ZEROS, founding=Founding(bytes(32), root, ADA, 1))


def claim(author: bytes, site: int, rank: bytes = b"r") -> Record:
    """A claim by a rank."""
    return Record(Kind.CLAIM, author, site, 0, 0, 0, ZEROS, rank=rank)


def typed(author: bytes, site: int, data: bytes, *, after: Sequence[Record] = (), stamp: int = 0, cause: Names | None = None,
          on: bytes = b"", text: int = 1) -> list[Record]:
    """Letters that are typed after others, each in an entry."""
    found, before = list[Record](), after[-1].hashes[-1] if after else ZEROS
    for at, letter in enumerate(data, len(after)):
        mentions = (cause,) if cause and not found else (Names(site, at - 1, 1),) if at else ()
        one = Operation(INSERT, site, at + 1, stamp + at + 1, 1, mentions, at, bytes([letter]), PLAIN_LOOKS)
        found.append(said(author, before, one, b"" if found else on, text))
        before = found[-1].hashes[0]
    return found


def said(author: bytes, before: bytes, one: Operation, on: bytes = b"", text: int = 1) -> Record:
    """The entry of a message."""
    message = repr((one.kind, one.site, one.seq, one.stamp, one.mentions, one.data)).encode()
    of = digest(b"\1" + author + before + bytes([text]) + message + on)
    return Record(Kind.MESSAGES, author, one.site, text, one.seq, 1, before, (one,), (of,), (on,))


def folded(entries: Sequence[Record]) -> Record:
    """Entries that follow one another in one."""
    hashes, ons = tuple(of for entry in entries for of in entry.hashes), tuple(of for entry in entries for of in entry.ons)
    operations = joined(one for entry in entries for one in entry.operations)
    return entries[0]._replace(size=len(hashes), operations=operations, hashes=hashes, ons=ons)


def judged(entries: Iterable[Record]) -> None:
    """Judges entries that come at once."""
    MessageJudge(digest, [opening(), *entries]).count()


def data_of(messages: Iterable[Operation]) -> list[bytes]:
    """What messages insert."""
    return [one.data for one in messages]


class Agreement(unittest.TestCase):
    """The quick program and the plain one."""

    @tries(60)
    @given(sets(), SEEDS)
    def test_of_sets_and_parts_of_them_in_any_order_with_repeats(self, one: Typed, seed: int) -> None:
        chance = random.Random(seed)
        reader = Reader(one)
        for some, _ in zip(parts(one, chance), range(4)):
            agrees(one, reader, some, chance)

    @tries(30)
    @given(sets(), SEEDS)
    def test_what_came_again_changes_nothing(self, one: Typed, seed: int) -> None:
        records, counting = Reader(one).records(one.raws), Counting(one)
        for each in random.Random(seed).sample(records, len(records)):
            counting.judge.add(each)
        counting.turn()
        messages = len(counting.judge.sayings)
        for each in records:
            counting.judge.add(each)
            self.assertEqual(counting.judge.count(), {})
        self.assertEqual(len(counting.judge.sayings), messages)

    def test_of_what_builds_on_many_numbers(self) -> None:
        one, chance, typed_by = Set([], False), random.Random(3), dict[int, Branch]()
        for number in range(30):
            author = Author.of(number.to_bytes(32, "big"), PLAIN)
            counter, site = searched(one.note.identity, author.name, ZERO_BITS)
            letter = inserting(1, site, 1, chance.randrange(1, 100), None, 0, b"x")
            typed_by.setdefault(site, Branch(author, site, 1).gone_on(one.note, letter))
            one.raws += [claimed(one.note, author, counter, site), typed_by[site].raw(one.note, 0, 1)]
        *others, site = sorted(typed_by)
        speaks = Message(DELETE, 1, site, 2, 100, tuple((other, 0, 1) for other in others))
        hashes = [typed_by[other].said[0].hash for other in others]
        branches = [typed_by[site].gone_on(one.note, speaks, one.note.built_on(some)) for some in (hashes, hashes[::-1], hashes[1:])]
        reader, letters, counted = Reader(one), [*one.raws], list[Why | None]()
        for branch in branches:
            one.raws = [*letters, branch.raw(one.note, 1, 2)]
            some = chance.sample(one.raws, len(one.raws))
            answer = agrees(one, reader, some, chance)
            agrees_on_records(one, answer, some, chance)
            counted.append(answer.left_out[branch.said[1].hash][1] if branch.said[1].hash in answer.left_out else None)
        self.assertEqual(counted, [None, Why.OTHERS, Why.OTHERS])

    def test_in_bulk_sets_have_all_that_can_be(self) -> None:
        found, through = agreed(1_500 * max(TIMES, 1), 7)
        self.assertEqual({one.name for one in Reason if found[one.name] < 3}, set())
        self.assertGreater(through, 1_000)


class Told(unittest.TestCase):
    """What is told to count, to count no more, and why something doesn't."""

    def setUp(self) -> None:
        self.judge = MessageJudge(digest, [opening()])

    def turn(self, *entries: Record, text: int = 1) -> tuple[list[bytes], list[bytes]]:
        """What counts, and what ceased to, after entries came."""
        for one in entries:
            self.judge.add(one)
        turns = self.judge.count()
        self.assertLessEqual(turns.keys(), {text})
        return (data_of(turns[text].counting), data_of(turns[text].ceased)) if turns else ([], [])

    def reasons(self, *entries: Record) -> list[Reason | None]:
        return [self.judge.reason(of) for one in entries for of in one.hashes]

    def test_letters_count_one_after_the_other_in_whatever_order_they_come(self) -> None:
        letters = typed(ADA, 1, b"abcdef")
        self.assertEqual(self.turn(letters[0]), ([b"a"], []))
        self.assertEqual(self.turn(letters[3], letters[2]), ([], []))
        self.assertEqual(self.reasons(letters[2], letters[0]), [Reason.LOOSE, None])
        self.assertEqual([*self.judge.missing()], [letters[1].hashes[0]])
        self.assertEqual(self.turn(letters[1]), ([b"b", b"c", b"d"], []))
        self.assertEqual([*self.judge.missing()], [])
        self.assertEqual(self.turn(*letters), ([b"e", b"f"], []))

    def test_however_they_are_cut_messages_are_here_once(self) -> None:
        letters = typed(ADA, 1, b"x" * 60)
        chance = random.Random(1)
        self.turn(*letters[:40])
        for _ in range(50):
            begin = chance.randrange(59)
            self.turn(folded(letters[begin:chance.randrange(begin + 1, 61)]))
        self.turn(folded(letters))
        self.assertEqual((len(self.judge.sayings), self.judge.front(1, 1)), (60, 60))
        self.assertEqual(b"".join(data_of(self.judge.in_order(1))), b"x" * 60)

    def test_a_branch_may_leave_another_in_the_middle_of_a_fold(self) -> None:
        letters = typed(ADA, 1, b"abcdefgh")
        others = [typed(ADA, 1, bytes([one]) + b"yz", after=letters[:4]) for one in b"0123456789"]
        greater = next(one for one in others if one[0].hashes > letters[4].hashes)
        lesser = next(one for one in others if one[0].hashes < letters[4].hashes)
        self.turn(folded(letters))
        self.assertEqual(self.turn(folded([*letters[:4], *greater])), ([], []))
        self.assertEqual(self.reasons(*greater), [Reason.BRANCH] * 3)
        counting, ceased = self.turn(folded([*letters[2:4], *lesser]))
        self.assertEqual((counting, ceased), (data_of(one.operations[0] for one in lesser), [b"e", b"f", b"g", b"h"]))
        self.assertEqual(b"".join(data_of(self.judge.in_order(1))), b"abcd" + b"".join(counting))
        self.assertEqual(self.reasons(letters[3], *letters[4:]), [None, *[Reason.BRANCH] * 4])

    def test_what_ceases_begins_where_branches_part(self) -> None:
        letters = typed(ADA, 1, b"abcdefghi")
        for place in range(9):
            self.judge = MessageJudge(digest, [opening(), *letters])
            self.turn()
            others = [typed(ADA, 1, b"x", after=letters[:place], stamp=stamp) for stamp in range(20)]
            lesser = next(one for one in others if one[0].hashes < letters[place].hashes)
            self.assertEqual(self.turn(*lesser), ([b"x"], data_of(one.operations[0] for one in letters[place:])))

    def test_two_forks_that_come_at_once_are_both_told(self) -> None:
        forks = []
        for author, site in (ADA, 1), (BOB, 2):
            branches = [typed(author, site, bytes([one]) + b"tail") for one in b"abcdef"]
            forks.append((max(branches, key=lambda one: one[0].hashes), min(branches, key=lambda one: one[0].hashes)))
        self.turn(claim(BOB, 2), *forks[0][0], *forks[1][0])
        counting, ceased = self.turn(*forks[0][1], *forks[1][1])
        for which, found in (1, counting), (0, ceased):
            self.assertEqual(sorted(found), sorted(data_of(one.operations[0] for both in forks for one in both[which])))

    def test_what_looks_as_if_typed_on_is_looked_at_by_itself(self) -> None:
        letters = typed(ADA, 1, b"abcde")
        right = Operation(INSERT, 1, 6, 6, 1, (Names(1, 4, 1),), 5, b"f", PLAIN_LOOKS)
        wrong = right._replace(at=6, mentions=(Names(1, 5, 1),)), right._replace(at=4), right._replace(stamp=5)
        others = (right._replace(stamp=7), right._replace(data=b"fg"), right._replace(mentions=(Names(1, 3, 1),)),
                  right._replace(looks=b"\1A\1\0"))
        for one, why in [(one, Reason.WRONG) for one in wrong] + [(one, None) for one in (right, *others)]:
            self.judge = MessageJudge(digest, [opening(), *letters])
            more = said(ADA, letters[-1].hashes[0], one)
            self.turn(more)
            self.assertEqual((self.reasons(more), [*self.judge.in_order(1)][5:]), ([why], [] if why else [one]))
        # This is typed on after the last letter, but its seq is that of another one.
        forked = said(ADA, letters[2].hashes[0], right._replace(seq=4))
        self.judge = MessageJudge(digest, [opening(), *letters])
        self.turn(forked)
        self.assertEqual(b"".join(data_of(self.judge.in_order(1))), b"abcde" if forked.hashes > letters[3].hashes else b"abc")

    def test_stamps_rise_over_a_run_and_by_what_it_mentions(self) -> None:
        letters = typed(ADA, 1, b"abcde")
        bobs = [claim(BOB, 2), *typed(BOB, 2, b"b")]
        on = digest(b"\2" + letters[3].hashes[0])
        for stamp in range(2, 7):
            more = said(ADA, letters[-1].hashes[0], Operation(DELETE, 1, 6, stamp, 1, (Names(1, 0, 1),)))
            others = said(BOB, bobs[-1].hashes[0], Operation(DELETE, 2, 2, stamp, 1, (Names(1, 3, 1),)), on)
            self.judge = MessageJudge(digest, [opening(), folded(letters), *bobs, more, others])
            self.turn()
            self.assertEqual(self.reasons(more, others), [Reason.WRONG if stamp <= 5 else None, Reason.WRONG if stamp <= 4 else None])

    def test_a_message_says_what_it_builds_on_where_it_goes_beyond_what_was_mentioned(self) -> None:
        letters, eves = typed(ADA, 1, b"abcdef"), typed(EVE, 3, b"xyz")
        begin = [opening(), claim(BOB, 2), claim(EVE, 3), folded(letters), *eves]
        built = [digest(b"\2" + one.hashes[0]) for one in letters]
        spoken = [((Names(1, 3, 1),), built[3]), ((Names(1, 1, 2),), b""), ((Names(1, 3, 1),), b""),
                  ((Names(1, 0, 5), Names(3, 1, 2)), digest(b"\2" + letters[4].hashes[0] + eves[2].hashes[0])),
                  ((Names(1, 4, 2),), built[5])]
        found, before = list[Record](), ZEROS
        for seq, (names, on) in enumerate(spoken, 1):
            found.append(said(BOB, before, Operation(DELETE, 2, seq, 50 + seq, 1, names), on))
            before = found[-1].hashes[0]
        self.judge = MessageJudge(digest, [*begin, *found])
        self.turn()
        self.assertEqual(self.reasons(*found), [None] * 5)

    def test_what_builds_on_a_thousand_numbers_has_them_in_their_order(self) -> None:
        sites = range(3, 1_003)
        letters = [typed(site.to_bytes(32, "big"), site, b"x")[0] for site in sites]
        names, hashes = tuple(Names(site, 0, 1) for site in sites), [one.hashes[0] for one in letters]
        claims = [claim(BOB, 2), *(claim(each.author, each.site) for each in letters)]
        for some, why in (hashes, None), (hashes[::-1], Reason.OTHERS), (hashes[1:], Reason.OTHERS), (hashes[:-1], Reason.OTHERS):
            one = said(BOB, ZEROS, Operation(DELETE, 2, 1, 9, 1, names), digest(b"\2" + b"".join(some)))
            self.judge = MessageJudge(digest, [opening(), one, *claims, *letters[1:]])
            self.turn()
            self.assertEqual(self.reasons(one), [Reason.LACKS])
            self.turn(letters[0])
            self.assertEqual(self.reasons(one), [why])

    def test_what_says_nothing_of_what_it_builds_on_is_wrong_and_so_is_what_needlessly_does(self) -> None:
        letters, bobs = typed(ADA, 1, b"abc"), [claim(BOB, 2), *typed(BOB, 2, b"b")]
        built = digest(b"\2" + letters[1].hashes[0])
        for name, on, why in ((Names(1, 1, 1), b"", Reason.WRONG), (Names(1, 1, 1), built, None), (Names(2, 0, 1), built, Reason.WRONG),
                              (Names(1, 1, 1), digest(b"?"), Reason.OTHERS)):
            one = said(BOB, bobs[-1].hashes[0], Operation(DELETE, 2, 2, 9, 1, (name,)), on)
            self.judge = MessageJudge(digest, [opening(), *letters, *bobs, one])
            self.turn()
            self.assertEqual(self.reasons(one), [why])

    def test_what_waits_waits_for_what_it_lacks_alone(self) -> None:
        letters, eves = typed(ADA, 1, b"abc"), typed(EVE, 3, b"xyz")
        on = digest(b"\2" + letters[2].hashes[0] + eves[2].hashes[0])
        one = said(BOB, ZEROS, Operation(DELETE, 2, 1, 9, 1, (Names(1, 0, 3), Names(3, 0, 3))), on)
        self.turn(claim(BOB, 2), claim(EVE, 3), *letters, one)
        self.assertEqual(self.reasons(one), [Reason.LACKS])
        self.turn(*eves[:2])
        self.assertEqual(self.reasons(one), [Reason.LACKS])
        self.turn(eves[2])
        self.assertEqual(self.reasons(one), [None])

    def test_a_stamp_is_above_those_of_all_that_is_mentioned_and_no_leap_above_all(self) -> None:
        letters, eves = typed(ADA, 1, b"abc", stamp=20), typed(EVE, 3, b"xyz")
        on = digest(b"\2" + letters[2].hashes[0] + eves[2].hashes[0])
        for stamp, why in (22, Reason.WRONG), (23, Reason.WRONG), (24, None), (23 + LEAP, None), (24 + LEAP, Reason.STAMP):
            one = said(BOB, ZEROS, Operation(DELETE, 2, 1, stamp, 1, (Names(1, 0, 3), Names(3, 0, 3))), on)
            self.judge = MessageJudge(digest, [opening(), claim(BOB, 2), claim(EVE, 3), *eves, *letters, one])
            self.turn()
            self.assertEqual(self.reasons(one), [why])
        # Once the greatest has risen it counts.
        more = said(ADA, letters[2].hashes[0], Operation(DELETE, 1, 4, 24, 1, (Names(1, 0, 1),)))
        self.turn(more)
        self.assertEqual(self.reasons(one), [None])

    def test_what_builds_on_what_ceased_ceases_too_and_others_stay(self) -> None:
        mine = [typed(ADA, 1, bytes([one])) for one in b"abcdefghij"]
        greatest, least = max(mine, key=lambda one: one[0].hashes), min(mine, key=lambda one: one[0].hashes)
        on = digest(b"\2" + greatest[0].hashes[0])
        reply = typed(BOB, 2, b"r!", stamp=9, cause=Names(1, 0, 1), on=on)
        alone = typed(EVE, 3, b"e")
        self.turn(claim(BOB, 2), claim(EVE, 3), *greatest, *reply, *alone)
        self.assertEqual(self.judge.front(2, 1), 2)
        counting, ceased = self.turn(*least)
        self.assertEqual((counting, sorted(ceased)), (data_of(least[0].operations), sorted([*data_of(greatest[0].operations), b"r", b"!"])))
        self.assertEqual(self.reasons(*greatest, *reply, *alone), [Reason.BRANCH, Reason.OTHERS, Reason.AFTER, None])

    def test_a_lesser_rank_takes_a_number_in_all_texts_and_a_greater_one_none(self) -> None:
        bobs, eves = typed(BOB, 2, b"bob"), typed(EVE, 2, b"ev", text=2)
        self.assertEqual(self.turn(*bobs, *eves), ([], []))
        self.assertEqual(self.reasons(bobs[0], eves[0]), [Reason.UNCLAIMED] * 2)
        self.assertEqual(self.turn(claim(BOB, 2, b"m")), ([b"b", b"o", b"b"], []))
        self.assertEqual(self.turn(claim(EVE, 2, b"n"), claim(EVE, 2, b"z")), ([], []))
        self.assertEqual(self.reasons(eves[0]), [Reason.HOLDER])
        self.judge.add(claim(EVE, 2, b"c"))
        turns = self.judge.count()
        self.assertEqual((data_of(turns[1].ceased), data_of(turns[2].counting)), ([b"b", b"o", b"b"], [b"e", b"v"]))
        self.assertEqual((self.judge.holder(2), self.reasons(bobs[0], eves[0])), (EVE, [Reason.HOLDER, None]))
        self.assertEqual(self.turn(claim(BOB, 2, b"m")), ([], []))

    def test_who_takes_a_number_whose_messages_wait_or_are_wrong_goes_on_at_once(self) -> None:
        for one in (typed(BOB, 2, b"b", cause=Names(3, 0, 1), on=digest(b"?")), typed(BOB, 2, b"b", on=digest(b"?"))):
            self.judge = MessageJudge(digest, [opening(), claim(BOB, 2), *one, *typed(EVE, 2, b"e")])
            self.assertEqual(self.turn(), ([], []))
            self.assertEqual(self.turn(claim(EVE, 2, b"a")), ([b"e"], []))

    def test_a_base_counts_where_all_of_it_is_there_in_its_order(self) -> None:
        def message(text: int, site: int, seq: int) -> tuple[int, Operation]:
            mentions = (Names(site, seq - 2, 1),) if seq > 1 else ()
            return text, Operation(INSERT, site, seq, seq, 1, mentions, seq - 1, b"a", PLAIN_LOOKS)

        right = [(1, 7, 1), (1, 7, 2), (1, 9, 1), (2, 7, 1)]
        for places, counts in ((right, True), (right[:2], True), ([right[0], right[2], right[1]], False), ([right[1]], False),
                               ([right[3], right[0]], False), ([right[2], right[0]], False), ([*right[:2], (1, 7, 4)], False)):
            links, entries = [ZEROS], list[Record]()
            for place in places:
                text, one = message(*place)
                links.append(digest(links[-1] + repr(place).encode()))
                entries.append(Record(Kind.BASE, bytes(32), one.site, text, one.seq, 1, links[-2], (one,), links=(links[-1],)))
            for order in (entries, entries[::-1]):
                self.judge = MessageJudge(digest, [*order[1:], opening(links[-1])])
                self.assertEqual((self.judge.count(), self.judge.holder(1)), ({}, ADA))
                self.judge.add(order[0])
                self.assertEqual(sum(len(turn.counting) for turn in self.judge.count().values()), len(places) if counts else 0)

    def test_numbers_of_the_base_are_nobodys(self) -> None:
        copied = Operation(INSERT, 7, 1, 1, 1, (), 0, b"a", PLAIN_LOOKS)
        link = digest(b"link")
        base = Record(Kind.BASE, bytes(32), 7, 1, 1, 1, ZEROS, (copied,), links=(link,))
        eves, loose = typed(EVE, 7, b"e"), typed(EVE, 7, b"xyz")[2]
        self.judge = MessageJudge(digest, [opening(link), base, *eves, loose])
        self.assertEqual(self.turn(), ([b"a"], []))
        self.assertEqual(self.turn(claim(EVE, 7, b"a")), ([], []))
        # What lacks one before it is nobody's, too: that wouldn't make it count.
        self.assertEqual((self.judge.holder(7), self.reasons(*eves, loose)), (None, [Reason.BASE, Reason.BASE]))

    def test_what_takes_the_place_of_what_waits_or_is_wrong_may_count(self) -> None:
        for fault in (Names(3, 9, 1), None):
            forks = [typed(BOB, 2, bytes([one]), cause=fault, on=digest(b"?")) for one in b"abcdef"]
            rights = (typed(BOB, 2, bytes([one]), stamp=stamp) for one in b"uvwxyz" for stamp in range(5))
            right = min(rights, key=lambda one: one[0].hashes)
            greater = max(forks, key=lambda one: one[0].hashes)
            self.assertLess(right[0].hashes, greater[0].hashes)
            self.judge = MessageJudge(digest, [opening(), claim(BOB, 2), *greater])
            self.assertEqual(self.turn(), ([], []))
            self.assertEqual(self.turn(*right), (data_of(right[0].operations), []))

    def test_what_ceased_is_told_once(self) -> None:
        bobs, adas = typed(BOB, 2, b"b"), [typed(ADA, 1, bytes([one])) for one in b"abcdefghij"]
        greater, lesser = sorted(adas, key=lambda one: one[0].hashes)[::9][::-1]
        self.turn(claim(BOB, 2, b"m"), *bobs, *greater)
        self.assertEqual(self.turn(claim(EVE, 2, b"a")), ([], [b"b"]))
        self.assertEqual(self.turn(*lesser), tuple(data_of(one[0].operations) for one in (lesser, greater)))

    def test_no_claim_takes_the_founders_number(self) -> None:
        self.turn(claim(EVE, 1, bytes(32)), *typed(ADA, 1, b"a"))
        self.assertEqual((self.judge.holder(1), self.judge.front(1, 1)), (ADA, 1))

    def test_nothing_counts_before_the_opening(self) -> None:
        self.judge = MessageJudge(digest, typed(ADA, 1, b"ab"))
        self.assertEqual((self.turn(), self.reasons(*typed(ADA, 1, b"a"))), (([], []), [Reason.NO_OPENING]))
        self.assertEqual(self.turn(opening()), ([b"a", b"b"], []))

    def test_of_what_isnt_here_nobody_says_why(self) -> None:
        letters = typed(ADA, 1, b"ab")
        self.turn(letters[1])
        for one in letters[0].hashes[0], digest(b"never"):
            self.assertFalse(one in self.judge)
            with self.assertRaises(KeyError):
                self.judge.reason(one)

    def test_a_letter_that_says_what_it_builds_on_is_wrong_in_the_middle_of_a_run(self) -> None:
        letters = typed(ADA, 1, b"abc")
        wrong = typed(ADA, 1, b"de", after=letters, on=digest(b"?"))
        fold = folded([*letters, *wrong])
        self.assertEqual(len(fold.operations), 1)
        self.assertEqual(self.turn(fold), ([b"a", b"b", b"c"], []))
        self.assertEqual(self.reasons(*wrong), [Reason.WRONG, Reason.AFTER])


class Costs(unittest.TestCase):
    """What comes costs what it changes, whatever else is there."""

    def letter(self, *entries: Iterable[Record]) -> int:
        """How many instructions a letter takes after entries came."""
        letters = typed(ADA, 1, b"words and more")
        judge = MessageJudge(digest, [opening(), *letters[:9]])
        for some in entries:
            for one in some:
                judge.add(one)
        judge.count()

        def come(one: Record) -> None:
            judge.add(one)
            judge.count()

        come(letters[9])
        taken = min(instructions(partial(come, one)) for one in letters[10:])
        self.assertEqual(judge.front(1, 1), len(letters))
        return taken

    def assert_no_dearer(self, one: Iterable[Record], three: Iterable[Record]) -> None:
        self.assertLess(self.letter(three), MOST_TIMES * self.letter(one))

    def test_of_a_long_text(self) -> None:
        claims = [claim(BOB, 2)]
        self.assert_no_dearer(claims + typed(BOB, 2, b"b" * 300), claims + typed(BOB, 2, b"b" * 900))

    def test_of_messages_that_lack_one_before_them(self) -> None:
        self.assert_no_dearer(*(typed(EVE, 3, b"e" * 2 * many)[1::2] for many in (100, 300)))

    def test_of_claims_and_of_numbers_that_lost_them(self) -> None:
        self.assert_no_dearer(*([one for site in range(2, many) for one in (
            claim(BOB, site, b"b"), *typed(BOB, site, b"b"), claim(EVE, site, b"a"))] for many in (50, 150)))

    def test_of_lines_that_wait(self) -> None:
        self.assert_no_dearer(*([one for site in range(3, many) for one in (claim(EVE, site), *typed(
            EVE, site, b"eve", cause=Names(2, site, 1), on=digest(b"x")))] for many in (50, 150)))

    def test_of_others_in_one_place(self) -> None:
        letters = typed(ADA, 1, b"w")
        self.assert_no_dearer(*([said(EVE, letters[0].hashes[0], Operation(DELETE, 1, 2, stamp, 1, (Names(1, 0, 1),)))
                                 for stamp in range(2, many)] for many in (100, 300)))

    def test_all_letters_of_a_burst_in_whatever_order_take_as_long(self) -> None:
        for order in (1, -1):
            few, many = (typed(ADA, 1, b"w" * many)[::order] for many in (150, 450))
            taken = [instructions(partial(judged, some)) for some in (few, many)]
            self.assertLess(taken[1], 3 * MOST_TIMES * taken[0])

    def test_forks_that_each_hold_for_a_while_take_as_long(self) -> None:
        # Each is less than the one before it, and goes on for long.
        def forks(many: int) -> list[Record]:
            begins = sorted((typed(ADA, 1, b"w", stamp=stamp) for stamp in range(many)), key=lambda one: one[0].hashes, reverse=True)
            return [one for begin in begins for one in (*begin, *typed(
                ADA, 1, b"w" * 20, after=begin, stamp=begin[0].operations[0].stamp - 1))]

        few, many = forks(10), forks(30)
        taken = [instructions(partial(judged, some)) for some in (few, many)]
        self.assertLess(taken[1], 3 * MOST_TIMES * taken[0])

    def test_what_takes_the_place_of_what_waits_costs_no_more_beside_a_long_text(self) -> None:
        def of(length: int) -> int:
            waiting = sorted((typed(EVE, 3, bytes([one]), cause=Names(2, 9, 1), on=digest(b"x")) for one in b"abcdefghijk"),
                             key=lambda one: one[0].hashes, reverse=True)
            judge = MessageJudge(digest, [opening(), claim(EVE, 3), *typed(ADA, 1, b"w" * length), *waiting[0]])
            judge.count()

            def come(one: Record) -> None:
                judge.add(one)
                judge.count()

            return max(instructions(partial(come, one[0])) for one in waiting[1:])

        self.assertLess(of(300), MOST_TIMES * of(100))

    def test_a_fork_that_does_not_hold_costs_no_more_beside_a_long_text(self) -> None:
        def of(length: int) -> int:
            letters = typed(ADA, 1, b"w" * length)
            judge = MessageJudge(digest, [opening(), *letters])
            judge.count()
            others = [typed(ADA, 1, b"x", after=letters[:1], stamp=stamp)[0] for stamp in range(30)]
            greater = [one for one in others if one.hashes > letters[1].hashes]
            self.assertGreater(len(greater), 3)

            def come(one: Record) -> None:
                judge.add(one)
                judge.count()

            return max(instructions(partial(come, one)) for one in greater[1:])

        self.assertLess(of(300), MOST_TIMES * of(100))

    def test_a_letter_takes_little_memory(self) -> None:
        count = 5_000
        letters = typed(ADA, 1, b"w" * count)
        for entries in letters, letters[::-1]:
            tracemalloc.start()
            judge = MessageJudge(digest, [opening(), *entries])
            judge.count()
            held, _ = tracemalloc.get_traced_memory()
            tracemalloc.stop()
            self.assertEqual(judge.front(1, 1), count)
            self.assertLess(held / count, MOST_BYTES_OF_A_LETTER)


if __name__ == "__main__":
    unittest.main()
