"""Judging: what counts depends on the set of entries alone, and is what the rules say.

Sets of entries are made at random, with all that authors can do wrong or that others can do to them, and are
handed in one by one, in random orders and with repeats. With VIALSHOAL_EXAMPLES=N each test tries N times as
many as else, and others each time.
"""
import itertools
import os
import random
import unittest
from collections.abc import Callable, Iterable, Sequence
from functools import partial
from itertools import chain as chained
from itertools import permutations
from typing import Any, NamedTuple
from unittest import mock

from hypothesis import HealthCheck, given, settings
from hypothesis import strategies as st

from share.admission.causes import LEAP
from share.admission.chains import Rank, rank
from share.admission.judge import Judge
from share.admission.ledger import Row
from share.admission.runs import runs
from share.format.entry import NO_HASH, Author, Bad, Copied, FirstEntry, Kind, Plain
from share.format.operation import Operation
from share.program.process import Program
from share.sync.backlog import Backlog
from share.tests import naive
from share.tests.naive import CHANGE_LOOKS, DELETE, RESTORE, about, entry_of, inserting, taking


class Salted(Plain):
    """Plain entries with a byte more, which says nothing. So one author can make two entries of the same
    messages or claim, as whoever signs can."""

    salt = 0

    def _closed(self, head: bytes, body: bytes, author: Author) -> bytes:
        return super()._closed(head, bytes([self.salt]) + body, author)

    def _opened(self, head: bytes, rest: bytes, author: bytes) -> bytes:
        return super()._opened(head, rest, author)[1:]


FORM = Salted(bytes(range(16)))
AUTHORS = [Author(bytes([number]) * 16, b"") for number in range(1, 5)]
SITES = (1, 2, 3, 65_528)
TIMES = int(os.environ.get("VIALSHOAL_EXAMPLES", "0"))


def tries(count: int) -> settings:
    """That a test tries so many examples, the same ones each time unless more are asked for."""
    return settings(max_examples=count * max(TIMES, 1), derandomize=not TIMES, database=None, deadline=None,
                    suppress_health_check=list(HealthCheck))


class End(NamedTuple):
    """What a branch has come to with an entry: how many characters it has, and its last stamp."""

    length: int = 0
    stamp: int = 0


class Fault(NamedTuple):
    """What is out of the ordinary with a message."""

    # How far its stamp is above the greatest, or above what it builds on.
    leap: int | None = None
    under: bool = False
    # How far from the end of its site's characters its own ones begin.
    at: int = 0
    # How far after the end of a site's characters those are that it mentions.
    beyond: int | None = None


class History:
    """Entries that are made one after another. Each step takes what it needs from a number of its own, so that
    a step that is left out changes little about the others."""

    def __init__(self, steps: list[tuple[str, int]]):
        self.steps = steps
        self.entries: list[FirstEntry] = []
        self._ends: dict[bytes, End] = {}
        self._followed: set[bytes] = set()
        # The greatest stamp of all.
        self._top = 0
        for what, seed in steps:
            self._chance = random.Random(seed)
            FORM.salt = int(self._chance.random() < 0.1)
            getattr(self, what)()

    def __repr__(self) -> str:
        return f"History({self.steps})"

    def rest(self) -> None:
        """Nobody does anything."""

    def claim(self) -> None:
        """Someone claims a number, which others may have claimed."""
        self._add(FORM.claim(self._chance.choice(SITES), self._chance.choice(AUTHORS[:1] * 4 + AUTHORS)), End())

    def write(self) -> None:
        """A branch gets longer by what is right, if all that it builds on counts."""
        self._follow(self._leaf())

    def fork(self) -> None:
        """An author goes on from an older entry, as from a copied folder."""
        self._follow(self._any())

    def walk_up(self) -> None:
        """An author takes the greatest stamp that may be, or one around it."""
        self._follow(self._leaf(), Fault(leap=LEAP + self._chance.choice([-1, 0, 0, 0, 0, 1])))

    def leap(self) -> None:
        """An author takes a stamp far up."""
        self._follow(self._leaf(), Fault(leap=self._chance.choice([LEAP // 2, LEAP + 2, 2 * LEAP, 5 * LEAP])))

    def put_wrong(self) -> None:
        """The characters of an insertion don't begin where those of its site end."""
        self._follow(self._leaf(), Fault(at=self._chance.choice([-1, 1, 7])))

    def stamp_wrong(self) -> None:
        """A stamp isn't above those of what it builds on."""
        self._follow(self._leaf(), Fault(leap=self._chance.choice([-3, -1, 0]), under=True))

    def mention_nobody(self) -> None:
        """A message speaks of characters that aren't there, and perhaps come."""
        self._follow(self._leaf(), Fault(beyond=self._chance.choice([0, 0, 1, 3])))

    def build_wrong(self) -> None:
        """An entry says that it builds on something else than what it mentions."""
        self._follow(self._leaf(), on=bytes(31) + self._chance.randbytes(1))

    def forge(self) -> None:
        """An entry names one before it that isn't of its place: of another author, another site, or with
        another seq."""
        if (before := self._leaf()) is None or (other := self._any()) is None:
            return
        what = self._chance.randrange(3)
        if what == 0:
            self._follow(before, author=self._chance.choice(AUTHORS))
        elif what == 1:
            self._follow(before, place=other)
        else:
            self._follow(before, skipped=self._chance.choice([1, 2]))

    def say_made_anew(self) -> None:
        """Someone says that entries up to one were made anew: mostly their author, of the last of a branch."""
        if (last := self._chance.choice([self._leaf, self._leaf, self._any])()) is None:
            return
        author = self._chance.choice(AUTHORS) if self._chance.random() < 0.2 else Author(last.author, b"")
        site = self._chance.choice(SITES) if self._chance.random() < 0.3 else last.site
        said = FORM.made_anew(last._replace(site=site), author)
        self._add(said, self._ends[last.hash])
        # Only what is forged goes on from it.
        self._followed.add(said.hash)

    def say_copied(self) -> None:
        """Someone says that some messages stand for others: mostly their author, or that of the copies."""
        some = [entry for entry in self.entries if entry.size]
        if not some:
            return
        old, new = self._chance.choice(some), self._chance.choice(some)
        stretches = ((old.first, self._chance.choice([0, *4 * [new.first]]), self._chance.choice([1, 1, 2, 5])),)
        by, last = self._chance.choice([old, old, new]), self._chance.choice([NO_HASH, old.hash, self._chance.choice(some).hash])
        by_last = self._chance.choice([NO_HASH, new.hash, self._chance.choice(some).hash])
        said = FORM.copies(Copied(old.author, old.site, new.author, new.site, stretches, by_last), Author(by.author, b""), by.site,
                           last)
        self._add(said, self._ends[by.hash])
        self._followed.add(said.hash)

    def be_newer(self) -> None:
        """A later version writes what this one doesn't know, mostly as the last of a branch."""
        if (last := self._chance.choice([self._leaf, self._leaf, self._any])()) is not None:
            self._add(naive.newer(FORM, last, Author(last.author, b"")), self._ends[last.hash])
            self._followed.add(last.hash)

    def _leaf(self) -> FirstEntry | None:
        leaves = [entry for entry in self.entries if entry.hash not in self._followed]
        return self._chance.choice(leaves) if leaves else None

    def _any(self) -> FirstEntry | None:
        return self._chance.choice(self.entries) if self.entries else None

    def _add(self, entry: FirstEntry, end: End) -> None:
        self.entries.append(entry)
        self._ends[entry.hash] = end
        self._top = max(self._top, end.stamp)

    def _follow(self, before: FirstEntry | None, fault: Fault = Fault(), author: Author | None = None,
                place: FirstEntry | None = None, skipped: int = 0, on: bytes | None = None) -> None:
        """Makes an entry after another one. Its messages may have a place after a third one, and skip some;
        a fault is in one of them. Some entries don't say what they build on."""
        if before is None:
            return
        place = place or before
        author = author or Author(place.author, b"")
        end, seq, messages, ends = self._ends[place.hash], place.last + skipped, [], []
        self._seen: dict[naive.Name, bytes] = {}
        count = self._chance.choice([1, 1, 2, 3])
        wrong = self._chance.randrange(count)
        for number in range(count):
            seq += 1
            message, end = self._said(place.site, seq, end, fault if number == wrong else Fault())
            messages.append(message)
            ends.append(end)
        says_it, before = self._chance.random() < 0.7, before._replace(site=place.site)
        for part in naive.in_chunks(messages):
            self._followed.add(before.hash)
            built_on = on if on is not None else naive.built_on(part, self._seen) if says_it else b""
            before = entry_of(FORM, before, part, author, built_on)
            self._add(before, ends[messages.index(part[-1])])

    def _said(self, site: int, seq: int, end: End, fault: Fault) -> tuple[Operation, End]:
        """A message of a branch, and what this comes to."""
        of, length, stamp = self._spoken_of(site, end)
        stamp = max(stamp, end.stamp)
        if fault.leap is None:
            stamp += self._chance.choice([1, 1, 1, 2, 10])
        else:
            stamp = max(1, (stamp if fault.under else self._chance.choice([stamp, self._top])) + fault.leap)
        first = self._chance.randrange(length) if length else None
        if fault.beyond is not None:
            first = length + fault.beyond
        if first is None or fault.beyond is None and self._chance.random() < 0.5:
            at = max(0, end.length + fault.at)
            cause = (of, first) if first is not None and (of != site or first < at) else None
            data = bytes(self._chance.choices(b"abc\r", k=self._chance.choice([1, 1, 2, 3])))
            return inserting(site, seq, stamp, cause, at, data), End(at + len(data), stamp)
        kind = self._chance.choice([DELETE, RESTORE, CHANGE_LOOKS])
        count = self._chance.randint(1, max(1, length - first))
        return about(kind, site, seq, stamp, [(of, first, count)]), End(end.length, stamp)

    def _spoken_of(self, site: int, end: End) -> tuple[int, int, int]:
        """A site that a message may speak of, how many characters it has there, and its stamp."""
        other = self._any()
        if other is None or other.site == site or self._chance.random() < 0.3:
            return site, end.length, end.stamp
        self._see(other)
        return other.site, *self._ends[other.hash]

    def _see(self, branch: FirstEntry) -> None:
        """Has the entry that is being made see a branch: which entry inserted each of its characters, and those
        that may come after it."""
        known = {entry.hash: entry for entry in self.entries}
        end, at = self._ends[branch.hash], branch
        seen = {(branch.site, offset): branch.hash for offset in range(end.length + 10)}
        while at.kind not in (Kind.CLAIM, Kind.COPIES):
            seen |= {name: at.hash for message in at.messages for name in naive.reading(naive.spelled(message)).inserted()}
            at = known[at.before]
        self._seen = seen | self._seen


# A step that does nothing stands first, so that what fails is told with few others.
RIGHT = ["rest", "claim", "write", "write", "write", "write", "fork", "walk_up", "say_made_anew", "say_copied"]
STEPS = RIGHT * 2 + ["leap", "put_wrong", "stamp_wrong", "mention_nobody", "build_wrong", "forge", "be_newer"]
SEEDS = st.integers(0, 2**16 - 1)


def histories(steps: list[str] = STEPS) -> st.SearchStrategy[History]:
    """Sets of entries, some claims first."""
    claims = st.lists(st.tuples(st.just("claim"), SEEDS), min_size=3, max_size=6)
    others = st.lists(st.tuples(st.sampled_from(steps), SEEDS), min_size=10, max_size=40)
    return st.builds(lambda first, then: History(first + then), claims, others)


def handed(entries: list[FirstEntry], chance: random.Random) -> list[FirstEntry]:
    """Entries in an order in which they may come: some come twice, and perhaps some don't come."""
    some = entries if chance.random() < 0.5 else [entry for entry in entries if chance.random() < 0.9]
    coming = some + chance.choices(some, k=len(some) // 4) if some else []
    if chance.random() < 0.7:
        chance.shuffle(coming)
    return coming


def damaged(entry: FirstEntry, chance: random.Random) -> bytes:
    """The bytes of an entry that came otherwise than they were sent, or that its author made so that they are
    none."""
    raw = bytearray(entry.raw)
    what = chance.randrange(5)
    if what == 0:
        raw[chance.randrange(len(raw))] ^= 1 << chance.randrange(8)
    elif what == 1:
        del raw[chance.randrange(len(raw)):]
    elif what == 2:
        raw += bytes(chance.randint(1, 40))
    elif what == 3:
        return entry_of(FORM, entry, [inserting(entry.site % 3 + 4, 1, 1, None, 0, b"x")], Author(entry.author, b"")).raw
    else:
        bad = inserting(entry.site, entry.last + 1, 0, None, 0, b"x")
        return entry_of(FORM, entry, [bad], Author(entry.author, b"")).raw
    return bytes(raw)


def with_room(entries: list[FirstEntry], room: int | None, chance: random.Random) -> Judge:
    """What has entries as they come, with room for some bytes of what doesn't count, and reads what was dropped again as
    soon as it may have its turn."""
    judge, backlog = Judge(room=room), Backlog()
    for place, entry in enumerate(entries):
        judge.add(entry, place)
        backlog.add(judge.dropped())
        if chance.random() < 0.5 or place == len(entries) - 1:
            judge.count()
            while turns := judge.turns():
                for again in backlog.take(turns):
                    judge.add(entries[again], again)
                    backlog.add(judge.dropped())
                judge.count()
    return judge


def in_pages(judge: Judge, rows: Iterable[Row]) -> int:
    """Hands entries to a judge as they are read in a page of a file: those that follow one another in one step, where it does so. How many
    of them."""
    extended = 0
    for run in runs(row for row in {row.entry.hash: row for row in rows}.values() if row.entry.hash not in judge):
        if len(run) > 1 and judge.extend(run):
            extended += len(run)
            continue
        for row in run:
            judge.add_new(row)
    return extended


class Taker:
    """A run of the program that takes in what counts."""

    def __init__(self, site: int = SITES[0]):
        self.program = Program(site)

    def take(self, messages: Sequence[Operation]) -> list[bytes]:
        """What it answers to messages that are handed in."""
        return [answer for [answer] in self.program.ask([taking(self.program, one) for one in messages])]

    def close(self) -> None:
        """Ends the run."""
        self.program.close()


class Follower:
    """One who hands entries to a judge, and has a replica take in what counts."""

    def __init__(self, case: unittest.TestCase, prefers: Rank = rank, replica: Callable[..., Any] = naive.Replica):
        self.case, self.judge, self._new = case, Judge(prefers=prefers), replica
        self.replica = replica()
        self.through: list[Operation] = []
        self.came: list[FirstEntry] = []

    def add(self, entry: FirstEntry) -> None:
        """Hands an entry in, as it comes."""
        opened = FORM.open(entry.raw)
        self.case.assertEqual(opened, entry)
        self.judge.add(opened)
        self.came.append(opened)

    def count(self) -> None:
        """Asks what counts. Each message must be such that the replica takes it in at once."""
        counted = self.judge.count()
        if counted.anew:
            self.replica.close()
            self.replica, self.through = self._new(), []
        self.case.assertEqual(set(self.replica.take(counted.messages)) - {b"taken 0 0"}, set())
        self.through += counted.messages
        self.case.assertEqual(sorted(self.through), sorted(self.judge.let_through_in_order()))

    def chains(self) -> set[bytes]:
        """The hashes of the entries that hold."""
        known, found = {entry.hash: entry for entry in self.came}, set()
        for site in self.judge.claimed():
            entry = self.judge.last(site)
            found.add(entry.hash)
            while entry.kind is not Kind.CLAIM:
                entry = known[entry.before]
                found.add(entry.hash)
        return found

    def agrees(self, prefers: Callable[[FirstEntry], tuple[Any, ...]] = naive.rank) -> None:
        """That all that the judge says is as the rules have it."""
        answer, judge, case = naive.judged(self.came, prefers), self.judge, self.case
        case.assertEqual(self.chains(), {entry.hash for chain in answer.chains.values() for entry in chain})
        for site in SITES:
            chain, through = answer.chains.get(site), answer.through.get(site, [])
            case.assertEqual(judge.holder(site), chain[0].author if chain else None)
            case.assertEqual((judge.front(site), judge.length(site)), (len(through), answer.length(site)))
            case.assertEqual([one for entry in judge.held_up(site) for one in entry.messages if one not in through],
                             answer.held_up(site, self.came))
        for message in chained.from_iterable(entry.messages for entry in self.came):
            case.assertEqual(judge.is_let_through(message), answer.is_let_through(message))
        in_order = judge.let_through_in_order()
        case.assertEqual(sorted(in_order), sorted(chained.from_iterable(answer.through.values())))
        case.assertEqual(set(naive.Replica().take(in_order)) - {b"taken 0 0"}, set())
        case.assertEqual(judge.loose(), naive.loose(self.came))
        case.assertEqual(sorted(judge.wrong()), sorted(answer.wrong()))
        case.assertEqual(judge.incomplete(), answer.incomplete(self.came))
        self._agrees_on_what_is_left_out(answer)

    def _agrees_on_what_is_left_out(self, answer: naive.Answer) -> None:
        found, wanted = self.judge.left_out(), answer.left_out(self.came)
        self.case.assertEqual(sorted((one.site, one.author, seq) for one in found for seq in range(one.first, one.last + 1)),
                              [one[:3] for one in wanted])
        self.case.assertEqual((sum(one.messages for one in found), sum(one.characters for one in found)),
                              (len(wanted), sum(length for *_, length in wanted)))


class Editor:
    """Someone who writes with the program, and has from others what the test hands in."""

    def __init__(self, case: unittest.TestCase, site: int, author: Author, last: FirstEntry | None = None):
        self.case, self.site, self.author = case, site, author
        self.follower = Follower(case, replica=partial(Taker, site))
        self.last = last or FORM.claim(site, author)

    @property
    def holds(self) -> bool:
        """Whether all that was written here counts, so that it can be gone on with."""
        judge = self.follower.judge
        return (judge.holder(self.site) is not None and judge.last(self.site) == self.last
                and judge.front(self.site) == self.last.last)

    def comes(self, entries: Iterable[FirstEntry]) -> None:
        """Takes in what counts with these entries."""
        for entry in entries:
            self.follower.add(entry)
        self.follower.count()

    def copied(self) -> "Editor":
        """One who goes on from a copy of all that is here."""
        other = Editor(self.case, self.site, self.author, self.last)
        other.comes(self.follower.came)
        return other

    def edits(self, chance: random.Random) -> FirstEntry:
        """The entry of an edit or two. What the program made counts at once."""
        program, judge = self.program, self.follower.judge
        sent: list[Operation] = []
        while not sent:
            length = len(program.text())
            begin, end = sorted(chance.choices(range(length + 1), k=2))
            events = [program.event("type", begin, bytes(chance.choices(b"abcdef", k=chance.choice([1, 1, 1, 9])))),
                      program.event("cut", begin, end), program.event("restore"),
                      program.event("looks", begin, end, b"colour=%d" % chance.randrange(16))]
            for answer in program.ask(chance.choices(events, weights=[6, 2, 1, 1], k=chance.choice([1, 2]))):
                # The second of two may lie outside what the first left.
                self.case.assertIn(answer[-1], [b"ok", b"refused 11"])
                sent += [Operation.read(bytes.fromhex(line.split()[2].decode())) for line in answer[:-1]]
        self.last = entry_of(FORM, self.last, sent, self.author, judge.built_on(sent))
        judge.add(self.last)
        self.follower.came.append(self.last)
        self.case.assertEqual(judge.count(), (sent, False))
        self.follower.through += sent
        return self.last

    @property
    def program(self) -> Program:
        """The run of the program."""
        return self.follower.replica.program


class Written(unittest.TestCase):
    """What several write with the program, at once and from copies."""

    @tries(3)
    @given(SEEDS)
    def test_all_come_to_the_same(self, seed: int) -> None:
        chance = random.Random(seed)
        editors = [Editor(self, chance.choice(SITES), author) for author in AUTHORS]
        sent = {editor.last.hash: editor.last for editor in editors}
        for editor in editors:
            editor.comes([editor.last])
        for _ in range(60):
            editor = chance.choice(editors)
            what = chance.random()
            if what < 0.6 and editor.holds:
                entry = editor.edits(chance)
                sent[entry.hash] = entry
            elif what < 0.95 or len(editors) > 6:
                editor.comes(chance.sample(sorted(sent.values()), chance.randrange(len(sent) + 1)))
            else:
                editors.append(editor.copied())
        texts = set()
        for editor in editors:
            editor.comes(chance.sample(sorted(sent.values()), len(sent)))
            texts.add(editor.program.text())
            editor.program.close()
        self.assertEqual(len(texts), 1)
        editors[0].follower.agrees()


class AnyOrder(unittest.TestCase):
    """The same entries come to the same, whatever order they have."""

    @tries(300)
    @given(histories(), SEEDS)
    def test_what_counts_is_what_the_rules_say(self, history: History, seed: int) -> None:
        chance, follower = random.Random(seed), Follower(self)
        counts, looks = chance.choice([0.05, 0.3, 1]), chance.choice([0, 0, 0.3, 1])
        for entry in handed(history.entries, chance):
            follower.add(entry)
            if chance.random() < looks:
                follower.agrees()
            if chance.random() < counts:
                follower.count()
        follower.count()
        follower.agrees()

    def test_what_comes_in_pages_counts_as_what_comes_one_by_one(self) -> None:
        extended = 0

        @tries(150)
        @given(histories(), SEEDS)
        def tried(history: History, seed: int) -> None:
            nonlocal extended
            chance, follower, other = random.Random(seed), Follower(self), Judge()
            looks = chance.choice([0, 0, 0.5])
            # Most come as they were written, of one author after the other.
            entries = sorted(history.entries, key=lambda one: (one.site, one.author)) if chance.random() < 0.5 else history.entries
            coming = handed(entries, chance) if chance.random() < 0.5 else entries
            while coming:
                size = chance.randint(1, 12)
                page, coming = [FORM.open(one.raw) for one in coming[:size]], coming[size:]
                extended += in_pages(follower.judge, (Row(0, one, False) for one in page))
                follower.came += page
                for one in page:
                    other.add(one)
                if chance.random() < 0.5:
                    follower.count()
                    other.count()
                if chance.random() < looks:
                    follower.agrees()
            follower.count()
            self.assertEqual(sorted(follower.judge.let_through_in_order()), sorted(other.let_through_in_order()))
            self.assertEqual(len(follower.judge), len(other))
            follower.agrees()

        tried()
        self.assertGreater(extended, 200)

    def test_only_what_follows_in_one_chain_comes_in_one_step(self) -> None:
        claim, forged = FORM.claim(1, AUTHORS[0]), FORM.claim(1, AUTHORS[1])
        made = [claim]
        for seq in range(1, 5):
            made.append(entry_of(FORM, made[-1], [inserting(1, seq, seq, (1, seq - 2) if seq > 1 else None, seq - 1, b"x")], AUTHORS[0],
                                 length=seq - 1))
        fifth = inserting(1, 5, 5, (1, 3), 4, b"x")
        others = [entry_of(FORM, made[-1], [fifth], AUTHORS[1], length=4),
                  entry_of(FORM, made[-1], [inserting(1, 6, 6, (1, 3), 4, b"x")], AUTHORS[0], length=4),
                  entry_of(FORM, made[-1], [fifth], AUTHORS[0], length=4)._replace(site=2),
                  FORM.made_anew(made[-1], AUTHORS[0]), entry_of(FORM, forged, [fifth], AUTHORS[0], length=4)]
        for other in others:
            found = [*runs(Row(0, one, False) for one in [*made, other])]
            self.assertEqual([[row.entry for row in run] for run in found], [[claim], made[1:], [other]])
        found = [*runs(Row(0, one, one.first == 4) for one in made)]
        self.assertEqual([[row.entry for row in run] for run in found], [[claim], made[1:4], made[4:]])

    @tries(40)
    @given(histories(), SEEDS)
    def test_the_program_takes_in_at_once_what_counts(self, history: History, seed: int) -> None:
        chance, follower = random.Random(seed), Follower(self, replica=Taker)
        for entry in handed(history.entries, chance):
            follower.add(entry)
            if chance.random() < 0.2:
                follower.count()
        follower.count()
        other = Taker()
        other.take(follower.judge.let_through_in_order())
        self.assertEqual(follower.replica.program.text(), other.program.text())
        other.close()
        follower.replica.close()

    @tries(80)
    @given(histories(RIGHT), SEEDS)
    def test_what_was_dropped_stays_dropped(self, history: History, seed: int) -> None:
        follower = Follower(self)
        held: set[bytes] = set()
        dropped: set[bytes] = set()
        for entry in handed(history.entries, random.Random(seed)):
            follower.add(entry)
            holds = follower.chains()
            dropped |= (held - holds) | naive.ended(follower.came)
            held = holds
            self.assertEqual(held & dropped, set())

    @tries(80)
    @given(histories(RIGHT), SEEDS)
    def test_what_one_saw_is_found_again(self, history: History, seed: int) -> None:
        chance, before = random.Random(seed), Follower(self)
        for entry in handed(history.entries, chance):
            before.add(entry)
        seen = before.chains()
        after = Follower(self, prefers=lambda entry: bytes([entry.hash not in seen]) + rank(entry))
        coming = history.entries * 2
        chance.shuffle(coming)
        for entry in coming:
            after.add(entry)
            if chance.random() < 0.2:
                after.count()
        after.agrees(lambda entry: (entry.hash not in seen, naive.rank(entry)))
        self.assertLessEqual(seen, after.chains())
        self.assertLessEqual(set(before.judge.let_through_in_order()), set(after.judge.let_through_in_order()))

    @tries(80)
    @given(histories(), SEEDS)
    def test_with_little_room_the_same_counts(self, history: History, seed: int) -> None:
        whole = Judge(history.entries)
        for order in range(4):
            coming = [*history.entries]
            random.Random(seed + order).shuffle(coming)
            for room in 1, 40_000, None:
                judge = with_room(coming, room, random.Random(seed))
                self.assertEqual(sorted(judge.let_through_in_order()), sorted(whole.let_through_in_order()))
                self.assertEqual([judge.holder(site) for site in SITES], [whole.holder(site) for site in SITES])
                if room == 1:
                    self.assertEqual(judge.loose(), [])

    @tries(80)
    @given(histories(), SEEDS)
    def test_a_word_that_something_was_made_anew_takes_no_text_away(self, history: History, seed: int) -> None:
        chance, judge, without = random.Random(seed), Judge(), Judge()
        for entry in handed(history.entries, chance):
            judge.add(entry)
            if entry.kind is not Kind.ANEW:
                without.add(entry)
            if chance.random() < 0.2:
                self.assertEqual(judge.count(), without.count())
        self.assertEqual(judge.let_through_in_order(), without.let_through_in_order())
        self.assertLessEqual(judge.incomplete(), without.incomplete())

    @tries(50)
    @given(histories(), SEEDS)
    def test_what_is_no_entry_changes_nothing(self, history: History, seed: int) -> None:
        chance, follower = random.Random(seed), Follower(self)
        for entry in handed(history.entries, chance):
            with self.assertRaises(Bad):
                follower.judge.add(FORM.open(damaged(entry, chance)))
            follower.add(entry)
        follower.count()
        follower.agrees()


class MadeAnew(unittest.TestCase):
    """A disk that was put back has two numbers of one author, and what was typed under the second one stands after what
    was typed under the first one and was never sent: others have the log's branch of that."""

    def setUp(self) -> None:
        FORM.salt = 0
        self.first, self.second, self.third, _ = AUTHORS
        claims = [FORM.claim(site, author) for site, author in zip(SITES, AUTHORS)]
        self.sent = entry_of(FORM, claims[0], [inserting(1, 1, 1, None, 0, b"sent")], self.first)
        self.unsent = entry_of(FORM, claims[0], [inserting(1, 1, 1, None, 0, b"kept")], self.first)
        after = [inserting(2, 1, 2, (1, 3), 0, b"after")]
        self.typed = entry_of(FORM, claims[1], after, self.second, naive.built_on(after, {(1, 3): self.unsent.hash}))
        self.more = entry_of(FORM, self.typed, [inserting(2, 2, 3, (2, 4), 5, b"more")], self.second)
        anew = entry_of(FORM, claims[2], [inserting(3, 1, 2, (1, 3), 0, b"kept after more")], self.third)
        self.all = [*claims[:3], self.sent, self.typed, self.more, anew]

    def incomplete(self, *said: FirstEntry, without: Sequence[FirstEntry] = ()) -> int:
        """How many messages wait of all entries and these, in a few orders, in each of which it is as the rules have
        it."""
        found = set()
        for seed in range(20):
            chance, follower = random.Random(seed), Follower(self)
            coming = [one for one in [*self.all, *said] if one not in without]
            for entry in chance.sample(coming, len(coming)):
                follower.add(entry)
                if chance.random() < 0.3:
                    follower.agrees()
            follower.count()
            follower.agrees()
            found.add(follower.judge.incomplete())
        self.assertEqual(len(found), 1)
        return found.pop()

    def test_nobody_waits_once_the_author_says_so(self) -> None:
        self.assertEqual(self.incomplete(), 2)
        self.assertEqual(self.incomplete(FORM.made_anew(self.more, self.second)), 0)

    def test_what_follows_waits(self) -> None:
        self.assertEqual(self.incomplete(FORM.made_anew(self.typed, self.second)), 1)

    def test_no_other_can_say_so(self) -> None:
        for author in self.first, self.third:
            self.assertEqual(self.incomplete(FORM.made_anew(self.more, author)), 2)
        # An entry of another site is none of those that wait.
        for last, site in (self.more, 3), (self.sent, 2):
            self.assertEqual(self.incomplete(FORM.made_anew(last._replace(site=site), self.second)), 2)

    def test_nothing_that_is_lacking_is_hidden(self) -> None:
        self.assertEqual(self.incomplete(FORM.made_anew(self.more, self.second), without=[self.typed]), 1)
        self.assertEqual(self.incomplete(FORM.made_anew(self.typed, self.second), without=[self.typed]), 1)

    def test_what_counted_as_it_was_said_is_told_where_it_is_left_out_later(self) -> None:
        claim = next(one for one in (FORM.claim(2, FORM.new_author()) for _ in itertools.count()) if rank(one) < rank(self.all[1]))
        said, by = FORM.made_anew(self.more, self.second), self.all[-1]
        copied = Copied(self.second.name, 2, self.third.name, 3, ((2, 1, 1),), by.hash)
        copies = FORM.copies(copied, self.second, 2, self.more.hash)
        said_and_told: list[tuple[list[FirstEntry], list[tuple[int, int]]]] = [([], [(1, 2)]), ([said], []), ([said, copies], [(1, 1)])]
        for words, told in said_and_told:
            follower = Follower(self)
            for entry in [*self.all, claim, *words]:
                follower.add(entry)
            follower.agrees()
            self.assertEqual([(one.first, one.last) for one in follower.judge.left_out() if one.site == 2], told)

    def test_what_counts_after_all_goes_on_counting(self) -> None:
        came = [self.unsent if one == self.sent else one for one in self.all]
        judge = Judge([*came, FORM.made_anew(self.more, self.second)])
        self.assertEqual((judge.front(2), judge.incomplete()), (2, 0))


class WhatStandsForWhat(unittest.TestCase):
    """What is told as left out hangs on which words of copies came, and not on when or in which order."""

    def setUp(self) -> None:
        FORM.salt = 0
        self.first, self.second, self.third, _ = AUTHORS
        self.claims = [FORM.claim(site, author) for site, author in zip(SITES, AUTHORS)]
        some = [entry_of(FORM, self.claims[0], [inserting(1, 1, 1, None, 0, data)], self.first) for data in (b"ab", b"ba")]
        self.holds, self.lost = sorted(some, key=rank)
        (message,) = self.lost.messages
        self.letters = message.data

    def told_as_left_out(self, *entries: FirstEntry) -> list[tuple[int, int]]:
        """What is told in the end of entries that come in this order, where it is asked after each."""
        follower = Follower(self)
        for entry in [*self.claims, self.holds, self.lost, *entries]:
            follower.add(entry)
            follower.agrees()
        return [(one.site, one.first) for one in follower.judge.left_out()]

    def copies(self, *seqs: int, of: FirstEntry, by: Author) -> FirstEntry:
        """The word of an author that messages of his, of an entry and those before it, stand for what was left out."""
        return FORM.copies(Copied(self.first.name, 1, of.author, of.site, tuple((1, seq, 1) for seq in seqs), of.hash), by, of.site)

    def typed_by_second(self, *parts: bytes) -> FirstEntry:
        """An entry in which another one types these."""
        starts = [sum(map(len, parts[:at])) for at in range(len(parts))]
        typed = [inserting(2, seq, seq + 1, None, start, data) for seq, (start, data) in enumerate(zip(starts, parts), 1)]
        return entry_of(FORM, self.claims[1], typed, self.second)

    def test_the_last_entry_that_has_the_copies_may_come_last(self) -> None:
        begin = self.typed_by_second(self.letters)
        last = entry_of(FORM, begin, [inserting(2, 2, 3, None, 2, b"more")], self.second)
        said = self.copies(1, of=last, by=self.second)
        for order in permutations([begin, last, said]):
            self.assertEqual(self.told_as_left_out(*order), [])
        self.assertEqual(self.told_as_left_out(said, begin), [(1, 1)])

    def test_parts_follow_one_another_in_whatever_order_they_are_spoken_of(self) -> None:
        parts = self.typed_by_second(*(self.letters[at:at + 1] for at in range(2)))
        said = [self.copies(seq, of=parts, by=self.second) for seq in (1, 2)]
        for order in permutations([parts, *said]):
            self.assertEqual(self.told_as_left_out(*order), [])
        swapped = self.typed_by_second(*(self.letters[at:at + 1] for at in (1, 0)))
        for seqs in permutations([1, 2]):
            self.assertEqual(self.told_as_left_out(swapped, self.copies(*seqs, of=swapped, by=self.second)), [(1, 1)])

    def test_two_who_copied_it_do_not_make_one_that_is_no_copy(self) -> None:
        whole = self.typed_by_second(self.letters)
        again = entry_of(FORM, self.claims[2], [inserting(3, 1, 2, None, 0, self.letters)], self.third)
        said = [self.copies(1, of=of, by=by) for of, by in ((whole, self.second), (again, self.third))]
        self.assertEqual(self.told_as_left_out(whole, again, *said), [])

    def test_of_what_is_in_chains_nobody_looks_at_what_is_in_none(self) -> None:
        judge = Judge([*self.claims, self.holds, self.lost])
        with mock.patch("share.admission.outside.Branches", side_effect=AssertionError):
            self.assertEqual(judge.front_up_to(self.first.name, 1, self.holds.hash), 1)
            self.assertEqual(judge.message_in(self.holds.hash, 1), self.holds.messages[0])
            self.assertTrue(judge.is_chained(self.claims[0].hash, self.holds.hash))
            self.assertFalse(judge.is_chained(self.lost.hash, self.holds.hash))
        self.assertEqual(judge.front_up_to(self.first.name, 1, self.lost.hash), 0)
        self.assertEqual(judge.message_in(self.lost.hash, 1), self.lost.messages[0])
        self.assertTrue(judge.is_chained(self.claims[0].hash, self.lost.hash))

    def test_no_chain_goes_through_a_word(self) -> None:
        word = FORM.copies(Copied(self.first.name, 1, self.second.name, 2, ((1, 1, 1),), NO_HASH), self.second, 2, self.lost.hash)
        anew = FORM.made_anew(self.lost._replace(hash=word.hash), self.first)
        self.assertEqual(self.told_as_left_out(word, anew), [(1, 1)])

    @tries(60)
    @given(histories(["write"] * 4 + ["fork"] * 3 + ["say_copied"] * 5 + ["claim", "say_made_anew", "forge"]), SEEDS)
    def test_of_many_words_it_is_what_the_rules_say(self, history: History, seed: int) -> None:
        chance, follower = random.Random(seed), Follower(self)
        for entry in handed(history.entries, chance):
            follower.add(entry)
            if chance.random() < 0.2:
                follower.agrees()
        follower.agrees()


if __name__ == "__main__":
    unittest.main()
