"""Which copies are hidden, by what entries of copies say: one rule, whatever came and in whatever order."""
import itertools
import random
import unittest

from share.admission.judge import Judge
from share.admission.ledger import Row
from share.format.entry import Author, Copied, Copy, Entry, Plain
from share.format.operation import Operation
from share.store.own import Client
from share.sync.recovered import Recovered
from share.sync.standing import Standing, in_stretches, said_of_copies
from share.tests.naive import entry_of, inserting

FORM = Plain(bytes(16))
OLD = Author(b"who wrote it all", b"")


def typed(site: int, seq: int, data: bytes) -> Operation:
    """What a site types as its message of a seq."""
    return inserting(site, seq, seq, None, seq - 1, data)


class Sets(unittest.TestCase):
    """A message, and copies of it under several numbers, some of which were made here."""

    def setUp(self) -> None:
        claim = FORM.claim(50, OLD)
        self.first = entry_of(FORM, claim, [typed(50, 1, b"a")], OLD)
        self.old = entry_of(FORM, self.first, [typed(50, 2, b"b")], OLD, length=1)
        self.rows = {entry.hash: Row(0, entry, True) for entry in (claim, self.first, self.old)}
        self.counts: dict[tuple[int, int], bytes] = {}

    def entry_of(self, site: int, seq: int, _: int) -> bytes | None:
        """Which entry has the message that counts."""
        return self.counts.get((site, seq))

    def copied(self, site: int, own: bool, old: Entry, seq: int = 1, data: bytes = b"b") -> tuple[Row, Entry]:
        """What says that a message stands for one of an entry, and the entry of that message."""
        author = Author(site.to_bytes(16, "big"), b"")
        claim = FORM.claim(site, author)
        before = claim if seq == 1 else entry_of(FORM, claim, [typed(site, 1, b"x")], author)
        made = entry_of(FORM, before, [typed(site, seq, data)], author, length=seq - 1)
        said = FORM.copies(Copied(OLD.name, 50, author.name, site, ((old.first, seq, 1),), made.hash), OLD, 50, old.hash)
        self.rows |= {entry.hash: Row(0, entry, own) for entry in (claim, before, made)}
        return Row(0, said, own), made

    def test_one_of_them_is_shown(self) -> None:
        chance = random.Random(3)
        for stays, *counting in itertools.product((False, True), repeat=4):
            self.setUp()
            found = [self.copied(site, own, self.old, site) for site, own in ((3, False), (1, True), (2, True))]
            self.counts = {(site, site): made.hash for site, (_, made), counts in zip((3, 1, 2), found, counting) if counts}
            if stays:
                self.counts[50, 2] = self.old.hash
            rows = [row for row, _ in found] + [Row(0, self.old, True)]
            chance.shuffle(rows)
            standing, come = Standing(), {of: row for of, row in self.rows.items() if of != self.old.hash}
            for row in rows:
                come[row.entry.hash] = row
                standing.add(row, come)
            shown = {copy.site for copy, hidden in standing.made_here(self.entry_of, come) if not hidden}
            count = [site for site in (1, 2, 3) if (site, site) in self.counts]
            self.assertEqual(shown, set() if stays or not count else {min(count)} - {3})
            self.assertEqual(standing.is_stood_for(self.old, 2, self.entry_of, come), bool(count))
            self.assertFalse(standing.is_made_here(self.first, 1))

    def test_another_message_of_the_same_number_and_seq_is_none(self) -> None:
        row, made = self.copied(3, True, self.old)
        _, other = self.copied(3, True, self.first, data=b"other")
        standing = Standing()
        standing.add(row, self.rows)
        for of, counts in (made.hash, True), (other.hash, False):
            self.counts = {(3, 1): of}
            self.assertEqual(standing.is_stood_for(self.old, 2, self.entry_of, self.rows), counts)
            self.assertEqual([*standing.made_here(self.entry_of, self.rows)],
                             [(Copy(made.author, 3, 1), False)] * counts)
        # Nor is another history of the old number spoken of.
        fork = entry_of(FORM, self.first, [typed(50, 2, b"c")], OLD, length=1)
        self.counts = {(3, 1): made.hash}
        self.assertFalse(standing.is_stood_for(fork, 2, self.entry_of, self.rows))

    def test_of_two_histories_of_a_number_the_one_that_counts_stays(self) -> None:
        # A disk that was put back made it anew a second time under a number, and, as that history lost, once more under another one.
        lost, counts, again = self.copied(3, True, self.old), self.copied(3, False, self.old, seq=2), self.copied(4, True, self.old)
        self.counts = {(3, 2): counts[1].hash, (4, 1): again[1].hash}
        for order in itertools.permutations((lost, counts, again)):
            standing, of_all = Standing(), Standing(most=1_000)
            for row, _ in order:
                standing.add(row, self.rows)
                of_all.add(row._replace(made=True), self.rows)
            hidden = Copy(again[1].author, 4, 1), True
            self.assertEqual([*standing.made_here(self.entry_of, self.rows)], [hidden])
            looked_at = of_all.made_by_all(self.entry_of, lambda author, site, last, text: 0 if last == lost[1].hash else 2)
            self.assertEqual([*looked_at], [(Copy(counts[1].author, 3, 2), False), hidden])

    def test_only_who_made_messages_says_what_stands_for_them(self) -> None:
        row, made = self.copied(3, True, self.old)
        said = row.entry.copied
        by_other = FORM.copies(said, Author(made.author, b""), 3, self.old.hash)
        standing, self.counts = Standing(), {(3, 1): made.hash}
        standing.add(Row(0, by_other, True), self.rows)
        self.assertFalse(standing.is_stood_for(self.old, 2, self.entry_of, self.rows))

    def test_of_what_others_say_so_much_is_looked_at(self) -> None:
        standing, found = Standing(most=50), [self.copied(site, False, self.old) for site in range(100, 200)]
        self.counts = {(site, 1): made.hash for site, (_, made) in enumerate(found, 100)}
        for row, _ in found:
            standing.add(row._replace(made=True), self.rows)
        looked_at = [*standing.made_by_all(self.entry_of, lambda *_: 1)]
        self.assertEqual([is_hidden for _, is_hidden in looked_at], [False] + [True] * (len(looked_at) - 1))
        self.assertTrue(20 < len(looked_at) <= 50, len(looked_at))

    def test_what_was_withdrawn_is_spoken_of_apart(self) -> None:
        withdrawn = entry_of(FORM, self.old, [typed(50, 3, b"c")], OLD, length=2)
        author = Author(bytes(16), b"")
        new = entry_of(FORM, FORM.claim(60, author), [typed(60, 1, b"b"), typed(60, 2, b"c")], author)
        here = self.rows | {withdrawn.hash: Row(0, withdrawn, True)}
        pairs = {self.old.hash: [(2, 1)], withdrawn.hash: [(3, 2)]}
        words = said_of_copies(FORM, {(50, OLD.name): Client(50, OLD)}, here, new, pairs, {withdrawn.hash})
        self.counts = {(60, 1): new.hash, (60, 2): new.hash}
        # Another disk never gets what was withdrawn.
        for rows in here, self.rows:
            standing, rows = Standing(), rows | {new.hash: Row(0, new, True)}
            for word in words:
                standing.add(Row(0, word, True), rows)
            self.assertTrue(standing.is_stood_for(self.old, 2, self.entry_of, rows))
        self.assertEqual(len(words), 2)

    def test_of_what_was_withdrawn_a_part_may_come_back(self) -> None:
        author = Author(bytes(16), b"")
        for size, most_missed in (7, 0), (64, 0), (200, 3):
            old = [self.first]
            for seq in range(2, size + 2):
                old.append(entry_of(FORM, old[-1], [typed(50, seq, b"c")], OLD, length=seq - 1))
            # What was typed last is first now, so that no two of them are in one stretch.
            new = entry_of(FORM, FORM.claim(60, author), [typed(60, seq, b"c") for seq in range(1, size + 1)], author)
            rows = self.rows | {entry.hash: Row(0, entry, True) for entry in old}
            pairs = {entry.hash: [(entry.first, size + 2 - entry.first)] for entry in old[1:]}
            words = said_of_copies(FORM, {(50, OLD.name): Client(50, OLD)}, rows, new, pairs, set(pairs))
            self.assertLessEqual(len(words), 64)
            self.counts = {(60, seq): new.hash for seq in range(1, size + 1)}
            for back in (*range(0, size, 1 + size // 12), size):
                rows = self.rows | {entry.hash: Row(0, entry, True) for entry in [*old[:back + 1], new]}
                standing = Standing()
                for word in words:
                    standing.add(Row(0, word, True), rows)
                missed = [entry for entry in old[1:back + 1] if not standing.is_stood_for(entry, entry.first, self.entry_of, rows)]
                self.assertLessEqual(len(missed), 0 if back == size else most_missed)
                self.assertEqual(len([*standing.made_here(self.entry_of, rows)]), back - len(missed))

    def test_what_was_typed_again_gives_way_to_a_copy_of_its_own_history(self) -> None:
        # Of three messages of one place one holds, another was typed again, and the third made anew.
        entries = sorted((entry_of(FORM, self.first, [typed(50, 2, data)], OLD, length=1) for data in (b"b", b"c", b"d")),
                         key=lambda entry: entry.hash)
        for other, gives_way in (entries[1], True), (entries[2], False):
            judge, recovered, again = Judge([*(row.entry for row in self.rows.values()), *entries]), Recovered(), entries[1]
            for site, old in (60, again), (70, other):
                author = Author(site.to_bytes(16, "big"), b"")
                claim, (message,) = FORM.claim(site, author), old.messages
                made = entry_of(FORM, claim, [typed(site, 1, message.data[-1:])], author)
                said = Copied(OLD.name, 50, author.name, site, ((2, 1, 1),), made.hash)
                word = FORM.copies(said, author, site) if site == 60 else FORM.copies(said, OLD, 50, old.hash)
                for entry in claim, made, word:
                    judge.add(entry)
                recovered.add(word, site == 60)
            judge.count()
            self.assertEqual([is_hidden for _, is_hidden in recovered.made_here(judge)], [gives_way])

    def test_stretches(self) -> None:
        pairs = [(1, 5), (2, 6), (2, 7), (3, 8), (4, 0), (5, 0), (6, 9)]
        self.assertEqual([tuple(one) for one in in_stretches(pairs)], [(1, 5, 2), (2, 7, 2), (4, 0, 2), (6, 9, 1)])
