"""Entries that type on: told by their first bytes, they are right where reading them says so; and what counts with that knowledge is what
counts without."""
import contextlib
import random
import tracemalloc
import unittest
from collections.abc import Iterable
from itertools import chain
from unittest import mock

from share.admission.judge import Judge
from share.admission.ledger import MOST_IN_RUN, Row
from share.admission.passage import AHEAD
from share.format import chunk as chunks
from share.format.chunk import MOST_CHUNK
from share.format.entry import Bad, FirstEntry, Kind, Plain, check_entry
from share.format.keystrokes import Keystrokes
from share.format.operation import DELETE, GREATEST_STAMP, INSERT, MOST_OF_A_SITE, PLAIN_LOOKS, Operation
from share.format.sealed import Sealed
from share.program.site import Site
from share.store import contents
from share.store.note_file import About, make_note
from share.store.own import Client
from share.tests.support import Case
from share.tests.test_judge import in_pages
from share.text.change import Change
from share.text.change import make as make_changes
from share.text.names import Names

FORM = Plain(bytes(range(16)))
OTHER_LOOKS = b"\4Sans\1\0"
LETTERS = b"ab \r\xe9"
KEYS = 3_000


class Typist:
    """Somebody who types, deletes, jumps and pastes, whose entries are made one after the other."""

    def __init__(self, form: Plain | Sealed, site: int, stamp: int = 0, seq: int = 0, at: int = 0):
        self.site, self.author, self.form = site, form.new_author(), form
        self.last = form.claim(site, self.author)
        self.entries = [self.last]
        self.seq, self.stamp, self.at = seq, stamp, at
        self.caret: tuple[int, int] | None = (site, at - 1) if at else None

    def insert(self, data: bytes, size: int = 0, looks: bytes = PLAIN_LOOKS) -> Operation:
        """Letters, each a message, or all in one."""
        size = size or len(data)
        cause = (Names(*self.caret, 1),) if self.caret else ()
        run = Operation(INSERT, self.site, self.seq + 1, self.stamp + 1, size, cause, self.at, data, looks)
        self.seq, self.stamp, self.at = self.seq + size, self.stamp + size, self.at + len(data)
        self.caret = self.site, self.at - 1
        return run

    def delete(self) -> Operation:
        """The last character."""
        self.seq, self.stamp = self.seq + 1, self.stamp + 1
        return Operation(DELETE, self.site, self.seq, self.stamp, 1, (Names(self.site, self.at - 1, 1),))

    def keep(self, *runs: Operation) -> FirstEntry:
        """An entry of these."""
        self.last = self.form._made(Kind.CHUNK, self.site, runs[0].seq, sum(run.size for run in runs), self.last.hash, self.author, b"",
                                    self.chunk(*runs))
        self.entries.append(self.last)
        return self.last

    def chunk(self, *runs: Operation) -> bytes:
        """The chunk of these."""
        writer, length = chunks.Writer(), next((run.at for run in runs if run.data), self.at)
        assert all(writer.add(run, length) for run in runs)
        return bytes(writer.data)

    def at_random(self, chance: random.Random) -> FirstEntry:
        """One of all that may be."""
        what = chance.random()
        if what < 0.7 or not self.at:
            return self.keep(self.insert(bytes(chance.choices(LETTERS, k=chance.choice([1, 1, 1, 1, 5])))))
        if what < 0.75:
            return self.keep(self.insert(bytes([chance.choice([1, 8, 14, 15])])))
        if what < 0.8:
            return self.keep(self.insert("é".encode(), 1))
        if what < 0.85:
            return self.keep(self.insert(b"x", looks=OTHER_LOOKS))
        if what < 0.9:
            self.caret = self.site, chance.randrange(self.at)
            return self.keep(self.insert(b"j"))
        if what < 0.95:
            self.stamp += chance.choice([1, 2, 300])
            return self.keep(self.insert(b"l"))
        return self.keep(self.delete(), *([self.insert(b"mn")] if chance.random() < 0.5 else []))


def is_right(entry: FirstEntry) -> bool:
    """Whether an entry is spelled rightly, as reading it says."""
    with contextlib.suppress(Bad):
        check_entry(entry)
        return True
    return False


def damaged(entry: FirstEntry, chance: random.Random) -> FirstEntry:
    """An entry that says a little else."""
    what = chance.randrange(5)
    if what == 0:
        return entry._replace(first=entry.first + chance.choice([-1, 1]))
    if what == 1:
        return entry._replace(size=entry.size + chance.choice([-1, 1]))
    if what == 2:
        return entry._replace(site=entry.site + 1)
    spelled = bytearray(entry.spelled)
    at = chance.randrange(len(spelled))
    if what == 3:
        spelled[at] ^= 1 << chance.randrange(8)
    else:
        spelled[at:at + chance.randrange(2)] = chance.randbytes(chance.randrange(3))
    return entry._replace(spelled=bytes(spelled))


class Told(unittest.TestCase):
    """Which entries type on."""

    def test_as_reading_says(self) -> None:
        chance, told = random.Random(3), {True: 0, False: 0}
        for _ in range(40):
            typist, keystrokes, before = Typist(FORM, chance.choice([1, 300, 60_000]), chance.choice([0, 2**20, 2**40])), Keystrokes(), None
            keystrokes.type_on(typist.last)
            for _ in range(60):
                entry = typist.at_random(chance)
                types_on = keystrokes.type_on(entry)
                if types_on:
                    run, = entry.operations
                    assert before
                    self.assertEqual(run[:8], (INSERT, typist.site, before.seq + before.size, before.stamp + before.size, len(run.data),
                                               (Names(typist.site, run.at - 1, 1),), before.at + len(before.data), run.data))
                told[types_on] += 1
                before = entry.operations[-1]
        self.assertGreater(min(told.values()), 500)

    def test_what_is_wrong_is_found(self) -> None:
        chance, told = random.Random(4), {True: 0, False: 0}
        for _ in range(3_000):
            typist, keystrokes = Typist(FORM, chance.choice([1, 300]), chance.choice([0, 120, 2**40])), Keystrokes()
            keystrokes.type_on(typist.last)
            for _ in range(chance.randint(1, 3)):
                keystrokes.type_on(typist.keep(typist.insert(chance.choice([b"a", b"a", b"bcd"]))))
            entry = damaged(typist.keep(typist.insert(chance.choice([b"e", b"e", b"fgh"]))), chance)
            try:
                keystrokes.type_on(entry)
                found = True
            except Bad:
                found = False
            self.assertEqual(found, is_right(entry), entry)
            told[found] += 1
        self.assertGreater(min(told.values()), 100)

    def test_bounds(self) -> None:
        for stamp, seq, at in (GREATEST_STAMP - 3, 10, 10), (10, 2**32 - 4, 10), (10, 10, MOST_OF_A_SITE - 3):
            typist, keystrokes = Typist(FORM, 7, stamp, seq, at), Keystrokes()
            self.assertEqual([keystrokes.type_on(typist.keep(typist.insert(b"a"))) for _ in range(3)], [False, True, True])
            last, run = typist.last, typist.insert(b"a")
            entry = last._replace(first=run.seq, spelled=typist.chunk(run), before=last.hash, hash=bytes(32))
            self.assertFalse(is_right(entry))
            with self.assertRaises(Bad):
                keystrokes.type_on(entry)

    def test_one_without_letters(self) -> None:
        # The name of the character before it ends as a letter might.
        typist, keystrokes = Typist(FORM, 7, at=ord("a")), Keystrokes()
        self.assertFalse(keystrokes.type_on(typist.keep(typist.insert(b"a"))))
        typed = typist.keep(typist.insert(b"b"))
        entry = typed._replace(size=0, spelled=typed.spelled[:-1])
        self.assertEqual(entry.spelled[-1:], b"a")
        self.assertFalse(is_right(entry))
        with self.assertRaises(Bad):
            keystrokes.type_on(entry)

    def test_the_longest(self) -> None:
        for more in 0, 1:
            typist, keystrokes = Typist(FORM, 7), Keystrokes()
            keystrokes.type_on(typist.keep(typist.insert(b"a")))
            short = typist.keep(typist.insert(b"b"))
            size = MOST_CHUNK - len(short.spelled) + 1 + more
            entry = short._replace(size=size, spelled=short.spelled + b"x" * (size - 1))
            self.assertEqual(is_right(entry), not more)
            with contextlib.ExitStack() as expected:
                if more:
                    expected.enter_context(self.assertRaises(Bad))
                self.assertTrue(keystrokes.type_on(entry))


def added(entries: Iterable[FirstEntry], is_known: bool, judge: Judge | None = None) -> Judge:
    """What judges these, and knows what types on, or doesn't."""
    judge, keystrokes = Judge(form=FORM) if judge is None else judge, Keystrokes()
    for entry in entries:
        judge.add(entry, types_on=keystrokes.type_on(entry) and is_known)
    return judge


class Counts(unittest.TestCase):
    """What counts, with the knowledge of what types on and without."""

    def people(self, chance: random.Random) -> list[list[FirstEntry]]:
        """Entries of some people, some of whom wrote twice at one place, typed where others did, or far above them."""
        found: list[list[FirstEntry]] = []
        for site in range(1, chance.randint(2, 5)):
            typist = Typist(FORM, site, chance.choice([0, 0, 50, 2**20 + 300]))
            if found and chance.random() < 0.5:
                other = [run for entry in chance.choice(found) if entry.size for run in entry.operations if run.data]
                typist.caret, typist.stamp = (other[-1].site, chance.randrange(other[-1].at + 1)), other[-1].stamp + 5
            made = [typist.last, *(typist.at_random(chance) for _ in range(chance.randint(1, 60)))]
            if chance.random() < 0.4:
                # A copied folder goes on from an older entry.
                copy = Typist(FORM, site)
                place = chance.randrange(len(made))
                runs = [run for entry in made[:place + 1] if entry.size for run in entry.operations]
                copy.author, copy.last = typist.author, made[place]
                copy.seq, copy.stamp = sum(run.size for run in runs), max((run.stamp + run.size - 1 for run in runs), default=0)
                copy.at = sum(len(run.data) for run in runs)
                copy.caret = (site, copy.at - 1) if copy.at else None
                made += [copy.at_random(chance) for _ in range(chance.randint(1, 30))]
            found.append(made)
        return found

    def assert_alike(self, one: Judge, other: Judge) -> None:
        """That the same counts for both, and lacks."""
        self.assertEqual(sorted(one.let_through_in_order()), sorted(other.let_through_in_order()))
        self.assertEqual((one.wrong(), one.incomplete(), one.left_out()), (other.wrong(), other.incomplete(), other.left_out()))
        for site in one.claimed() | other.claimed():
            self.assertEqual((one.front(site), one.length(site)), (other.front(site), other.length(site)))
            for seq in range(1, one.front(site) + 1):
                self.assertEqual(one.message(site, seq), other.message(site, seq))
                self.assertEqual(one.entry_of(site, seq), other.entry_of(site, seq))
            chains = one._chains.by_site[site], other._chains.by_site[site]
            for at in range(one.length(site)):
                self.assertEqual(*((chain.stamp_of(at), chain.inserter_of(at)) for chain in chains))
            self.assertEqual(*(chain.pending for chain in chains))

    def in_pages(self, entries: list[FirstEntry], chance: random.Random) -> Judge:
        """What judges these, page by page, as they are read in a file."""
        judge, keystrokes, begin = Judge(form=FORM), Keystrokes(), 0
        while begin < len(entries):
            end = begin + chance.randint(1, 40)
            in_pages(judge, [Row(0, entry, False, keystrokes.type_on(entry)) for entry in entries[begin:end]])
            begin = end
            if chance.random() < 0.5:
                judge.let_through()
        return judge

    def test_the_same_counts(self) -> None:
        chance = random.Random(5)
        for _ in range(60):
            entries = [entry for made in self.people(chance) for entry in made if chance.random() < 0.995]
            if chance.random() < 0.5:
                chance.shuffle(entries)
            elif chance.random() < 0.5:
                entries.sort(key=lambda entry: entry.first)
            one, other = Judge(form=FORM), Judge(form=FORM)
            begin = 0
            while begin < len(entries):
                end = begin + chance.randint(1, 40)
                added(entries[begin:end], True, one)
                added(entries[begin:end], False, other)
                begin = end
                if chance.random() < 0.5:
                    (one.count if chance.random() < 0.5 else one.let_through)()
                    other.count()
            self.assert_alike(one, other)
            self.assert_alike(one, added(entries, False))
            self.assert_alike(one, self.in_pages(entries, chance))

    def test_each_stretch_of_what_counts_is_handed_in_as_it_was_typed(self) -> None:
        chance = random.Random(6)
        for _ in range(30):
            entries = [entry for made in self.people(chance) for entry in made]
            found = added(entries, True).let_through_in_order()
            for _ in range(5):
                begin = chance.randint(0, len(found))
                some = found[begin:chance.randint(begin, len(found))]
                parts = [one for part in some.parts() for one in part.holder.parts(part.begin, part.end)]
                unfolded = [[each for one in known or chunks.unpacked(chunk) for each in one.each()] for chunk, known, _ in parts]
                self.assertEqual([*chain.from_iterable(unfolded)], [*some])
                self.assertEqual([len(of_part) for of_part in unfolded], [size for _, _, size in parts])

    def test_a_long_stretch_fits_into_chunks(self) -> None:
        typist = Typist(FORM, 9)
        for number in range(3 * MOST_IN_RUN + 7):
            typist.keep(typist.insert(b"\r" if number % 7 == 0 else b"x"))
        found = added(typist.entries, True).let_through_in_order()
        self.assertEqual(len([*found.parts()]), 1)
        sizes = [len(one.data) for part in found.parts() for chunk, known, _ in part.holder.parts(part.begin, part.end)
                 for one in known or chunks.unpacked(chunk)]
        self.assertLessEqual(max(sizes), MOST_IN_RUN)
        self.assertLess(len(sizes), 10)
        with contextlib.closing(Site(1, found)) as site:
            self.assertEqual(site.text(), b"".join(run.data for entry in typist.entries[1:] for run in entry.operations))

    def test_what_came_of_a_stretch_is_told_as_one(self) -> None:
        for letters in b"abcdefgh", b"ab\1cdefgh":
            typist = Typist(FORM, 9)
            for letter in letters:
                typist.keep(typist.insert(bytes([letter])))
            with contextlib.closing(Site(1)) as site:
                site.insert(0, b"xy")
                told, text = site.take(added(typist.entries, True).let_through_in_order(), looks=True), bytearray(b"xy")
                changes = [one for one in told if isinstance(one, Change)]
                self.assertEqual([one.names for one in changes], [Names(9, 0, len(letters))])
                make_changes(text, changes)
                self.assertEqual(text, site.text())
                self.assertEqual(len(site.history), 1 + len(letters))

    def test_nobody_passes_others_by_far(self) -> None:
        people = [Typist(FORM, site) for site in (1, 2, 3)]
        for typist in people:
            for _ in range(5 * AHEAD):
                typist.keep(typist.insert(b"x"))
        found = [*added([entry for typist in people for entry in typist.entries], True).let_through_in_order()]
        self.assertEqual(len(found), 15 * AHEAD)
        least = dict.fromkeys((1, 2, 3), 0)
        for message in found:
            least[message.site] = message.stamp
            self.assertLessEqual(message.stamp, min(least.values()) + AHEAD + 1)


class Opened(Case):
    """A note that was typed by hand is opened and printed."""

    def setUp(self) -> None:
        super().setUp()
        form = About(True, bytes(range(32)), "").form()
        assert isinstance(form, Sealed)
        typist, self.text = Typist(form, 17), b"0123456789" * (KEYS // 10)
        for number in range(KEYS):
            typist.keep(typist.insert(self.text[number:number + 1]))
        self.ann = self.person("ann")
        rows = [Row(0, entry, True) for entry in typist.entries]
        make_note(self.ann.path(), About(True, bytes(range(32)), ""), rows, [Client(17, typist.author, stood=True)])

    def test_few_chunks_are_read(self) -> None:
        with mock.patch.object(chunks, "_keystrokes_in", wraps=chunks._keystrokes_in) as read:
            note = self.opened(self.ann)
            self.assertEqual(note.session.text(), self.text)
        self.assertLess(read.call_count, KEYS // 10)

    def test_no_message_is_unfolded(self) -> None:
        with mock.patch.object(chunks, "unpacked_one_by_one", side_effect=AssertionError):
            note = self.opened(self.ann)
            self.assertEqual(note.session.text(), self.text)
            with self.ann.here():
                self.assertEqual(contents.text_of_note("note", None, None, None).text, self.text)

    def test_none_is_opened_as_a_strangers(self) -> None:
        with self.ann.here(), mock.patch.object(Sealed, "_opened", side_effect=AssertionError):
            self.assertEqual(contents.text_of_note("note", None, None, None).text, self.text)

    def test_none_is_kept_whole(self) -> None:
        with self.ann.here():
            tracemalloc.start()
            try:
                contents.text_of_note("note", None, None, None)
                _, most = tracemalloc.get_traced_memory()
            finally:
                tracemalloc.stop()
        self.assertLess(most / KEYS, 800)


if __name__ == "__main__":
    unittest.main()
