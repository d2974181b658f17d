"""The library's note beside the judge and the program: it shows the same of a note's file, and where it doesn't that is told."""
import json
import pathlib
import random
import unittest
from collections.abc import Iterable, Sequence
from contextlib import suppress
from unittest import mock

from share.admission.ledger import Row
from share.admission.record_judge import RecordJudge
from share.format.chunk import packed
from share.format.entry import NO_HASH, Bad, Entry
from share.format.history import Messages
from share.format.operation import CHANGE_LOOKS, DELETE, INSERT, Operation
from share.format.second.form import PlainRecords
from share.format.second.record import Record
from share.proved.comparing import Compared, compared, read_by_both
from share.proved.library import LIBRARY_VARIABLE
from share.store.founding import ByText, begun, by_text
from share.store.note_file import SECOND, About, make_note
from share.tests.proved_files import give_up, see_alike
from share.tests.second_agreement import a_set
from share.tests.support import change, newer_of, type_at_the_end, written
from share.tests.test_folded_notes import OfFolds
from share.tests.test_record_judge import Writer, claim, whole
from share.tests.test_second_notes import MARGIN, OfSecondForm
from share.text.names import Names

# The texts in which somebody writes here.
SOME_TEXTS = 1, MARGIN, 16
SETS = 40


class Deaf(RecordJudge):
    """A judge that misses what is said under a number."""

    misses = 0

    def unknown(self, rows: Iterable[Row]) -> list[Row]:
        return [row for row in super().unknown(rows) if row.entry.site != self.misses]


class Forgets(RecordJudge):
    """A judge that says how many messages count, and leaves out the last one."""

    def let_through_in_order(self, text: int | None = None) -> Messages:
        found = super().let_through_in_order(text)
        return found[:len(found) - 1]


class InFiles(OfSecondForm):
    """Notes of the second form, as files."""

    def compared(self, path: pathlib.Path) -> Compared:
        """What comes of a file."""
        return compared(read_by_both(path))

    def assert_same(self, path: pathlib.Path, messages: int, characters: int) -> None:
        """That both show the same of a file, of which so much counts."""
        self.assertEqual(self.compared(path), Compared(messages, characters, [], []))

    def made(self, entries: Sequence[Entry], about: About, withdrawn: Iterable[Entry] = ()) -> pathlib.Path:
        """The file of a note that has these entries."""
        path = self.folder / "data" / "notes" / f"{len([*self.folder.rglob('*.note')])}.note"
        make_note(path, about, (Row(0, one, False) for one in entries), withdrawn=[one.hash for one in withdrawn])
        return path


class OfEntries(InFiles):
    """Files of entries that are made here: a note without a base, in which two authors type."""

    def setUp(self) -> None:
        super().setUp()
        self.about, rows, _ = begun(None, (), SECOND)
        form = self.about.form()
        assert isinstance(form, PlainRecords)
        self.form = form
        self.writers = [Writer(form, form.new_author(), site) for site in (7, 8)]
        self.begin: list[Entry] = [rows[0].entry, *(claim(form, one.author, one.site) for one in self.writers)]

    def differences(self, judge: type[RecordJudge], entries: Sequence[Entry]) -> list[str]:
        """What is told where this one judges."""
        path = self.made([*self.begin, *entries], self.about)
        with mock.patch("share.store.read_only.judge_of", lambda form: judge(form=form)):
            return self.compared(path).differences

    def test_what_counts_of_forks_is_the_same(self) -> None:
        one, other = self.writers
        begun_with = one.type(b"one ")
        fork = one.fork(2)
        branches = [one.type(b"two")[-3:], fork.type(b"TWO")[-3:]]
        holds = 4 + 3 if begun_with[2].hashes < branches[1][0].hashes else 2 + 3
        builds = other.type(b"xyz", 50, Names(7, 1, 1), self.form.keys.built_on([begun_with[1].hashes[0]]))
        entries = [*self.begin, *begun_with, *branches[0], *branches[1], *builds]
        for seed in range(5):
            random.Random(seed).shuffle(entries)
            self.assert_same(self.made(entries, self.about), holds + 3, holds + 3)

    def test_what_is_left_out_with_what_builds_on_it_is_so_for_both(self) -> None:
        one, other = self.writers
        first, second = one.fork(0), one.fork(0)
        said = first.type(b"abc"), second.type(b"xyz")
        loses = max(said, key=lambda some: some[0].hashes)
        built = other.type(b"!", 50, Names(7, 2, 1), self.form.keys.built_on([loses[2].hashes[0]]))
        self.assert_same(self.made([*self.begin, *said[0], *said[1], *built], self.about), 3, 3)

    def test_what_was_withdrawn_or_is_of_a_newer_version_is_nothing_to_either(self) -> None:
        one, other = self.writers
        said, gone = one.type(b"abc"), other.type(b"xyz")
        newer = newer_of(self.form, said[-1], one.author)
        self.assert_same(self.made([*self.begin, *said, *gone, newer], self.about, gone[1:]), 4, 4)

    def test_what_lacks_something_counts_for_neither(self) -> None:
        one, other = self.writers
        said, lacks = one.type(b"abcdef"), other.type(b"xy", 50, Names(7, 5, 1), bytes(32))
        self.assert_same(self.made([*self.begin, *said[:3], *said[4:], *lacks], self.about), 3, 3)
        # Nor does anything where the opening isn't here, or nobody claims a number.
        self.assert_same(self.made([*self.begin[1:], *said], self.about), 0, 0)
        self.assert_same(self.made([self.begin[0], *said], self.about), 0, 0)

    def test_what_the_disk_damaged_is_told(self) -> None:
        said = self.writers[0].type(b"abcdef")
        for column, value, many in ("raw", b"rubbish", 3), ("raw", said[3].raw[:-1] + b"!", 3), ("body", "text", 6), ("sum", 7, 6):
            path = self.made([*self.begin, *said], self.about)
            change(path, f"UPDATE entry SET {column} = ? WHERE hash = ?", value, said[3].hash)
            found = self.compared(path)
            self.assertEqual((found.messages, found.differences, len(found.faults)), (many, [], int(many < 6)), (column, value))

    def test_a_wrong_judge_is_told(self) -> None:
        one, other = self.writers
        said = [*one.type(b"abc"), *other.type(b"x")]
        self.assertEqual(self.differences(RecordJudge, said), [])
        with mock.patch.object(Deaf, "misses", 8):
            self.assertEqual(self.differences(Deaf, said), [
                "Of site 8, 0 messages in text 1 count here, and 1 in the proved note.",
                "Text 1 has 3 bytes here, and 4 in the proved note; they differ after 0."])

    def test_what_is_shown_otherwise_is_told(self) -> None:
        one, _ = self.writers
        said = one.type(b"abc")
        self.assertEqual(self.differences(Forgets, said), ["Text 1 has 2 bytes here, and 3 in the proved note; they differ after 2."])
        one.put(DELETE, (Names(7, 0, 1),))
        self.assertEqual(self.differences(Forgets, one.made), ["Text 1 has 3 bytes here, and 2 in the proved note; they differ after 0."])

    def test_looks_that_differ_are_told(self) -> None:
        one, _ = self.writers
        said = one.type(b"abc")
        colour = Operation(CHANGE_LOOKS, 7, 4, 4, 1, (Names(7, 1, 1),), looks=bytes((2, 3)))
        said.append(self.form.messages(whole(colour, 3), said[-1].hashes[-1], one.author))
        self.assert_same(self.made([*self.begin, *said], self.about), 4, 3)
        self.assertEqual(self.differences(Forgets, said), ["Text 1 looks otherwise in the proved note."])

    def test_a_test_whose_notes_differ_fails(self) -> None:
        self.made([*self.begin, *self.writers[0].type(b"abc")], self.about)
        folder = self.folder / "data"
        see_alike(folder)
        with mock.patch("share.store.read_only.judge_of", lambda form: Forgets(form=form)):
            with self.assertRaisesRegex(AssertionError, "notes/0.note: Text 1 has 2 bytes here, and 3 in the proved note"):
                give_up(folder)
        self.assertFalse(folder.exists())

    def test_sets_made_at_random(self) -> None:
        chance = random.Random(5)
        for number in range(SETS):
            one, entries = a_set(chance), list[Entry]()
            about = About(False, one.note.key, "", SECOND)
            for raw in dict.fromkeys(one.raws):
                with suppress(Bad):
                    entries.append(about.form().open(raw))
            with self.subTest(number):
                self.assertEqual(self.compared(self.made(entries, about)).differences, [])


class OfBases(InFiles):
    """Files of notes that begin with a base."""

    def messages(self) -> list[Operation]:
        """What three sites typed in several texts, and deleted."""
        form, found = PlainRecords(bytes(32), 0), list[Operation]()
        for text in SOME_TEXTS:
            for site in 7, 8, 9:
                one = Writer(form, form.new_author(), site, text)
                one.type(b"letters")
                one.put(DELETE, (Names(site, 2, 2),))
                one.put(INSERT, (Names(site, 6, 1),), b"!")
                found += [run for record in one.made for run in record.operations]
        return found

    def test_a_base_is_the_same_in_any_order_of_its_entries(self) -> None:
        about, rows, _ = begun(None, self.messages(), SECOND)
        entries = [row.entry for row in rows]
        for seed in range(5):
            random.Random(seed).shuffle(entries)
            self.assert_same(self.made(entries, about), 81, 54)
        self.assert_same(self.made(entries[1:], about), 0, 0)

    def test_a_base_out_of_its_order_counts_for_neither(self) -> None:
        def turned(messages: Iterable[Operation]) -> ByText:
            return {text: dict(reversed(sites.items())) for text, sites in by_text(messages).items()}

        with mock.patch("share.store.founding.by_text", turned):
            about, rows, _ = begun(None, self.messages(), SECOND)
        self.assert_same(self.made([row.entry for row in rows], about), 0, 0)

    def test_a_base_that_others_cut_otherwise_is_found_within(self) -> None:
        messages = self.messages()[:9]
        about, rows, _ = begun(None, messages[:8], SECOND)
        opening, form = rows[0].entry, about.form()
        assert isinstance(form, PlainRecords) and isinstance(opening, Record) and opening.founding
        links = [*opening.founding.links(NO_HASH, messages)]
        for cut in 0, 3, 7:
            parts = [part for some in (messages[:cut], messages[cut:]) if some and (part := packed(some, cut))]
            cuts = [form.base(part, before) for part, before in zip(parts, [NO_HASH, links[cut - 1]] if cut else [NO_HASH])]
            # It ends before the last message of one of these.
            self.assert_same(self.made([opening, *cuts], about), 8, 5)


class OfPeople(InFiles):
    """Files of people's notes."""

    def test_two_who_type_in_several_texts(self) -> None:
        for url in self.file_log(), self.redis().url:
            self.ann, self.bob = self.person(f"ann-{len(url)}"), self.person(f"bob-{len(url)}")
            ann = self.opened(self.ann, url=url)
            written(ann, "one ")
            bob = self.opened(self.bob, link=self.ann.link())
            self.assert_comes_to(bob, b"one ")
            type_at_the_end(bob, "two ")
            for note in ann, bob:
                note.session.insert(0, "é".encode(), MARGIN)
                note.session.insert(0, b"more", 16)
            self.assert_meet(ann, bob)
            for person in self.ann, self.bob:
                # Its editor has it open.
                found = self.compared(person.path())
                self.assertEqual((found.differences, found.faults), ([], []))
                self.assertGreaterEqual(found.characters, len("one two "))
            for note in ann, bob:
                note.session.close()
            self.assertEqual(self.compared(self.ann.path()).characters, len("one two éémoremore"))

    def test_a_renewed_note_with_its_history(self) -> None:
        note = self.ann.open()
        note.type("one two ")
        note.erase(0, 4)
        note.session.insert(0, b"a remark", MARGIN)
        note.session.close()
        self.assertEqual(self.note("renew", "note", VIALSHOAL_DATA=str(self.ann.data)).returncode, 0)
        again = self.ann.open()
        again.type("three ")
        again.session.close()
        for name, characters in ("note", len("two three a remark")), ("note.old-1", len("two a remark")):
            found = self.compared(self.ann.path(name))
            self.assertEqual((found.characters, found.differences), (characters, []))

    def test_the_verb_says_it(self) -> None:
        note = self.opened(self.ann)
        note.type("one two ")
        data = {"VIALSHOAL_DATA": str(self.ann.data)}
        before = self.ann.path().read_bytes()
        run = self.note("check", "note", **data)
        self.assertEqual((run.returncode, run.stderr), (0, ""))
        self.assertRegex(run.stdout, r"\AThe proved note shows the same: \d+ messages?, 8 characters\.\n\Z")
        given = json.loads(self.note("check", "note", "--json", **data).stdout)
        self.assertEqual((given["note"], given["characters"], given["differences"]), ("note", 8, []))
        self.assertEqual(self.ann.path().read_bytes(), before)

    def test_what_can_not_be_compared_is_told(self) -> None:
        data = {"VIALSHOAL_DATA": str(self.ann.data)}
        self.note("append", "first", "x", "--new", "--form", "1", **data)
        self.note("append", "second", "x", "--new", "--form", "2", **data)
        self.assert_says(self.note("check", "first", **data), "The note is of the first form", "renew NAME --form 2")
        self.assert_says(self.note("check", "third", **data), "There is no note third here.")
        self.assert_says(self.note("check", "second", **data, **{LIBRARY_VARIABLE: "/nowhere/lib.so"}),
                         "The library that has the proved note isn't here (/nowhere/lib.so: ", "bin/library --unproved")


class Folded(OfFolds, InFiles):
    """Files of notes that are folded."""

    def test_folds_beside_what_is_folded(self) -> None:
        note = self.opened(self.ann, url=self.file_log())
        type_at_the_end(note, "")
        many = self.folds(note, self.ann)
        bob = self.opened(self.bob, link=self.ann.link())
        self.assert_meet(note, bob)
        for person in self.ann, self.bob:
            self.assert_same(person.path(), many, many)


if __name__ == "__main__":
    unittest.main()
