"""Notes of the second form as people have them: made, joined, typed into, also into their margin, renewed, and read without an editor."""
import contextlib
import itertools
import os
import signal
import statistics
import subprocess
import unittest
from collections.abc import Callable, Iterator
from unittest import mock

from share.admission.judges import judge_of
from share.admission.ledger import Row
from share.cli import verbs
from share.cli.words import parsed
from share.editors.client import GET_NUMBER_SECONDS, NOT_READ_YET, ScriptNote, note_for_script
from share.engine.arrivals import NO_NUMBER
from share.format.second.claim import ZERO_BITS
from share.format.second.form import PlainRecords
from share.format.second.key_link import KeyLink, link_of
from share.log.opening import open_log
from share.log.polling import can_read
from share.program.site import Site
from share.store import notes, read_only
from share.store.entries import Entries
from share.store.founding import begun
from share.store.guarded import Unkept
from share.store.note_file import FIRST, SECOND, make_note
from share.store.own import OwnTables
from share.store.read_only import found_in
from share.sync import number_search
from share.sync.number_search import NONE_FOUND_YET
from share.sync.numbers import READING, Numbers
from share.sync.replica import Replica
from share.sync.session import Session
from share.tests.counting import instructions
from share.tests.editors import Editor
from share.tests.note import Note
from share.tests.servers import FileLog
from share.tests.support import NOTE, Case, Person, plain_text, python, take, type_at_the_end, wait_for, written
from share.tests.test_joining import history
from share.tests.test_record_judge import Writer, whole
from share.tests.waiting import PATIENCE
from share.text.errors import Trouble

MARGIN = 2
# A claim that nobody finds.
NEVER = "60"
# The command, which opens a note without waiting for what its log has.
OPENS_AT_ONCE = """
from unittest import mock
from share.cli.main import main
with mock.patch("share.sync.session.OPEN_SECONDS", 0):
    raise SystemExit(main())
"""


class OfSecondForm(Case):
    """Ann, who makes a note of the second form, and Bob, who joins it."""

    def setUp(self) -> None:
        super().setUp()
        second = mock.patch.dict(os.environ, VIALSHOAL_FORM="2", VIALSHOAL_ZERO_BITS="0")
        second.start()
        self.addCleanup(second.stop)
        self.ann, self.bob = self.person("ann"), self.person("bob")


class SecondForm(OfSecondForm):
    """Ann makes a note of the second form, and Bob joins it."""

    def both(self, url: str) -> tuple[Note, Note]:
        """Both have the note open."""
        ann = self.opened(self.ann, url=url)
        written(ann, "one ")
        bob = self.opened(self.bob, link=self.ann.link())
        self.assert_comes_to(bob, b"one ")
        type_at_the_end(bob, "two ")
        self.assert_meet(ann, bob)
        return ann, bob

    def assert_margin(self, note: Note, text: bytes) -> None:
        """That a margin comes to have a text."""
        wait_for(lambda: (note.take_in(), note.session.text(MARGIN) == text)[1], f"{text!r} to be in the margin")

    def test_the_margin_goes_over_each_log(self) -> None:
        for url in self.file_log(), self.redis().url:
            with self.subTest(url):
                self.ann, self.bob = self.person(f"ann-{len(url)}"), self.person(f"bob-{len(url)}")
                ann, bob = self.both(url)
                bob.session.insert(0, b"a remark", MARGIN)
                self.assert_margin(ann, b"a remark")
                ann.session.insert(2, b"good ", MARGIN)
                ann.session.cut(0, 2, MARGIN)
                self.assert_margin(bob, b"good remark")
                # Neither text has anything of the other one.
                self.assertEqual(self.assert_meet(ann, bob), b"one two ")
                for one in ann, bob:
                    one.session.close()
                again = self.opened(self.bob)
                self.assertEqual((again.session.text(MARGIN), bytes(again.text)), (b"good remark", b"one two "))

    def test_texts_end_and_are_counted_together(self) -> None:
        note = self.opened(self.ann)
        note.type("one ")
        note.session.insert(0, b"xyz", MARGIN)
        self.assertEqual(note.session._holdings.many(), len(note.session.messages()) + len(note.session.messages(MARGIN)))
        with mock.patch("share.program.site.MOST_MESSAGES", note.session._holdings.many()):
            self.assertEqual(note.session.insert(0, b"more", MARGIN).messages, [])
        for text in 0, 17:
            with self.assertRaises(Trouble):
                note.session.insert(0, b"x", text)

    def test_each_text_goes_on_from_a_packed_file_of_its_own(self) -> None:
        texts = {1: b"one ", MARGIN: b"a remark", 16: b"the last text"}
        with mock.patch("share.store.snapshot.AT_END", 1):
            note = self.ann.open()
            for text, data in texts.items():
                note.session.insert(0, data, text)
            note.session.close()
        again = self.opened(self.ann)
        for text, data in texts.items():
            shown, replica = again.session.text(text), again.session._texts[text].replica
            self.assertEqual((shown, replica.packed), (data, len(replica.site.history)))
            self.assertGreater(replica.packed, 0)

    def test_renewed_from_either_form_with_all_texts(self) -> None:
        for form in "1", "2":
            with self.subTest(form):
                ann = self.person(f"of-form-{form}")
                with mock.patch.dict(os.environ, VIALSHOAL_FORM=form):
                    note = ann.open()
                    note.type("one two ")
                    if form == "2":
                        note.session.insert(0, b"a remark", MARGIN)
                    number, history = note.session.number, [*note.session.messages()]
                    note.session.close()
                    with ann.here():
                        notes.renew("note", None, None, form_number=SECOND)
                again = self.opened(ann)
                self.assertEqual((bytes(again.text), [*again.session.messages()]), (b"one two ", history))
                self.assertEqual(again.session.text(MARGIN), b"a remark" if form == "2" else b"")
                # The numbers of what was copied are nobody's.
                self.assertNotEqual(again.session.number, number)
                self.assertIsNone(again.session._holdings.judge.holder(number))
                again.type("three ")
                self.assertEqual(ann.text(), bytes(again.text))

    def run_as_ann(self, *words: str) -> subprocess.CompletedProcess[str]:
        """A command of Ann's, where new notes are of the first form."""
        return self.note(*words, VIALSHOAL_DATA=str(self.ann.data), VIALSHOAL_FORM="1")

    def form_of(self, name: str = "note") -> int:
        """Of which form a note of Ann's is."""
        return read_only.about(self.ann.path(name)).form_number

    def test_a_renewed_note_keeps_its_form(self) -> None:
        note = self.ann.open()
        note.type("one ")
        note.session.insert(0, b"a remark", MARGIN)
        note.session.close()
        self.assertEqual((self.run_as_ann("renew", "note").returncode, self.form_of()), (0, SECOND))
        self.assertEqual(self.run_as_ann("cat", "note", "--text", "2").stdout, "a remark")

    def test_back_to_the_first_form_where_no_text_is_lost(self) -> None:
        note = self.ann.open()
        note.type("one two ")
        note.erase(0, 4)
        note.session.insert(0, b"more", 3)
        note.session.close()
        self.assert_says(self.run_as_ann("renew", "note", "--form", "1"), "The note note has a text 3",
                         "bin/note export note FILE --text 3")
        self.assertEqual((self.form_of(), self.ann.path("note.old-1").exists()), (SECOND, False))
        # What isn't shown any more is no text that is lost where the history is left behind, but what a margin says.
        note = self.ann.open()
        note.session.cut(0, 4, 3)
        note.session.close()
        self.assertEqual(self.run_as_ann("renew", "note", "--form", "1").returncode, 2)
        run = self.run_as_ann("renew", "note", "--form", "1", "--fresh", "--yes")
        self.assertEqual((run.returncode, self.form_of(), self.ann.text()), (0, FIRST, b"two "))
        self.assertIn("It is of the first form again", run.stdout)

    def test_back_to_the_first_form_with_the_history(self) -> None:
        ann, bob = self.both(self.file_log())
        messages = [*ann.session.messages()]
        for one in ann, bob:
            one.session.close()
        run = self.run_as_ann("renew", "note", "--form", "1")
        self.assertEqual((run.returncode, run.stderr, self.form_of()), (0, "", FIRST))
        self.assertIn("can be taken over there for a few hashes", run.stdout)
        with mock.patch.dict(os.environ, VIALSHOAL_FORM="1"):
            again = self.opened(self.ann)
            self.assertEqual((bytes(again.text), [*again.session.messages()]), (b"one two ", messages))
            type_at_the_end(again, "three ")

    def test_scripts_make_notes_of_a_form(self) -> None:
        for name, form in ("first", FIRST), ("second", SECOND):
            for verb, more in ("append", "x"), ("import", "-"):
                self.assertEqual(self.run_as_ann(verb, f"{name}-{verb}", more, "--new", "--form", str(form)).returncode, 0)
                self.assertEqual(self.form_of(f"{name}-{verb}"), form)
        self.assertEqual(self.run_as_ann("append", "third", "x", "--new", "--form", "3").returncode, 2)
        with self.ann.here(), mock.patch("share.editors.web.opening.serve_note") as serves:
            verbs.run_note_verb(parsed(["web", "page", "--new", "--form", "2", "--no-browser"]))
            command, _ = serves.call_args.args[1]("page")
        self.assertEqual(command[-2:], ["--form", "2"])

    def test_another_form_than_a_notes_own_is_refused_in_words(self) -> None:
        for name, form, other in ("one", FIRST, SECOND), ("two", SECOND, FIRST):
            begun = self.run_as_ann("append", name, "x", "--new", "--form", str(form), "--log", str(self.folder / name))
            self.assertEqual(begun.returncode, 0)
            link = self.run_as_ann("link", name).stdout.strip()
            for words in (("append", name, "y"), ("import", name, "-"), ("engine", name)):
                with self.subTest(words):
                    self.assert_says(self.run_as_ann(*words, "--new", "--form", str(other)), f"The note {name} is of form {form}.",
                                     f"bin/note renew {name} --form {other} copies it into one of form {other}.")
            as_bob = {"VIALSHOAL_DATA": str(self.bob.data), "VIALSHOAL_LINK": link}
            self.assert_says(self.note("append", "joined", "y", "--form", str(other), **as_bob),
                             f"That link's note is of form {form}. Leave out --form {other}.")
            self.assertEqual(self.run_as_ann("append", name, "y", "--form", str(form)).returncode, 0)
            self.assertEqual((self.run_as_ann("cat", name).stdout, self.form_of(name)), ("x\ny\n", form))
            self.assertFalse(self.bob.path("joined").exists())

    def base_in_log(self, many: int) -> tuple[str, bytes, int]:
        """The link of a note whose log begins with a base of many records, of two texts and of three sites each; what the first text shows,
        and how many records these are."""
        form = PlainRecords(bytes(32), 0)
        writers = [Writer(form, form.new_author(), site, text) for text in form.texts[:2] for site in (7, 8, 9)]
        records = [record for one in writers for record in one.type(b"letters " * (many // 48))]
        messages = [run for record in records for run in record.operations]
        with mock.patch("share.store.founding.packed_in_parts", lambda some: [whole(one, one.at) for one in some]):
            made = begun(str(self.folder / f"{many}.log"), messages, SECOND)
        with contextlib.closing(open_log(made.about.url, made.about.form().note)) as log:
            log.append([row.entry.raw for row in made.rows])
        shown = plain_text(one for one in messages if one.text == form.texts[0])
        return KeyLink("plain", made.about.secret, made.about.url).spelled(), shown, len(made.rows) - 1

    def test_a_base_larger_than_the_room_is_read_again_once(self) -> None:
        for many in 96, 192, 384:
            link, text, records = self.base_in_log(many)
            read, row_at = list[int](), Entries.row_at

            def counting(entries: Entries, place: int) -> Row | None:
                read.append(place)
                return row_at(entries, place)

            with mock.patch.object(Entries, "row_at", counting), mock.patch("share.sync.state.MOST_UNCOUNTED_BYTES", 20_000):
                self.assert_comes_to(self.opened(self.person(f"bob-{many}"), link=link), text)
            self.assertEqual(records, many)
            # There is room for some thirty of them.
            self.assertTrue(many - 40 < len(read) == len({*read}) < many, (many, len(read)))

    def test_a_base_larger_than_the_room_is_there_as_its_note_is_opened_again(self) -> None:
        link, text, _ = self.base_in_log(96)
        with mock.patch("share.sync.state.MOST_UNCOUNTED_BYTES", 20_000):
            bob = self.opened(self.bob, link=link)
            self.assert_comes_to(bob, text)
            bob.session.close()
            # So the program goes on from the packed file.
            with mock.patch.object(Replica, "comes") as comes:
                again = self.opened(self.bob)
        self.assertEqual((bytes(again.text), sum(len(call.args[0]) for call in comes.call_args_list)), (text, 0))

    def test_read_without_an_editor(self) -> None:
        note = self.ann.open()
        note.type("one ")
        note.session.insert(0, b"a remark", MARGIN)
        note.session.close()
        environment = {"VIALSHOAL_DATA": str(self.ann.data)}
        self.assertEqual(self.note("cat", "note", **environment).stdout, "one ")
        self.assertEqual(self.note("cat", "note", "--text", "2", **environment).stdout, "a remark")
        self.assertEqual(self.note("export", "note", "-", "--text", "2", **environment).stdout, "a remark")
        self.assertEqual(self.note("cat", "note", "--text", "3", **environment).stdout, "")

    def test_a_text_that_no_note_has_is_refused_in_words(self) -> None:
        self.ann.open().session.close()
        with mock.patch.dict(os.environ, VIALSHOAL_FORM="1"):
            first = self.ann.open("first")
            first.type("one ")
            first.session.close()
        known = "a note of the second form has texts 1 to 16, one of the first form has text 1 alone"
        for *given, number in ("cat", "note", "17"), ("cat", "note", "two"), ("export", "note", "-", "0"), ("cat", "first", "-1"):
            run = self.note(*given, f"--text={number}", VIALSHOAL_DATA=str(self.ann.data))
            self.assertEqual((run.returncode, run.stdout), (2, ""))
            self.assertIn(f"argument --text: '{number}' is no text's number: {known}", run.stderr)
        for words in ("cat", "first"), ("export", "first", "-"):
            self.assert_says(self.note(*words, "--text", "2", VIALSHOAL_DATA=str(self.ann.data)), f"The note first has no text 2: {known}.")
        self.assertEqual(self.note("cat", "first", "--text", "1", VIALSHOAL_DATA=str(self.ann.data)).stdout, "one ")

    def test_recovered_from_a_folder(self) -> None:
        ann, bob = self.both(self.file_log())
        bob.session.insert(0, b"a remark", MARGIN)
        self.assert_margin(ann, b"a remark")
        for one in ann, bob:
            one.session.close()
        cy = self.person("cy")
        with cy.here():
            (said,) = notes.recover([self.bob.data])
        self.assertIn("messages of 2 sites", said)
        self.assertEqual(cy.text(), b"one two ")
        self.assertEqual(self.note("cat", "note", "--text", "2", VIALSHOAL_DATA=str(cy.data)).stdout, "a remark")

    def left_out(self, *names: str) -> list[Person]:
        """People of these names, who have a note in whose margin a remark was left out, since a stranger bought its author's number."""
        ann, bob = self.both(self.file_log())
        bob.session.insert(0, b"a remark", MARGIN)
        self.assert_margin(ann, b"a remark")
        number = bob.session.number
        for one in ann, bob:
            one.session.close()
        people = [self.person(name) for name in names]
        for person in people:
            self.opened_to_type(person, self.ann.link()).session.close()
        take(self.bob, number)
        return people

    def opened_to_type(self, person: Person, link: str | None = None) -> Note:
        """A note in which somebody can type and has all."""
        note = self.opened(person, link=link)
        wait_for(lambda: (note.take_in(), note.session.can_type and note.session._replicator.is_up_to_date())[1], "a number, and the log")
        return note

    def margin_of(self, person: Person) -> str:
        """What a person's file alone shows of the margin."""
        found = found_in(person.path())
        messages = judge_of(found.about.form(), found.entries).let_through_in_order(MARGIN)
        with contextlib.closing(Site(1, messages, text=MARGIN)) as site:
            return site.text().decode()

    def test_what_was_left_out_of_the_margin_is_typed_again_there(self) -> None:
        (cy,) = self.left_out("cy")
        run = self.note("recover", "--lost", "note", VIALSHOAL_DATA=str(cy.data))
        self.assertEqual((run.returncode, run.stderr), (0, ""))
        self.assertIn("a remark", run.stdout)
        self.assertEqual((self.margin_of(cy), cy.text()), ("a remark", b"one two "))
        # It is told no more, and typed once.
        self.assertNotIn("a remark", self.note("recover", "--lost", "note", VIALSHOAL_DATA=str(cy.data)).stdout)
        self.assertEqual(self.margin_of(cy), "a remark")

    def test_copies_in_a_margin_that_isnt_open_are_hidden(self) -> None:
        people = self.left_out("cy", "di")
        notes = [self.opened_to_type(person) for person in people]
        for note in notes:
            wait_for(lambda one=note: (one.take_in(), one.session.lost())[1], "it to be left out")
        for note in notes:
            # Nothing of the other one's is taken in yet.
            note.session.recover()
        for note in notes:
            note.session.close()
        notes = [self.opened_to_type(person) for person in people]
        wait_for(lambda: (self.assert_meet(*notes), {*map(self.margin_of, people)})[1] == {"a remark"}, "it to be there once")

    def spares(self, person: Person) -> int:
        """How many numbers somebody can type under beside that of an editor."""
        with contextlib.closing(person.disk()) as disk:
            return sum(one.stood and not one.retired for one in disk.own.clients()) - 1

    def test_one_more_number_is_there_for_who_is_offline(self) -> None:
        ann, bob = self.both(self.file_log())
        wait_for(lambda: (ann.take_in(), bob.take_in(), self.spares(self.bob) >= 1)[2], "a spare number")
        with mock.patch("share.sync.number_search.ClaimSearch", side_effect=Trouble("Nothing can be searched for.")):
            first, second = bob.session.number, self.opened(self.bob)
            self.assertTrue(second.session.can_type)
            self.assertNotEqual(second.session.number, first)
        second.type("three ")
        self.assert_meet(ann, bob, second)

    def test_who_has_no_number_yet_is_told(self) -> None:
        self.both(self.file_log())
        cy = self.person("cy")
        with mock.patch("share.sync.session.OPEN_SECONDS", 0), mock.patch("share.sync.number_search.can_read", lambda *_: False):
            note = self.opened(cy, link=self.ann.link())
            self.assertFalse(note.session.can_type)
            self.assertEqual(note.session.status().trouble, NONE_FOUND_YET)
            with self.assertRaisesRegex(Trouble, "searched for"):
                note.session.insert(0, b"x")
        type_at_the_end(note, "three ")
        self.assertIsNone(note.session.status().trouble)

    def test_a_number_that_cant_be_kept_or_searched_for_now_is_later(self) -> None:
        self.both(self.file_log())
        faults = (OwnTables, "add_client", Unkept("full")), (number_search, "ClaimSearch", Trouble("There is no room for a process."))
        for number, (where, what, why) in enumerate(faults):
            with self.subTest(what), mock.patch("share.sync.session.OPEN_SECONDS", 0):
                with mock.patch.object(where, what, side_effect=why) as tried:
                    note = self.opened(self.person(f"cy-{number}"), link=self.ann.link())
                    wait_for(lambda: (note.take_in(), tried.called)[1], "it to be tried")
                    self.assertFalse(note.session.can_type)
                    self.assertTrue(note.session.status().trouble)
                wait_for(lambda: (note.take_in(), note.session.can_type)[1], "a number")
                type_at_the_end(note, "three ")

    def test_who_loses_a_number_while_no_other_is_there_is_told_so(self) -> None:
        with mock.patch.object(Numbers, "claim_in_advance", lambda *_: None):
            ann, bob = self.both(self.file_log())
            with mock.patch("share.sync.number_search.can_read", lambda *_: False):
                number, told = bob.session.number, list[str]()
                take(self.bob, number)
                wait_for(lambda: (bob.take_in(), told.append(bob.notice), not bob.session.can_type)[2], "the number to be lost")
                wait_for(lambda: (bob.take_in(), told.append(bob.notice), any(f"site {number}" in one for one in told))[2], "it to be told")
                self.assertNotIn(str(READING), " ".join(told))
                self.assertIn("so you go on as soon as another number was found", " ".join(told))
            self.assertEqual(self.assert_meet(ann, bob), b"one two ")

    def test_who_loses_a_number_makes_what_he_wrote_anew_in_all_texts(self) -> None:
        ann, bob = self.both(self.file_log())
        number, texts = bob.session.number, {1: b"one two ", MARGIN: b"a remark", 16: b"the last text"}
        for text in MARGIN, 16:
            bob.session.insert(0, texts[text], text)
        self.assert_margin(ann, texts[MARGIN])
        take(self.bob, number)
        wait_for(lambda: (bob.take_in(), bob.session.can_type and bob.session.number != number)[1], "another number")
        for note in ann, bob:
            wait_for(lambda one=note: (ann.take_in(), bob.take_in(), {of: one.session.text(of) for of in texts})[2] == texts, "all of it")
            wait_for(lambda one=note: (one.take_in(), not one.session.lost())[1], "nothing to be left out")
        self.assertEqual({part.holder.site for of in texts for part in ann.session.messages(of).parts()} & {number}, set())

    def test_who_types_waits_for_no_search(self) -> None:
        note = self.opened(self.ann)
        search = note.session._numbers.search
        assert search
        wait_for(lambda: (note.take_in(), note.session.can_type and not search.goes_on)[1], "no search")
        before = [self.key(note) for _ in range(9)]
        with mock.patch.object(search._form, "zero_bits", int(NEVER)):
            note.session._numbers.claim_in_advance(9)
        # A search for this many zeros would take ages.
        meanwhile = [self.key(note) for _ in range(9)]
        self.assertTrue(search.goes_on)
        self.assertLess(statistics.median(meanwhile), 1.5 * statistics.median(before))

    @staticmethod
    def key(note: Note) -> int:
        """How many instructions a key takes."""
        return instructions(lambda: (note.type("x"), note.take_in()))


class ScriptsThatJoin(OfSecondForm):
    """Bob's scripts write into a note that he joins, before a number was found for him."""

    def setUp(self) -> None:
        super().setUp()
        note = self.ann.open(url=self.file_log())
        written(note, "one\n")
        note.session.close()
        self.link = self.ann.link()

    def begun(self, *words: str, given: str = "", **environment: str) -> "subprocess.Popen[str]":
        """A command of Bob's that is begun, and can be interrupted, also where a shell in the background began the tests."""
        run = subprocess.Popen(words, text=True, stdin=subprocess.PIPE, stdout=subprocess.PIPE, stderr=subprocess.PIPE,
                               env={**os.environ, "VIALSHOAL_DATA": str(self.bob.data), "VIALSHOAL_LINK": self.link, **environment},
                               preexec_fn=lambda: signal.signal(signal.SIGINT, signal.SIG_DFL))
        self.addCleanup(run.communicate)
        self.addCleanup(run.kill)
        assert run.stdin
        run.stdin.write(given)
        run.stdin.close()
        run.stdin = None
        return run

    def opened_by_script(self, waits_for: Callable[[str], None] = lambda what: None) -> contextlib.AbstractContextManager[ScriptNote]:
        """The note as a script of Bob's has it open."""
        link = link_of(self.link)
        return note_for_script("note", lambda wake: Session(notes.open_note("note", None, link), wake=wake), waits_for)

    def test_it_waits_until_it_is_interrupted(self) -> None:
        for words in ("append", "note", "two"), ("import", "note", "-"):
            with self.subTest(words[0]):
                run = self.begun(NOTE, *words, given="two\n", VIALSHOAL_ZERO_BITS=NEVER)
                assert run.stderr
                self.assertEqual(run.stderr.readline(), f"note: note: {NONE_FOUND_YET}\n")
                run.send_signal(signal.SIGINT)
                self.assertEqual((run.communicate(timeout=PATIENCE)[1], run.returncode), ("", -signal.SIGINT))

    def test_it_waits_for_a_number_at_its_price_and_changes_the_text_of_then(self) -> None:
        price = {"VIALSHOAL_ZERO_BITS": str(ZERO_BITS)}
        run = self.begun(python(), "-B", "-c", OPENS_AT_ONCE, "import", "note", "-", given="one\ntwo\n", **price)
        said = run.communicate(timeout=6 * PATIENCE)[1]  # searched for at the lowest priority there is
        self.assertLessEqual({*said.splitlines()}, {f"note: note: {words}" for words in (NONE_FOUND_YET, NOT_READ_YET)})
        self.assertEqual(run.returncode, 0)
        for one in self.bob, self.ann:
            self.assertEqual(self.note("cat", "note", VIALSHOAL_DATA=str(one.data)).stdout, "one\ntwo\n")

    def test_it_waits_longer_than_for_a_log(self) -> None:
        told = list[str]()
        held = mock.patch("share.sync.number_search.can_read", lambda *given: len(told) > GET_NUMBER_SECONDS + 1 and can_read(*given))
        with self.bob.here(), held, self.opened_by_script(lambda what: told.extend([what] if what else [])) as note:
            self.assertEqual(note.edit(lambda text: [(len(text), len(text), "two\n")]), 1)
        self.assertIn(NONE_FOUND_YET, told)
        self.assertEqual(self.note("cat", "note", VIALSHOAL_DATA=str(self.bob.data)).stdout, "one\ntwo\n")

    def test_an_engine_that_is_open_says_that_a_number_is_searched_for(self) -> None:
        with mock.patch.dict(os.environ, VIALSHOAL_ZERO_BITS=NEVER):
            editor = Editor(self.bob.data, link=self.link)
            self.addCleanup(editor.close)
            run = self.begun(NOTE, "append", "note", "two", VIALSHOAL_LINK="")
        assert run.stderr
        self.assertEqual(run.stderr.readline(), f"note: note: {NONE_FOUND_YET}\n")

    def test_a_search_that_fails_is_told(self) -> None:
        fails = mock.patch("share.sync.number_search.ClaimSearch", side_effect=Trouble("There is no room for a process."))
        with self.bob.here(), mock.patch("share.editors.client.GET_NUMBER_SECONDS", 0.1), fails, self.opened_by_script() as note:
            self.assertRaisesRegex(Trouble, "There is no room for a process.", note.edit, lambda text: [(0, 0, "x")])

    def test_a_search_that_ends_with_nothing_is_begun_again_after_a_while(self) -> None:
        ended = mock.Mock(**{"found.side_effect": Trouble("The search for a number ended, and found none.")})
        begins = mock.patch("share.sync.number_search.ClaimSearch", return_value=ended)
        with mock.patch("share.sync.session.OPEN_SECONDS", 0), mock.patch("share.sync.number_search.can_read", lambda *_: True), \
                mock.patch("share.sync.numbers.SEARCH_AGAIN_SECONDS", 3_600), begins as begun:
            note = self.opened(self.bob, link=self.link)
            for _ in range(10):
                note.take_in()
            self.assertEqual(begun.call_count, 1)
            self.assertEqual(note.session.status().trouble, "The search for a number ended, and found none.")

    @contextlib.contextmanager
    def log_away(self) -> Iterator[None]:
        """Meanwhile the log can't be reached."""
        log = FileLog(self.folder)
        log.kill()
        try:
            yield
        finally:
            log.start()

    def test_a_log_that_is_away_is_told(self) -> None:
        with self.log_away(), self.bob.here(), mock.patch.dict(os.environ, VIALSHOAL_ZERO_BITS=NEVER), \
                mock.patch("share.editors.client.GET_NUMBER_SECONDS", 0.1), self.opened_by_script() as note:
            with self.assertRaises(Trouble) as told:
                note.edit(lambda text: [(0, 0, "x")])
            self.assertEqual(str(told.exception), NO_NUMBER)

    def test_a_log_that_cant_be_taken_in_is_told(self) -> None:
        told = list[str]()

        def waits_for(what: str) -> None:
            told.append(what)
            self.assertLess(len(told), 9, "waited for ever")

        reads = mock.patch("share.sync.replicator.Replicator.progress", return_value=(1, 2))
        with self.bob.here(), mock.patch("share.editors.client.GET_NUMBER_SECONDS", 1.0), reads, self.opened_by_script(waits_for) as note:
            with mock.patch.object(Session, "arrived", side_effect=Trouble("The program ended.")):
                self.assertRaisesRegex(Trouble, "^The program doesn't answer", note.edit, lambda text: [(0, 0, "x")])

    def broken_off(self) -> int:
        """Bob opens the note, and closes it once a number was found, before he can type; how many of its entries he has in memory."""
        with mock.patch("share.sync.session.OPEN_SECONDS", 0):
            note = self.bob.open(link=self.link)
        numbers = note.session._numbers
        # It may have been kept as the note was opened.
        wait_for(lambda: numbers.has_one or numbers.search and numbers.search.is_ready(), "a number to be found")
        self.assertFalse(note.session.can_type)
        read = len(note.session._holdings.judge)
        note.session.close()
        return read

    def writes_without_a_search(self) -> None:
        """Bob opens the note, and writes under a number that was found before."""
        with mock.patch("share.sync.number_search.ClaimSearch", side_effect=Trouble("Nothing can be searched for.")):
            written(self.opened(self.bob), "two\n")

    def test_what_was_found_as_a_script_was_broken_off_is_kept(self) -> None:
        self.broken_off()
        self.writes_without_a_search()

    def test_what_was_found_before_the_log_was_read_is_kept(self) -> None:
        with self.log_away():
            self.assertEqual(self.broken_off(), 0)
        self.writes_without_a_search()

    def test_a_log_is_being_read_until_all_of_it_is_taken_in(self) -> None:
        rounds, _ = history(4_000)
        with self.ann.here():
            about, rows, clients = begun(f"{self.file_log()}.long", itertools.chain(*rounds), SECOND)
            make_note(notes.path_of("long"), about, rows, clients)
            self.ann.open("long").session.close()
        # A run of letters is taken in at a time, and all of them would be where a number came.
        little = mock.patch.multiple("share.program.intake", FIRST_COST=1, LEAST_COST=1, MOST_COST=1)
        at_once = mock.patch.multiple("share.sync.session", OPEN_SECONDS=0, BAR_SECONDS=0)
        with little, at_once, mock.patch("share.sync.number_search.can_read", lambda *_: False):
            note, times = self.opened(self.bob, "long", link=self.ann.link("long")), 0
            session = note.session
            while len(note.text) < 4_000:
                session.turn_seconds = 0
                note.take_in()
                if session.has_more():
                    times += 1
                    self.assertTrue(session.status().reading)
        self.assertGreater(times, 1)
        wait_for(lambda: (note.take_in(), session.status().reading is None)[1], "that to be told")


if __name__ == "__main__":
    unittest.main()
