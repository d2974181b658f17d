"""What comes from others is taken in a few messages at a time, so that keys are answered meanwhile; and what is typed meanwhile is
right everywhere."""
import contextlib
import random
import unittest
from unittest import mock

from share.admission.ledger import Branch, Ledger, Row
from share.format import chunk as chunks
from share.format.chunk import MOST_CHUNK, Writer
from share.format.entry import Kind, Plain
from share.format.history import Messages, Part
from share.format.operation import DELETE, Operation
from share.program.intake import COST_OF_A_PLACE, Coming
from share.program.site import Site
from share.tests.attacks import AT_THE_FRONT, LETTERS, Hostile, square
from share.tests.editors import Engines
from share.tests.naive import about, inserting
from share.tests.support import Case, edit_at_random, wait_for, written
from share.tests.test_chunks import line_of
from share.text.change import Change
from share.text.errors import Trouble

EDITS, SOME, FEW = 60, 60, 3
WORDS = "The first words of the note. "
assert not {*LETTERS} & {*WORDS, "x"}


def messages_of(site: int, chance: random.Random) -> list[Operation]:
    """What somebody types at the end, at the front, and deletes."""
    found, at = [], 0
    for seq in range(1, 1 + chance.randint(1, 60)):
        what = chance.random()
        if at and what < 0.2:
            found.append(about(DELETE, site, seq, seq, [(site, chance.randrange(at), 1)]))
            continue
        data = b"x" * chance.choice([1, 1, 1, 7])
        found.append(inserting(site, seq, seq, (site, at - 1) if at and what < 0.8 else None, at, data))
        at += len(data)
    return found


class Parts(unittest.TestCase):
    """Messages that come are handed in in parts."""

    def coming(self, chance: random.Random) -> tuple[Coming, list[Operation]]:
        """Messages of some entries, parts of which came before."""
        coming, whole = Coming(), list[Operation]()
        for site in range(1, 8):
            made = messages_of(site, chance)
            line, middle = line_of([made]), chance.randint(0, len(made))
            for begin, end in (0, middle), (middle, len(made)):
                coming.add(Messages(parts=[Part(line, begin, end)]))
            whole += made
        return coming, whole

    def test_each_comes_once_and_in_its_turn(self) -> None:
        chance = random.Random(4)
        for _ in range(20):
            coming, whole = self.coming(chance)
            found: list[Operation] = []
            while coming:
                some = coming.first()
                self.assertEqual([*Messages(parts=some.parts()).chunks()], [*some.chunks()])
                self.assertEqual(sum(size for _, size in some.chunks(few=1)), len(some))
                # What fails is handed in again.
                done = chance.choice([0, len(some), len(some)])
                found += [*some][:done]
                coming.drop(done)
                coming.pace.took(chance.choice([0.0, 0.01, 1.0]))
            self.assertEqual(found, whole)

    def test_a_run_that_nearly_fills_a_chunk_comes_in_pieces(self) -> None:
        # By itself it would be spelled in more bytes than it has after the letter before it, which are as many as may be.
        form = Plain(bytes(16))
        author, writer = form.new_author(), Writer()
        self.assertTrue(writer.add(inserting(9, 1, 1, None, 0, b"a")))
        far = inserting(9, 2, 2**40, (60_000, 2**23), 1, b"\1")
        room = (MOST_CHUNK - len(writer.data)) // 2 - 8
        self.assertTrue(writer.add(far._replace(size=room, data=b"\1" * room)))
        claim, ledger = form.claim(9, author), Ledger(form)
        entry = form._made(Kind.CHUNK, 9, 1, 1 + room, claim.hash, author, b"", bytes(writer.data))
        line = Branch(ledger, 9)
        for one in claim, entry:
            line.add(ledger.add([Row(0, one, False)], 0))
        coming, found = Coming(), list[Operation]()
        coming.add(Messages(parts=[Part(line, 0, 1 + room)]))
        while coming:
            some = coming.first()
            self.assertEqual([one for chunk, _ in some.chunks() for one in chunks.unpacked_one_by_one(chunk)], [*some])
            found += some
            coming.drop(len(some))
        self.assertEqual(found, [*entry.messages])

    def test_the_text_is_that_of_all_at_once(self) -> None:
        coming, whole = self.coming(random.Random(5))
        one, other = Site(100, whole), Site(101)
        for site in one, other:
            self.addCleanup(site.close)
        turns, text = 0, bytearray()
        while coming:
            told = other.take_some(coming, 0.0)
            for change in told:
                assert isinstance(change, Change)
                text[change.begin:change.end] = change.new
            turns += 1
        self.assertGreater(turns, 3)
        self.assertEqual((bytes(text), other.text()), (one.text(), one.text()))
        self.assertEqual(other.history, whole)


class Meanwhile(Case):
    """People type while what others typed is taken in."""

    def test_what_is_typed_meanwhile_counts_everywhere(self) -> None:
        chance = random.Random(6)
        with mock.patch.multiple("share.program.intake", FIRST_COST=COST_OF_A_PLACE, MOST_COST=COST_OF_A_PLACE):
            anna, berta = self.together(self.file_log(), "anna", "berta")
        berta.session.turn_seconds, between = 0.0, 0
        for _ in range(3):
            for _ in range(EDITS):
                edit_at_random(anna, chance)
            wait_for(lambda: not anna.session.status().unsent, "all to be sent")
            wait_for(lambda: (berta.take_in(), berta.session.has_more())[1], "it to come")
            while berta.session.has_more():
                edit_at_random(berta, chance)
                between += berta.session.has_more()
                berta.take_in()
                self.assertEqual(bytes(berta.text), berta.session.text())
            self.assert_meet(anna, berta)
        self.assertGreater(between, SOME)
        self.assertEqual([*anna.session.notices(), *berta.session.notices()], [])

    def test_what_failed_once_is_taken_in_later(self) -> None:
        anna, berta = self.together(self.file_log(), "anna", "berta")
        written(anna, "one ")
        self.assert_meet(anna, berta)
        written(anna, "two ")
        real, failed = Site._ask, list[bytes]()

        def ask(site: Site, events: list[bytes]) -> list[list[bytes]]:
            if site is berta.session.site and not failed and any(b" unpack " in event for event in events):
                failed.extend(events)
                raise Trouble("The program ended, was started again and ended again.")
            return real(site, events)

        def is_taken() -> bool:
            try:
                return bool(berta.take_in())
            except Trouble:
                return False

        with mock.patch.object(Site, "_ask", ask):
            wait_for(is_taken, "what was typed")
        self.assertTrue(failed)
        written(anna, "three ")
        self.assertEqual(self.assert_meet(anna, berta), b"one two three ")


class Keys(Engines):
    """Keys at an engine to which much has come."""

    def test_keys_are_answered_before_all_is_taken_in(self) -> None:
        (editor,) = self.others("anna")
        editor.type(WORDS)
        editor.settle()
        with contextlib.closing(self.person("anna").disk()) as disk:
            hostile = Hostile(disk.form, self.file_log())
        hostile.send(square(hostile, sites=1))
        shown: list[int] = []
        while not shown or shown[-1] < 2 * AT_THE_FRONT:
            editor.type("x")
            editor.settle()
            shown.append(sum(map(editor.text.count, LETTERS)))
        self.assertGreater(len([one for one in shown if 0 < one < 2 * AT_THE_FRONT]), FEW)
