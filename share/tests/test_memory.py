"""What is kept in memory: an entry that counts takes few bytes, and is written again as it was; of what doesn't count there is room for
some, shared evenly, and what has no room is told, is left where it was, and is read again in its turn."""
import contextlib
import gc
import os
import pathlib
import tracemalloc
import unittest
from collections.abc import Sequence
from unittest import mock

from share.admission.chains import rank
from share.admission.judge import Judge
from share.admission.ledger import Row
from share.format.entry import Author, Copied, Entry, Plain
from share.format.sealed import Sealed
from share.store.note_file import About, make_note
from share.store.own import Client
from share.tests.naive import entry_of, newer
from share.tests.note import Note
from share.tests.support import Case, damage, raws_of, type_at_the_end, wait_for, written
from share.tests.test_keystrokes import Typist
from share.tests.test_state import chained

FORM = Plain(bytes(range(16)))
SEALED = About(True, bytes(range(32)), "")
# How many keys are typed by hand, and the most bytes that an entry of one may take in memory.
KEYS, MOST_BYTES_OF_A_KEY = 6_000, 350


def typed_by_hand() -> Typist:
    """Somebody who typed into a sealed note, a letter an entry."""
    form = SEALED.form()
    assert isinstance(form, Sealed)
    typist = Typist(form, 17)
    for number in range(KEYS):
        typist.keep(typist.insert(b"%d" % (number % 10)))
    return typist


def held_bytes() -> int:
    """The bytes that are held since memory is traced."""
    gc.collect()
    return tracemalloc.get_traced_memory()[0]


class ByHand(Case):
    """A sealed note that was typed by hand, so that each key is an entry."""

    def setUp(self) -> None:
        super().setUp()
        typist = typed_by_hand()
        self.entries, self.text = typist.entries, b"0123456789" * (KEYS // 10)
        self.ann = self.person("ann")
        client = Client(17, typist.author, stood=True)
        make_note(self.ann.path(), SEALED, [Row(0, entry, True) for entry in typist.entries], [client])

    def test_an_entry_takes_few_bytes(self) -> None:
        tracemalloc.start()
        try:
            note = self.opened(self.ann)
            # Another thread may just be looking at the file.
            wait_for(lambda: held_bytes() / KEYS < MOST_BYTES_OF_A_KEY, "few bytes to be kept of a key")
        finally:
            tracemalloc.stop()
        self.assertEqual(bytes(note.text), self.text)

    def test_all_is_written_anew_as_it_was(self) -> None:
        note = self.opened(self.ann)
        os.truncate(self.ann.path(), 0)
        type_at_the_end(note, "!")
        self.assertIn("written anew", " ".join([note.notice, *note.session.notices()]))
        self.assertEqual(self.ann.text(), self.text + b"!")
        with contextlib.closing(self.ann.disk()) as disk:
            raws = {row.entry.raw for row in disk.entries.rows()}
        self.assertLessEqual({entry.raw for entry in self.entries}, raws)


class Claimed:
    """A number of somebody, and entries that follow its claim one after the other."""

    def __init__(self, site: int, many: int, size: int = 1_000):
        self.author: Author = FORM.new_author()
        self.claim = FORM.claim(site, self.author)
        self.made: Sequence[Entry] = chained(FORM, self.claim, self.author, many, size)

    @property
    def loose(self) -> Sequence[Entry]:
        """Those that lack one before them, where the first one doesn't come."""
        return self.made[1:]


def kept(judge: Judge, of: Claimed) -> int:
    """How many of somebody's loose entries are in memory."""
    return sum(entry.hash in judge for entry in of.loose)


class Room(unittest.TestCase):
    """How much of what doesn't count is in memory."""

    def judge(self, *people: Claimed, room: int) -> Judge:
        """What has the claims of people, and what is loose of each in turn."""
        judge = Judge((one.claim for one in people), room=room)
        for entries in zip(*(one.loose for one in people)):
            for entry in entries:
                judge.add(entry)
        judge.count()
        return judge

    def test_numbers_have_equal_parts(self) -> None:
        few, many = Claimed(1, 11), Claimed(2, 200)
        judge = Judge([few.claim, many.claim, Claimed(3, 0).claim], room=200_000)
        for entry in [*many.loose, *few.loose]:
            judge.add(entry)
        # Half of the room is theirs, and one part of that more is nobody's.
        self.assertEqual(kept(judge, few), 7)
        self.assertEqual(kept(judge, many), 7)
        # The nearest ones are kept, since their turn comes first.
        self.assertTrue(all(entry.hash in judge for entry in many.loose[:7]))

    def test_one_person_s_numbers_take_no_part_from_another(self) -> None:
        ann, strangers = Claimed(1, 4), [Claimed(site, 50) for site in range(2, 12)]
        judge = self.judge(ann, *strangers, room=200_000)
        before = kept(judge, ann)
        for entry in (entry for one in strangers for entry in one.loose):
            judge.add(entry)
        self.assertEqual((kept(judge, ann), before), (2, 2))

    def test_those_who_hold_no_number_have_one_half_together(self) -> None:
        room = 100_000
        judge, one = Judge(room=room), Claimed(1, 3)
        strangers = [Claimed(1, 3) for _ in range(100)]
        judge.add(min((each.claim for each in [one, *strangers]), key=rank))
        for entry in (entry for each in strangers for entry in each.made):
            judge.add(entry)
        self.assertLessEqual(judge._chains.outside.weight, room)
        self.assertGreater(len(judge.dropped()), 200)

    def test_a_chain_that_waits_has_a_part_too(self) -> None:
        ann, bob = Claimed(1, 3), Claimed(2, 0)
        form, last = FORM, bob.claim
        waits = [entry_of(form, last, [message._replace(site=2, mentions=ann.made[2].messages[0].mentions)], bob.author)
                 for message in ann.made[0].messages]
        judge = Judge([ann.claim, bob.claim, waits[0]], room=60_000)
        judge.count()
        self.assertEqual(judge.front(2), 0)
        last = waits[0]
        for entry in _following(last, bob.author, 60):
            judge.add(entry)
        judge.count()
        self.assertGreater(len(judge.dropped()), 30)

    def test_what_was_made_here_is_kept(self) -> None:
        one = Claimed(1, 100)
        judge = Judge([one.claim], room=20_000)
        for place, entry in enumerate(one.loose):
            judge.add(entry, place, made=True)
        self.assertEqual((kept(judge, one), judge.dropped()), (99, []))

    def test_what_counted_once_is_kept(self) -> None:
        one = Claimed(1, 100)
        judge = Judge([one.claim, *one.made], room=20_000)
        self.assertEqual(len(judge.count().messages), 100)
        other = one.claim
        while rank(other) >= rank(one.claim):
            other = FORM.claim(1, FORM.new_author())
        judge.add(other)
        self.assertEqual(len(judge.count().messages), 0)
        self.assertEqual((all(entry.hash in judge for entry in one.made), judge.dropped()), (True, []))

    def said(self, one: Claimed, many: int) -> Sequence[Entry]:
        """What somebody says, each of many messages that were copied."""
        site, stretches = one.claim.site, tuple((3 * seq, 2 * seq, 1) for seq in range(1, 50))
        said = Copied(one.author.name, site, one.author.name, site, stretches)
        return [FORM.copies(said, one.author, site, bytes([1, at // 256, at % 256, 9]) * 8) for at in range(many)]

    def test_what_is_said_of_copies_has_a_part_too(self) -> None:
        ada, bob, eve, stranger = (Claimed(site, 3) for site in range(1, 5))
        strangers, eves, bobs, adas = self.said(stranger, 300), self.said(eve, 300), self.said(bob, 1), self.said(ada, 100)
        judge = Judge([one.claim for one in (ada, bob, eve)], room=2**20)
        for entry in [*strangers, *eves, *bobs]:
            judge.add(entry)
        # Whoever says more than there is room for takes nothing from who holds another number.
        self.assertTrue(bobs[0].hash in judge)
        for some in strangers, eves:
            self.assertTrue(0 < sum(entry.hash in judge for entry in some) < 20, "what is said is bounded")
        left_out = {entry.hash for entry in [*strangers, *eves] if entry.hash not in judge}
        self.assertEqual({row.entry.hash for row in judge.dropped()}, left_out)
        # It has no other turn: nothing makes room for it.
        for entry in eve.made:
            judge.add(entry)
        judge.count()
        self.assertEqual((judge.turns(), judge.front(eve.claim.site)), (set(), len(eve.made)))
        # What is said here is always kept.
        for entry in adas:
            judge.add(entry, made=True)
        self.assertTrue(all(entry.hash in judge for entry in adas))

    def test_nobody_keeps_what_only_a_newer_version_knows(self) -> None:
        one = Claimed(1, 0)
        later = [newer(FORM, one.claim, one.author, bytes(1_000) + b"%d" % number) for number in range(300)]
        judge = Judge([one.claim, *later])
        self.assertEqual((len(judge), judge.has_newer(), [*judge.rows()]), (1, True, [Row(0, one.claim, False)]))
        # Of any number of them no more than this many are known at all.
        with mock.patch("share.admission.statements.MOST_NEWER", 100):
            judge = Judge([one.claim, *later])
            self.assertEqual(len(judge._statements._newer), 100)


def _following(last: Entry, author: Author, many: int) -> Sequence[Entry]:
    """Entries that follow one."""
    found = [last]
    for _ in range(many):
        (message,) = found[-1].messages
        at = message.at + len(message.data)
        found.append(entry_of(FORM, found[-1], [message._replace(seq=message.seq + 1, stamp=message.stamp + 1, at=at)], author, length=at))
    return found[1:]


class WithoutRoom(Case):
    """One entry is damaged in the log, whose author is off; what he typed after it has no room."""

    def setUp(self) -> None:
        super().setUp()
        self.path = pathlib.Path(self.file_log())
        anna = self.opened(self.person("anna"), url=str(self.path))
        self.words = [f"{number:03} " for number in range(60)]
        for one in self.words:
            type_at_the_end(anna, one)
        written(anna, "")
        self.link = self.person("anna").link()
        anna.session.close()
        self.assertTrue(damage(self.path, b"007 ", b"00x "))
        little = mock.patch("share.sync.state.MOST_UNCOUNTED_BYTES", 40_000)
        little.start()
        self.addCleanup(little.stop)

    def told(self, note: Note) -> list[str]:
        """What a note's user is told from now on."""
        told, notices = list[str](), note.session.notices

        def also() -> list[str]:
            found: list[str] = notices()
            told.extend(found)
            return found

        note.session.notices = also
        return told

    def test_it_is_told_once_left_where_it_was_and_read_in_its_turn(self) -> None:
        berta = self.opened(self.person("berta"), link=self.link)
        told = [berta.notice, *berta.session.notices()]
        more = self.told(berta)
        wait_for(lambda: (berta.take_in(), berta.session._holdings.waiting_for_room())[1], "entries to be dropped")

        def words() -> list[str]:
            berta.take_in()
            return [one for one in told + more if "wait in the note's file, since too many came that don't count yet" in one]

        wait_for(words, "it to be told")
        many = berta.session._holdings.waiting_for_room()
        with contextlib.closing(self.person("berta").disk()) as disk, contextlib.closing(self.person("berta").log()) as log:
            # What isn't in memory is on the disk and in the log.
            wait_for(lambda: disk.entries.size() == len(berta.session._holdings.rows) + berta.session._holdings.waiting_for_room(),
                     "all to be read")
            self.assertLessEqual({row.entry.raw for row in disk.entries.rows() if not row.made}, {*raws_of(log)})
        for _ in range(20):
            berta.take_in()
        self.assertEqual(len(words()), 1)
        self.assertGreater(many, 5)
        anna = self.opened(self.person("anna"))
        wait_for(lambda: (berta.take_in(), berta.text.decode() == "".join(self.words))[1], "all to be shown")
        self.assertEqual(berta.session._holdings.waiting_for_room(), 0)
        self.assert_meet(anna, berta)


if __name__ == "__main__":
    unittest.main()
