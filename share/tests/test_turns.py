"""Of what is lacked each thing has its turn to be asked for, though much of it is what nobody has."""
import contextlib
import itertools
import math
import os
import secrets
import unittest
from unittest import mock

from share.admission.judges import judge_of
from share.format.chunk import Packed, packed
from share.format.entry import Author, Entry, FirstEntry, Form
from share.format.heartbeat import MOST_LACKS, Hears, Lack, Way, new_token, read_heartbeat
from share.format.operation import INSERT, PLAIN_LOOKS, Operation
from share.format.second.record import Record
from share.store.founding import begun
from share.store.note_file import FIRST, SECOND, Disk, make_note
from share.sync.handover import Handover
from share.sync.meeting import ASK_SECONDS, MOST_ASK_SECONDS, Meeting
from share.sync.state import Holdings
from share.sync.turns import LacksInTurn
from share.tests.support import Case
from share.text.names import Names

NOTHINGS, STRANGER = 1_500, 65_000


def letter(site: int, seq: int) -> Packed:
    """A letter that is typed after those before it."""
    mentions = (Names(site, seq - 2, 1),) if seq > 1 else ()
    part = packed([Operation(INSERT, site, seq, seq, 1, mentions, seq - 1, b"x", PLAIN_LOOKS)], seq - 1)
    assert part
    return part


def after_nothing(form: Form, before: Entry, author: Author) -> Entry:
    """A letter after something that nobody has."""
    of = secrets.token_bytes(32)
    if isinstance(before, Record):
        return form.entry(before._replace(hashes=(of,)), letter(STRANGER, 2), author)
    assert isinstance(before, FirstEntry)
    return form.entry(before._replace(site=STRANGER, hash=of), letter(STRANGER, 2), author)


class ByTurns(Case):
    """Somebody lacks one entry that there is, and many that there aren't."""

    def setUp(self) -> None:
        super().setUp()
        quick = mock.patch.dict(os.environ, VIALSHOAL_ZERO_BITS="0")
        quick.start()
        self.addCleanup(quick.stop)

    def rounds(self, form_number: int) -> int:
        """In how many rounds somebody has what he lacks, where another one has all that there is."""
        made = begun("nowhere", form_number=form_number)
        (client,), form, path = made.clients, made.about.form(), self.folder / str(form_number)
        chain = [made.rows[-1].entry]
        for seq in range(1, 4):
            chain.append(form.entry(chain[-1], letter(client.site, seq), client.author))
        make_note(path, made.about, made.rows)
        stranger = form.new_author()
        nothings = [after_nothing(form, chain[-1], stranger) for _ in range(NOTHINGS)]
        judge = judge_of(form, [*(row.entry for row in made.rows), *nothings, chain[1], chain[3]])
        with contextlib.closing(Disk(path)) as disk:
            disk.keep(chain[1:], made=False)
            holdings = Holdings(form, Handover())
            holdings.read(disk)
            one, other = (Meeting(form, new_token(), itertools.count(1), lambda: None) for _ in range(2))
            other.heard([self.present(form, one.heartbeat(Hears.CHANNEL_FROM_NOW))])
            for number in range(1, NOTHINGS):
                one.ask(judge.missing)
                other.heard([self.present(form, one.heartbeat(Hears.CHANNEL))])
                other.find(holdings.found)
                for place in other.answers(disk):
                    row = disk.entries.row_at(place)
                    assert row
                    judge.add(row.entry)
                if judge.front(client.site) == 3:
                    return number
        return NOTHINGS

    def present(self, form: Form, raw: bytes) -> bytes:
        found = form.present(raw)
        assert found
        return found

    def test_what_is_lacked_comes_though_nobody_has_most_of_it(self) -> None:
        with mock.patch("share.sync.meeting.ASK_SECONDS", 0), mock.patch("share.sync.meeting.RESTS_FROM_CHOOSING", 0):
            for form_number in FIRST, SECOND:
                with self.subTest(form_number):
                    # What is asked for in vain is asked for again only once all was.
                    self.assertLessEqual(self.rounds(form_number), math.ceil((NOTHINGS + 1) / MOST_LACKS))


class Pace(unittest.TestCase):
    """How often others are asked."""

    def asked(self, lacked: list[bytes], seconds: int) -> list[tuple[int, frozenset[bytes]]]:
        """When somebody asks for what, who looks each second."""
        form, found, now = begun("nowhere").about.form(), list[tuple[int, frozenset[bytes]]](), 0
        meeting = Meeting(form, new_token(), itertools.count(1), lambda: None)
        with mock.patch("share.sync.meeting.time.monotonic", lambda: now), mock.patch("share.sync.meeting.RESTS_FROM_CHOOSING", 0):
            for now in range(seconds):
                meeting.ask(lambda: lacked)
                if meeting.asks():
                    said = read_heartbeat(form.present(meeting.heartbeat(Hears.CHANNEL)) or b"")
                    assert said
                    found.append((now, frozenset(one.hash for one in said.lacks)))
        return found

    def test_the_same_is_asked_for_ever_more_rarely(self) -> None:
        lacked = [secrets.token_bytes(32) for _ in range(MOST_LACKS)]
        found = self.asked(lacked, 4_000)
        self.assertEqual({hashes for _, hashes in found}, {frozenset(lacked)})
        whens = [when for when, _ in found]
        self.assertEqual([later - when for when, later in zip(whens, whens[1:])],
                         [min(ASK_SECONDS * 2**times, MOST_ASK_SECONDS) for times in range(1, len(whens))])

    def test_what_was_never_asked_for_comes_soon(self) -> None:
        lacked = [secrets.token_bytes(32) for _ in range(10 * MOST_LACKS)]
        found = self.asked(lacked, 10 * ASK_SECONDS)
        self.assertEqual((len(found), set[bytes]().union(*(hashes for _, hashes in found))), (10, {*lacked}))

    def test_what_comes_later_comes_first(self) -> None:
        turns, lacks = LacksInTurn(), [Lack(Way.IT, secrets.token_bytes(32)) for _ in range(9)]
        first = turns.next(lacks)
        self.assertEqual((len({*first}), turns.rounds), (MOST_LACKS, 0))
        new = [Lack(way, secrets.token_bytes(32)) for way in (Way.IT, Way.AFTER)]
        second, left = turns.next(lacks + new), {*lacks} - {*first}
        self.assertTrue({*second} <= left | {*new})
        self.assertEqual(({*turns.next(lacks + new)} >= (left | {*new}) - {*second}, turns.rounds), (True, 1))
        # What isn't lacked any more is forgotten.
        turns.next(new)
        self.assertEqual((turns.next(first[:1]), turns.rounds), (first[:1], 1))


if __name__ == "__main__":
    unittest.main()
