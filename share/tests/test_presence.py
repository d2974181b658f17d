"""What is said of who is on, of cursors and of lacking entries: what was said before is nothing, whoever says it again."""
import contextlib
import itertools
import pathlib
import secrets
import time
import unittest
from collections.abc import Sequence
from typing import Any
from unittest import mock

from share.engine.others import OtherEditors
from share.format import heartbeat, presence
from share.format.heartbeat import Lack, Said, Way
from share.format.operation import TEXT
from share.format.presence import MOST_PRESENCE, Present
from share.format.sealed import NONCE_BYTES, TAG_BYTES
from share.log.base import ON_SECONDS
from share.log.redis import MEET_SCRIPT, RedisLog
from share.log.resp import Answer, Wire, Word
from share.program.site import Site
from share.sync.heard import Heard, Others, Shows, Voices
from share.tests.support import Case, damage, type_at_the_end, wait_for, written
from share.text.change import Change

ME, OTHER = heartbeat.new_token(), heartbeat.new_token()
LACK = Lack(Way.IT, bytes(range(32)))


def said(number: int, asks: int, *lacks: Lack, token: bytes = OTHER) -> bytes:
    """What a replicator says."""
    return heartbeat.heartbeat_of(Said(token, number, asks, lacks))


def present(data: bytes) -> presence.Present:
    """Who is on, as it was said."""
    found = presence.read_presence(data)
    assert found
    return found


class Words(unittest.TestCase):
    """What is said, and what comes of it."""

    def test_what_is_written_is_read(self) -> None:
        one = Said(OTHER, 7, 3, [LACK, Lack(Way.AFTER, bytes(32))])
        self.assertEqual(heartbeat.read_heartbeat(heartbeat.heartbeat_of(one)), one)
        many = heartbeat.heartbeat_of(one._replace(lacks=[LACK] * 20))
        self.assertEqual(len(many), len(heartbeat.heartbeat_of(one)))
        self.assertEqual(len(many) + NONCE_BYTES + TAG_BYTES, MOST_PRESENCE)
        # It isn't taken for a cursor.
        self.assertIsNone(presence.read_presence(many))
        for wrong in b"", many[1:], many + b"\0":
            self.assertIsNone(heartbeat.read_heartbeat(wrong))
        self.assertEqual(heartbeat.read_heartbeat(OTHER + bytes([255]) * (heartbeat.BYTES - 16)), Said(OTHER, 2**32 - 1, 2**32 - 1, []))

    def test_what_a_later_version_says_is_passed_over(self) -> None:
        others, shows, beat = Others(ME), Shows(ME), said(3, 2, LACK)
        cursor = presence.presence_of(Present(OTHER, bytes(16), 7, "#000000", (0, 0), None, "Bo"))
        for version in 1, 2, 2**32 - 1:
            later = version.to_bytes(4, "big")
            others.heard([beat[:8] + later + beat[12:]])
            self.assertEqual(others.met([beat[:8] + later + beat[12:]]), [])
            for hears in shows.heard, shows.met:
                hears([cursor[:8] + later + cursor[12:]])
        self.assertEqual((others.on, shows.now(lambda token: True)), (1, []))
        self.assertEqual(others.met([beat]), [])
        shows.met([presence.with_count(cursor, 1)])
        self.assertEqual((others.on, shows.now(lambda token: False)), (2, [cursor]))

    def test_only_what_is_greater_is_heard(self) -> None:
        voices = Voices()
        self.assertEqual([voices.hears(OTHER, count) for count in (5, 5, 4, 6, 5, 6, 9)],
                         [Heard.FIRST, Heard.NOTHING, Heard.NOTHING, Heard.MORE, Heard.NOTHING, Heard.NOTHING, Heard.MORE])
        self.assertFalse(voices.is_on(ME))
        with mock.patch("share.sync.heard.MOST_TOKENS", 3):
            for number in range(3):
                voices.hears(bytes([number]), 1)
            self.assertEqual(voices.hears(bytes([2]), 1), Heard.NOTHING)
            self.assertEqual(voices.hears(OTHER, 9), Heard.FIRST)

    def test_asks_are_heard_once(self) -> None:
        others = Others(ME)
        self.assertEqual(others.met([said(3, 2, LACK)]), [])
        self.assertEqual(others.met([said(4, 2, LACK), said(1, 1, token=ME)]), [])
        self.assertEqual(others.met([said(5, 3, LACK), said(3, 2, LACK)]), [LACK])
        repeated: list[list[bytes]] = [[said(5, 3, LACK)], [said(3, 2, LACK)], [], [said(4, 4, LACK)], [said(5, 3, LACK)] * 3]
        for again in repeated:
            self.assertEqual(others.met(again), [])

    def test_who_says_nothing_new_is_off(self) -> None:
        others, now = Others(ME), time.monotonic()
        with mock.patch("share.sync.heard.time.monotonic", lambda: now):
            others.met([said(3, 0), said(1, 0, token=ME)])
            self.assertEqual(others.on, 2)
        with mock.patch("share.sync.heard.time.monotonic", lambda: now + ON_SECONDS + 1):
            others.met([said(3, 0), said(3, 0), said(2, 0)])
            self.assertEqual(others.on, 1)
            others.met([said(4, 0)])
            self.assertEqual(others.on, 2)

    def test_cursors_of_before_are_nothing(self) -> None:
        shows, editor = Shows(ME), secrets.token_bytes(16)

        def met(said: list[bytes]) -> list[bytes]:
            shows.met(said)
            return shows.now(lambda token: False)

        one, two = (presence.presence_of(Present(OTHER, editor, 7, "#000000", (0, 0), anchor, "Bo"))
                    for anchor in (None, (0, 0)))
        self.assertEqual(met([presence.with_count(one, 1), presence.with_count(one, 1)]), [one])
        self.assertEqual(met([presence.with_count(two, 2), presence.with_count(one, 1)]), [two])
        self.assertEqual(met([presence.with_count(one, 1), presence.with_count(two, 2)]), [two])
        self.assertEqual(met([]), [])
        for gone in [presence.with_count(two, 2)], [presence.with_count(one, 1)]:
            self.assertEqual(met(gone), [])
        self.assertEqual(met([presence.with_count(one, 3)]), [one])
        own = presence.presence_of(Present(ME, editor, 7, "#000000", None, None, ""))
        self.assertEqual(met([presence.with_count(own, 9), b"", bytes(49), bytes(211)]), [])
        self.assertEqual(present(presence.with_count(one, 2**32 - 1))._replace(engine=OTHER), presence.read_presence(one))


class OnAServer(Case):
    """Who is on, by a server whose operator writes what he likes."""

    def setUp(self) -> None:
        super().setUp()
        self.server = self.redis()
        self.wire = Wire(self.server.url)
        self.addCleanup(self.wire.close)
        for often in ("giving.ANSWER_SECONDS", "ways.TABLE_SECONDS", "ways.SAY_ON_SECONDS"):
            quick = mock.patch(f"share.sync.{often}", 0.1)
            quick.start()
            self.addCleanup(quick.stop)
        self.ann = self.opened(self.person("ann"), url=self.server.url)
        written(self.ann, "one ")
        self.form = self.ann.session._form
        self.times, self.said = (f"vialshoal:note:{{{self.form.note.hex()}}}:{part}" for part in ("times", "said"))

    def puts(self, token: bytes, raw: bytes) -> None:
        """Says something as the operator can."""
        self.wire.ask("ZADD", self.times, int(time.time()), token)
        self.wire.ask("HSET", self.said, token, raw)

    def takes(self, token: bytes) -> None:
        """Takes something away."""
        self.wire.ask("ZREM", self.times, token)
        self.wire.ask("HDEL", self.said, token)

    def hears(self, times: int = 3) -> None:
        """Waits until Ann's replicator has met those in the table some times more, and has answered."""
        replicator = self.ann.session._replicator
        for of, how, least in (replicator._meeting, "met", times), (replicator._giver, "_answer", 1):
            called, does = list[int](), getattr(of, how)
            with mock.patch.object(of, how, lambda *what, does=does, called=called: (called.append(1), does(*what))[1]):
                wait_for(lambda called=called, least=least: len(called) > least, "Ann to hear")

    def test_what_was_said_before_has_nobody_read_the_log(self) -> None:
        replicator = self.ann.session._replicator
        token, before = heartbeat.new_token(), replicator.reading()
        raw = self.form.presence(said(1, 3, LACK, token=token))
        for under in b"x", b"y":
            self.puts(under, raw)
            wait_for(lambda: replicator.on == 2, "it to be heard")
            self.hears()
            self.takes(under)
            wait_for(lambda: replicator.on == 1, "it to be gone")
        self.assertEqual(replicator.reading(), before)

    def test_what_is_asked_for_is_given_alone(self) -> None:
        replicator, append, given = self.ann.session._replicator, RedisLog.append, list[list[bytes]]()
        written(self.ann, "two ")
        last, before = self.ann.session.last(), replicator.reading()

        def appended(log: RedisLog, raws: Sequence[bytes]) -> None:
            given.append([*raws])
            append(log, raws)

        with mock.patch.object(RedisLog, "append", appended):
            for number, lack in enumerate((Lack(Way.IT, last.hash), Lack(Way.AFTER, last.before), LACK)):
                self.puts(b"x", self.form.presence(said(number + 1, number, lack)))
                self.hears(times=2)
            wait_for(lambda: given, "it to be given")
            self.hears()
        self.assertEqual((given, replicator.reading()), ([[last.raw]], before))

    def says(self, raw: bytes) -> None:
        """Says something by the channel, as the operator can."""
        self.wire.ask("PUBLISH", f"vialshoal:note:{{{self.form.note.hex()}}}:on", raw)

    def test_an_old_cursor_is_not_shown_again(self) -> None:
        for hears_channel in True, False:
            with self.subTest(hears_channel=hears_channel), contextlib.ExitStack() as stack:
                if not hears_channel:
                    stack.enter_context(mock.patch.object(RedisLog, "channel", return_value=None))
                self.shows_no_old_cursor(f"bob-{hears_channel}")

    def shows_no_old_cursor(self, name: str) -> None:
        """That nothing of before is shown of somebody, whichever way it is said again."""
        bob, replicator = self.opened(self.person(name), link=self.person("ann").link()), self.ann.session._replicator
        token, raws = secrets.token_bytes(16), list[bytes]()
        says, channel = Wire.ask, Wire.run

        def ask(wire: Wire, *words: Word, **more: Any) -> Answer:
            raws.extend(one for one in words[2:3] if words[0] == "PUBLISH" and isinstance(one, bytes))
            return says(wire, *words, **more)

        def run(wire: Wire, script: str, keys: Sequence[Word], words: Sequence[Word], *more: Any) -> Answer:
            raws.extend(one for one in words[1:2] if script == MEET_SCRIPT and isinstance(one, bytes))
            return channel(wire, script, keys, words, *more)

        shown = Present(self.ann.session.token(), bytes(16), 7, "#000000", None, None, "Ann")
        self.ann.session.show({b"ann": presence.presence_of(shown)})
        with mock.patch.object(Wire, "ask", ask), mock.patch.object(Wire, "run", run):
            for at in 1, 2:
                data = presence.presence_of(Present(bob.session.token(), token, bob.session.number, "#000000", (1, at), None, ""))
                bob.session.show({token: data})
                wait_for(lambda at=at: [present(one).cursor for one in replicator.shown()] == [(1, at)], "the cursor to be shown")
        old = [raw for raw in raws if (found := self.form.present(raw)) and (one := presence.read_presence(found)) and one.editor == token]
        self.assertGreaterEqual(len(old), 2)

        def says_again() -> None:
            for number, raw in enumerate(old):
                self.says(raw)
                self.puts(b"%d" % number, raw)
            self.hears()

        says_again()
        self.assertEqual([present(one).cursor for one in replicator.shown()], [(1, 2)])
        bob.session.show({})
        wait_for(lambda: not replicator.shown(), "the cursor to be gone")
        says_again()
        self.assertEqual(replicator.shown(), [])


class OfEachText(Case):
    """A note of the second form has up to 16 texts, and editors show the first."""

    def test_a_cursor_is_shown_in_its_own_text_alone(self) -> None:
        site, others = Site(1), OtherEditors(itertools.count().__next__)
        self.addCleanup(site.close)
        site.insert(0, b"words")
        one = Present(bytes(16), bytes(16), 7, "#000000", (1, 2), (1, 0), "Bo")

        def shown() -> list[tuple[object, object]]:
            return [(line["at"], line.get("anchor")) for line in others.cursors(lambda place: place)]

        # Characters of each text have the same names.
        for text in TEXT, 2, 16, TEXT, 2:
            others.heard([presence.presence_of(one._replace(text=text))], site)
            self.assertEqual(shown(), [(3, 1)] if text == TEXT else [])
            others.moved(Change(0, 0, b"x"), None)
            self.assertEqual(len(shown()), text == TEXT)
        # Who has it is on all the same.
        self.assertEqual([line["name"] for line in others.people()], ["Bo"])


class Damaged(Case):
    """An entry of a log is damaged while who has the right one is on."""

    def test_the_last_entry_of_its_author(self) -> None:
        self.comes_back("one ", "two ")

    def test_the_first_entry_of_its_author(self) -> None:
        self.comes_back("two ")

    def comes_back(self, *typed: str) -> None:
        """That the last of the entries of one comes to another one who joins."""
        path = pathlib.Path(self.file_log())
        ann = self.opened(self.person("ann"), url=str(path))
        for words in typed:
            written(ann, words)
        wait_for(lambda: damage(path, b"two ", b"twx "), "it to be there")
        before = ann.session._replicator.reading()
        bob, told = self.opened(self.person("bob"), link=self.person("ann").link()), list[str]()
        told.append(bob.notice)
        notices = bob.session.notices
        bob.session.notices = lambda: [told.append(one) or one for one in notices()]
        wait_for(lambda: (ann.take_in(), bob.take_in(), bytes(bob.text) == "".join(typed).encode())[2], "it to come")
        wait_for(lambda: (bob.take_in(), "damaged and was left out" in " ".join(told))[1], "it to be told")
        type_at_the_end(bob, "three ")
        self.assertEqual(self.assert_meet(ann, bob).decode(), f"{''.join(typed)}three ")
        self.assertEqual(ann.session._replicator.reading(), before)


class DamagedOfOthers(Damaged):
    """The same of who didn't found the note."""

    founders_have_numbers = False


if __name__ == "__main__":
    unittest.main()
