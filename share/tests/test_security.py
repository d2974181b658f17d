"""What a server's operator, somebody with the link, and another account of the machine can't do: each claim of the page
on sharing has a test here."""
import base64
import contextlib
import json
import os
import pathlib
import pty
import re
import shutil
import socket
import stat
import subprocess
import threading
import unittest
from collections.abc import Iterator, Sequence
from dataclasses import replace
from unittest import mock

from share.admission.chain import last_of_others
from share.admission.record_judge import RecordJudge
from share.format.entry import GREATEST_SITE, MOST_BYTES, Author, BuiltOn, Entry, Form
from share.format.link import Link
from share.format.operation import DELETE, Operation
from share.format.second.key_link import link_of
from share.format.second.keys import FOUNDING, key_of_founding
from share.log.redis import RedisLog
from share.store.note_file import SECOND, About
from share.tests.forms import is_second_form
from share.tests.naive import about, entry_of, inserting
from share.tests.note import Note
from share.tests.servers import Hostile
from share.tests.servers import RedisServer as Server
from share.tests.support import (NOTE, TOP, Case, Person, claim_of, claim_order, engine_of, python, raws_of, type_at_the_end, wait_for,
                                 written)
from share.tests.waiting import PATIENCE

HUGE = 100_000_000
# More than the 100 MB of one entry that must not be held.
MOST_MEMORY = 60_000
# What would have a terminal do something: colours, a title, what is pasted, other control characters of one byte.
CONTROLS = "\x1b[31m\x1b]0;title\x07\x1b]52;c;d29yZHM=\x07\x9b31m\x08\x7f"

# Joins a note, and prints what it shows as soon as it has some words, and how much memory that took.
JOINS = """
import json, os, pathlib, re, sys
from share.format.second.key_link import link_of
from share.store import notes
from share.sync.session import Session
from share.log import channel, relay_line, resp
from share.tests.waiting import PATIENCE, wait_for
# A busy machine's server, which may have 100 MB to look at, isn't one that is gone.
resp.REPLY_SECONDS = channel.REPLY_SECONDS = relay_line.REPLY_SECONDS = PATIENCE
session = Session(notes.open_note("note", None, link_of(os.environ["VIALSHOAL_LINK"])))
told = []
def is_read():
    session.arrived()
    told.extend(session.notices())
    return session.text() == b"one two " and (told or sys.argv[1] == "quiet") and session._replicator.has_read()
wait_for(is_read, "the log to be read", 2 * PATIENCE)
most = int(re.search("VmHWM:\\s+(\\d+)", pathlib.Path("/proc/self/status").read_text())[1])
print(json.dumps([session.text().decode(), most, told]))
session.close()
"""


class Tapped:
    """A line to a server that keeps all that goes to it."""

    def __init__(self, port: int):
        self.port, self.sent = port, bytearray()
        self._listening = socket.create_server(("127.0.0.1", 0))
        self._open = [self._listening]
        self.url = f"redis://127.0.0.1:{self._listening.getsockname()[1]}"
        threading.Thread(target=self._listen, daemon=True).start()

    def close(self) -> None:
        """Listens no more."""
        for line in self._open:
            with contextlib.suppress(OSError):
                line.shutdown(socket.SHUT_RDWR)
            line.close()

    def _listen(self) -> None:
        with contextlib.suppress(OSError):
            while True:
                client, _ = self._listening.accept()
                server = socket.create_connection(("127.0.0.1", self.port))
                self._open += [client, server]
                for one, other, kept in (client, server, self.sent), (server, client, bytearray()):
                    threading.Thread(target=self._pass_on, args=(one, other, kept), daemon=True).start()

    def _pass_on(self, one: socket.socket, other: socket.socket, kept: bytearray) -> None:
        with contextlib.suppress(OSError):
            while data := one.recv(65_536):
                kept += data
                other.sendall(data)
            other.shutdown(socket.SHUT_RDWR)


def insertion(site: int, seq: int, stamp: int, at: int, data: bytes) -> Operation:
    """A message that types at the front of the text."""
    return inserting(site, seq, stamp, None, at, data)


class Shared(Case):
    """Each test has a note on a server, in which Ann wrote two words."""

    founders_have_numbers = False

    def setUp(self) -> None:
        super().setUp()
        # As for who joins in a process of its own.
        for where in "resp", "channel", "relay_line":
            patient = mock.patch(f"share.log.{where}.REPLY_SECONDS", PATIENCE)
            patient.start()
            self.addCleanup(patient.stop)
        self.server = Server(self.folder / "redis")
        self.addCleanup(self.server.close)
        self.ann = self.person("ann")
        self.note_of_ann = self.opened(self.ann, url=self.server.url)
        for words in "one ", "two ":
            written(self.note_of_ann, words)
        self.link = self.ann.link()
        link = link_of(self.link)
        self.about = About(True, link.secret, self.server.url, link.form_number)
        self.form: Form = self.about.form()

    @property
    def key(self) -> str:
        """The key of the stream of entries."""
        return f"vialshoal:note:{{{self.form.note.hex()}}}:entries"

    def append(self, *raws: bytes) -> None:
        """Appends as the server's operator can, whatever it is."""
        for raw in raws:
            self.add(raw)

    def add(self, raw: bytes, *fields: bytes) -> None:
        """One entry of the stream, by the server's own commands."""
        words = [b"XADD", self.key.encode(), b"*", *(fields or (b"e",)), raw]
        with self.server.connected() as line:
            line.sendall(b"*%d\r\n" % len(words) + b"".join(b"$%d\r\n%s\r\n" % (len(one), one) for one in words))
            self.assertEqual(line.recv(1), b"$")

    def raws(self) -> list[bytes]:
        """The entries that the server has."""
        with contextlib.closing(self.ann.log()) as log:
            return [raw for raw in raws_of(log) if raw is not None]

    def peer(self, site: int, *messages: Operation) -> tuple[Author, list[Entry]]:
        """Somebody with the link who claims a number and sends messages."""
        author = self.form.new_author()
        made = [claim_of(self.form, site, author)]
        for message in messages:
            # What it says to build on is of no number, either.
            on: BuiltOn = {0: bytes(32)} if is_second_form() and last_of_others([message]) else b""
            made.append(entry_of(self.form, made[-1], [message], author, on))
        return author, made

    def assert_others_go_on(self, shows: bytes = b"one two ") -> Note:
        """That who is on and who joins have all, and nothing else, and go on."""
        bob = self.opened(self.person("bob"), link=self.link)
        # Who is on takes in, too: what was written under a number that is another's now comes from there once more.
        wait_for(lambda: (self.note_of_ann.take_in(), bob.take_in(), bytes(bob.text) == shows)[2], f"{shows!r} to be shown")
        type_at_the_end(bob, "three ")
        type_at_the_end(self.note_of_ann, "four ")
        wait_for(lambda: (bob.take_in(), self.note_of_ann.take_in(), bob.text == self.note_of_ann.text
                          and b"three " in bob.text and b"four " in bob.text)[2], "both to show the same")
        self.assertEqual(sorted(bob.text.split()), sorted(shows.split() + [b"three", b"four"]))
        return bob


class Operators(Shared):
    """What a server's operator can't do."""

    def test_an_operator_reads_neither_text_nor_who_is_on_nor_keys(self) -> None:
        for name, way in ("bob", b"PUBLISH"), ("bo", b"ZADD"):
            with self.subTest(way=way), contextlib.ExitStack() as stack:
                if way == b"ZADD":
                    # As where the server lets nobody use a channel.
                    stack.enter_context(mock.patch.object(RedisLog, "channel", return_value=None))
                self.reads_nothing(name, way)

    def reads_nothing(self, name: str, way: bytes) -> None:
        """That an operator reads nothing of what goes to the server, by which presence is said in this way."""
        tapped = Tapped(self.server.port)
        self.addCleanup(tapped.close)
        note = self.opened(self.ann, url=tapped.url)
        bob = self.opened(self.person(name), link=link_of(self.link)._replace(url=tapped.url).spelled())
        for words in "marzipan", "gooseberry":
            written(note, words)
        self.assert_meet(note, bob)
        wait_for(lambda: note.session._replicator.on > 2 and bob.session._replicator.on > 2, "each other to be seen")
        seen = [bytes(tapped.sent), *(path.read_bytes() for path in (self.folder / "redis").rglob("*")
                                      if path.is_file())]
        self.assertIn(self.form.note.hex().encode(), seen[0])
        token = note.session._replicator.token
        self.assertIn(way, seen[0])
        # In the table its token is the name under which it is met.
        self.assertEqual(token in seen[0], way == b"ZADD")
        key = self.about.secret
        with contextlib.closing(self.ann.disk()) as disk:
            secrets = [one.author.secret[:32] for one in disk.own.clients()]
        unseen = [b"marzipan", b"marz", b"gooseberry", b"one ", b"OT\1", token + bytes(4), token + bytes(3),
                  key, key.hex().encode(), base64.urlsafe_b64encode(key)[:20], *secrets]
        for one in unseen:
            for data in seen:
                self.assertFalse(one in data, one)

    def test_an_operator_changes_nothing(self) -> None:
        right = self.note_of_ann.session.last().raw
        self.note_of_ann.session.close()
        others = [raw for raw in self.raws() if raw != right]
        changed = [right[:at] + bytes([right[at] ^ 1]) + right[at + 1:] for at in range(0, len(right), 7)]
        self.server.cli("DEL", self.key)
        self.append(*changed, *others, right[:-1], right + b"\0")
        bob = self.opened(self.person("bob"), link=self.link)
        self.assert_comes_to(bob, b"one ")
        wait_for(lambda: (bob.take_in(), "left out" in str(bob.told))[1], "it to be told")
        self.note_of_ann = self.opened(self.ann)
        wait_for(lambda: (bob.take_in(), bytes(bob.text) == b"one two ")[1], "the right entry from Ann's disk")

    def test_an_operator_repeats_and_reorders_nothing(self) -> None:
        self.note_of_ann.erase(0, 4)
        written(self.note_of_ann, "")
        written(self.note_of_ann, "end ")
        raws = self.of_ann()
        self.server.cli("DEL", self.key)
        self.append(*reversed(raws), *raws, *raws[:1], *raws)
        self.assert_others_go_on(b"two end ")

    def of_ann(self) -> list[bytes]:
        """The entries on Ann's disk."""
        with contextlib.closing(self.ann.disk()) as disk:
            return [row.entry.raw for row in disk.entries.rows()]

    def test_an_operator_forges_nothing(self) -> None:
        forger = replace(self.about, secret=bytes(range(32))).form()
        author = forger.new_author()
        claim = claim_of(forger, 7, author)
        forged = entry_of(forger, claim, [insertion(7, 1, 1, 0, b"forged")], author)
        for made in claim, forged:
            # With the note's identity in place of the other one's.
            self.add(made.raw[:2] + self.form.note + made.raw[18:])
            self.add(made.raw)
        self.assert_others_go_on()

    def test_a_server_named_as_a_private_note_gets_nothing_of_it(self) -> None:
        diary = self.opened(self.ann, "diary")
        type_at_the_end(diary, "dear diary")
        identity = diary.session._form.note
        tapped = Tapped(self.server.port)
        self.addCleanup(tapped.close)
        for name in "vialshoal:note", f"vialshoal:{{{identity.hex()}}}:note", "vialshoal:{note}:note":
            self.server.cli("SET", name, identity.hex()[:16])
        note = self.opened(self.ann, url=tapped.url)
        written(note, "three ")
        self.assertFalse(identity in tapped.sent or identity.hex().encode() in tapped.sent)
        self.assertFalse(b"diary" in tapped.sent)
        with self.ann.here(), self.assertRaisesRegex(Exception, "isn't sealed"):
            self.ann.open("diary", url=tapped.url)

    def test_an_operator_takes_nothing_from_a_disk(self) -> None:
        self.server.cli("FLUSHALL")
        wait_for(lambda: len(self.raws()) >= 3, "the log to be filled again")
        self.assertEqual(self.ann.text(), b"one two ")
        self.assert_others_go_on()

    def test_a_key_that_is_something_else(self) -> None:
        self.server.cli("DEL", self.key)
        self.server.cli("SET", self.key, "words")
        wait_for(lambda: self.note_of_ann.session.status().offline, "the log to be offline")
        type_at_the_end(self.note_of_ann, "three ")
        self.assertEqual(self.ann.text(), b"one two three ")
        self.server.cli("DEL", self.key)
        wait_for(lambda: (self.note_of_ann.take_in(), not self.note_of_ann.session.status().offline)[1],
                 "the log to be back")
        wait_for(lambda: len(self.raws()) >= 4, "the log to be filled again")

    def joined(self, *words: str) -> tuple[str, int, list[str]]:
        """What a process of its own shows that joins the note, its memory in KB, and what it told."""
        run = subprocess.run([python(), "-B", "-c", JOINS, *words], cwd=TOP, capture_output=True, text=True, check=True,
                             timeout=3 * PATIENCE, env={**os.environ, "VIALSHOAL_LINK": self.link,
                                                        "VIALSHOAL_DATA": str(self.folder / "-".join(words))})
        text, memory, told = json.loads(run.stdout)
        return text, memory, told

    def test_an_entry_of_100_mb_takes_no_memory(self) -> None:
        _, before, _ = self.joined("quiet")
        self.add(bytes(HUGE))
        text, after, told = self.joined("told")
        self.assertEqual(text, "one two ")
        self.assertRegex(told[0], "Entry .* of the log can't be one and was left out")
        self.assertLess(after - before, MOST_MEMORY)


class Peers(Shared):
    """What somebody with the link can't do."""

    def test_entries_of_another_note_are_left_out(self) -> None:
        other = replace(self.about, secret=bytes(32)).form()
        author = other.new_author()
        claim = claim_of(other, 7, author)
        self.append(claim.raw, entry_of(other, claim, [insertion(7, 1, 1, 0, b"other")], author).raw)
        bob = self.assert_others_go_on()
        self.assertRegex(str(bob.told), "of another note|left out")

    def test_entries_without_a_signature_are_left_out(self) -> None:
        _, (claim, entry) = self.peer(7, insertion(7, 1, 1, 0, b"unsigned"))
        self.append(claim.raw, entry.raw[:-64] + bytes(64), entry.raw[:-64])
        self.assert_others_go_on()

    def test_who_has_the_link_cant_sign_for_another(self) -> None:
        last, author = self.note_of_ann.session.last(), self.form.new_author()
        forged = entry_of(self.form, last, [insertion(last.site, 3, 9, 8, b"not Ann's")], Author(last.author, author.secret))
        self.append(forged.raw)
        self.assert_others_go_on()
        self.assertEqual(self.note_of_ann.session.number, last.site)

    def test_entries_of_anothers_number_are_left_out(self) -> None:
        last, author = self.note_of_ann.session.last(), self.form.new_author()
        self.append(entry_of(self.form, last, [insertion(last.site, 3, 9, 8, b"not Ann's")], author).raw)
        self.assert_others_go_on()
        self.assertEqual(self.note_of_ann.session.number, last.site)

    def test_an_entry_over_the_size_is_left_out(self) -> None:
        _, (claim, _) = self.peer(7, insertion(7, 1, 1, 0, b"x"))
        self.append(claim.raw + bytes(MOST_BYTES + 1 - len(claim.raw)), claim.raw + bytes(MOST_BYTES - len(claim.raw)))
        self.assert_others_go_on()

    def test_other_things_in_the_stream_are_left_out(self) -> None:
        for raw, *fields in ((b"words", b"many"), (b"words", b"e", b"x", b"y"), (b"", b"e"), (b"TEXT", b"message")):
            self.add(raw, *fields)
        self.assert_others_go_on()

    def test_the_greatest_stamp_is_held_back(self) -> None:
        _, made = self.peer(7, insertion(7, 1, 2**48 - 1, 0, b"last "))
        self.append(*(one.raw for one in made))
        bob = self.assert_others_go_on()
        self.assertEqual(bob.session.status().waiting, 1)

    def test_a_message_that_names_what_isnt_there(self) -> None:
        _, made = self.peer(7, about(DELETE, 7, 1, 9, [(60_000, 5, 3)]))
        _, wrong = self.peer(8, insertion(8, 1, 9, 5, b"far"))
        self.append(*(one.raw for one in (*made, *wrong)))
        bob = self.assert_others_go_on()
        self.assertEqual(bob.session.status().waiting, 1)

    def test_a_number_that_is_taken_costs_no_text(self) -> None:
        session, site = self.note_of_ann.session, self.note_of_ann.session.number
        claims = [claim_of(self.form, site) for _ in range(12)]
        self.append(*(one.raw for one in claims))
        # Her number is in question only once the claims have come to her.
        wait_for(lambda: all(map(session.has_sent, claims)), "the claims to come to Ann")
        wait_for(lambda: (self.note_of_ann.take_in(), session.status().can_type)[1], "Ann to have a number")
        holder = min([*claims, self.claim_of_ann(site)], key=claim_order)
        self.assertEqual(session.number == site, holder not in claims)
        self.assert_others_go_on()

    def claim_of_ann(self, site: int) -> Entry:
        """The claim with which Ann got a number."""
        with contextlib.closing(self.ann.disk()) as disk:
            (author,) = [one.author.name for one in disk.own.clients() if one.site == site]
            claims = (row.entry for row in disk.entries.rows() if row.entry.kind.is_claim)
            return next(claim for claim in claims if (claim.site, claim.author) == (site, author))

    def nobody_wins_against(self, claims: Sequence[Entry]) -> contextlib.AbstractContextManager[object]:
        """No claim of these numbers that is made meanwhile holds. In the second form none is made."""
        new_author = type(self.form).new_author

        def losing(form: Form) -> Author:
            while True:
                author = new_author(form)
                if all(claim_order(form.claim(one.site, author)) > claim_order(one) for one in claims):
                    return author

        if is_second_form():
            return contextlib.nullcontext()
        return mock.patch.object(type(self.form), "new_author", losing)

    def test_claims_of_all_numbers_keep_a_newcomer_out(self) -> None:
        numbers = range(1, 3)
        with contextlib.ExitStack() as patches:
            if is_second_form():
                # What that costs no test can pay.
                patches.enter_context(mock.patch.object(RecordJudge, "claimed", lambda judge: {*range(1, GREATEST_SITE + 1)}))
            patches.enter_context(mock.patch("share.sync.numbers.GREATEST_SITE", len(numbers)))
            # Of some claims of each number the one that wins, also against those of who comes before these were read.
            claims = [min((claim_of(self.form, site) for _ in range(1 if is_second_form() else 20)), key=claim_order) for site in numbers]
            patches.enter_context(self.nobody_wins_against(claims))
            self.append(*(one.raw for one in claims))
            carol = self.opened(self.person("carol"), link=self.link)
            self.assert_comes_to(carol, b"one two ")
            wait_for(lambda: {*numbers} <= {*carol.session._holdings.judge.claimed()}, "the claims")
            wait_for(lambda: (carol.take_in(), carol.session.status().trouble)[1], "it to be told")
            self.assertRegex(carol.session.status().trouble, "numbers of this note are claimed")
            self.assertFalse(carol.session.status().can_type)
            written(self.note_of_ann, "more ")
            self.assert_comes_to(carol, b"one two more ")
            carol.session.close()
            # Who comes again reads on, and who never had a number reads, too.
            self.assert_comes_to(self.opened(self.person("carol")), b"one two more ")
        self.assert_others_go_on(b"one two more ")


class Groups(Case):
    """What those can do who may write a log's folder."""

    def test_a_plain_entry_in_anothers_name_counts(self) -> None:
        ann, bob = self.together(self.file_log(), "ann", "bob")
        written(ann, "one ")
        self.assert_comes_to(bob, b"one ")
        last = ann.session.last()
        ann.session.close()
        # All that it takes is what the log has.
        with contextlib.closing(self.person("bob").log()) as log:
            first = raws_of(log)[0]
            assert first
            form = (About(False, key_of_founding(first[-FOUNDING.size:]), form_number=SECOND) if is_second_form()
                    else About(False, first[2:18])).form()
            forged = entry_of(form, last, [insertion(last.site, last.last + 1, 9, 4, b"forged ")], Author(last.author, b""))
            log.append([forged.raw])
        self.assert_comes_to(bob, b"forged one ")

    def test_who_removes_the_log_takes_nothing(self) -> None:
        ann, bob = self.together(self.file_log(), "ann", "bob")
        written(ann, "one ")
        self.assert_comes_to(bob, b"one ")
        shutil.rmtree(pathlib.Path(self.file_log()).parent)
        written(bob, "two ")
        self.assertEqual(self.assert_meet(ann, bob), b"one two ")


class Accounts(Case):
    """What another account of the machine can't do, nor its terminal."""

    def assert_is_private(self, *kinds: str) -> None:
        """That nobody else may read or enter anything here, and that there are files of these kinds."""
        paths = [path for path in self.folder.rglob("*") if not path.is_relative_to(self.folder / "redis")]
        for path in paths:
            mode = stat.S_IMODE(path.stat().st_mode)
            self.assertEqual(oct(mode), oct(0o700 if path.is_dir() else 0o600), path)
        for kind in kinds:
            self.assertTrue([path for path in paths if path.name.endswith(kind)], kind)

    def test_nobody_else_reads_files(self) -> None:
        before = os.umask(0)
        self.addCleanup(os.umask, before)
        notes = self.together(self.file_log(), "ann", "bob")
        written(notes[0], "words")
        self.assert_is_private(".note", ".note-wal", ".note-shm", ".lock", ".log", ".log-wal", ".log-shm")
        path = self.person("ann").path()
        path.unlink()
        type_at_the_end(notes[0], "more")
        self.assertTrue(path.exists())
        self.assert_is_private(".note")

    def test_a_name_is_no_path(self) -> None:
        for name in "../x", "/tmp/x", "a/../../x", "..", ".", "~nouser", "", "x\n", "x\0", "\x1b[2J":
            with self.assertRaisesRegex(Exception, "can't be a note's name"):
                self.person().open(name)
        self.assertEqual(list(self.folder.iterdir()), [])

    def test_no_key_and_no_password_in_arguments(self) -> None:
        word = os.urandom(8).hex()
        server = Server(self.folder / "redis", "--requirepass", word)
        self.addCleanup(server.close)
        person, password = self.person(), self.folder / "password"
        password.write_text(f"{word}\n")
        terminal = Terminal(self, person, "note", "--log", server.url, "--password-file", str(password))
        wait_for(lambda: (terminal.read(), b"Link: " in terminal.shown)[1], "the link to be asked for")
        terminal.press(b"\n")
        wait_for(lambda: (terminal.read(), b"all sent" in terminal.shown)[1], "the editor")
        link = person.link()
        secrets = [word.encode(), link.split(":")[3].split("@")[0].encode()[:20], link_of(link).secret]
        # All that was started for this person, by whomever, was told whose data it is.
        running = {process: path.read_bytes() for process, path in processes_with(f"VIALSHOAL_DATA={person.data}")}
        self.assertLessEqual({terminal.child, engine_of(person.data)}, {*running})
        for words in running.values():
            self.assertFalse(any(one in words for one in secrets), words)
        run = self.note("note", "--print", "--log", f"redis://:{word}@127.0.0.1:{server.port}")
        self.assert_says(run, "no user or password in it")
        self.assertNotIn(word, run.stderr)

    def test_control_characters_do_nothing_to_a_terminal(self) -> None:
        note = self.opened(self.person())
        type_at_the_end(note, f"begin {CONTROLS} end")
        printed = Terminal(self, self.person(), "note", "--print")
        printed.read_to_end()
        self.assert_harmless(printed.shown, b"begin ", b" end")
        # To a file goes what was typed.
        run = subprocess.run([NOTE, "note", "--print"], capture_output=True, check=True)
        self.assertEqual(run.stdout.decode(), f"begin {CONTROLS} end")
        editor = Terminal(self, self.person(), "note")
        wait_for(lambda: (editor.read(), b"begin" in editor.shown)[1], "the editor")
        editor.press(b"\x11")
        editor.read_to_end()
        for one in "\x1b[31m", "\x1b]", "\x9b", "\x07":
            self.assertNotIn(one.encode(), editor.shown)

    def test_what_a_server_says_does_nothing_to_a_terminal(self) -> None:
        hostile = Hostile(lambda asked: b"-ERR begin " + CONTROLS.encode() + b" end\r\n")
        self.addCleanup(hostile.close)
        link = Link("sealed", bytes(32), hostile.url).spelled()
        run = self.note("note", "--print", VIALSHOAL_LINK=link)
        self.assertEqual(run.returncode, 3)
        self.assertIn("begin", run.stderr)
        self.assert_harmless(run.stderr.encode())
        run = self.note("\x1b[31m", "--print")
        self.assert_harmless(run.stderr.encode())
        run = self.note("note", "--print", "--link-file", "/\x1b]0;title\x07")
        self.assert_harmless(run.stderr.encode())
        run = self.note("recover", "/\x1b]0;title\x07")
        self.assert_harmless(run.stderr.encode())

    def assert_harmless(self, shown: bytes, *parts: bytes) -> None:
        """That no control characters but line ends are in what was written, and that these parts are."""
        text = shown.decode("utf-8", "surrogateescape")
        bad = [one for one in text if one not in "\r\n" and (ord(one) < 32 or 127 <= ord(one) < 160)]
        self.assertEqual(bad, [], shown)
        for part in parts:
            self.assertIn(part, shown)


class Said(unittest.TestCase):
    """The page's table of who can do what."""

    def test_it_says_what_these_tests_show(self) -> None:
        page = (TOP / "docs" / "SHARING.md").read_text(encoding="utf-8")
        lines = page.partition("| Who | Can | Can't |\n|---|---|---|\n")[2].partition("\n\n")[0].splitlines()
        table = {who: (can, cannot) for _, who, can, cannot, _ in (re.split(r" *\| *", line) for line in lines)}
        self.assertIn("claim all numbers, so that no newcomer can type", table["somebody with the link"][0])
        self.assertIn("write in another's name", table["who may write the folder of a log in a file"][0])
        for _, cannot in table.values():
            self.assertNotRegex(cannot, "newcomer|keep .* out")


def processes_with(variable: str) -> Iterator[tuple[int, pathlib.Path]]:
    """The processes that have something in their environment, each with where its words are."""
    for path in pathlib.Path("/proc").glob("[0-9]*/environ"):
        with contextlib.suppress(OSError):
            if variable.encode() in path.read_bytes().split(b"\0"):
                yield int(path.parent.name), path.with_name("cmdline")


class Terminal:
    """A run of bin/note in a terminal of its own."""

    def __init__(self, case: Case, person: Person, *words: str):
        self.shown = b""
        self.child, self._file = pty.fork()
        if not self.child:
            os.environ.update(VIALSHOAL_DATA=str(person.data), TERM="xterm-256color")
            os.execv(NOTE, [NOTE, *words])
        os.set_blocking(self._file, False)
        case.addCleanup(self.end)

    def read(self) -> bool:
        """Takes what was written; whether something may follow."""
        try:
            while data := os.read(self._file, 65_536):
                self.shown += data
        except BlockingIOError:
            return True
        except OSError:
            pass
        return False

    def read_to_end(self) -> None:
        """Takes all that is written."""
        wait_for(lambda: not self.read(), "a run to end")

    def press(self, keys: bytes) -> None:
        """Types keys."""
        os.write(self._file, keys)

    def end(self) -> None:
        """Quits."""
        with contextlib.suppress(OSError):
            os.write(self._file, b"\x11")
        wait_for(lambda: (self.read(), os.waitpid(self.child, os.WNOHANG)[0])[1], "a run to end")
        os.close(self._file)


if __name__ == "__main__":
    unittest.main()
