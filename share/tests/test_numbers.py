"""Site numbers: claims, folders that were copied, disks that were put back, and what is made anew under another
number."""
import contextlib
import shutil
import threading
from collections.abc import Sequence
from unittest import mock

from share.admission.ledger import Row
from share.format.entry import Entry, Form
from share.format.operation import DELETE, Operation
from share.log.base import Log
from share.log.sqlite import SqliteLog
from share.program.process import Program
from share.program.site import Edited, Site, Told
from share.store.own import Client, OwnTables
from share.sync.numbers import READING
from share.sync.numbers import Numbers as OwnNumbers
from share.sync.open_file import OpenFile
from share.sync.rebasing import Rebaser
from share.sync.replicator import Replicator
from share.sync.session import Session
from share.tests.forms import is_second_form
from share.tests.naive import about, entry_of
from share.tests.note import Note
from share.tests.servers import FileLog, RedisServer
from share.tests.support import Case, Person, claim_against, claim_of, claim_order, ons_of, type_at_the_end, wait_for, written


def stood(person: Person) -> list[int]:
    """The numbers of a person whose claims were noted to stand in the log."""
    with contextlib.closing(person.disk()) as disk:
        return [one.site for one in disk.own.clients() if one.stood]


class Numbers(Case):
    """A note in a log that is a file."""

    founders_have_numbers = False

    def setUp(self) -> None:
        super().setUp()
        self.url = self.file_log()
        self.anna = self.person("anna")

    def begun(self) -> str:
        """Has a note with some words; its link."""
        note = self.anna.open(url=self.url)
        for words in "one ", "two ", "three ":
            written(note, words)
        note.session.close()
        return self.anna.link()

    def copied(self, name: str = "copied") -> Person:
        """A copy of the first one's folder."""
        shutil.copytree(self.folder / "anna", self.folder / name)
        return self.person(name)

    def away(self) -> None:
        """Has nobody reach the log."""
        FileLog(self.folder).kill()

    def back(self) -> None:
        """Has all reach the log again."""
        FileLog(self.folder).start()

    def words_of(self, note: Note) -> list[str]:
        """The words that a note shows, sorted."""
        return sorted(bytes(note.text).decode().split())

    def log(self) -> Log:
        """The log, as a stranger has it open."""
        log = self.anna.log()
        self.addCleanup(log.close)
        return log

    def form(self) -> Form:
        """How entries are spelled."""
        with contextlib.closing(self.anna.disk()) as disk:
            return disk.form

    def test_a_copied_folder_of_which_both_type_offline(self) -> None:
        link = self.begun()
        copy = self.copied()
        first, second = self.opened(self.anna), self.opened(copy)
        self.assertEqual(first.session.number, second.session.number)
        self.away()
        for note, words in (first, "F"), (second, "S"):
            wait_for(lambda one=note: one.session.status().offline, "the log to be away")
            for number in range(3):
                type_at_the_end(note, f"{words}{number} ")
        second.erase(0, 4)
        self.back()
        text = self.assert_meet(first, second)
        self.assertEqual(sorted(text.split()), sorted(b"two three F0 F1 F2 S0 S1 S2".split()))
        wait_for(lambda: (first.take_in(), second.take_in(), "Made anew" in str(first.told + second.told))[2], "it to be told")
        self.assertNotEqual(first.session.number, second.session.number)
        third = self.opened(self.person("third"), link=link)
        self.assertEqual(self.assert_meet(third, first), text)

    def test_a_copied_folder_used_after_the_other(self) -> None:
        self.begun()
        copy = self.copied()
        first = self.opened(self.anna)
        written(first, "first ")
        second = self.opened(copy)
        self.assert_comes_to(second, b"one two three first ")
        written(second, "second ")
        self.assertEqual(self.assert_meet(first, second), b"one two three first second ")
        self.assertNotEqual(first.session.number, second.session.number)

    def test_what_a_third_typed_after_a_copy_that_loses(self) -> None:
        link = self.begun()
        self.copied()
        shutil.copytree(self.folder / "shared", self.folder / "older")
        first, third = self.opened(self.anna), self.opened(self.person("third"), link=link)
        written(first, "long-word ")
        wait_for(lambda: (third.take_in(), third.text == first.text)[1], "the word to come")
        third.moved_to(len(third.text))
        third.type("third ")
        written(third, "")
        last = first.session.last()
        first.session.close()
        third.session.close()
        # The other copy never met what was written under its number, and its entry of the same place holds.
        word = self.word_that_holds_against(last, "long-word ")
        shutil.rmtree(self.folder / "shared")
        shutil.copytree(self.folder / "older", self.folder / "shared")
        other = self.person("copied")
        note = other.open()
        written(note, word)
        note.session.close()
        self.assertLess(note.session.last().name, last.name)
        notes = [self.opened(person) for person in (other, self.anna, self.person("third"))]
        text = self.assert_meet(*notes).decode()
        self.assertEqual(sorted(text.split()), sorted(f"one two three long-word third {word}".split()))
        told = {words.split(",")[0] for note in notes for words in note.told}
        self.assertIn("You typed after something that doesn't count any more", told)

    def word_that_holds_against(self, entry: Entry, typed: str) -> str:
        """A word that makes an entry of a smaller hash than what was typed, where it is typed in its place."""
        (message,) = entry.messages
        with contextlib.closing(self.anna.disk()) as disk:
            (before,) = [row.entry for row in disk.entries.rows() if row.entry.name == entry.before]
            (author,) = [one.author for one in disk.own.clients() if one.site == entry.site]
            for number in range(100_000):
                word = f"another-word-{number} "
                other = message._replace(data=word.encode())
                if entry_of(disk.form, before, [other], author, ons_of(entry)).name < entry.name:
                    return word
        raise AssertionError("no word does")

    def test_what_came_apart_is_made_anew(self) -> None:
        self.begun()
        copy = self.copied()
        first = self.opened(self.anna)
        self.away()
        second = copy.open()
        type_at_the_end(second, "abcdefghi ")
        for words in "X", "Y":
            second.moved_to(len(second.text) - 4)
            second.type(words)
        second.erase(len(second.text) - 12, len(second.text) - 11)
        text = bytes(second.text)
        second.session.close()
        self.back()
        written(first, "first ")
        again = self.opened(copy)
        shown = self.assert_meet(first, again)
        self.assertIn(text.split()[-1], shown.split())
        self.assertEqual(len(shown.split()), 5)

    def test_a_disk_that_was_put_back(self) -> None:
        self.begun()
        copy = self.copied("backup")
        first = self.opened(self.anna)
        other = self.opened(self.person("other"), link=self.anna.link())
        written(first, "four ")
        first.session.close()
        shutil.rmtree(self.folder / "anna")
        shutil.copytree(copy.data, self.folder / "anna")
        self.away()
        again = self.opened(self.anna)
        self.assertEqual(again.text, b"one two three ")
        type_at_the_end(again, "offline ")
        self.back()
        text = self.assert_meet(again, other)
        self.assertEqual(sorted(text.split()), sorted(b"one two three four offline".split()))

    def test_a_disk_that_is_lost(self) -> None:
        link = self.begun()
        shutil.rmtree(self.folder / "anna")
        again = self.opened(self.anna, link=link)
        written(again, "four ")
        self.assert_comes_to(again, b"one two three four ")

    def test_edits_made_anew_are_made_once_over_kills(self) -> None:
        self.begun()
        copy = self.copied()
        first = self.opened(self.anna)
        self.away()
        second = copy.open()
        for number in range(500):
            type_at_the_end(second, f"{number:04} " * 80)
        second.session.close()
        self.back()
        written(first, "first ")
        copy.open().session.close()
        for _ in range(2):
            again = copy.open()
            text = self.assert_meet(first, again)
            again.session.close()
        words = text.decode().split()
        self.assertEqual(words.count("first"), 1)
        self.assertEqual(len(words), 4 + 500 * 80)
        self.assertEqual([words.count(f"{number:04}") for number in range(500)], [80] * 500)

    def test_a_number_that_is_claimed_while_another_editor_is_opened(self) -> None:
        self.begun()
        first, ask, asked = self.opened(self.anna), OwnTables.clients, list[OwnTables]()

        def clients(own: OwnTables) -> list[Client]:
            if threading.current_thread() is threading.main_thread():
                asked.append(own)
                if len(asked) == 2:
                    # Between the entries and the numbers that go with them.
                    with contextlib.closing(self.anna.disk()) as other:
                        client = Client(next(site for site in range(1, 99) if site != self.site_of()), other.form.new_author())
                        other.keep([other.form.claim(client.site, client.author)], True, client=client)
            return ask(own)

        with mock.patch.object(OwnTables, "clients", clients):
            second = self.opened(self.anna)
        written(second, "four ")
        self.assertEqual(self.assert_meet(first, second), b"one two three four ")

    def test_a_number_that_another_editor_just_wrote_under(self) -> None:
        self.begun()
        first, choose = self.opened(self.anna), OwnNumbers.locked

        def chosen(numbers: OwnNumbers) -> Client | None:
            # The file was read, and nothing is locked yet.
            written(first, "four ")
            first.session.close()
            return choose(numbers)

        with mock.patch.object(OwnNumbers, "locked", chosen):
            second = self.opened(self.anna)
        self.assertEqual(second.session.number, first.session.number)
        self.assertEqual(second.text, b"one two three four ")
        written(second, "five ")
        self.assertEqual((second.text, second.notice), (b"one two three four five ", ""))
        self.assertEqual(self.anna.text(), b"one two three four five ")

    def test_a_number_that_another_editor_has_seen_in_the_log(self) -> None:
        # There is none that was claimed in advance.
        with mock.patch.object(OwnNumbers, "claim_in_advance"), mock.patch.object(OwnNumbers, "keep_found"):
            self.begun()
        first, stands = self.opened(self.anna), Replicator.stands

        def stands_there(replicator: Replicator, entry: Entry) -> bool:
            return replicator is first.session._replicator and stands(replicator, entry)

        with mock.patch.object(Replicator, "stands", stands_there), mock.patch("share.sync.session.OPEN_SECONDS", 0):
            second = self.opened(self.anna)
            wait_for(lambda: (second.take_in(), second.session.number != READING)[1], "it to have a number")
            wait_for(lambda: (first.take_in(), second.session.number in stood(self.anna))[1], "it to be noted in the file")
            self.assertFalse(second.session.status().can_type)
            # With what the other one types its numbers are read.
            written(first, "four ")
            self.assert_comes_to(second, b"one two three four ")
        written(second, "five ")
        self.assertEqual(self.assert_meet(first, second), b"one two three four five ")

    def test_a_number_that_another_claimed_just_before(self) -> None:
        link = self.begun()
        form, append, read, arrived = self.form(), SqliteLog.append, OpenFile.read, Session._arrived
        rivals: list[Entry] = []
        sessions: list[Session] = []

        def appended(log: SqliteLog, raws: Sequence[bytes]) -> None:
            claims = [entry for entry in map(form.open, raws) if entry.kind.is_claim and not rivals]
            if claims:
                rivals[:] = [claim_against(form, claims[0])]
            append(log, [*(one.raw for one in rivals), *raws])

        def arrived_there(session: Session) -> Told:
            sessions.append(session)
            return arrived(session)

        def read_late(file: OpenFile) -> list[Sequence[Row]]:
            # Both claims come when the file has just been read.
            rows = read(file)
            if sessions and not (session := sessions[0]).can_type:
                claim = session._holdings.claim_of(session._numbers.own)
                wait_for(lambda: not claim or session._replicator.stands(claim), "a claim to stand in the log")
            return rows

        with mock.patch.object(SqliteLog, "append", appended), mock.patch.object(OpenFile, "read", read_late), \
                mock.patch.object(Session, "_arrived", arrived_there):
            note = self.opened(self.person("other"), link=link)
            written(note, "four ")
        self.assertEqual(len(rivals), 1)
        self.assertNotIn(rivals[0].site, stood(self.person("other")))
        self.assert_comes_to(note, b"one two three four ")

    def test_entries_under_my_number_while_i_am_off(self) -> None:
        self.begun()
        with contextlib.closing(self.anna.disk()) as disk:
            # Another one may have been found ahead.
            typed = {row.entry.site for row in disk.entries.rows() if row.made and row.entry.size}
            (client,) = [one for one in disk.own.clients() if not one.retired and one.site in typed]
            form, log = disk.form, self.log()
        claim = form.claim(client.site, client.author)
        forged = Program(client.site)
        made = Operation.read(bytes.fromhex(forged.ask([forged.event("type", 0, b"forged\\20")])[0][0].split()[2].decode()))
        forged.close()
        stranger = form.new_author()
        for entry in (entry_of(form, claim, [made], stranger), entry_of(form, claim, [made], client.author)):
            log.append([entry.raw])
        note = self.opened(self.anna)
        for number in range(30):
            type_at_the_end(note, f"w{number} ")
        wait_for(lambda: (note.take_in(), not note.session.status().unsent)[1], "all to be sent")
        berta = self.opened(self.person("berta"), link=self.anna.link())
        text = self.assert_meet(note, berta)
        for word in [b"one", b"two", b"three", *(b"w%d" % number for number in range(30))]:
            self.assertEqual(text.split().count(word), 1, (word, text))

    def test_a_number_that_another_claims_too(self) -> None:
        link = self.begun()
        note = self.opened(self.anna)
        form, log = self.form(), self.log()
        mine = note.session.last()
        greater = smaller = None
        own = note.session._holdings.claim_of(note.session._numbers.own)
        assert own
        while not (greater and smaller):
            one = claim_of(form, mine.site)
            if claim_order(one) < claim_order(own):
                smaller = one
            else:
                greater = one
        log.append([greater.raw])
        written(note, "four ")
        self.assertEqual(note.session.number, mine.site)
        other = self.opened(self.person("other"), link=link)
        type_at_the_end(other, "other ")
        self.assert_meet(note, other)
        log.append([smaller.raw])
        wait_for(lambda: (note.take_in(), note.session.number != mine.site)[1], "a new number")
        text = self.assert_meet(note, other)
        self.assertEqual(sorted(text.split()), sorted(b"one two three four other".split()))
        for person, link_of in (self.person("late"), link), (self.person("later"), link):
            self.assertEqual(self.assert_meet(self.opened(person, link=link_of), note), text)

    def test_a_number_that_is_full(self) -> None:
        for url in None, self.url:
            person = self.person(f"person{bool(url)}")
            note = self.opened(person, url=url)
            with mock.patch.multiple("share.sync.numbers", MOST_OF_A_SITE=1_000, LEAST_ROOM_LEFT=100, ANOTHER_SECONDS=0):
                for _ in range(3):
                    before = note.session.number
                    type_at_the_end(note, "x" * 950)
                    self.assertEqual((note.session.number, note.notice), (before, ""))
                    # By a log it takes until that has the claim.
                    wait_for(lambda: (type_at_the_end(note, " more "), note.session.number)[1] != before, "another number")
            self.assertEqual((note.text.count(b"x"), note.session.site.text()), (3 * 950, bytes(note.text)))
            note.session.close()
            self.assertEqual(person.text(), bytes(note.text))

    def test_a_number_that_can_make_no_more_edits(self) -> None:
        note = self.opened(self.person("person"))
        written(note, "before ")
        number = note.session.number
        if is_second_form():
            # Where a number costs a search one was found in advance.
            wait_for(lambda: (note.take_in(), len(stood(self.person("person"))))[1] > 1, "a number in advance")
        with mock.patch.object(Site, "insert", lambda *_: Edited([], 10)):
            type_at_the_end(note, "refused ")
        self.assertIn("refused (10)", note.notice)
        written(note, "typed again")
        self.assertNotEqual(note.session.number, number)
        self.assertEqual(note.text, b"before typed again")

    def test_every_number_that_isnt_given_out_yet(self) -> None:
        link = self.begun()
        form, log = self.form(), self.log()
        # The first one's number stays hers: whoever wins that has her text be away while she is off.
        author, hers = form.new_author(), self.site_of()
        claims = [form.claim(site, author).raw for site in range(1, 65_000, 7) if site != hers]
        for begin in range(0, len(claims), 2_000):
            log.append(claims[begin:begin + 2_000])
        note = self.opened(self.person("new"), link=link)
        written(note, "four ")
        self.assert_comes_to(note, b"one two three four ")

    def test_the_greatest_stamp(self) -> None:
        link = self.begun()
        form, log = self.form(), self.log()
        author = form.new_author()
        claim = form.claim(4_711, author)
        message = about(DELETE, 4_711, 1, 2**48 - 1, [(self.site_of(), 0, 1)])
        log.append([claim.raw, entry_of(form, claim, [message], author).raw])
        note, other = self.opened(self.anna), self.opened(self.person("other"), link=link)
        for one, words in (note, "four "), (other, "five "):
            type_at_the_end(one, words)
        wait_for(lambda: (note.take_in(), other.take_in(), note.text == other.text)[2], "both to be the same")
        self.assertEqual(sorted(note.text.split()), sorted(b"one two three four five".split()))

    def site_of(self) -> int:
        """The first one's number."""
        with contextlib.closing(self.anna.disk()) as disk:
            return disk.own.clients()[0].site


class OnAServer(Case):
    """Numbers of people whose log is on a server."""

    founders_have_numbers = False

    def test_one_more_editor_while_the_server_is_away(self) -> None:
        server, anna = self.redis(), self.person("anna")
        first = self.opened(anna, url=server.url)
        written(first, "first ")
        wait_for(lambda: (first.take_in(), len(stood(anna)))[1] > 1, "a number in advance")
        server.kill()
        second, third = self.opened(anna), self.opened(anna)
        self.assertTrue(second.session.status().can_type)
        self.assertFalse(third.session.status().can_type)
        second.moved_to(len(second.text))
        second.type("second ")
        # Where a number costs a search that is told before.
        wait_for(lambda: (third.take_in(), third.type("third "), "Nothing can be typed here until" in third.notice)[2], "that to be told")
        wait_for(lambda: (third.take_in(), third.text == b"first second ")[1], "it to be seen by the other editor")
        server.start()
        type_at_the_end(third, "third ")
        self.assertEqual(self.assert_meet(first, second, third), b"first second third ")
        self.assertEqual(len({note.session.number for note in (first, second, third)}), 3)

    def put_back(self, server: RedisServer) -> tuple[Note, Note, Note]:
        """A note of a person whose folder was put back, to before the last word, in two editors while the server is
        away, and in one of another person."""
        anna = self.person("anna")
        first = self.opened(anna, url=server.url)
        written(first, "first ")
        wait_for(lambda: (first.take_in(), len(stood(anna)))[1] > 1, "a number in advance")
        first.session.close()
        shutil.copytree(anna.data, self.folder / "backup")
        berta = self.opened(self.person("berta"), link=anna.link())
        first = self.opened(anna)
        written(first, "sent ")
        first.session.close()
        self.assert_comes_to(berta, b"first sent ")
        shutil.rmtree(anna.data)
        shutil.copytree(self.folder / "backup", anna.data)
        server.kill()
        return self.opened(anna), self.opened(anna), berta

    def typed_after_what_isnt_sent(self) -> tuple[Note, Note]:
        """The two that are left, where one has sent what she typed after a word that nobody else ever gets."""
        server = self.redis()
        again, other, berta = self.put_back(server)
        type_at_the_end(again, "lost ")
        again.session.close()
        self.assert_comes_to(other, b"first lost ")
        other.moved_to(len(other.text))
        other.type("after ")
        server.start()
        wait_for(lambda: other.session.has_sent(other.session.last()), "to be sent what stands after what isn't")
        return other, berta

    def test_what_was_made_anew_is_waited_for_until_that_is_said(self) -> None:
        other, berta = self.typed_after_what_isnt_sent()
        with mock.patch.object(Rebaser, "say_what_was_rebased"):
            # As if she were killed before she says so.
            wait_for(lambda: (other.take_in(), berta.take_in(), b"after" in berta.text)[2], "it to come")
            wait_for(lambda: (other.take_in(), berta.take_in(), (other.text, berta.session.status().waiting) == (berta.text, 1))[2],
                     "it to be the same, and one to wait")
            other.session.close()
        self.assert_meet(self.opened(self.person("anna")), berta)

    def test_what_was_typed_after_what_isnt_sent(self) -> None:
        other, berta = self.typed_after_what_isnt_sent()
        text = self.assert_meet(other, berta)
        self.assertEqual(sorted(text.split()), sorted(b"first sent lost after".split()))
        other.session.close()
        berta.session.close()
        for name in "anna", "berta":
            with self.person(name).here():
                run = self.note("note", "--print")
            self.assertEqual((run.returncode, run.stderr, run.stdout), (0, "", text.decode()))

    def test_what_is_typed_under_a_number_that_another_editor_gives_up(self) -> None:
        server, give_up = self.redis(), Rebaser._given_up
        again, other, berta = self.put_back(server)

        def given_up(rebaser: Rebaser) -> list[Client]:
            # The file was read, and the number is locked no more.
            if rebaser is other.session._rebaser and again.text == b"first ":
                again.moved_to(len(again.text))
                again.type("late ")
                again.session.close()
            return give_up(rebaser)

        server.start()
        wait_for(lambda: other.session._replicator.has_read(), "the log to be read")
        with mock.patch.object(Rebaser, "_given_up", given_up):
            text = self.assert_meet(other, berta)
        self.assertEqual(sorted(text.split()), sorted(b"first sent late".split()))

    def test_numbers_arent_used_up(self) -> None:
        server, anna = self.redis(), self.person("anna")
        for _ in range(6):
            note = anna.open(url=server.url)
            written(note, "word ")
            note.session.close()
        self.assertLessEqual(len(stood(anna)), 2)
