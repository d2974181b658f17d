"""What stands for what was lost: it is made anew once, also where others have to do it, and what is there twice is hidden by
who made it anew."""
import contextlib
import os
import shutil
import sqlite3
from collections.abc import Sequence
from typing import Any
from unittest import mock

from share.format.entry import Copy, Entry
from share.store import read_only
from share.store.guarded import Unkept
from share.store.note_file import Disk
from share.sync.rebase import Done, rebase
from share.tests.editors import Editor
from share.tests.forms import of_first_form
from share.tests.naive import entry_of
from share.tests.note import Note
from share.tests.servers import FileLog
from share.tests.support import Case, Person, are_alike, change, claim_against, claim_order, ons_of, type_at_the_end, wait_for, written


def words(text: bytes | bytearray) -> list[str]:
    """The words of a text, sorted."""
    return sorted(bytes(text).decode().split())


class Copied(Case):
    """Notes whose text was left out, and is made anew soon."""

    founders_have_numbers = False

    def setUp(self) -> None:
        super().setUp()
        quick = mock.patch("share.sync.backoff.OTHERS_SECONDS", 0.1)
        quick.start()
        self.addCleanup(quick.stop)

    def written_and_closed(self, person: Person, text: str) -> Entry:
        """The entry of what a person types and sends."""
        note = person.open()
        written(note, text)
        note.session.close()
        return note.session.last()

    def claim(self, person: Person, *sites: int) -> list[bytes]:
        """Has the log of a person's note have claims of a stranger to numbers, which hold against all that were made."""
        with contextlib.closing(person.disk()) as disk, contextlib.closing(person.log()) as log:
            claims = [row.entry for row in disk.entries.rows() if row.entry.kind.is_claim]
            owns = [min((claim for claim in claims if claim.site == site), key=claim_order) for site in sites]
            found = [claim_against(disk.form, own).raw for own in owns]
            log.append(found)
            return found

    def seen(self, person: Person, text: bytes) -> None:
        """Has a person's disk have a text."""
        note = person.open()
        self.assert_comes_to(note, text)
        note.session.close()

    def word_against(self, person: Person, entry: Entry, typed: str, holds: bool) -> tuple[str, Entry]:
        """A word that makes an entry of a smaller hash than what was typed, where it is typed in its place, or of a greater
        one; and that entry."""
        (message,) = entry.messages
        with contextlib.closing(person.disk()) as disk:
            before = next(row.entry for row in disk.entries.rows() if row.entry.name == entry.before)
            (author,) = [one.author for one in disk.own.clients() if one.author.name == entry.author]
            for number in range(100_000):
                word = f"new-{number} "
                other = message._replace(data=word.encode())
                made = entry_of(disk.form, before, [other], author, ons_of(entry))
                if (made.name < entry.name) is holds:
                    return word, made
        raise AssertionError("no word does")


class PutBackTogether(Copied):
    """A server and a folder that were put back together, so that a number has two histories."""

    def begun(self, holds: bool) -> tuple[Person, Person, str]:
        """A person whose disk and log are put back, who types a word in the place of what another one has; that other
        one, and the word. It holds or not."""
        anna, berta, self.url = self.person("anna"), self.person("berta"), self.file_log()
        anna.open(url=self.url).session.close()
        self.written_and_closed(anna, "begun ")
        note = berta.open(link=anna.link())
        self.assert_comes_to(note, b"begun ")
        note.session.close()
        for name in "anna", "shared":
            shutil.copytree(self.folder / name, self.folder / f"{name}-kept")
        old = self.written_and_closed(anna, "old ")
        self.seen(berta, b"begun old ")
        for name in "anna", "shared":
            shutil.rmtree(self.folder / name)
            os.rename(self.folder / f"{name}-kept", self.folder / name)
        word, _ = self.word_against(anna, old, "old ", holds)
        new = self.written_and_closed(anna, word)
        self.assertEqual((new.before, new.name < old.name), (old.before, holds))
        return anna, berta, word.strip()

    def assert_each_once(self, holds: bool) -> None:
        """That each word is there once, where the newer one holds or not."""
        anna, berta, word = self.begun(holds)
        note = self.opened(berta)
        wait_for(lambda: (note.take_in(), not note.session.status().unsent)[1], "all to be sent")
        # It was typed behind what only she has.
        type_at_the_end(note, "behind ")
        other = self.opened(anna)
        wait_for(lambda: are_alike([note, other]) and words(note.text) == sorted(["begun", "old", word, "behind"]),
                 "each word to be there once")
        text = self.assert_meet(self.opened(self.person("late"), link=anna.link()), note, other)
        self.assertEqual([person.text() for person in (anna, berta)], [text, text])

    def test_what_others_had_is_made_anew(self) -> None:
        self.assert_each_once(holds=True)

    def test_what_was_typed_since_is_made_anew(self) -> None:
        self.assert_each_once(holds=False)

    def two_disks_that_made_it_anew(self, holds: bool) -> tuple[list[Person], list[str]]:
        """Two copies of a folder, each of which has made anew what was lost, by a log of its own; and the words."""
        anna, berta, word = self.begun(holds)
        note = berta.open()
        wait_for(lambda: (note.take_in(), not note.session.status().unsent)[1], "all to be sent")
        note.session.close()
        people = [anna, self.person("copy")]
        shutil.copytree(anna.data, people[1].data)
        shutil.copytree(self.folder / "shared", self.folder / "second")
        for person, folder in zip(people, ("shared", "second")):
            note = person.open(url=str(self.folder / folder / "note.log"))
            expected = sorted(["begun", "old", word])
            wait_for(lambda one=note: are_alike([one]) and words(one.text) == expected, "it to be made anew")
            note.session.close()
        return people, ["begun", "old", word]

    def assert_meet_with_each_once(self, holds: bool) -> None:
        """That two disks with one key meet, each word being there once."""
        people, all_words = self.two_disks_that_made_it_anew(holds)
        notes = [self.opened(people[0]), self.opened(people[1], url=self.url), self.opened(self.person("berta"))]
        wait_for(lambda: are_alike(notes) and words(notes[0].text) == sorted(all_words), "each word to be there once")
        for number, note in enumerate(notes):
            written(note, f"w{number} ")
        wait_for(lambda: are_alike(notes) and words(notes[0].text) == sorted([*all_words, "w0", "w1", "w2"]),
                 "each word to be there once")

    def test_two_disks_with_one_key_meet_who_made_anew_what_others_had(self) -> None:
        self.assert_meet_with_each_once(holds=True)

    def test_two_disks_with_one_key_meet_who_made_anew_what_they_typed(self) -> None:
        self.assert_meet_with_each_once(holds=False)


class PutBackUnsent(Copied):
    """A folder is put back to where only some of its unsent edits had been made. All of them had been made anew, since another disk
    wrote under its number, and none was ever sent."""

    def setUp(self) -> None:
        super().setUp()
        self.anna, self.berta, self.url = self.person("anna"), self.person("berta"), self.file_log()
        first = self.anna.open(url=self.url)
        written(first, "begun ")
        log = FileLog(self.folder)
        log.kill()
        wait_for(lambda: first.session.status().offline, "the log to be away")
        for word in "one ", "two ", "three ", "four ":
            type_at_the_end(first, word)
            if word == "one ":
                self.word, fork = self.word_against(self.anna, first.session.last(), word, holds=True)
            if word == "two ":
                first.session.close()
                shutil.copytree(self.anna.data, self.folder / "kept")
                first = self.anna.open()
        first.session.close()
        log.start()
        with contextlib.closing(self.anna.log()) as opened:
            opened.append([fork.raw])
        shutil.copytree(self.folder / "shared", self.folder / "second")
        self.other = self.opened(self.berta, link=self.anna.link())
        self.made_anew(["begun", "one", "two", "three", "four"])
        shutil.rmtree(self.anna.data)
        os.rename(self.folder / "kept", self.anna.data)

    def made_anew(self, expected: Sequence[str], url: str | None = None) -> None:
        """Has her disk make anew what it has, so that the words are these and what another one wrote."""
        note = self.anna.open(url=url)
        wait_for(lambda: are_alike([note]) and words(note.text) == sorted([*expected, self.word.strip()]), "it to be made anew")
        note.session.close()

    def assert_each_once(self) -> None:
        """That each word is there once where both disks meet."""
        note = self.opened(self.anna, url=self.url)
        type_at_the_end(note, "five ")
        expected = sorted(f"begun one two three four five {self.word}".split())
        wait_for(lambda: are_alike([note, self.other]) and words(note.text) == expected, "each word to be there once")
        self.assert_meet(self.opened(self.person("late"), link=self.anna.link()), note, self.other)

    def test_who_has_what_was_made_anew_makes_none_of_it_again(self) -> None:
        self.assert_each_once()

    def test_what_was_made_anew_twice_is_there_once(self) -> None:
        self.made_anew(["begun", "one", "two"], str(self.folder / "second" / "note.log"))
        self.assert_each_once()


class Damaged(Copied):
    """An entry is damaged on a disk, the log is lost, and who wrote it is off: what was typed behind it is made anew. Then
    the right entry comes."""

    def setUp(self) -> None:
        super().setUp()
        self.anna, self.berta, self.url = self.person("anna"), self.person("berta"), self.file_log()
        first = self.anna.open(url=self.url)
        written(first, "one two ")
        second = self.berta.open(link=self.anna.link())
        self.assert_comes_to(second, b"one two ")
        second.moved_to(4)
        second.type("behind ")
        written(second, "")
        self.assert_comes_to(first, b"one behind two ")
        for note in first, second:
            note.session.close()
        shutil.copytree(self.folder / "shared", self.folder / "log-kept")
        self.lose(first.session.last())

    def lose(self, entry: Entry) -> None:
        """Damages an entry on the second disk, and has the log be lost."""
        shutil.rmtree(self.folder / "shared")
        raw = entry.raw[:-20] + bytes([entry.raw[-20] ^ 1]) + entry.raw[-19:]
        change(self.berta.path(), "UPDATE entry SET raw = ? WHERE hash = ?", raw, entry.hash)

    def alone(self) -> Note:
        """The second one's note, who has made anew what she typed."""
        note = self.opened(self.berta)
        wait_for(lambda: are_alike([note]) and note.text == b"behind ", "it to be made anew")
        return note

    def assert_shown(self, text: str, *notes: Note) -> None:
        """That all come to show a text's words."""
        wait_for(lambda: are_alike(notes) and words(notes[0].text) == sorted(text.split()), f"{text} to be shown")

    def test_the_original_comes_after_the_copy_is_made(self) -> None:
        second = self.alone()
        second.erase(0, 2)
        first = self.opened(self.anna)
        self.assert_shown("one behind two", first, second)
        second.moved_to(len(second.text))
        second.type("more ")
        self.assert_shown("one behind two more", first, second)
        before = second.session.number, len(second.session.messages())
        second.session.close()
        second = self.opened(self.berta)
        self.assert_shown("one behind two more", first, second)
        # It is hidden once.
        self.assertEqual((second.session.number, len(second.session.messages())), before)
        # What was typed first goes again: what stands for it is shown again, without what was deleted there.
        self.claim(self.berta, self.entry_of(self.anna).site)
        self.assert_shown("one hind two more", first, second)
        late = self.opened(self.person("late"), link=self.anna.link())
        self.assert_shown("one hind two more", first, second, late)

    def test_the_disk_is_full_as_a_copy_is_hidden(self) -> None:
        second, keep, tried = self.alone(), Disk.keep, list[Any]()

        def kept(disk: Disk, *given: Any, hidings: Sequence[Copy] = (), **more: Any) -> range:
            if hidings and len(tried) < 3:
                tried.append(hidings)
                raise Unkept("there is no room")
            words: dict[str, Any] = more | {"hidings": hidings}
            return keep(disk, *given, **words)

        with mock.patch.object(Disk, "keep", kept), mock.patch("share.sync.rebasing.REBASE_AGAIN_SECONDS", 0):
            first = self.opened(self.anna)
            self.assert_shown("one behind two", first, second)
        self.assertEqual(len(tried), 3)

    def entry_of(self, person: Person) -> Entry:
        """What a person wrote first."""
        with contextlib.closing(person.disk()) as disk:
            return next(row.entry for row in disk.entries.rows() if row.made and row.entry.size)

    def test_the_original_comes_before_a_copy_is_made(self) -> None:
        shutil.copytree(self.folder / "log-kept", self.folder / "shared")
        second, first = self.opened(self.berta), self.opened(self.anna)
        self.assert_shown("one behind two", first, second)
        self.assertNotIn("anew", second.notice)

    def test_the_original_comes_while_a_copy_is_made(self) -> None:
        firsts: list[Note] = []

        def made_anew(*given: object) -> Sequence[Done]:
            firsts.append(self.opened(self.anna))
            wait_for(lambda: (firsts[0].take_in(), are_alike(firsts))[1], "all of the other one to be sent")
            return rebase(*given)  # type: ignore[arg-type]

        with mock.patch("share.sync.rebasing.rebase", made_anew):
            second = self.opened(self.berta)
            wait_for(lambda: (second.take_in(), firsts)[1], "it to be made anew")
        self.assert_shown("one behind two", firsts[0], second)

    def test_a_copy_that_others_typed_in_is_hidden_alone(self) -> None:
        second = self.alone()
        carla = self.opened(self.person("carla"), link=self.anna.link())
        self.assert_comes_to(carla, b"behind ")
        carla.moved_to(2)
        carla.type(" within ")
        self.assert_shown("be within hind", carla, second)
        second.session.close()
        first = self.opened(self.anna)
        wait_for(lambda: are_alike([first, carla]), "all to be the same")
        # Who made it anew hides it as soon as she is on.
        second = self.opened(self.berta)
        self.assert_shown("one behind two within", first, carla, second)

    def beside_its_copy(self) -> None:
        """Has the log have the original beside its copy, which nobody who is on has made."""
        self.alone().session.close()
        with mock.patch("share.sync.backoff.OTHERS_SECONDS", 1_000):
            first = self.anna.open()
            wait_for(lambda: are_alike([first]) and words(first.text) == ["behind", "behind", "one", "two"], "both to be shown")
            first.session.close()

    def test_who_made_a_copy_is_gone(self) -> None:
        self.beside_its_copy()
        shutil.rmtree(self.berta.data)
        notes = [self.opened(self.person(name), link=self.anna.link()) for name in ("carla", "dora")]
        self.assert_shown("one behind two", *notes)
        # However many have hidden it, it is shown again where what it stands for goes.
        self.claim(self.anna, self.entry_of(self.anna).site)
        self.assert_shown("behind", *notes)
        self.assert_shown("one behind two", *notes, self.opened(self.anna))

    def test_who_made_a_copy_comes_back(self) -> None:
        self.beside_its_copy()
        carla = self.person("carla")
        third = carla.open(link=self.anna.link())
        self.assert_shown("one behind two", third)
        third.session.close()
        shutil.rmtree(carla.data)
        self.claim(self.anna, self.entry_of(self.anna).site)
        # Who made it shows it again, whoever has hidden it.
        self.assert_shown("behind", self.opened(self.berta), self.opened(self.person("late"), link=self.anna.link()))


class WithTheKeysAlone(Copied):
    """A disk has the keys of the numbers under which another one typed, and made anew what it had typed; nothing of that counts now."""

    def test_what_was_made_anew_is_made_anew_once(self) -> None:
        anna, again, url = self.person("anna"), self.person("again"), self.file_log()
        anna.open(url=url).session.close()
        first = self.written_and_closed(anna, "once ").site
        self.claim(anna, first)
        note = anna.open()
        wait_for(lambda: (note.take_in(), note.session.number != first and words(note.text) == ["once"])[1], "it to be made anew")
        written(note, "")
        second = note.session.number
        note.session.close()
        self.claim(anna, second)
        again.open(link=anna.link()).session.close()
        with contextlib.closing(sqlite3.connect(again.path())) as file, file:
            file.execute("ATTACH ? AS other", (str(anna.path()),))
            file.execute("INSERT INTO client SELECT * FROM other.client WHERE site IN (?, ?)", (first, second))
        shutil.rmtree(anna.data)
        note = self.opened(again)
        wait_for(lambda: are_alike([note]) and words(note.text) == ["once"], "it to be there once")
        self.assertEqual(sum(b"once " in one.data for one in note.session.messages()), 1)


@of_first_form("a number of what was copied into a note of the second one is nobody's, and has no keys")
class Renewed(Copied):
    """A note that was renewed has the numbers of the one before, whose keys are with who renewed it."""

    def renewed(self) -> tuple[Person, Person]:
        """Two people who have a note that one of them renewed."""
        anna, berta = self.person("anna"), self.person("berta")
        first = anna.open(url=self.file_log())
        written(first, "one two ")
        second = berta.open(link=anna.link())
        self.assert_comes_to(second, b"one two ")
        second.moved_to(4)
        second.type("three ")
        written(second, "four ")
        self.numbers = {note.session.number for note in (first, second)}
        for note in first, second:
            note.session.close()
        url = str(self.folder / "shared" / "renewed.log")
        self.assertEqual(self.note("renew", "note", "--log", url, VIALSHOAL_DATA=str(anna.data)).returncode, 0)
        shutil.rmtree(berta.data)
        return anna, berta

    def test_a_claim_of_each_copied_number(self) -> None:
        anna, berta = self.renewed()
        first, second = self.opened(anna), self.opened(berta, link=anna.link())
        text = self.assert_meet(first, second)
        self.assertEqual(text, b"one three two four ")
        self.assertEqual([first.session.is_own(number) for number in self.numbers], [False, False])
        self.assertNotIn(first.session.number, self.numbers)
        self.assertEqual(read_only.own_sites(anna.path()), {first.session.number})
        second.moved_to(4)
        second.type("within ")
        written(first, "behind ")
        expected = words(b"one within three two four behind")
        claims = self.claim(anna, *self.numbers)
        wait_for(lambda: are_alike([first, second]) and words(first.text) == expected
                 and not set(claims).difference(row.entry.raw for row in first.session._holdings.rows.values()),
                 "each word to be there once")
        number, text = first.session.number, bytes(first.text)
        first.session.close()
        first = self.opened(anna)
        self.assertEqual((self.assert_meet(first, second), first.session.number), (text, number))
        self.assertEqual(first.session._holdings.broken(), [])

    def test_the_keys_are_there_over_the_loss_of_the_file(self) -> None:
        anna, _ = self.renewed()
        first = self.opened(anna)
        anna.path().unlink()
        written(first, "more ")
        with contextlib.closing(anna.disk()) as disk:
            self.assertEqual({one.site for one in disk.own.clients() if one.copied and one.retired}, self.numbers)
        self.assertNotIn(first.session.number, self.numbers)


class Forked(Copied):
    """The author of a line writes another entry in its place, after others have typed inside and behind the line."""

    def test_what_builds_on_it_is_made_anew_once(self) -> None:
        url, anna = self.file_log(), self.person("anna")
        anna.open(url=url).session.close()
        line = self.written_and_closed(anna, "the-line ")
        notes = [self.opened(self.person(name), link=anna.link()) for name in ("berta", "carla", "dora")]
        for note, place, typed in zip(notes, (3, 17, 0), (" inside ", "behind ", "front ")):
            wait_for(lambda: are_alike(notes) and b"line" in notes[0].text, "all to be the same")
            note.moved_to(place)
            note.type(typed)
            written(note, "")
        # What was typed behind that is left out with it.
        written(notes[1], "more ")
        wait_for(lambda: are_alike(notes), "all to be the same")
        self.assertEqual(words(notes[0].text), sorted("front the inside -line behind more".split()))
        numbers = [note.session.number for note in notes]
        word, fork = self.word_against(anna, line, "the-line ", holds=True)
        with contextlib.closing(anna.log()) as log:
            log.append([fork.raw])
        expected = sorted(["front", "inside", "behind", "more", word.strip()])
        wait_for(lambda: are_alike(notes) and words(notes[0].text) == expected, "each word to be there once")
        # What builds on nothing that was lost goes on counting.
        self.assertEqual([note.session.number == number for note, number in zip(notes, numbers)], [False, False, True])
        self.assertEqual(notes[2].notice, "")
        notes.append(self.opened(anna))
        expected = sorted([*expected, "the-line"])
        wait_for(lambda: are_alike(notes) and words(notes[0].text) == expected, "the line to be there once")
        self.assertEqual(self.assert_meet(self.opened(self.person("late"), link=anna.link()), *notes), bytes(notes[0].text))
        # Nor is it made anew by who comes again.
        for number, name in enumerate(("berta", "carla")):
            notes[number].session.close()
            notes[number] = self.opened(self.person(name))
        wait_for(lambda: are_alike(notes) and words(notes[0].text) == expected, "all to be the same")
        for typed_once in b"inside", b"behind", b"more":
            self.assertEqual(sum(typed_once in message.data for message in notes[0].session.messages()), 1, typed_once)


class BegunAnew(Copied):
    """What is shown is begun anew, since something else counts."""

    def test_an_edit_on_its_way_stays_with_its_character(self) -> None:
        anna, berta = self.person("anna"), self.person("berta")
        second = berta.open(url=self.file_log())
        written(second, "middle word ")
        second.session.close()
        first = anna.open(link=berta.link())
        self.assert_comes_to(first, b"middle word ")
        first.moved_to(0)
        first.type("first ")
        line = first.session.last()
        written(first, "last ")
        first.session.close()
        editor = Editor(berta.data)
        self.addCleanup(editor.close)
        editor.shows("first middle word last ")
        # It shows nothing of what comes for a while, and types meanwhile.
        editor.ask("on")
        editor.listens, known = False, len(editor.lines)
        word, fork = self.word_against(anna, line, "first ", holds=True)
        with contextlib.closing(anna.log()) as log:
            log.append([fork.raw])
        editor.wait_for(lambda: [line for line in editor.lines[known:] if line.get("notice") == "changes"], "other text")
        editor.edit((13, 13, "more "))
        editor.listens = True
        for line in editor.lines[known:]:
            editor.mirror.take(line)
        editor.shows(f"{word}middle more word ")


class Clock:
    """A clock that the test sets."""

    now = 1.0

    def monotonic(self) -> float:
        """The time."""
        return self.now


class ClaimedAgainAndAgain(Copied):
    """Somebody claims each number that a person gets."""

    def test_it_is_made_anew_ever_later(self) -> None:
        anna, clock = self.person("anna"), Clock()
        waits = mock.patch.multiple("share.sync.backoff", time=clock, FIRST_SECONDS=1_000, MOST_REBASE_SECONDS=10**6, CALM_SECONDS=10**6)
        waits.start()
        self.addCleanup(waits.stop)
        note = self.opened(anna, url=self.file_log())
        written(note, "begun ")
        for turn in range(4):
            expected, number, told = words(note.text), note.session.number, len(note.told)
            self.claim(anna, number)
            wait_for(lambda: (note.take_in(), note.session.number)[1] != number, "another number")
            if turn:
                # What is typed goes on at once; what was lost has to wait.
                wait_for(lambda since=told: (note.take_in(), "is typed again in" in str(note.told[since:]))[1], "it to be told")
                type_at_the_end(note, f"turn{turn} ")
                wait_for(lambda: are_alike([note]), "it to be sent")
                self.assertEqual(note.text, b"turn%d " % turn)
                expected = sorted([*expected, f"turn{turn}"])
                clock.now += 1_000 * 2**(turn - 1) - 1
                note.take_in()
                self.assertEqual(note.text, b"turn%d " % turn)
                clock.now += 1
            wait_for(lambda: are_alike([note]) and words(note.text) == expected, "each word to be there once")
        late = self.opened(self.person("late"), link=anna.link())
        self.assertEqual(self.assert_meet(note, late), bytes(note.text))
