"""What is left out for good is never silently gone: it is told how much and whose it is, its text is in the history, and
it can be typed again, once."""
import contextlib
import itertools
import json
import os
import random
import shutil
import subprocess
import unittest

from share.admission.chains import rank
from share.admission.judge import Judge
from share.admission.left_out import LeftOut
from share.editors.terminal.status_line import state_of_others
from share.format.entry import Author, Entry, Form, Kind, Plain
from share.format.operation import Operation, length_after
from share.program import retyping
from share.program.site import Site
from share.store import contents
from share.sync.session import Status
from share.tests.editors import Engines
from share.tests.naive import entry_of, in_entries
from share.tests.note import Note
from share.tests.support import NOTE, Carried, Case, Person, claim_of, edit_at_random, take, type_at_the_end, wait_for, written
from share.tests.waiting import PATIENCE
from share.text.line import Line

MISSING = 3
SENTENCE = "Dear all, we meet at ten. "
ROUNDS = 12


class Three(Case):
    """People with a note that one of them has begun."""

    founders_have_numbers = False

    def setUp(self) -> None:
        super().setUp()
        self.anna, self.bob, self.carol = (self.person(name) for name in ("anna", "bob", "carol"))

    def run_as(self, person: Person, *words: str, status: int = 0) -> str:
        """What bin/note prints for somebody, with this status."""
        done = subprocess.run([NOTE, *words], capture_output=True, timeout=PATIENCE, check=False, stdin=subprocess.DEVNULL,
                              env={**os.environ, "VIALSHOAL_DATA": str(person.data)})
        self.assertEqual(done.returncode, status, (words, done.stdout, done.stderr))
        self.said = done.stderr.decode()
        return done.stdout.decode()

    said = ""

    def begun(self) -> int:
        """Has Anna write, Bob within and behind that, and Carol have it; Anna's number."""
        anna = self.anna.open(url=self.file_log())
        written(anna, SENTENCE)
        link = self.anna.link()
        bob = self.bob.open(link=link)
        self.assert_comes_to(bob, SENTENCE.encode())
        type_at_the_end(bob, "")
        bob.moved_to(len("Dear all"))
        bob.type(" of you")
        written(bob, "Bob. ")
        for note in anna, bob:
            note.session.close()
        self.carol.reads(link)
        self.assertEqual(shown(self.carol), ("Dear all of you, we meet at ten. Bob. ", []))
        return anna.session.number


class Taken(Three):
    """A note in which somebody with the link takes the number of one who wrote."""

    def test_what_was_made_anew_and_left_out_in_its_turn_is_typed_again_once(self) -> None:
        take(self.anna, self.begun())
        anna = self.anna.open()
        wait_for(lambda: (anna.take_in(), bytes(anna.text) == SENTENCE.encode())[1], "it to be made anew")
        written(anna, "")
        anna.session.close()
        self.carol.reads()
        take(self.anna, anna.session.number)
        shutil.rmtree(self.anna.data)
        self.run_as(self.carol, "recover", "--lost", "note")
        self.assertEqual(shown(self.carol), ("Dear all of you, we meet at ten. Bob. ", []))
        self.assertEqual(self.run_as(self.carol, "recover", "--lost", "note"), "Nothing was left out.\n")

    def test_it_is_told_how_much_and_whose_and_typed_again_once(self) -> None:
        site = self.begun()
        before, _ = shown(self.carol)
        take(self.anna, site)
        self.assertEqual(self.run_as(self.carol, "cat", "note", status=MISSING), "")
        self.assertIn(f"Left out, since others hold its place: {len(SENTENCE)} characters of site {site}, ", self.said)
        self.assertIn("bin/note recover --lost note shows it", self.said)
        self.assertRegex(self.run_as(self.carol, "log", "note", status=MISSING), rf"left out  site {site} +typed '{SENTENCE}'")
        self.assertIn(f"site {site}, {len(SENTENCE)} characters:\n{SENTENCE}\n", self.run_as(self.carol, "recover", "--lost", "note"))
        # Others see that it is there again.
        link = self.anna.link()
        for person in self.carol, self.person("dora"):
            person.reads(link)
            self.assertEqual(shown(person), (before, []))
            self.assertEqual(self.run_as(person, "recover", "--lost", "note"), "Nothing was left out.\n")
            self.assertEqual(shown(person), (before, []))
        # Nor do those make it anew who typed it.
        for person in self.anna, self.bob:
            note = person.open()
            written(note, person.data.name)
            note.session.close()
            before += person.data.name
            self.assertEqual(shown(person), (before, []))

    def test_every_verb_says_so(self) -> None:
        take(self.anna, self.begun())
        for words in ["note", "--print"], ["export", "note", "-"]:
            self.run_as(self.carol, *words, status=MISSING)
            self.assertIn("Left out, since others hold its place", self.said)
        for words in ["log", "note"], ["history", "note", "--at", "0"]:
            line = json.loads(self.run_as(self.carol, *words, "--json", status=MISSING))
            self.assertIn(SENTENCE, [one["text"] for one in line["left_out"]])
        self.run_as(self.carol, "renew", "note", status=MISSING)
        self.assertIn("Left out of the old note for good, and not in the new one: ", self.said)

    def test_what_was_deleted_within_it_stays_so(self) -> None:
        site = self.begun()
        anna = self.anna.open()
        at = anna.text.index(b" of you")
        anna.erase(at, at + len(b" of you, we"))
        written(anna, "")
        anna.session.close()
        self.assertEqual(shown(self.carol)[0], "Dear all meet at ten. Bob. ")
        take(self.anna, site)
        self.recovered(self.carol)
        self.assertEqual(shown(self.carol), ("Dear all meet at ten. Bob. ", []))

    def test_it_stands_after_what_is_there(self) -> None:
        """What it stood after is there, or was deleted since."""
        first = self.anna.open(url=self.file_log())
        written(first, "one two three ")
        bob = self.bob.open(link=self.anna.link())
        for at, words in (14, "C "), (8, "B "), (4, "A "):
            bob.moved_to(at)
            bob.type(words)
        written(bob, "")
        bob.session.close()
        wait_for(lambda: (first.take_in(), len(first.text) == 20)[1], "Bob's words")
        at = first.text.index(b"two ")
        first.erase(at, at + 4)
        first.moved_to(0)
        first.type("zero ")
        written(first, "")
        first.session.close()
        take(self.anna, bob.session.number)
        found = self.recovered(self.anna)
        self.assertEqual([(one.site, one.text) for one in found], [(bob.session.number, b"C B A ")])
        self.assertEqual(shown(self.anna), ("zero one A B three C ", []))

    def test_two_that_lost_one_number(self) -> None:
        """Each has typed under it, and a third one has it."""
        site = self.begun()
        with contextlib.closing(self.anna.disk()) as disk:
            form = disk.form
        author = form.new_author()
        other = claim_of(form, site, author)
        with contextlib.closing(self.anna.log()) as log:
            log.append([other.raw, entry_of(form, other, typed_at(site, b"Another's. "), author).raw])
        self.carol.reads()
        while len({one["own"] for one in left_out(self.carol) if one["site"] == site}) < 1 or len(
                [one for one in left_out(self.carol) if one["site"] == site]) < 2:
            take(self.anna, site)
        self.recovered(self.carol)
        text, missing = shown(self.carol)
        self.assertEqual(missing, [])
        for words in "Dear all of you, we meet at ten. Bob. ", "Another's. ":
            self.assertEqual(text.count(words), 1, text)

    def test_what_somebody_signs_in_the_place_of_a_line_behind_which_others_wrote(self) -> None:
        site = self.begun()
        with contextlib.closing(self.anna.disk()) as disk:
            form = disk.form
            (author,) = [one.author for one in disk.own.clients() if one.site == site]
            line = next(row.entry for row in disk.entries.rows() if row.entry.site == site and row.entry.size)
            before = next(row.entry for row in disk.entries.rows() if row.entry.name == line.before)
        with contextlib.closing(self.anna.log()) as log:
            log.append([smaller(form, before, author, line).raw])
        self.assertEqual([(one["site"] == site, one["text"]) for one in left_out(self.carol)].count((True, SENTENCE)), 1)
        self.recovered(self.carol)
        text, missing = shown(self.carol)
        self.assertEqual((text.count("Dear all of you, we meet at ten. Bob. "), missing), (1, []), text)

    def test_two_who_type_it_again_at_once(self) -> None:
        site = self.begun()
        self.person("dora").reads(self.anna.link())
        take(self.anna, site)
        notes = [self.opened(person) for person in (self.carol, self.person("dora"))]
        for note in notes:
            wait_for(lambda one=note: (one.take_in(), one.session.status().can_type and one.session.lost())[1], "the log")
        for note in notes:
            # Nothing of the other one's is taken in yet.
            note.session.recover()
            note.text[:] = note.session.text()
        for note in notes:
            type_at_the_end(note, "!")
        text = "Dear all of you, we meet at ten. Bob. "
        wait_for(lambda: sorted(self.assert_meet(*notes).decode()) == sorted(text + "!!"), "it to be there once")
        for note in notes:
            note.session.close()
        found, missing = shown(self.anna)
        self.assertEqual((found.replace("!", ""), missing), (text, []))

    def recovered(self, person: Person) -> list[retyping.Lost]:
        """What somebody types again."""
        note = person.open()
        wait_for(lambda: (note.take_in(), note.session.status().can_type and note.session.lost())[1], "a number, and the log")
        found = note.session.recover()
        written(note, "")
        note.session.close()
        return found


class NothingOwn(Three):
    """Somebody takes the number of one who has typed nothing."""

    def told(self) -> str:
        """What Carol is told as her number is taken."""
        carol = self.opened(self.carol)
        wait_for(lambda: (carol.take_in(), carol.session.status().can_type)[1], "a number")
        number, told = carol.session.number, len(carol.told)
        take(self.carol, number)
        wait_for(lambda: (carol.take_in(), carol.session.number)[1] != number, "another number")
        wait_for(lambda: (carol.take_in(), carol.told[told:])[1], "it to be told")
        return " ".join(carol.told[told:])

    def test_it_is_told_that_nothing_is_lost(self) -> None:
        self.begun()
        self.assertIn("No edit was lost.", self.told())

    def test_it_is_not_told_where_others_text_is_left_out(self) -> None:
        take(self.anna, self.begun())
        self.assertNotIn("No edit was lost.", self.told())


class Told(Engines):
    """What editors are told of it."""

    def test_the_state_says_so_and_the_engine_types_it_again(self) -> None:
        bob, anna = self.others("bob", "anna")
        anna.type("Anna's words. ")
        bob.shows("Anna's words. ")
        anna.settle()
        site = bob.ask("who", version=bob.mirror.version, begin=0, end=4)["stretches"][0]["site"]
        anna.close()
        take(self.person("anna"), site)
        state = bob.wait_for(lambda: bob.notices("state")[-1].get("left_out"), "the state to say so")
        self.assertEqual(state, [{"site": site, "own": False, "characters": 14, "messages": 1}])
        bob.shows("")
        bob.wait_for(lambda: any("14 characters of site" in line["words"] for line in bob.notices("says")), "a word")
        found = bob.ask("history")["left_out"]
        self.assertEqual([(one["text"], one["site"]) for one in found], [("Anna's words. ", site)])
        self.assertEqual(bob.ask("lost")["lost"], found)
        # By the engine that has the note open.
        run = self.note("recover", "--lost", "note", VIALSHOAL_DATA=str(self.folder / "bob"))
        self.assertEqual((run.returncode, "Anna's words. " in run.stdout), (0, True), run.stderr)
        bob.shows("Anna's words. ")
        self.assertEqual(bob.ask("recover")["lost"], [])
        bob.wait_for(lambda: "left_out" not in bob.notices("state")[-1], "the state to say so no more")


class InWords(unittest.TestCase):
    """What a terminal's last line says."""

    def test_how_much_and_whose(self) -> None:
        lines: list[Line] = [{"site": site, "own": site == 9, "characters": 10 - site, "messages": 1} for site in (3, 9, 5, 6, 7)]
        lines[0]["name"] = "Ada"
        status = Status(1, 1, 0, None, 0, left_out=lines, renewed={"site": 8, "own": False, "name": "Bo"})
        self.assertEqual(state_of_others(status), "  left out: 7 characters of Ada (site 3), 1 character of you (site 9), "
                         "5 characters of site 5, 7 characters of others  renewed by Bo (site 8)")
        self.assertEqual(state_of_others(Status(1, 1, 0, None, 0)), "")


class AtRandom(unittest.TestCase):
    """Three write, and one of their numbers is taken: where they only typed, the text is the same when all that was left
    out was typed again; else it has more, since what was deleted isn't deleted again."""

    def test_all_is_there_in_its_order(self) -> None:
        for seed in range(ROUNDS):
            chance, deletes = random.Random(seed), seed % 2 == 1
            before, entries = self.written(chance, deletes)
            site = chance.choice([1, 2, 3])
            claim = next(one for one in entries if one.kind is Kind.CLAIM and one.site == site)
            other = claim
            while not rank(other) < rank(claim):
                other = FORM.claim(site, FORM.new_author())
            after, judge = self.recovered([*entries, other])
            with self.subTest(seed=seed):
                coming = iter(after)
                self.assertTrue(all(letter in coming for letter in before) if deletes else after == before, (before, after))
                self.assertEqual(retyping.left_out(judge), [])

    def written(self, chance: random.Random, deletes: bool) -> tuple[bytes, list[Entry]]:
        """What three have come to who wrote, and their entries."""
        notes = [Note(Carried(FORM, number)) for number in (1, 2, 3)]
        for turn in range(40):
            note = chance.choice(notes)
            if deletes:
                edit_at_random(note, chance)
            else:
                note.moved_to(chance.randrange(len(note.text) + 1))
                note.type("".join(chance.choices("abcdefgh", k=chance.randint(1, 8))))
            made = [entry for one in notes for entry in one.session.made]
            for one in notes if turn == 39 or chance.random() < 0.3 else []:
                one.session.coming = made
                one.take_in()
        for one in notes:
            one.session.close()
        return bytes(notes[0].text), made

    def recovered(self, entries: list[Entry]) -> tuple[bytes, Judge]:
        """What a fourth one's text is who types all again that was left out, and what he says of it."""
        judge, author = Judge(entries), FORM.new_author()
        with contextlib.closing(Site(4, judge.count().messages)) as site:
            again = retyping.type_again(FORM, retyping.lost(judge), entries, judge, site)
            text = site.text()
        last, length = FORM.claim(4, author), 0
        judge.add(last)
        for part in in_entries(again.edited.messages):
            last = entry_of(FORM, last, part, author, judge.built_on(part), length)
            length = length_after(part, length)
            judge.add(last)
        for word in retyping.words_of(again.copies, FORM, author, last):
            judge.add(FORM.open(word.raw))
        return text, judge


class Elsewhere(unittest.TestCase):
    """What lost its place and has the messages of what holds there isn't missing."""

    def test_however_it_comes_and_whenever_it_is_asked(self) -> None:
        with contextlib.closing(Site(7)) as at:
            parts = [at.insert(0, b"one").messages, at.insert(3, b"two").messages]
        entries = list[Entry]()
        for author in FORM.new_author(), FORM.new_author():
            last = FORM.claim(7, author)
            entries.append(last)
            for number, part in enumerate(parts):
                last = entry_of(FORM, last, part, author, length=3 * number)
                entries.append(last)
        for order in itertools.permutations(entries):
            judge, found = Judge([]), list[LeftOut]()
            for one in order:
                judge.add(one)
                found = judge.left_out()
            self.assertEqual(found, [])


FORM = Plain(bytes(16))


def shown(person: Person) -> tuple[str, list[str]]:
    """What somebody's note and its log show, and what is missing in that."""
    with person.here():
        found = contents.text_of_note("note", None, None, None)
    return found.text.decode(), found.missing


def left_out(person: Person) -> list[Line]:
    """What is left out of somebody's note."""
    with person.here():
        return contents.contents_of("note", contents.found_of("note", None, None, None)).left_out


def typed_at(site: int, data: bytes) -> list[Operation]:
    """What a site has typed that had nothing."""
    with contextlib.closing(Site(site)) as at:
        return at.insert(0, data).messages


def smaller(form: Form, before: Entry, author: Author, than: Entry) -> Entry:
    """An entry in the place of another one, which holds against it."""
    first = than.messages[0]
    for number in range(100_000):
        data = b"%06d. " % number
        one = entry_of(form, before, [first._replace(data=data)], author)
        if one.name < than.names[0]:
            return one
    raise AssertionError("none holds")


if __name__ == "__main__":
    unittest.main()
