"""The numbers of a note that was renewed stay with who renewed it, for making anew alone: nothing is typed under them, nobody takes them
for that person's own, and their keys are in that person's file and nowhere else."""
import base64
import contextlib
import json
import pathlib
import subprocess
import unittest
from unittest import mock

from share.admission.ledger import Row
from share.store.own import Client
from share.tests.editors import Engines
from share.tests.forms import of_first_form
from share.tests.support import Person, take, type_at_the_end, wait_for, written

TEXT = "one three two four "


class Renewed(Engines):
    """Ann has renewed a note in which Bob wrote, too, on a server."""

    def setUp(self) -> None:
        super().setUp()
        self.server, self.ann, self.bob = self.redis(), self.person("ann"), self.person("bob")
        first = self.ann.open(url=self.server.url)
        written(first, "one two ")
        second = self.bob.open("before", link=self.ann.link())
        self.assert_comes_to(second, b"one two ")
        second.moved_to(4)
        second.type("three ")
        written(second, "four ")
        self.numbers = {first.session.number, second.session.number}
        for note in first, second:
            note.session.close()
        self.run_as(self.ann, "renew", "note")

    def run_as(self, person: Person, *words: str) -> str:
        """What bin/note prints for somebody."""
        run: subprocess.CompletedProcess[str] = self.note(*words, VIALSHOAL_DATA=str(person.data))
        self.assertEqual(run.returncode, 0, run.stderr)
        return run.stdout

    def copied(self, person: Person) -> list[Client]:
        """The copied numbers that somebody has the keys of."""
        with contextlib.closing(person.disk()) as disk:
            return [one for one in disk.own.clients() if one.copied]

    def test_scripts_tell_them_from_ones_own(self) -> None:
        self.server.kill()
        (listed,) = [one for one in json.loads(self.run_as(self.ann, "list", "--json"))["notes"] if one["name"] == "note"]
        self.assertEqual(listed["unsent"], 0)
        self.server.start()
        steps = json.loads(self.run_as(self.ann, "log", "note", "--json"))["steps"]
        self.assertEqual({(one["site"], one["own"]) for one in steps}, {(site, False) for site in self.numbers})
        # The history is what it was: Bob typed within this later.
        self.assertEqual(steps[0]["text"], "one two ")
        self.assertNotIn("(you)", self.run_as(self.ann, "log", "note"))

    def test_editors_tell_them_from_ones_own(self) -> None:
        editor = self.editor("ann")
        editor.wait_for(lambda: [one for one in editor.notices("state") if one["types"] and one["log"] == "sent"], "a number")
        found = editor.ask("who", version=editor.mirror.version, begin=0, end=len(TEXT))["stretches"]
        self.assertEqual({(one["site"], one["own"]) for one in found}, {(site, False) for site in self.numbers})
        # There is nothing of theirs that it could take back.
        self.assertEqual((editor.ask("undo")["done"], editor.text), (False, TEXT))
        editor.type("mine")
        editor.settle()
        self.assertEqual((editor.ask("undo")["done"], editor.ask("undo")["done"]), (True, False))
        editor.shows(TEXT)
        other = self.editor("bob", link=self.ann.link())
        other.shows(TEXT)
        editor.ask("cursor", version=editor.mirror.version, edits=editor.mirror.made, at=3)

        def others() -> set[int]:
            return {one["site"] for one in other.ask("on")["people"] if not one["own"]}

        other.wait_for(others, "Ann to be on")
        self.assertEqual(others() & self.numbers, set())
        other.wait_for(lambda: other.notices("cursors") and other.notices("cursors")[-1]["cursors"], "her cursor")
        self.server.kill()
        editor.type("mine")
        editor.settle()
        # That the log is away may be told before the edit is made.
        editor.wait_for(lambda: [editor.notices("state")[-1][of] for of in ("log", "unsent")] == ["away", 1], "one edit to be unsent")

    def made_under_them(self) -> list[Row]:
        """What Ann's file has that she made under the copied numbers."""
        with contextlib.closing(self.ann.disk()) as disk:
            return [row for row in disk.entries.rows() if row.made and row.entry.site in self.numbers]

    def test_nothing_is_typed_under_them(self) -> None:
        copied = self.made_under_them()
        self.assertEqual([row for row in copied if row.entry.kind.has_messages], [])
        notes = [self.opened(self.ann) for _ in range(3)]
        with mock.patch.multiple("share.sync.numbers", MOST_OF_A_SITE=1_000, LEAST_ROOM_LEFT=100, ANOTHER_SECONDS=0):
            type_at_the_end(notes[0], "x" * 950)
            before = notes[0].session.number
            wait_for(lambda: (type_at_the_end(notes[0], " more "), notes[0].session.number)[1] != before, "another number")
        self.server.kill()
        with mock.patch("share.sync.numbers.GREATEST_SITE", 0):
            # Nobody can claim a number any more.
            notes += [self.opened(self.ann) for _ in range(3)]
        self.assertFalse(any(note.session.can_type for note in notes[-2:]))
        self.assertEqual({note.session.number for note in notes} & self.numbers, set())
        self.assertEqual(self.made_under_them(), copied)

    @of_first_form("nobody can claim a number of what was copied into a note of the second one")
    def test_what_is_left_out_of_them_is_no_own_text(self) -> None:
        note = self.opened(self.ann)
        with mock.patch("share.sync.backoff.OTHERS_SECONDS", 1_000):
            for site in self.numbers:
                take(self.ann, site)
            wait_for(lambda: (note.take_in(), len(note.session.status().left_out) == 2)[1], "it to be told")
            told = {(one["site"], one["own"]) for one in note.session.status().left_out}
            self.assertEqual(told, {(site, False) for site in self.numbers})

    @of_first_form("there are no keys of what was copied into a note of the second one")
    def test_their_keys_are_in_her_file_alone(self) -> None:
        written(self.opened(self.ann), "")
        link = self.ann.link()
        bob = self.opened(self.bob, "new", link=link)
        self.assert_comes_to(bob, TEXT.encode())
        keys = [one.author.secret for one in self.copied(self.ann)]
        self.assertEqual([len(key) for key in keys], [64, 64])
        for name in "note.txt", "note.html":
            self.run_as(self.ann, "export", "note", str(self.folder / name), *(["--format", "html"] if name.endswith("l") else []))
        others = [link.encode(), base64.urlsafe_b64decode(link.rpartition("/")[2].rpartition("#")[2].encode() + b"==="),
                  *self.bytes_in(self.bob.data), *self.bytes_in(self.server.folder), *self.bytes_in(self.folder / "note.txt"),
                  *self.bytes_in(self.folder / "note.html")]
        for key in keys:
            # The seed is the first half of it.
            for spelled in key[:32], key[:32].hex().encode(), base64.b64encode(key[:30]), base64.urlsafe_b64encode(key[:30]):
                self.assertFalse([one for one in others if spelled in one])
            self.assertTrue([one for one in self.bytes_in(self.ann.data) if key in one])
        self.assertEqual([one for one in self.bob_s_numbers() if one.site in self.numbers], [])

    def bob_s_numbers(self) -> list[Client]:
        """The numbers that Bob has in the new note."""
        with contextlib.closing(self.bob.disk("new")) as disk:
            return disk.own.clients()

    @staticmethod
    def bytes_in(path: pathlib.Path) -> list[bytes]:
        """What a file has, or those of a folder."""
        return [one.read_bytes() for one in (path.rglob("*") if path.is_dir() else [path]) if one.is_file()]


if __name__ == "__main__":
    unittest.main()
