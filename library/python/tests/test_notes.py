"""Notes: what counts of entries is shown, whatever order they come in, and own edits are said by entries.

  VIALSHOAL_LIBRARY=library/out/libvialshoal.so python3 -m unittest discover library/python/tests
"""
from __future__ import annotations

import copy
import hashlib
import hmac
import random
import unittest
from collections.abc import Callable, Iterable
from dataclasses import replace
from typing import Any, AnyStr
from unittest import mock

from vialshoal import _library
from vialshoal import Change, ChangeKind, Entry, Looks, Misused, Name, NameRange, Note, NoteText, Refused, Text

KEY, ANN, BOB = b"k" * 32, b"A" * 32, b"B" * 32
RANK = b"r" * 32
AUTHORS = {1: ANN, 2: BOB}
PIECES = ("a", "bc", "word ", "\n", "\xe9", "\u20ac", "\U0001f600")
INSERT, DELETE = ChangeKind.INSERT, ChangeKind.DELETE


def opened(site: int) -> Note:
    """A note that Ann founded as site 1, where Bob has claimed 2."""
    note = Note(site=site, key=KEY, founder=ANN, number=1)
    note.claim(BOB, 2, RANK)
    note.update()
    return note


def give(entries: Iterable[Entry], *notes: Note) -> None:
    """Hands entries to notes, which show what counts then."""
    for note in notes:
        for entry in entries:
            note.add(entry)
        note.update()


def refused(call: Callable[..., int], turn: int, is_done: bool) -> Callable[..., int]:
    """This call of the library, to which memory is refused at one turn: before it does anything, or once it has."""
    turns = iter(range(1, 100))

    def called(*words: object) -> int:
        is_refused = next(turns) == turn
        number = 0 if is_refused and not is_done else call(*words)
        return 7 if is_refused else number
    return called


class Followed:
    """What is shown by what was told of changes."""

    def __init__(self, text: NoteText[AnyStr]) -> None:
        self.text: Any = text
        self.shown: list[Any] = []

    def is_right(self) -> bool:
        for change in self.text.changes():
            if change.kind is DELETE:
                del self.shown[change.beg:change.end]
            elif change.kind is INSERT:
                # (what is there by now is compared in the end)
                self.shown[change.beg:change.beg] = [None] * (change.end - change.beg)
        return len(self.shown) == len(self.text)


def edit(rng: random.Random, text: NoteText[str]) -> None:
    """Some edit that fits."""
    beg, end = sorted(rng.randint(0, len(text)) for _ in range(2))
    what = rng.randrange(6)
    if what == 0:
        text.delete(beg, min(end, beg + 5))
    elif what == 1:
        text.change_looks(beg, end, colour=rng.randrange(16))
    elif what == 2 and len(text):
        names = text.name_ranges(0, min(3, len(text)))
        text.delete_names(names)
        if rng.randrange(2):
            text.restore_names(names)
    else:
        text.insert(beg, rng.choice(PIECES))


class Notes(unittest.TestCase):
    def test_they_meet(self) -> None:
        with opened(1) as ann, opened(2) as bob:
            ours, theirs = ann.text(), bob.text(units="code points")
            ours.insert(0, b"Oberon")
            entries = ann.say(ANN)
            [entry] = entries
            head = entry.head
            self.assertEqual((head.author, head.before, head.first, head.count, head.site, head.text), (ANN, bytes(32), 1, 1, 1, 1))
            self.assertEqual(ann.say(ANN), [])
            give(entries, bob)
            theirs.insert(6, "\xe9!")
            said = bob.say(BOB)
            give(said + entries + said, ann)
            self.assertEqual((bytes(ours), str(theirs), len(theirs)), ("Oberon\xe9!".encode(), "Oberon\xe9!", 8))
            self.assertEqual(ours.changes(), [Change(INSERT, 0, 6), Change(INSERT, 6, 9)])
            self.assertEqual(theirs.changes(), [Change(INSERT, 0, 8)])
            self.assertEqual((ours.fronts(), ours.front(2), ours.front(3)), ({1: 1, 2: 1}, 1, 0))
            self.assertEqual((ours.names(5, 7), theirs[6:], b"eron" in ours), ([Name(1, 5), Name(2, 0)], "\xe9!", True))
            with ours.past({1: 1}) as past, theirs.past({1: 1}) as other:
                self.assertEqual((bytes(past), str(other), len(other)), (b"Oberon", "Oberon", 6))
            anchor = theirs.anchor(6)
            ours.delete(0, 2)
            ours.delete_names([NameRange(1, 3, 1)])
            give(ann.say(ANN), bob)
            self.assertEqual((str(theirs), theirs.position(anchor), repr(theirs)), ("eon\xe9!", 3, "<NoteText 1 of site 2: 'eon\xe9!'>"))

    def test_what_is_put_in_has_looks(self) -> None:
        with opened(1) as ann, opened(2) as bob:
            text = ann.text(units="code points")
            text.insert(0, "ab")
            text.insert(1, "\u20ac!", Looks("Syntax10.Scn.Fnt", 3, -2))
            give(ann.say(ANN), bob)
            self.assertEqual((str(text), bytes(bob.text()).decode()), ("a\u20ac!b", "a\u20ac!b"))
            for one in text, bob.text(units="code points"):
                runs = [(run.beg, run.end, run.looks) for run in one.runs()]
                self.assertEqual(runs, [(0, 1, Looks()), (1, 3, Looks("Syntax10.Scn.Fnt", 3, -2)), (3, 4, Looks())])
            wrong: Any = "Syntax10.Scn.Fnt"
            for looks, error in (Looks("1.Fnt"), Misused), (Looks(colour=16), Misused), (wrong, TypeError):
                self.assertRaises(error, text.insert, 0, "x", looks)
            self.assertEqual((str(text), ann.say(ANN)), ("a\u20ac!b", []))

    def test_texts_are_apart(self) -> None:
        with opened(1) as ann, opened(2) as bob:
            for number in (1, 2, 16):
                ann.text(number).insert(0, b"%d" % number)
            entries = ann.say(ANN)
            self.assertEqual([entry.head.text for entry in entries], [1, 2, 16])
            give(reversed(entries), bob)
            self.assertEqual([bytes(bob.text(number)) for number in (1, 2, 3, 16)], [b"1", b"2", b"", b"16"])

    def test_what_is_not_said_is_taken_back(self) -> None:
        with opened(1) as ann:
            text = ann.text()
            text.insert(0, b"said")
            ann.say(ANN)
            text.insert(0, b"not ")
            self.assertEqual(bytes(text), b"not said")
            ann.update()
            self.assertEqual(bytes(text), b"said")

    def test_what_memory_was_refused_to_is_said_by_the_next_call(self) -> None:
        for library, name, turn in ((_library.calls, "add", 1), (_library.calls, "add", 2), (_library.long_calls, "update", 1)):
            for is_done in False, True:
                for is_updated in False, True:
                    with self.subTest(name, turn=turn, is_done=is_done, is_updated=is_updated), opened(1) as ann, opened(2) as bob:
                        call = f"vialshoal_note_{name}"
                        ann.text(1).insert(0, b"one")
                        ann.text(2).insert(0, b"two")
                        with mock.patch.object(library, call, refused(getattr(library, call), turn, is_done)):
                            with self.assertRaises(Refused) as caught:
                                ann.say(ANN)
                        self.assertEqual(caught.exception.number, 7)
                        if is_updated:
                            ann.update()
                        ann.text(1).insert(3, b"!")
                        give(ann.say(ANN), bob)
                        for one in ann, bob:
                            self.assertEqual([bytes(one.text(number)) for number in (1, 2)], [b"one!", b"two"])
                        self.assertEqual(ann.say(ANN), [])

    def test_others_wait_for_what_they_build_on(self) -> None:
        with opened(1) as ann, opened(2) as bob, opened(2) as other:
            ann.text().insert(0, b"a")
            first = ann.say(ANN)
            give(first, bob)
            bob.text().insert(1, b"b")
            second = bob.say(BOB)
            give(second, other)
            self.assertEqual(bytes(other.text()), b"")
            give(first, other)
            self.assertEqual(bytes(other.text()), b"ab")

    def test_changes_are_told_to_one(self) -> None:
        with opened(1) as ann:
            points, seen = ann.text(units="code points"), ann.text()
            for wrong in (lambda: ann.text(units="code points"), seen.changes):
                self.assertRaisesRegex(ValueError, "another NoteText is told the changes of text 1", wrong)
            points.insert(0, "\u20acuro")
            points.insert(1, "!")
            # What only reads bytes may be there, too.
            self.assertEqual((str(points), bytes(seen)), ("\u20ac!uro", "\u20ac!uro".encode()))
            other = ann.text(2)
            self.assertEqual(other.changes(), [])
            self.assertRaises(ValueError, ann.text, 2, units="code points")
            other.insert(0, b"x")
            self.assertEqual(other.changes(), [Change(INSERT, 0, 1)])

    def test_forks(self) -> None:
        """A number that was used twice: all who have both show the same one, and say that the text was begun anew."""
        shown = set()
        for letters in (b"one", b"two"), (b"two", b"one"):
            with opened(1) as here, opened(1) as there, opened(2) as bob:
                said = []
                for note, word in zip((here, there), letters):
                    note.text().insert(0, word)
                    said.append(note.say(ANN))
                texts: list[NoteText[Any]] = [here.text(), there.text(units="code points"), bob.text()]
                followed = [Followed(text) for text in texts]
                self.assertTrue(all(one.is_right() for one in followed))
                give(said[0] + said[1], here, there, bob)
                self.assertTrue(all(one.is_right() for one in followed))
                self.assertEqual(len({bytes(text) for text in texts}), 1)
                shown.add(bytes(texts[0]))
        self.assertEqual(len(shown), 1)

    def test_base(self) -> None:
        with Text(1, site=5) as text:
            messages = text.insert(0, b"copied") + text.delete(0, 2)
            base_key, root = b"b" * 32, bytes(32)
            for message in messages:
                root = hmac.digest(base_key, root + message, hashlib.sha256)
            base = text.pack()
        with Note(site=1, key=KEY, founder=ANN, number=1, base=base, base_key=base_key, root=root) as note:
            note.update()
            self.assertEqual((bytes(note.text()), note.text().fronts()), (b"pied", {5: 2}))
            note.text().insert(4, b"!")
            self.assertEqual((len(note.say(ANN)), bytes(note.text())), (1, b"pied!"))
        wrongs: list[tuple[list[bytes], bytes]] = [([], root), (base, bytes(32)), ([b"none"], root), ([base[0][:-1]], root)]
        for wrong, its_root in wrongs:
            with self.assertRaises(Refused) as caught:
                Note(site=1, key=KEY, founder=ANN, base=wrong, base_key=base_key, root=its_root)
            self.assertEqual(caught.exception.number, 1)

    def test_at_random(self) -> None:
        for seed in range(60):
            rng = random.Random(seed)
            people = {site: opened(site) for site in AUTHORS}
            texts = {site: [note.text(number, units="code points") for number in (1, 2)] for site, note in people.items()}
            followed = [Followed(text) for both in texts.values() for text in both]
            made: list[Entry] = []
            for _ in range(40):
                site = rng.choice([*people])
                if rng.randrange(3):
                    edit(rng, rng.choice(texts[site]))
                    continue
                before = [str(text) for text in texts[site]]
                made += people[site].say(AUTHORS[site])
                self.assertEqual([str(text) for text in texts[site]], before)
                give(rng.choices(made, k=len(made) // 2), people[site])
                self.assertTrue(all(one.is_right() for one in followed))
            for site, note in people.items():
                made += note.say(AUTHORS[site])
            for note in people.values():
                give(rng.sample(made, len(made)), note)
            reader = opened(3)
            give(rng.sample(made, len(made)), reader)
            for number in (1, 2):
                mine, others, read = (note.text(number) for note in (*people.values(), reader))
                self.assertEqual((bytes(mine), mine.runs()), (bytes(others), others.runs()), seed)
                self.assertEqual((bytes(mine), mine.runs()), (bytes(read), read.runs()), seed)
            self.assertTrue(all(one.is_right() for one in followed))

    def test_misuse(self) -> None:
        note = opened(1)
        text: Any = note.text()
        text.insert(0, b"x")
        [entry] = note.say(ANN)
        adds: Any = note.add
        points: Any = note.text(2, units="code points")
        for wrong in (lambda: note.text(0), lambda: note.text(17), lambda: text.insert(2, b"x"), lambda: text.delete(1, 0),
                      lambda: text.change_looks(0, 1), lambda: text.delete_names([NameRange(9, 0, 1)]), lambda: note.claim(BOB, 0, RANK),
                      lambda: Note(site=0, key=KEY, founder=ANN), lambda: note.add(replace(entry, head=replace(entry.head, text=0)))):
            self.assertRaises(Misused, wrong)
        for short in (lambda: Note(site=1, key=b"k", founder=ANN), lambda: note.say(b""), lambda: note.claim(BOB, 2, b"")):
            self.assertRaises(ValueError, short)
        for untyped in (lambda: text.insert(0, "x"), lambda: adds(entry.body), lambda: points.insert(0, b"x"),
                        lambda: copy.copy(note), lambda: copy.copy(text)):
            self.assertRaises(TypeError, untyped)
        for body in (b"", entry.body[:-1], entry.body + b"x"):
            with self.assertRaises(Refused) as caught:
                note.add(replace(entry, body=body))
            self.assertEqual(caught.exception.number, 1)
        self.assertEqual(bytes(text), b"x")
        note.close()
        note.close()
        for closed in (note.update, lambda: len(text), lambda: text.insert(0, b"x"), lambda: note.say(ANN), text.changes):
            with self.assertRaises(Misused) as misused:
                closed()
            self.assertEqual(misused.exception.number, 101)
        self.assertEqual((repr(note), repr(text)), ("<Note of site 1, closed>", "<NoteText 1 of site 1, closed>"))


if __name__ == "__main__":
    unittest.main()
