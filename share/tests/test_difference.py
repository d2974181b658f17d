"""What differs between two texts of which the later one was begun anew: each character that both have stays, whatever else counts."""
import contextlib
import random
import unittest
from unittest import mock

from share.admission.judge import Judge
from share.format.entry import Entry, Plain
from share.format.history import Messages
from share.format.operation import Operation
from share.program.difference import Shown, differences, shown_by
from share.program.site import Site
from share.sync.hiding import Hider
from share.tests.support import Carried, Case, wait_for, written
from share.text.errors import Trouble
from share.text.names import Name, Names

SITES = (1, 2, 3)


class Histories(unittest.TestCase):
    """People who type at a note, and one of whom types in another way from somewhere on."""

    def setUp(self) -> None:
        self.form, self.chance = Plain(bytes(16)), random.Random(5)

    def written(self, people: list[Carried], many: int) -> list[Entry]:
        """What people make who see what the others did."""
        entries = [entry for one in people for entry in one.made]
        for _ in range(many):
            one = self.chance.choice(people)
            one.coming = entries
            one.arrived()
            text = one.text()
            place = self.chance.randint(0, len(text))
            if text and self.chance.random() < 0.2:
                one.cut(max(0, place - 2), max(1, place))
            else:
                one.insert(place, bytes(self.chance.choices(b"abc", k=self.chance.randint(1, 5))))
            entries = entries + one.made[-1:]
        return entries

    def shown(self, judge: Judge) -> tuple[Shown, dict[Name, Operation]]:
        """What is shown, and the message that inserted each character."""
        with contextlib.closing(Site(9, judge.let_through_in_order())) as site:
            found = shown_by(site)
        typed: dict[Name, Operation] = {}
        for message in found.messages:
            of = message.new
            typed |= {(of.site, of.at + at): message for at in range(of.length)} if of else {}
        return found, typed

    def both(self) -> tuple[Judge, Judge]:
        """The note before and after one of the people has written otherwise from somewhere on, where that holds."""
        while True:
            people = [Carried(self.form, number) for number in SITES]
            entries = self.written(people, 30)
            one = people[0]
            kept = one.made[:self.chance.randint(1, len(one.made))]
            other = Carried(self.form, one.number)
            other.author, other.made, other.judge = one.author, kept, Judge(entry for entry in entries if entry not in one.made)
            for entry in kept:
                other.judge.add(entry)
            other.site.take(other.judge.count().messages)
            before, after = Judge(entries), Judge(entries)
            for entry in self.written([other], 10):
                after.add(entry)
            for each in (*people, other):
                each.close()
            if before.let_through_in_order() != after.let_through_in_order():
                return before, after

    def test_what_is_in_both_stays(self) -> None:
        for _ in range(15):
            (was, typed_before), (now, typed_now) = map(self.shown, self.both())
            changes = differences(was, now)
            assert changes is not None
            self.assertEqual(len(was.text) - sum(one.end - one.begin for one in changes),
                             len(self.same(was.names, typed_before) & self.same(now.names, typed_now)))

    @staticmethod
    def same(names: list[Names], typed: dict[Name, Operation]) -> set[tuple[Name, Operation]]:
        """The characters that are shown, each with the message that inserted it."""
        return {(name, typed[name]) for one in names for name in ((one.site, one.at + at) for at in range(one.length))}

    def test_what_is_in_no_entry_yet_comes_anew(self) -> None:
        with contextlib.closing(Site(1)) as site:
            was = shown_by(site)
            site.insert(0, b"typed")
            now = shown_by(site)
            self.assertEqual([(one.begin, one.end, one.new) for one in differences(was, now) or ()], [(0, 0, b"typed")])
            self.assertEqual([(one.begin, one.end, one.new) for one in differences(now, now) or ()], [(0, 5, b"typed")])
        self.assertEqual(differences(was, was._replace(messages=Messages())), [])


class Behind(Case):
    """What came is taken in, and before it is told something fails."""

    def test_what_differs_is_told_by_names(self) -> None:
        first, second = self.together(self.file_log(), "anna", "berta")
        written(first, "one two three four five ")
        self.assert_meet(first, second)
        for place, words in (4, "more "), (18, "and "):
            second.moved_to(place)
            second.type(words)
        session, before = first.session, bytes(first.text)
        with contextlib.closing(self.person("anna").disk()) as disk, contextlib.closing(self.person("berta").disk()) as other:
            wait_for(lambda: disk.entries.size() == other.entries.size(), "all to come")
        with mock.patch.object(Hider, "hide", side_effect=Trouble("It fails.")), self.assertRaises(Trouble):
            session.arrived()
        changes = session.differing(before, session.text())
        self.assertEqual([(one.begin, one.end, one.new) for one in changes], [(4, 4, b"more "), (18, 18, b"and ")])


if __name__ == "__main__":
    unittest.main()
