"""An engine is killed between any two messages that it exchanges with its editors. They open again, also killed again meanwhile, and each
key is there, once, in order; what was typed before can be taken back."""
import os
import random
import time
import unittest
from collections.abc import Callable

from share.store import notes
from share.tests.killed_engines import NAME, House, Reopening
from share.tests.support import Case
from share.tests.typed_terminal import TypedTerminal
from share.tests.waiting import PATIENCE

# Of so many points each one is tried.
STRIDE = int(os.environ.get("VIALSHOAL_STRIDE", "9"))


class KilledAnywhere(Case):
    """Two editors of a person share an engine, and somebody else has an engine of his own."""

    def setUp(self) -> None:
        super().setUp()
        self.number = 0

    def test_each_key_is_there_once(self) -> None:
        """Whatever an engine was doing as it was killed."""
        last = 1
        while self.goes_through(last):
            last += STRIDE

    def goes_through(self, last: int) -> bool:
        """Does the exchange with an engine that is killed at an event, and the next one at an early one; whether one was."""
        folder = self.folder / f"at-{last}"
        (folder / "shared").mkdir(parents=True)
        own = House(folder / "own", str(folder / "shared" / "note.log"))
        ada = Reopening(own, "A")
        self.houses = [own]
        ada.mirror.edit([(0, 0, "A:\nB:\nC:\n")])
        self.wait(lambda: ada.mirror.answered == ada.mirror.made, ada)
        with own.here():
            other = House(folder / "other", link=notes.link_to(NAME))
        bob, cat = Reopening(own, "B"), Reopening(other, "C")
        self.houses.append(other)
        self.everybody = [ada, bob, cat]
        self.wait(lambda: "C:" in cat.text and cat.mirror.state.get("types"), cat)
        own.kill()
        own.kills = iter([last, 1 + last % 23])
        self.write(*self.everybody)
        self.look_what_came(*self.everybody)
        self.take_back(ada)
        for one in self.everybody:
            one.close()
        own.kill(), other.kill()
        return own.killed > 0

    def write(self, ada: Reopening, bob: Reopening, cat: Reopening) -> None:
        """The exchange."""
        ada.type("a1 ")
        bob.type("b1 ")
        cat.type("c1 ")
        ada.look(), bob.look()
        ada.type("a2 ")
        self.wait(lambda: "c1 " in ada.text and "b1 " in ada.text, *self.everybody)
        cat.type("c2 c3 ", at_once=True)
        ada.rewrite("a1 ", "a9 ")
        ada.type("a3 ")
        bob.type("b2 ")
        self.wait(lambda: "c3 " in bob.text and "b2 " in ada.text, *self.everybody)
        ada.type_first("a4 ")
        cut = ada.was_cut
        self.wait(lambda: "a4 " in bob.text, *self.everybody)
        if ada.was_cut == cut:
            # Else it would be what was typed meanwhile.
            ada.ask("undo")
        ada.type("a5 ")

    def look_what_came(self, ada: Reopening, bob: Reopening, cat: Reopening) -> None:
        """Compares what all show with what they typed."""
        self.wait(lambda: all(one.mirror.answered == one.mirror.made for one in self.everybody) and ada.text == bob.text == cat.text,
                  *self.everybody)
        self.assertEqual((ada.unmade, bob.unmade), ([], []))
        for one, words in (ada, ["a9", "a2", "a3", "a5"]), (bob, ["b1", "b2"]), (cat, ["c1", "c2", "c3"]):
            there = one.own().split()
            meanwhile = [f"{one.of}x{number + 1}" for number in range(one.was_cut)]
            self.assertEqual([word for word in there if word in words], words, there)
            self.assertEqual([word for word in there if word in meanwhile], meanwhile, there)
            # Whether the engine had taken that back as it was killed nobody knows.
            self.assertEqual({*there} - {*words, *meanwhile} - {"a4"}, set(), there)

    def take_back(self, ada: Reopening) -> None:
        """Takes back all that an editor typed, step by step; what others typed stays."""
        others = [word for line in ada.text.split("\n") if line[:2] in ("B:", "C:") for word in line[2:].split()]
        shown = [ada.text]
        while (answer := ada.ask("undo")) is None or answer["done"]:
            shown.append(ada.text)
        self.assertEqual(ada.text.split(), others, shown)
        self.assertGreater(len(shown), 3)

    def wait(self, condition: Callable[[], object], *everybody: Reopening) -> None:
        """Waits until something is so, and has editors take in what comes."""
        end = time.monotonic() + PATIENCE
        while not condition():
            if time.monotonic() > end:
                raise AssertionError([(one.of, one.text, one.mirror.made, one.mirror.answered, one.lines[-3:]) for one in everybody])
            for one in everybody:
                one.look()


class KilledWhileTyping(Case):
    """Somebody types in the terminal."""

    def test_each_key_is_there_once(self) -> None:
        """Also of those that were typed while no engine was there; and a fault is seen."""
        for plant in "", "drop":
            with self.subTest(plant=plant):
                terminal = TypedTerminal(self, f"data{plant}", random.Random(5))
                terminal.type_and_kill(2 if plant else 10, plant)
                self.assertEqual(terminal.quit() == terminal.typed, not plant)


if __name__ == "__main__":
    unittest.main()
