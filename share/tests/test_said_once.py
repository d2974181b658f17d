"""A remark, a suggestion or a reply that is under way as an engine ends is there once, whatever the engine was doing: its editor asks for
it again by the same number."""
import os
import random
from unittest import mock

from share.sync.edits import OwnEdits
from share.tests.journaled import Journaled, OneEditor
from share.tests.proved_files import give_up
from share.tests.test_dying import Death, Dies
from share.tests.test_reopening import unkept
from share.text.line import Line

REQUESTS: dict[str, Line] = {"remark": {"begin": 0, "end": 4, "body": "said"}, "suggest": {"begin": 0, "end": 4, "new": "said"},
                             "reply": {"body": "said"}}
# The number that the editor gives to the request.
ONCE = 7


class SaidOnce(Journaled):
    """An editor that asks for something while its engine is killed, and asks the next engine again."""

    def setUp(self) -> None:
        super().setUp()
        form = mock.patch.dict(os.environ, VIALSHOAL_FORM="2", VIALSHOAL_ZERO_BITS="0")
        form.start()
        self.addCleanup(form.stop)
        here = self.person().here()
        here.__enter__()
        self.addCleanup(here.__exit__, None, None, None)

    def test_what_is_asked_for_is_there_once(self) -> None:
        for what in REQUESTS:
            last = 1
            while self.killed(what, last):
                last += 1
            self.assertGreater(last, 5)

    def killed(self, what: str, last: int) -> bool:
        """Ask for something, have the engine killed at an event, and ask again; whether it was killed."""
        self.folder = self.folder / f"{what}{last}"
        self.folder.mkdir()
        self.addCleanup(give_up, self.folder)
        self.path = self.folder / "note.editors"
        with self.person().here():
            self.begins()
            dies = Dies(random.Random(last))
            with dies.everywhere():
                dies.left = last
                is_killed = self.asks(what)
                dies.left = 0
            self.bury()
            for _ in range(2):
                self.comes_again(what)
                self.assertEqual(self.said(), ["said"], (what, last))
                self.bury()
        return is_killed

    def begins(self) -> None:
        """Have an editor type something, and remark on it."""
        self.one = OneEditor(self.engine(), self.name)
        self.one.open()
        self.one.ask("edit", version=0, edits=1, changes=[[0, 0, "some words"]])
        self.thread = self.one.ask("remark", version=0, begin=5, end=10, body="first", once=1)["thread"]

    def asks(self, what: str) -> bool:
        """Ask for something; whether the engine was killed meanwhile."""
        try:
            answer = self.one.ask(what, version=0, to=self.thread, once=ONCE, **REQUESTS[what])
        except Death:
            return True
        self.assertNotIn("error", answer)
        return False

    def bury(self) -> None:
        """Leave the engine as if it had been killed."""
        said = self.path.read_bytes()
        self.one.engine.close()
        self.path.write_bytes(said)

    def comes_again(self, what: str) -> None:
        """Open the note again, and ask again."""
        self.one = OneEditor(self.engine(), self.name)
        self.assertNotIn("text", self.one.again(0, 1, "some words"))
        self.assertFalse(self.asks(what))

    def said(self) -> list[str]:
        """What was said, but for what was said first."""
        threads = self.one.ask("remarks", version=self.one.lines[-1].get("version", 0))["threads"]
        words = [one.get("new") or one["body"] for one in threads] + [one["body"] for each in threads for one in each.get("replies", ())]
        return [one for one in words if one != "first"]

    def test_what_could_not_be_kept_is_asked_for_again(self) -> None:
        self.begins()
        with mock.patch.object(OwnEdits, "keep", unkept):
            self.assertEqual(self.one.ask("remark", version=0, once=ONCE, **REQUESTS["remark"])["error"], "unkept")
        self.assertEqual(self.said(), [])
        self.assertFalse(self.asks("remark"))
        self.assertEqual(self.said(), ["said"])
        self.bury()
        self.comes_again("remark")
        self.assertEqual(self.said(), ["said"])
        self.one.engine.close()

    def test_another_number_is_another_request(self) -> None:
        self.begins()
        for number in 7, 8, 8, 7:
            self.one.ask("remark", version=0, once=number, **REQUESTS["remark"])
        self.assertEqual(self.said(), ["said", "said"])
        self.one.engine.close()
