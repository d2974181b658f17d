"""Reviews of several people by engines that are processes of their own: what is remarked, suggested, accepted and taken back at once
while nobody reaches the log, and what is there after an engine was killed amid a suggestion or its acceptance."""
import contextlib
import json
import os
import signal
import unittest
from collections.abc import Callable, Iterator
from typing import Any

from share.tests.editors import Editor, Engines
from share.tests.servers import FileLog
from share.tests.support import TOP, python, wait_for
from share.tests.test_review import second_form
from share.text.line import Line

TEXT = "one two three four\n"
# With what the body begins of what is written for others to see that all before it has come.
MARK = "mark "
# An engine that stops for good as it keeps an edit, once a file says so. It counts before and after each edit that it keeps, and stops
# when it has counted as far as the second argument. Then another file says that it has stopped.
STOPS = f"""
import os, sys, time
sys.path[0] = {str(TOP)!r}
from share.store.note_file import Disk
keep, armed, left = Disk.keep, sys.argv.pop(1), int(sys.argv.pop(1))
def comes_by():
    global left
    if os.path.exists(armed):
        left -= 1
        if left < 0:
            os.rename(armed, armed + ".stopped")
            while True:
                time.sleep(60)
def keeps(disk, entries, made, **more):
    # Only edits say this: a number that is claimed or given up, or a fold, may be kept at any time.
    is_edit = made and "is_seen" in more
    if is_edit:
        comes_by()
    kept = keep(disk, entries, made, **more)
    if is_edit:
        comes_by()
    return kept
Disk.keep = keeps
from share.cli.main import main
sys.exit(main())
"""


class ReviewEngines(Engines):
    """People with an engine each, of a note that the first one founded, and a log that may go away."""

    def setUp(self) -> None:
        second_form(self)
        super().setUp()
        self.log = FileLog(self.folder)
        self._marked = 0

    def people(self, *names: str, text: str = TEXT) -> list[Editor]:
        """An editor of each; they count in different units."""
        first = self.editor(names[0], log=self.log.url)
        first.gets_number()
        first.edit((0, 0, text))
        first.settle()
        link = self.person(names[0]).link()
        some = [first, *(self.editor(name, link=link, units=units) for name, units in zip(names[1:], ("utf-8", "utf-32")))]
        for one in some:
            one.gets_number()
        self.meet(*some)
        return some

    def ask(self, one: Editor, what: str, **more: Any) -> Line:
        """What a request about the text of now is answered."""
        one.settle()
        return one.ask(what, version=one.mirror.version, **more)

    def does(self, one: Editor, what: str, **more: Any) -> Line:
        """The same, of a request that is done."""
        answer = self.ask(one, what, **more)
        self.assertNotIn("error", answer)
        return answer

    @staticmethod
    def on(one: Editor, words: str) -> Line:
        """The stretch of some words."""
        begin, units = one.text.index(words), one.mirror.units
        places = (units.count(units.encode(one.text[:at])) for at in (begin, begin + len(words)))
        return dict(zip(("begin", "end"), places))

    def remark(self, one: Editor, words: str, body: str = "why?") -> str:
        """Remarks on some words; the thread."""
        return str(self.does(one, "remark", **self.on(one, words), body=body)["thread"])

    def suggest(self, one: Editor, words: str, new: str) -> str:
        """Suggests other words for some; the thread."""
        return str(self.does(one, "suggest", **self.on(one, words), new=new)["thread"])

    def types(self, one: Editor, words: str, new: str) -> None:
        """Replaces some words, of which those that both have at their begin and end stay."""
        begin = len(os.path.commonprefix([words, new]))
        end = len(os.path.commonprefix([words[begin:][::-1], new[begin:][::-1]]))
        at, units = one.text.index(words), one.mirror.units
        first, last = (units.count(units.encode(one.text[:place])) for place in (at + begin, at + len(words) - end))
        one.edit((first, last, new[begin:len(new) - end]))
        one.settle()

    def threads(self, one: Editor) -> list[Line]:
        """The threads that an editor has, as all have them: with the text that each is shown at, and without whose it is."""
        return [self.plain(one, thread) for thread in self.all_threads(one) if not thread.get("body", "").startswith(MARK)]

    def all_threads(self, one: Editor) -> list[Line]:
        """The same, as they are told."""
        found: list[Line] = self.does(one, "remarks")["threads"]
        return found

    @staticmethod
    def plain(one: Editor, thread: Line) -> Line:
        """A thread as all have it."""
        units, data = one.mirror.units, one.mirror.units.encode(one.text)
        told = {name: value for name, value in thread.items() if name not in ("own", "begin", "end", "replies")}
        if "begin" in thread:
            before, found = (units.decode(data[units.size * begin:units.size * thread[end]]) for begin, end in (
                (0, "begin"), (thread["begin"], "end")))
            told |= {"after": before, "passage": found}
        return told | {"replies": [{name: value for name, value in reply.items() if name != "own"} for reply in thread.get("replies", [])]}

    def one(self, editor: Editor) -> Line:
        """The only thread."""
        (found,) = self.threads(editor)
        return found

    def messages(self, one: Editor) -> int:
        """How many messages of the text an editor's engine has."""
        return int(self.does(one, "history", most=0)["length"])

    def meet(self, *some: Editor, messages: int | None = None) -> str:
        """Waits until all have what all have written before, where that is told so many messages; the text."""
        wanted = set[str]()
        for one in some:
            self._marked += 1
            wanted.add(body := f"{MARK}{self._marked}")
            self.does(one, "remark", begin=0, end=0, body=body)

        def are_alike() -> bool:
            # What this is answered was sent after all that is shown before.
            found = {self.messages(one) for one in some}
            if len(found) > 1 or messages not in (None, *found) or len({one.text for one in some}) > 1:
                return False
            if not all(wanted <= {thread.get("body") for thread in self.all_threads(one)} for one in some):
                return False
            return len({json.dumps(self.threads(one), sort_keys=True) for one in some}) == 1

        wait_for(are_alike, "all to have the same")
        return some[0].text

    @contextlib.contextmanager
    def apart(self, *some: Editor) -> Iterator[None]:
        """Nobody reaches the log meanwhile; then all have what all have written."""
        before = self.messages(some[0])
        self.log.kill()
        for one in some:
            one.wait_for(lambda one=one: one.state.get("log") == "away", "the log to be missed")
        yield
        made = [self.messages(one) - before for one in some]
        self.log.start()
        self.meet(*some, messages=before + sum(made))


class Apart(ReviewEngines):
    """What several do while nobody reaches the log."""

    def test_a_stretch_that_another_edits(self) -> None:
        ann, bob = self.people("ann", "bob")
        self.remark(ann, "two three", "why?")
        self.meet(ann, bob)
        with self.apart(ann, bob):
            self.types(bob, "e two", "e t🍰o")
            self.types(bob, "three f", "threw f")
            self.types(bob, "o t", "o and t")
            self.types(ann, "one ", "one, ")
            self.types(ann, " four", ": four")
        self.assertEqual(ann.text, "one, t🍰o and threw: four\n")
        for one in ann, bob:
            self.assertEqual([self.one(one)[name] for name in ("passage", "text")], ["t🍰o and thre", "two three"])

    def test_its_deletion_and_what_takes_that_back(self) -> None:
        ann, bob = self.people("ann", "bob")
        self.remark(ann, "two three", "why?")
        self.meet(ann, bob)
        with self.apart(ann, bob):
            self.types(bob, "two three ", "")
            # It comes to stand beside what is gone.
            self.types(ann, "two", "2, two")
            self.types(ann, "four", "more four")
        self.assertEqual(ann.text, "one 2, more four\n")
        for one in ann, bob:
            self.assertEqual([self.one(one).get(name) for name in ("gone", "passage", "after", "text")], [True, "", "one 2, ", "two three"])
        ann.kill()
        ann = self.editor("ann")
        self.assertEqual(self.one(ann)["gone"], True)
        with self.apart(ann, bob):
            self.assertTrue(self.does(bob, "undo")["done"])
            self.does(ann, "reply", to=self.one(ann)["id"], body="where is it?")
        self.assertEqual(ann.text, "one 2, two three more four\n")
        for one in ann, bob:
            thread = self.one(one)
            self.assertEqual((thread["passage"], "gone" in thread, [reply["body"] for reply in thread["replies"]]),
                             ("two three", False, ["where is it?"]))

    def test_accepted_by_both(self) -> None:
        ann, bob, cy = self.people("ann", "bob", "cy")
        thread = self.suggest(cy, "two", "2 and 🍰")
        self.meet(ann, bob, cy)
        with self.apart(ann, bob, cy):
            for one in ann, bob:
                self.assertTrue(self.does(one, "accept", to=thread)["done"])
                self.assertEqual(one.text, "one 2 and 🍰 three four\n")
            self.types(cy, "two", "to, too")
        self.assertEqual(ann.text, "one o, to2 and 🍰 three four\n")
        for one in ann, bob, cy:
            self.assertEqual(self.one(one)["state"], "accepted")

    def test_accepted_by_one_and_rejected_by_another(self) -> None:
        ann, bob = self.people("ann", "bob")
        thread = self.suggest(ann, "two", "2")
        self.meet(ann, bob)
        with self.apart(ann, bob):
            self.does(ann, "accept", to=thread)
            self.does(bob, "reject", to=thread)
            self.assertEqual([self.one(one)["state"] for one in (ann, bob)], ["accepted", "rejected"])
        for one in ann, bob:
            self.assertEqual((one.text, self.one(one)["state"], self.one(one)["passage"]), ("one 2 three four\n", "accepted", "2"))
        with self.apart(ann, bob):
            self.assertTrue(self.does(ann, "undo")["done"])
        for one in ann, bob:
            self.assertEqual((one.text, self.one(one)["state"], self.one(one)["passage"]), (TEXT, "rejected", "two"))

    def test_an_acceptance_that_is_taken_back_before_another_s_rejection_comes(self) -> None:
        ann, bob = self.people("ann", "bob")
        thread = self.suggest(ann, "two", "2")
        self.meet(ann, bob)
        with self.apart(ann, bob):
            self.does(bob, "reject", to=thread)
            self.does(ann, "accept", to=thread)
            self.assertTrue(self.does(ann, "undo")["done"])
            self.assertEqual([self.one(one)["state"] for one in (ann, bob)], ["open", "rejected"])
        for one in ann, bob:
            self.assertEqual((one.text, self.one(one)["state"]), (TEXT, "rejected"))
        with self.apart(ann, bob):
            self.assertTrue(self.does(ann, "redo")["done"])
        for one in ann, bob:
            self.assertEqual((one.text, self.one(one)["state"]), ("one 2 three four\n", "accepted"))

    def test_an_acceptance_that_is_taken_back_by_one_of_two(self) -> None:
        ann, bob = self.people("ann", "bob")
        thread = self.suggest(bob, "two three", "2 3")
        self.meet(ann, bob)
        with self.apart(ann, bob):
            for one in ann, bob:
                self.does(one, "accept", to=thread)
        with self.apart(ann, bob):
            self.assertTrue(self.does(bob, "undo")["done"])
            self.types(ann, "2 3", "2, 3")
        # The replacement stood inside the passage, and so did what was typed into it.
        self.assertEqual(ann.text, "one two ,three four\n")
        for one in ann, bob:
            self.assertEqual([self.one(one).get(name) for name in ("state", "passage", "changed")], ["open", "two ,three", True])

    def test_ones_that_overlap_accepted_at_once(self) -> None:
        ann, bob = self.people("ann", "bob")
        threads = [self.suggest(ann, "one two", "1 2"), self.suggest(bob, "two three", "2 3")]
        self.meet(ann, bob)
        with self.apart(ann, bob):
            for one, thread in zip((ann, bob), threads):
                self.assertTrue(self.does(one, "accept", to=thread)["done"])
        text = ann.text
        self.assertEqual((text.count("1 2"), text.count("2 3"), len(text)), (1, 1, len("1 22 3 four\n")))
        for one in ann, bob:
            self.assertEqual([thread["state"] for thread in self.threads(one)], ["accepted"] * 2)
        with self.apart(ann, bob):
            self.assertTrue(self.does(ann, "undo")["done"])
        self.assertIn("one", ann.text)
        self.assertEqual((ann.text.count("2 3"), "1 2" in ann.text), (1, False))
        for one in ann, bob:
            self.assertEqual({thread["id"]: thread["state"] for thread in self.threads(one)}, dict(zip(threads, ("open", "accepted"))))

    def test_both_remark_reply_suggest_and_edit(self) -> None:
        ann, bob = self.people("ann", "bob", text="tea\njam and hon\u00e9y\n🍰 two three\n")
        common = self.remark(ann, "jam", "which?")
        self.meet(ann, bob)
        with self.apart(ann, bob):
            for one, name in (ann, "ann"), (bob, "bob"):
                self.does(one, "reply", to=common, body=f"fig, says {name}")
                self.remark(one, "jam and hon\u00e9y", f"dear, says {name}\nand sweet")
                self.does(one, "reply", to=self.remark(one, "🍰", name), body=name)
            self.suggest(ann, "two three", "2 \u00e9\n3")
            self.suggest(bob, "three", "")
            self.does(bob, "remark", begin=0, end=0, body="a title?")
            self.does(ann, "resolve", to=common)
            self.types(ann, "jam and", "jam, and")
            self.types(bob, "\u00e9y\n🍰", "\u00e9ys\n- 🍰")
            self.types(bob, "tea\n", "")
            self.types(ann, "hon", "very hon")
        self.assertEqual(ann.text, "jam, and very hon\u00e9ys\n- 🍰 two three\n")
        wanted = [("", "a title?"), ("jam", "which?"), ("jam, and very hon\u00e9y", "dear, says ann\nand sweet"),
                  ("jam, and very hon\u00e9y", "dear, says bob\nand sweet"), ("🍰", "ann"), ("🍰", "bob"), ("two three", ""), ("three", "")]
        threads = self.threads(ann)
        self.assertCountEqual([(thread["passage"], thread.get("body", "")) for thread in threads], wanted)
        (first,) = (thread for thread in threads if thread["id"] == common)
        self.assertEqual((first["state"], sorted(reply["body"] for reply in first["replies"])),
                         ("resolved", ["fig, says ann", "fig, says bob"]))
        # So it is after both have opened the note again.
        for one in ann, bob:
            one.kill()
        for name in "ann", "bob":
            self.assertEqual(self.threads(self.editor(name)), threads)


class Killed(ReviewEngines):
    """An engine is killed where it keeps what a suggestion or its acceptance writes."""

    def setUp(self) -> None:
        super().setUp()
        self.bob, ann = self.people("bob", "ann")
        ann.close()

    def killed_at(self, at: int, what: str, is_there: Callable[[], object], words: str = "", **more: Any) -> None:
        """Has Ann ask for something, and her engine killed where it comes by for that time, once something is there."""
        armed = self.folder / "armed"
        editor = self.editor("ann", command=[python(), "-B", "-c", STOPS, str(armed), str(at)])
        editor.gets_number()
        more |= self.on(editor, words) if words else {}
        engine, stopped = self.engine("ann"), armed.with_suffix(".stopped")
        armed.touch()
        editor.send({"do": what, "version": editor.mirror.version, **more})
        try:
            wait_for(stopped.exists, "the engine to stop")
            wait_for(is_there, "what is kept")
        finally:
            os.kill(engine, signal.SIGKILL)
            editor.kill()
        stopped.unlink()

    def again(self) -> Editor:
        """Ann opens the note again."""
        ann = self.editor("ann")
        ann.gets_number()
        return ann

    def goes_on(self, ann: Editor, text: str) -> None:
        """That both show a text and not the replacement, and that it can be suggested again, and accepted."""
        self.assertEqual((ann.text, self.meet(ann, self.bob)), (text, text))
        again = self.suggest(ann, "three", "HIDDEN")
        self.meet(ann, self.bob)
        for one in ann, self.bob:
            self.assertNotIn("HIDDEN", json.dumps([line for line in one.lines if line.get("notice") in ("changes", "text")]))
        self.assertTrue(self.does(self.bob, "accept", to=again)["done"])
        self.assertEqual(self.meet(ann, self.bob), text.replace("three", "HIDDEN"))
        self.assertEqual({one["state"] for one in self.threads(ann) if one["id"] == again}, {"accepted"})

    def test_before_the_replacement_is_kept(self) -> None:
        self.killed_at(0, "suggest", lambda: True, "three", new="HIDDEN")
        ann = self.again()
        self.assertEqual(self.threads(ann), [])
        self.goes_on(ann, TEXT)

    def test_between_the_replacement_and_its_record(self) -> None:
        before = self.messages(self.bob)
        for at in 1, 2:
            self.killed_at(at, "suggest", lambda: self.messages(self.bob) > before, "three", new="HIDDEN")
            before = self.messages(self.bob)
        ann = self.again()
        self.assertEqual(self.threads(ann), [])
        # That it was typed and deleted is all that anybody finds of it.
        for one in ann, self.bob:
            steps = self.does(one, "history", **{"from": 1})["steps"]
            found = [(step["typed"], step["deleted"]) for step in steps if step["site"] != self.bob.state["site"]]
            self.assertEqual(found, [(6, 0), (0, 6)] * 2)
            changed = self.does(one, "changed", since={"at": 1})
            self.assertEqual((changed["came"], changed["went"]), ([], []))
        self.assertFalse(self.does(ann, "undo")["done"])
        self.goes_on(ann, TEXT)

    def test_between_both_while_nobody_reaches_the_log(self) -> None:
        self.log.kill()
        self.killed_at(1, "suggest", lambda: True, "three", new="HIDDEN")
        ann = self.editor("ann")
        self.assertEqual((ann.text, self.threads(ann)), (TEXT, []))
        self.log.start()
        ann.gets_number()
        self.goes_on(ann, TEXT)

    def test_after_the_record_is_kept(self) -> None:
        self.killed_at(3, "suggest", lambda: self.threads(self.bob), "three", new="SHOWN")
        ann = self.again()
        self.assertEqual([(one["passage"], one["state"]) for one in self.threads(ann)], [("three", "open")])
        self.goes_on(ann, TEXT)

    def test_amid_an_acceptance(self) -> None:
        thread = self.suggest(self.bob, "two", "2")
        self.killed_at(0, "accept", lambda: True, to=thread)
        ann = self.again()
        self.assertEqual([(one["passage"], one["state"]) for one in self.threads(ann)], [("two", "open")])
        self.meet(ann, self.bob)
        ann.close()
        self.killed_at(1, "accept", lambda: self.one(self.bob)["state"] == "accepted", to=thread)
        ann = self.again()
        self.assertEqual([(one["passage"], one["state"]) for one in self.threads(ann)], [("2", "accepted")])
        self.assertFalse(self.does(ann, "accept", to=thread)["done"])
        self.goes_on(ann, TEXT.replace("two", "2"))


if __name__ == "__main__":
    unittest.main()
