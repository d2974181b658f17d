"""What changed of a note since a time: which characters came and which went, by their names."""
import collections
import contextlib
import errno
import itertools
import json
import os
import random
import shutil
import signal
import unittest
from collections.abc import Iterator
from unittest import mock

from share.admission.fronts import parted, parted_by_causes
from share.admission.judge import Judge
from share.admission.ledger import Row
from share.engine.track import Track
from share.format.chunk import packed_in_parts
from share.format.entry import Plain
from share.format.history import Messages
from share.format.operation import DELETE, RESTORE, Operation
from share.program.changed import Went, WhatChanged, changed
from share.program.site import Edited, Site
from share.store import seen
from share.store.seen import Front, Look, Still, fronts_in, still_counting, with_look
from share.tests.editors import Editor, EngineHere, Engines
from share.tests.support import Carried, Case, alive, take, wait_for
from share.tests.terminals import Answering
from share.text.delta import of_changes
from share.text.line import Line
from share.text.names import Name, Names
from share.text.units import UNITS, Units

NUMBERS = (1, 2, 40)
# A number that nobody in these histories has.
LOOKING = 99


def fronts_in_seqs(messages: Messages) -> dict[int, int]:
    """How many messages of each site there are."""
    return collections.Counter(one.site for one in messages)


class Histories(unittest.TestCase):
    """Several sites that type, delete, bring back and move text at random, and what changed between two times, against a plain program
    that looks at each character by itself."""

    def setUp(self) -> None:
        self.chance = random.Random(11)

    def history(self, many: int) -> list[list[Operation]]:
        """The messages of some edits, each after its causes."""
        made, edits = list[Operation](), list[list[Operation]]()
        with contextlib.ExitStack() as stack:
            sites = {number: stack.enter_context(contextlib.closing(Site(number))) for number in NUMBERS}
            had = dict.fromkeys(NUMBERS, 0)
            while len(made) < many:
                number = self.chance.choice(NUMBERS)
                site, upto = sites[number], self.chance.randint(had[number], len(made))
                site.take([one for one in made[had[number]:upto] if one.site != number])
                had[number] = upto
                edits.append(self.edited(site))
                made += edits[-1]
        return edits

    def counted(self, edits: list[list[Operation]]) -> Messages:
        """The same as a judge has them that count, in the order in which it let them through."""
        form, judge = Plain(bytes(16)), Judge()
        authors = {number: form.new_author() for number in NUMBERS}
        last = {number: form.claim(number, authors[number]) for number in NUMBERS}
        for claim in last.values():
            judge.add(claim)
        for edit in edits:
            for part in packed_in_parts(edit, judge.length(edit[0].site) if edit else 0):
                number = edit[0].site
                last[number] = form.entry(last[number], part, authors[number], judge.built_on(part.operations))
                judge.add(last[number])
                judge.let_through()
        found = judge.let_through_in_order()
        self.assertEqual(sorted(found), sorted(itertools.chain(*edits)))
        return found

    def edited(self, site: Site) -> list[Operation]:
        """What somebody does."""
        text, what = site.text(), self.chance.random()
        begin, end = sorted(self.chance.randint(0, len(text)) for _ in range(2))
        end = min(end, begin + 6)
        if what < 0.5 or begin == end:
            return site.insert(begin, "".join(self.chance.choices("ab\rß漢", k=self.chance.randint(1, 5))).encode()).messages
        if what < 0.7:
            return site.cut(begin, end).messages
        if what < 0.8:
            # Moved: cut here, and put there.
            cut = site.cut(begin, end).messages
            return cut + site.insert(self.chance.randint(0, len(text) - end + begin), text[begin:end]).messages
        if what < 0.9:
            # In the place of something, inside that.
            put = site.insert(begin + 1, b"NEW").messages
            return put + site.delete(site.names(begin, begin + 1) + site.names(begin + 4, end + 3))[0].messages
        hidden = [one for message in site.history for one in message.mentions if message.kind == DELETE]
        return self.restored(site, hidden).messages if hidden else []

    def restored(self, site: Site, hidden: list[Names]) -> Edited:
        """Brings back something that was deleted."""
        return site.restore([self.chance.choice(hidden)])[0]

    def characters(self, site: Site) -> list[tuple[Name, int]]:
        """What a site shows, character by character."""
        text = site.text()
        names = [(one.site, one.at + at) for one in site.names(0, len(text)) for at in range(one.length)]
        return [*zip(names, text)]

    def slowly(self, then: Messages, all_of_it: Messages) -> tuple[set[Name], list[tuple[int, Name, int]]]:
        """The names of what came; and of what went, the places, the names and the bytes."""
        with contextlib.closing(Site(LOOKING, then)) as site:
            before = self.characters(site)
        with contextlib.closing(Site(LOOKING, all_of_it)) as site:
            now = self.characters(site)
            gone = [one for one in before if one not in now]
            for (of, at), _ in gone:
                site.restore([Names(of, at, 1)])
            both = self.characters(site)
        went, place, count, names = list[tuple[int, Name, int]](), None, 0, {name for name, _ in now}
        for name, byte in both:
            if name in names:
                count += 1
                place = None if (name, byte) in before else place
            else:
                place = count if place is None else place
                went.append((place, name, byte))
        return names - {name for name, _ in before}, went

    def assert_agrees(self, found: WhatChanged, then: Messages, all_of_it: Messages) -> None:
        """That what was found is what the plain program finds."""
        came, went = self.slowly(then, all_of_it)
        with contextlib.closing(Site(LOOKING, all_of_it)) as site:
            now = self.characters(site)
        self.assertEqual(found.text, bytes(byte for _, byte in now))
        self.assertEqual([(at, now[at][0]) for one in found.came for at in range(one.begin, one.end)],
                         [(at, name) for at, (name, _) in enumerate(now) if name in came])
        for one in found.came:
            self.assertEqual({now[at][0][0] for at in range(one.begin, one.end)}, {one.site})
        self.assertEqual([(one.at, byte, one.site) for one in found.went for byte in one.data],
                         [(place, byte, name[0]) for place, name, byte in went])
        by = self.doers(all_of_it)
        for one in found.came:
            self.assertEqual({by.get(now[at][0], one.site) for at in range(one.begin, one.end)}, {one.by})
        self.assertEqual([one.by for one in found.went for _ in one.data], [by[name] for _, name, _ in went])
        self.assertTrue(all(one.end != other.begin or one[2:] != other[2:] for one, other in zip(found.came, found.came[1:])))
        self.assertTrue(all((one.at, *one[2:]) != (other.at, *other[2:]) for one, other in zip(found.went, found.went[1:])))

    @staticmethod
    def doers(messages: Messages) -> dict[Name, int]:
        """By the characters' names, who hid each last, or showed it again."""
        last = dict[Name, tuple[int, int]]()
        for one in messages:
            for names in one.mentions if one.kind in (DELETE, RESTORE) else ():
                for at in range(names.at, names.at + names.length):
                    last[names.site, at] = max(last.get((names.site, at), (0, 0)), (one.stamp, one.site))
        return {name: site for name, (_, site) in last.items()}

    def test_between_two_places(self) -> None:
        for _ in range(12):
            made = Messages(itertools.chain(*self.history(60)))
            for _ in range(4):
                begin, end = sorted(self.chance.randint(0, len(made)) for _ in range(2))
                self.assert_agrees(changed(made[:begin], made[begin:end]), made[:begin], made[:end])

    def test_a_full_note(self) -> None:
        with contextlib.closing(Site(1)) as site:
            site.insert(0, b"a-b")
            site.insert(1, b"new")
            site.cut(4, 5)
            then, since = site.history[:1], site.history[1:]
        self.assertEqual(changed(then, since).went, [Went(4, b"-", 1, 1)])
        # Nothing can be shown again there, so what went is where it stood between what stays.
        with mock.patch("share.program.site.MOST_MESSAGES", 3):
            self.assertEqual(changed(then, since).went, [Went(1, b"-", 1, 1)])

    def test_since_fronts(self) -> None:
        for _ in range(12):
            made = self.counted(self.history(60))
            fronts = {number: self.chance.randint(0, sum(one.site == number for one in made)) for number in NUMBERS}
            then, since = parted_by_causes(made, fronts)
            self.assertEqual(sorted(then + since), sorted(made))
            # Where fronts have the causes, all of that are within.
            self.assertEqual(parted(made, fronts_in_seqs(then)), (then, since))
            with contextlib.closing(Site(LOOKING, made)) as site, contextlib.closing(Site(LOOKING, then)) as other:
                # The program itself says what is up to fronts, without any whose causes aren't.
                words = " ".join(f"{number} {front}" for number, front in fronts.items()).encode()
                (answer,) = site._program.ask([site._program.event("past", words)])
                self.assertEqual([answer[-1]], other._program.ask([other._program.event("text")])[0])
            self.assert_agrees(changed(then, since), then, made)


def in_words(text: str, answer: Line, units: Units) -> str:
    """A text, in which positions count units, with what came to it and what went from it."""
    data, parts, at = units.encode(text), list[str](), 0

    def part(begin: int, end: int | None) -> str:
        return units.decode(data[begin * units.size:None if end is None else end * units.size])

    marks = sorted([(one["at"], 0, one["at"], f"[-{one['text']}-]") for one in answer["went"]]
                   + [(one["begin"], 1, one["end"], f"[+{part(one['begin'], one['end'])}+]") for one in answer["came"]])
    for begin, _, end, mark in marks:
        parts += [part(at, begin), mark]
        at = end
    return "".join(parts) + part(at, None)


class LookedAt(Engines):
    """Who closes an editor, and opens one later, is shown what changed meanwhile."""

    founders_have_numbers = False

    def changed(self, editor: Editor, **more: object) -> Line:
        """What an editor is answered that asks what changed."""
        return editor.ask("changed", version=editor.mirror.version, **more)

    def sent(self, editor: Editor) -> None:
        """Waits until all is sent that an editor typed."""
        editor.settle()

        def is_sent() -> bool:
            # A state that is due comes before the answer.
            editor.ask("on")
            return bool(editor.state.get("log") == "sent")

        editor.wait_for(is_sent, "all to be sent")

    def copied(self, data: str, copy: str) -> None:
        """Makes a copy of somebody's folder, of which no editor is open."""
        wait_for(lambda: not self.person(data).path().with_name("note.note-wal").exists(), "the engine's end")
        shutil.copytree(self.folder / data, self.folder / copy)

    def told(self, editor: Editor, text: str) -> str:
        """The same in words, once it shows a text."""
        editor.shows(text)
        return in_words(text, self.changed(editor), editor.mirror.units)

    def test_since_an_editor_was_closed(self) -> None:
        ada, bo = self.others("ada", "bo")
        found = self.changed(bo)
        self.assertEqual((found["since"], found["came"], found["went"]), (0, [], []))
        ada.type("Some tea and cake.\n")
        bo.shows("Some tea and cake.\n")
        bo.type("Mine.\n")
        ada.shows("Some tea and cake.\nMine.\n")
        bo.close()
        ada.edit((13, 17, "jam"))
        ada.edit((0, 5, ""))
        ada.type("More.\n")
        ada.settle()
        bo = self.editor("bo", name="note")
        text = "tea and jam.\nMine.\nMore.\n"
        self.assertEqual(self.told(bo, text), "[-Some -]tea and [-cake-][+jam+].\nMine.\n[+More.\n+]")
        found = self.changed(bo)
        self.assertGreater(found["since"], 1_000_000_000)
        number = self.changed(ada)["came"][0]["site"]
        self.assertEqual({(one["site"], one["own"]) for one in found["came"] + found["went"]}, {(number, False)})
        # What is typed now came since, too.
        bo.edit((0, 0, "Own "))
        ada.shows("Own " + text)
        self.assertEqual([(one["begin"], one["end"], one["own"]) for one in self.changed(bo)["came"]][:1], [(0, 4, True)])

    def test_one_of_two_editors_is_closed(self) -> None:
        ada, bo = self.others("ada", "bo")
        other = self.editor("bo")
        ada.type("one ")
        for one in bo, other:
            one.shows("one ")
        other.close()
        self.assertEqual(self.told(bo, "one "), "one ")
        ada.type("two ")
        self.assertEqual(self.told(bo, "one two "), "one [+two +]")
        # Who never closed one has looked at nothing.
        self.assertEqual(self.told(ada, "one two "), "[+one two +]")

    def test_what_was_seen_counts_no_more(self) -> None:
        ada, bo = self.others("ada", "bo")
        ada.type("kept ")
        bo.shows("kept ")
        bo.type("typed ")
        ada.shows("kept typed ")
        number = bo.state["site"]
        ada.close()
        # His number is another one's, so what he typed is made anew under one that is his.
        take(self.person("bo"), number)
        bo.gets_number(but=number)
        bo.shows("kept typed ")
        bo.type("more ")
        ada = self.editor("ada")
        self.assertEqual(self.told(ada, "kept typed more "), "kept [+typed more +]")
        self.assertNotEqual(self.changed(ada)["came"][0]["site"], number)

    def test_a_part_of_what_was_seen_counts_no_more(self) -> None:
        server = self.redis()
        (ada,) = self.others("ada", url=server.url)
        ada.type("one ")
        self.sent(ada)
        ada.close()
        self.copied("ada", "copy")
        server.kill()
        # The copy types under the same number, and nobody but its own user sees that before the other one's is sent.
        copy = self.editor("copy")
        copy.type("copy's ")
        copy.settle()
        copy.close()
        server.start()
        ada = self.editor("ada")
        ada.type("two ")
        self.sent(ada)
        copy = self.editor("copy")
        copy.wait_for(lambda: "two" in copy.text and "copy" in copy.text, "both to be there")
        self.sent(copy)
        text = copy.text
        self.assertEqual((len(text), text[:4]), (len("one two copy's "), "one "))
        found = self.changed(copy)
        self.assertEqual([text[one["begin"]:one["end"]] for one in found["came"]],
                         ["two ", "copy's "] if text.index("two") < text.index("copy") else ["copy's ", "two "])
        self.assertEqual(found["went"], [])

    def test_killed_before_a_look_is_kept(self) -> None:
        ada, bo = self.others("ada", "bo")
        ada.type("one ")
        bo.shows("one ")
        bo.close()
        bo = self.editor("bo")
        ada.type("two ")
        bo.shows("one two ")
        os.kill(self.engine("bo"), signal.SIGKILL)
        bo.kill()
        bo = self.editor("bo")
        self.assertEqual(self.told(bo, "one two "), "one [+two +]")
        # An engine that is asked to end keeps one.
        engine = self.engine("bo")
        os.kill(engine, signal.SIGTERM)
        wait_for(lambda: not alive(engine), "the engine's end")
        bo.kill()
        bo = self.editor("bo")
        self.assertEqual(self.told(bo, "one two "), "one two ")

    def test_a_folder_that_was_copied(self) -> None:
        ada, bo = self.others("ada", "bo")
        ada.type("one ")
        bo.shows("one ")
        bo.close()
        self.copied("bo", "copy")
        ada.type("two ")
        ada.settle()
        bo = self.editor("bo")
        self.assertEqual(self.told(bo, "one two "), "one [+two +]")
        bo.close()
        ada.type("three ")
        ada.settle()
        copy = self.editor("copy")
        self.assertEqual(self.told(copy, "one two three "), "one [+two three +]")
        bo = self.editor("bo")
        self.assertEqual(self.told(bo, "one two three "), "one two [+three +]")


class Printed(Engines):
    """What `bin/note changed` prints, which is no look."""

    def printed_for(self, data: str, *words: str, status: int = 0) -> str:
        """What it prints for somebody."""
        run = self.note("changed", "note", *words, VIALSHOAL_DATA=str(self.folder / data))
        self.assertEqual(run.returncode, status, run.stdout + run.stderr)
        return run.stdout

    def test_what_changed_since_the_last_look(self) -> None:
        ada, bo = self.others("ada", "bo")
        lines = [f"Line {number}." for number in range(1, 30)]
        text = "\n".join(lines)
        ada.type(text)
        bo.shows(text)
        self.assertIn("Since the note began:\n@@ line 1 @@\n{++Line 1.++}", self.printed_for("bo"))
        bo.close()
        seen_then = self.person("bo").path().with_suffix(".seen").read_bytes()
        self.assertIn("\nNothing changed.\n", self.printed_for("bo"))
        at = text.index("15.")
        ada.edit((at, at + 3, "\x1b[31m\n\nnew"))
        at = text.index("ine 2.")
        ada.edit((at - 1, at + 7, ""))
        ada.settle()
        wait_for(lambda: self.note("cat", "note", VIALSHOAL_DATA=str(self.folder / "bo")).stdout.count("new"), "it to come")
        number = ada.ask("changed", version=ada.mirror.version)["came"][0]["site"]
        who = f"{{>>site {number}<<}}"
        printed = self.printed_for("bo").split("\n")
        self.assertRegex(printed[0], r"^Since 20\d\d-\d\d-\d\d \d\d:\d\d:$")
        # Of a line end alone a sign is left to be marked; who moves a cursor by control characters moves none here.
        self.assertEqual(printed[1:], [
            "@@ line 1 @@", "Line 1.", f"{{--Line 2.--}}{who}", "Line 3.", "Line 4.", "Line 5.",
            "@@ line 11 @@", "Line 12.", "Line 13.", "Line 14.", f"Line {{--15.--}}{who}{{++·[31m++}}{who}", f"{{++\u21b5++}}{who}",
            f"{{++new++}}{who}", "Line 16.", "Line 17.", "Line 18.", ""])
        found = json.loads(self.printed_for("bo", "--json"))
        self.assertEqual(in_words(found["text"], found, UNITS["utf-32"]).replace("\n", " ")[:25], "Line 1. [-Line 2. -]Line ")
        self.assertEqual({(one["site"], one["own"]) for one in found["came"] + found["went"]}, {(number, False)})
        for script in ["append", "note", "by a script"], ["cat", "note"], ["note", "--print"]:
            self.note(*script, VIALSHOAL_DATA=str(self.folder / "bo"))
        self.assertEqual(self.person("bo").path().with_suffix(".seen").read_bytes(), seen_then)
        # Beside an editor that is open, too.
        bo = self.editor("bo")
        self.note("append", "note", "more", VIALSHOAL_DATA=str(self.folder / "bo"))
        bo.wait_for(lambda: "more" in bo.text, "what the script typed")
        self.assertEqual(self.person("bo").path().with_suffix(".seen").read_bytes(), seen_then)

    def test_who_deleted_what_another_wrote(self) -> None:
        ada, bo = self.others("ada", "bo")
        ada.type("tea and jam, as ever")
        bo.shows("tea and jam, as ever")
        bo.edit((3, 11, ""))
        bo.edit((3, 3, "!"))
        ada.shows("tea!, as ever")
        numbers = ada.state["site"], bo.state["site"]
        # What went stands where what came stands, and is of who wrote it; who deleted it is told, and whoever brings it back.
        by = f"{{>>site {numbers[1]}<<}}"
        self.assertIn(f"\ntea{{-- and jam--}}{by}{{++!++}}{by}, as ever\n", self.printed_for("ada", "--since", "1"))
        (went,) = json.loads(self.printed_for("ada", "--since", "1", "--json"))["went"]
        self.assertEqual((went["text"], went["site"], went["own"]), (" and jam", numbers[0], True))
        self.assertEqual((went["by"]["site"], went["by"]["own"]), (numbers[1], False))
        many = ada.ask("history")["length"]
        bo.send({"do": "undo"})
        bo.send({"do": "undo"})
        ada.shows("tea and jam, as ever")
        (came,) = ada.ask("changed", version=ada.mirror.version, since={"at": many})["came"]
        self.assertEqual((came["site"], came["by"]["site"]), numbers)

    def test_since_other_times(self) -> None:
        for words in "one", "two":
            self.note("append", "note", words, "--new")
        self.note("replace", "note", "one", "1")
        first = self.printed_for("data", "--since", "2").partition("\n")[2]
        second = self.printed_for("data", "--since", "0", "--until", "1").partition("\n")[2]
        self.assertEqual(first, "@@ line 1 @@\n{--one--}{>>you<<}{++1++}{>>you<<}\ntwo\n\n")
        self.assertEqual(second, "@@ line 1 @@\n{++one++}{>>you<<}\n\n")
        self.assertIn("{++two++}", self.printed_for("data", "--since", "2020-01-01T00:00"))
        for wrong in (["--since", "9"], ["--since", "2", "--until", "1"], ["--until", "1"], ["--since", "then"], ["--since", "-1"]):
            self.printed_for("data", *wrong, status=2)

    def test_in_a_terminal(self) -> None:
        self.note("append", "note", "one \x1b[5m", "--new")
        with Answering(self.folder / "data", "changed", "note") as run:
            run.sees("\x1b[32;4mone ·[5m\x1b[m\x1b[2m (you)\x1b[m")
            self.assertEqual(run.status(), 0)


class Asked(EngineHere):
    """What editors of one engine are answered, at a time that the test sets."""

    def setUp(self) -> None:
        super().setUp()
        self.seconds = 1_000_000
        wall = mock.patch("share.engine.looked.time.time", lambda: self.seconds)
        wall.start()
        self.addCleanup(wall.stop)

    def answered(self, number: int, before: str = "", **more: object) -> Line:
        """What an editor is answered that asks what changed. Something may be typed by the other one before the answer."""
        mirror, asked = self.editors[number][1:4:2]
        asked.append(json.dumps({"do": "changed", "id": 1, "version": mirror.version, **more}).encode())
        if before:
            assert self.engine._note
            with mock.patch.object(self.engine._note.history, "answer"):
                self.meet()
                self.typed(1 - number, before)
        found = list[Line]()
        wait_for(lambda: found.extend(line for line in self.meet()[number] if line.get("answer") == "changed") or found, "an answer")
        return found[0]

    def typed(self, number: int, text: str, at: int = 0, end: int | None = None) -> None:
        """Has an editor type."""
        self.editors[number][1].edit([(at, at if end is None else end, text)])
        self.meet()

    def words(self, number: int = 0, before: str = "", **more: object) -> str:
        """What is answered, in words."""
        answer = self.answered(number, before, **more)
        mirror = self.editors[number][1]
        return in_words(answer.get("text", mirror.text), answer, mirror.units)

    def later(self, seconds: int) -> None:
        """Lets time pass."""
        self.now += seconds
        self.seconds += seconds
        self.meet()

    def test_left_alone(self) -> None:
        self.typed(0, "one")
        self.later(299)
        self.asks(0, "cursor", version=self.editors[0][1].version, at=0)
        self.later(299)
        self.assertEqual(self.words(), "[+one+]")
        self.later(1)
        self.assertEqual((self.words(), self.answered(0)["since"]), ("one", 1_000_299))
        self.typed(0, "two ", 3)
        self.later(299)
        self.assertEqual(self.words(), "one[+two +]")
        self.later(1)
        self.assertEqual(self.words(), "onetwo ")
        self.typed(1, "three")
        self.later(299)
        # What editors ask for by themselves shows nobody.
        self.asks(0, "on")
        self.asks(0, "who", version=self.editors[0][1].version, begin=0, end=0)
        self.later(1)
        self.assertEqual((self.words(), self.answered(0)["since"]), ("threeonetwo ", 1_000_899))

    def test_what_nobody_saw_who_was_away(self) -> None:
        self.typed(0, "seen ")
        script = self.engine.joined(lambda data: None, lambda: 0)
        for line in ({"do": "open", "protocol": 1, "units": ["utf-8"], "script": True},
                     {"do": "edit", "version": 0, "edits": 1, "changes": [[0, 0, "by a script "]]}):
            self.later(200)
            self.engine.take(script, [json.dumps(line).encode()])
        self.meet()
        self.assertEqual(self.words(), "[+by a script +]seen ")
        self.engine.left(script)
        self.assertEqual(self.words(), "[+by a script +]seen ")
        self.engine.left(self.editors[1][0])
        self.assertEqual(self.words(), "by a script seen ")

    def test_since_times_and_places(self) -> None:
        self.typed(0, "one ")
        self.engine.left(self.editors[1][0])
        self.later(10)
        self.typed(0, "two ", 4)
        self.engine.left(self.engine.joined(lambda data: None, lambda: 0))
        self.assertEqual(self.words(), "one [+two +]")
        self.later(10)
        self.engine.left(self.editors[0][0])
        self.engine.peers.append(self.editors[0][0])
        self.typed(0, "", 0, 4)
        for since, words in ((999_999, "[+two +]"), (1_000_000, "[-one -][+two +]"), (1_000_019, "[-one -][+two +]"),
                             (1_000_020, "[-one -]two ")):
            self.assertEqual(self.words(since={"time": since}), words)
        self.assertEqual(self.answered(0, since={"time": 999_999})["since"], 0)
        self.assertEqual(self.answered(0, since={"time": 1_000_019})["since"], 1_000_000)
        self.assertEqual(self.words(since={"at": 0}, until=1), "[+one +]")
        self.assertEqual(self.words(since={"at": 1}, until=2), "one [+two +]")
        self.assertEqual(self.words(since={"at": 1}), "[-one -][+two +]")
        self.assertEqual(self.answered(0, since={"at": 1})["since"], 1)
        for at, until in (2, 1), (9, 9), (0, 9):
            self.assertEqual(self.answered(0, since={"at": at}, until=until)["error"], "outside")
        for wrong in "yesterday", {}, 5, {"time": "now"}, {"at": -1}, None:
            self.assertEqual(self.answered(0, since=wrong)["error"], "field")
        self.assertEqual(self.answered(0, version=999)["error"], "version")

    def test_the_text_goes_on_before_the_answer(self) -> None:
        self.typed(0, "🍰 some tea")
        self.engine.left(self.editors[1][0])
        self.engine.peers.append(self.editors[1][0])
        self.typed(0, "sweet ", 8)
        self.typed(0, "", 3, 8)
        self.assertEqual(self.words(), "🍰 [-some -][+sweet +]tea")
        # In units of UTF-16, which the first editor counts in.
        self.assertEqual([(one["begin"], one["end"]) for one in self.answered(0)["came"]], [(3, 9)])
        self.assertEqual(self.words(0, "more "), "more 🍰 [-some -][+sweet +]tea")

    def test_bytes_that_are_no_text(self) -> None:
        self.typed(0, "a\x1b[31mß")
        self.session().edit(lambda site: site.insert(1, b"\xc3"))
        assert self.engine._note
        self.engine._note.text.become(self.session().text())
        self.meet()
        self.assertEqual(self.words(1, since={"at": 1}), "a[+\ufffd+]\x1b[31mß")


class Kept(Case):
    """Looks are kept beside the note's file."""

    def setUp(self) -> None:
        super().setUp()
        (self.folder / "data" / "notes").mkdir(parents=True)
        self.path = self.folder / "data" / "notes" / "note.seen"

    @staticmethod
    def look(time: int, **fronts: int) -> Look:
        """A look."""
        return Look(time, {int(site[1:]): Front(seq, bytes([seq]) * 32) for site, seq in fronts.items()})

    def test_they_are_read_as_they_were_kept(self) -> None:
        looks = [self.look(5, _1=2), self.look(7, _1=2, _3=4), self.look(6, _3=4), self.look(8)]
        seen.keep_looks("note", b"id", looks)
        self.assertEqual(seen.looks_at("note", b"id"), looks)
        self.assertEqual(self.path.stat().st_mode & 0o777, 0o600)
        self.assertEqual(seen.looks_at("note", b"other"), [])
        data = self.path.read_bytes()
        for wrong in (b"", data[:-1], data.replace(b"3", b"4", 1), data.replace(b'"looks"', b'"looked"'), b"\n" + data, b"[" * 100_000):
            self.path.write_bytes(wrong)
            self.assertEqual(seen.looks_at("note", b"id"), [])

    def test_a_full_disk_leaves_those_of_before(self) -> None:
        seen.keep_looks("note", b"id", [self.look(1)])
        with mock.patch("os.fsync", side_effect=OSError(errno.ENOSPC, "full")):
            seen.keep_looks("note", b"id", [self.look(2)])
        self.assertEqual(seen.looks_at("note", b"id"), [self.look(1)])
        self.assertEqual(os.listdir(self.path.parent), ["note.seen"])

    def test_the_older_ones_are_thinned_out(self) -> None:
        looks = list[Look]()
        for time in range(1_000):
            looks = with_look(looks, self.look(time, _1=time % 200))
            self.assertLessEqual(len(looks), seen.MOST_LOOKS)
        times = [one.time for one in looks]
        self.assertEqual((times[0], times[-100:]), (0, [*range(900, 1_000)]))
        gaps = [later - time for time, later in zip(times, times[1:])]
        self.assertEqual(gaps, sorted(gaps, reverse=True))
        # Of those in which nothing came the first and the last stay.
        looks = []
        for time in range(10):
            looks = with_look(looks, self.look(time, _1=1))
        self.assertEqual([one.time for one in looks], [0, 9])

    def test_as_many_as_there_is_room_for(self) -> None:
        looks = [self.look(time, _1=time) for time in range(1, 100)]
        with mock.patch("share.store.seen.LONGEST_SEEN", 2_000):
            seen.keep_looks("note", b"id", looks)
            found = seen.looks_at("note", b"id")
        self.assertEqual(found, looks[-len(found):])
        self.assertGreater(len(found), 5)


class Counting(unittest.TestCase):
    """What was seen of a site counts up to where another history parts from it that holds."""

    def test_up_to_where_it_is_the_same(self) -> None:
        form = Plain(bytes(16))
        one, other = Carried(form, 1), Carried(form, 1)
        for each in one, other:
            self.addCleanup(each.close)
        for letter in b"abcd":
            one.insert(0, bytes([letter]))
        claim, first, second, third, fourth = one.made
        other.author, other.made = one.author, [claim, first, second]
        other.judge = Judge(other.made)
        other.site.take(other.judge.count().messages)
        # Of two entries of one place the one of the lesser hash holds.
        tries = (form.entry(second, packed_in_parts(some)[0], one.author, b"") for some in self.ways(other))
        holds = next(entry for entry in tries if entry.hash < third.hash)
        look = Look(5, fronts_in(one.judge.let_through_in_order()))
        self.assertEqual(look.fronts, {1: Front(4, fourth.hash)})
        self.assertEqual(still_counting([look], one.judge, {}), Still({1: 4}, True))
        both, without = Judge([*one.made, holds]), Judge([claim, first, second, holds])
        self.assertEqual((both.front(1), without.front(1)), (3, 3))
        self.assertEqual(still_counting([look], both, {}), Still({1: 2}, False))
        withdrawn = {entry.hash: Row(0, entry, True) for entry in (third, fourth)}
        self.assertEqual(still_counting([look], without, withdrawn), Still({1: 2}, False))
        # Where nothing is known of it any more what was seen before that is.
        earlier = Look(4, {1: Front(1, first.hash)})
        self.assertEqual(still_counting([earlier, look], without, {}), Still({1: 1}, False))
        self.assertEqual(still_counting([look], without, {}), Still({1: 0}, False))
        self.assertEqual(still_counting([earlier], without, {}), Still({1: 1}, True))
        self.assertEqual(still_counting([], without, {}), Still({}, True))

    @staticmethod
    def ways(other: Carried) -> Iterator[list[Operation]]:
        """Ways to type on."""
        for number in itertools.count():
            length = len(other.site.history)
            yield other.site.insert(0, str(number).encode()).messages
            other.site.go_back(length)


class Tracked(unittest.TestCase):
    """Places go with a text that changes."""

    def test_against_each_character(self) -> None:
        chance, units = random.Random(4), UNITS["utf-8"]
        for _ in range(2_000):
            text, track = [*enumerate("abcdefgh")], Track(units)
            begin, end = sorted(chance.sample(range(9), 2))
            place = chance.randrange(9)
            for _ in range(chance.randint(0, 3)):
                first, last = sorted(chance.choices(range(len(text) + 1), k=2))
                new = [(-1, letter) for letter in chance.choice(["", "X", "YZ"])]
                text[first:last] = new
                track.changed(of_changes([(first, last, bytes(ord(letter) for _, letter in new))], units))
            stays = [at for at, (number, _) in enumerate(text) if begin <= number < end]
            found = [at for part in track.moves().stretch(begin, end) for at in range(*part)]
            self.assertEqual(found, stays)
            before = [at for at, (number, _) in enumerate(text) if 0 <= number < place]
            behind = [at for at, (number, _) in enumerate(text) if number >= place]
            self.assertTrue((before[-1] + 1 if before else 0) <= track.moves().place(place) <= (behind[0] if behind else len(text)))


if __name__ == "__main__":
    unittest.main()
