"""Reviews of several people, each with engines of their own: what is remarked and suggested at once, without the log, under other numbers,
by the hostile, over kills and full disks; and what becomes of a margin as its note is renewed, recovered and printed."""
import json
import os
import unittest
from typing import Any
from unittest import mock

from share.engine.engine import Engine
from share.format.history import Messages
from share.format.operation import MOST_OF_A_SITE
from share.format.second.key_link import link_of
from share.program.site import PACKED_NAME, Site
from share.review.anchor import anchored
from share.review.record import MARGIN, MarginKind, MarginRecord, sum_of
from share.store import notes, snapshot
from share.store.guarded import Unkept
from share.store.note_file import SECOND, Disk
from share.store.renewal import fresh
from share.sync.session import Session
from share.tests.editors import accepted
from share.tests.support import Case, Person, take, wait_for
from share.tests.test_margin import answer, begun, line
from share.tests.test_review import second_form
from share.text.line import Line
from share.text.names import Names


class Reviewer:
    """An editor of somebody, in this process, whose note others have too."""

    def __init__(self, case: "Reviews", person: Person, link: str | None = None, url: str | None = None, name: str = ""):
        self._case, self.person = case, person
        with person.here():
            self.engine = Engine("note", lambda: Session(notes.open_note("note", url, case.link_in(link))), lambda: None)
        self._sent = list[bytes]()
        self._peer = self.engine.joined(self._sent.append, lambda: 0)
        self._count = 0
        self.text = ""
        self.opening = self.ask("open", protocol=1, units=["utf-8"], name=name, remarks=True)
        case.addCleanup(self.close)
        case.wait(self._can_type, "a number")

    @property
    def session(self) -> Session:
        """Its engine's session."""
        assert self.engine.session
        return self.engine.session

    def turn(self) -> None:
        """Takes in what came."""
        with self.person.here():
            self.engine.turn()

    def _can_type(self) -> bool:
        """Whether it has a number, which may come later than its note is open."""
        self.turn()
        return self.session.can_type

    def ask(self, what: str, **more: Any) -> Line:
        """What a request about the text of now is answered."""
        self._count += 1
        request = {"do": what, "id": self._count, **more}
        if self._peer.is_open and "version" not in more:
            request["version"] = self.version
        with self.person.here():
            self.engine.take(self._peer, [json.dumps(request).encode()])

        def answered() -> Line | None:
            self.turn()
            lines: list[Line] = [json.loads(one) for one in self._sent]
            return next((one for one in lines if one.get("id") == self._count), None)
        # Others take nothing in meanwhile, so that what two ask for one after the other they do at once.
        found: Line = wait_for(answered, f"an answer to {what}")
        return found

    def shows(self) -> str:
        """What it shows."""
        self.turn()
        return self.session.text().decode().replace("\r", "\n")

    @property
    def version(self) -> int:
        """Which text it shows."""
        return self._peer.transformer.version

    def type(self, begin: int, end: int, text: str, **more: Any) -> Line:
        """Replaces a stretch, which counts bytes, of the text of now or of a version."""
        return self.ask("edit", edits=self._peer.transformer.edits + 1, changes=[[begin, end, text]], **more)

    def on(self, words: str) -> Line:
        """The stretch of some words."""
        begin = self.shows().index(words)
        return {"begin": begin, "end": begin + len(words)}

    def threads(self, **more: Any) -> list[Line]:
        """The threads that it shows."""
        found: list[Line] = self.ask("remarks", **more)["threads"]
        return found

    def close(self) -> None:
        """Closes the note."""
        with self.person.here():
            self.engine.close()


class Reviews(Case):
    """Tests with several people."""

    def setUp(self) -> None:
        second_form(self)
        super().setUp()

    def link_in(self, link: str | None) -> Any:
        """A link as it is read."""
        return link_of(link) if link else None

    def wait(self, condition: Any, what: str) -> Any:
        """Waits until something is so, and takes in what comes meanwhile."""
        def is_so() -> Any:
            for one in self.reviewers:
                one.turn()
            return condition()
        return wait_for(is_so, what)

    def people(self, *names: str) -> list[Reviewer]:
        """People with a note that the first one founded and wrote into."""
        self.reviewers = list[Reviewer]()
        first = Reviewer(self, self.person(names[0]), url=self.file_log(), name=names[0])
        self.reviewers.append(first)
        first.type(0, 0, "one two three\n")
        for name in names[1:]:
            self.reviewers.append(Reviewer(self, self.person(name), link=first.person.link(), name=name))
        self.meet()
        return self.reviewers

    reviewers: list[Reviewer] = []

    def meet(self, *some: Reviewer) -> str:
        """Waits until all show the same text and threads, and have as many records of them, also of those that say nothing now."""
        some = some or tuple(self.reviewers)

        def are_alike() -> bool:
            states = [one.session.status() for one in some]
            return (not any(state.unsent or state.offline or state.waiting for state in states) and len({one.shows() for one in some}) == 1
                    and len({json.dumps(self.plain(one)) for one in some}) == 1
                    and len({one.session.margin.said.many_records() for one in some}) == 1)
        self.wait(are_alike, "all to show the same")
        return some[0].shows()

    @staticmethod
    def plain(one: Reviewer) -> list[Line]:
        """The threads that somebody shows, as all do."""
        return [{name: value for name, value in thread.items() if name != "own"} | {
            "replies": [{name: value for name, value in reply.items() if name != "own"} for reply in thread.get("replies", [])]}
            for thread in one.threads()]


class Together(Reviews):
    """What several do at once."""

    def test_answered_and_resolved_by_others(self) -> None:
        ann, bob = self.people("ann", "bob")
        thread = ann.ask("remark", **ann.on("two"), body="why?")["thread"]
        self.meet()
        reply = bob.ask("reply", to=thread, body="because")["record"]
        bob.ask("resolve", to=thread)
        self.assertEqual(bob.ask("revise", to=thread, body="x")["error"], "own")
        # Before it has come, and then.
        self.assertEqual(ann.ask("withdraw", to="60000:0")["error"], "thread")
        self.meet()
        self.assertEqual(ann.ask("withdraw", to=reply)["error"], "own")
        (one,) = ann.threads()
        self.assertEqual((one["state"], one["name"], one["own"], [(it["name"], it["body"], "own" in it) for it in one["replies"]]),
                         ("resolved", "ann", True, [("bob", "because", False)]))

    def test_a_stretch_whose_ends_and_middle_change_at_once(self) -> None:
        ann, bob = self.people("ann", "bob")
        ann.ask("remark", **ann.on("two three"), body="why?")
        self.meet()
        begin, version = ann.on("two three")["begin"], bob.version
        ann.type(begin + 5, begin + 9, "")
        bob.type(begin, begin + 1, "", version=version)
        begin = bob.on("wo t")["begin"]
        bob.type(begin + 1, begin + 1, "XX")
        bob.type(begin, begin, "before ")
        self.assertIn("XX", self.meet())
        text = ann.shows()
        self.assertEqual([text[one["begin"]:one["end"]] for one in ann.threads()], ["wXXo t"])
        # Both delete what is left of it, in parts; one takes that back.
        (begin, end), version = ann.on("wXXo t").values(), bob.version
        ann.type(begin, end - 2, "")
        bob.type(begin + 2, end, "", version=version)
        self.meet()
        (one,) = ann.threads()
        self.assertTrue(one.get("gone"), (ann.shows(), one))
        self.assertEqual(bob.threads(begin=one["begin"], end=one["begin"])[0]["id"], one["id"])
        bob.ask("undo")
        ann.ask("undo")
        self.meet()
        text = ann.shows()
        self.assertEqual([text[one["begin"]:one["end"]] for one in bob.threads()], ["wXXo t"])

    def test_accepted_by_both_the_text_has_it_once(self) -> None:
        ann, bob, cy = self.people("ann", "bob", "cy")
        thread = cy.ask("suggest", **cy.on("two"), new="2")["thread"]
        self.meet()
        for one in ann, bob:
            self.assertTrue(one.ask("accept", to=thread)["done"])
        self.assertEqual(self.meet(), "one 2 three\n")
        self.assertEqual([one["state"] for one in ann.threads()], ["accepted"])
        self.assertFalse(cy.ask("accept", to=thread)["done"])
        ann.ask("undo")
        self.assertEqual((self.meet(), cy.threads()[0]["state"]), ("one two three\n", "open"))

    def test_accepted_and_rejected_at_once(self) -> None:
        ann, bob = self.people("ann", "bob")
        thread = ann.ask("suggest", **ann.on("two"), new="2")["thread"]
        self.meet()
        ann.ask("accept", to=thread)
        bob.ask("reject", to=thread)
        self.assertEqual(self.meet(), "one 2 three\n")
        self.assertEqual([one["state"] for one in bob.threads()], ["accepted"])
        ann.ask("undo")
        self.meet()
        self.assertEqual([one["state"] for one in bob.threads()], ["rejected"])

    def test_ones_that_overlap_accepted_at_once(self) -> None:
        ann, bob = self.people("ann", "bob")
        threads = [one.ask("suggest", **one.on(words), new=new)["thread"] for one, words, new in (
            (ann, "one two", "1 2"), (bob, "two three", "2 3"))]
        self.meet()
        accepted(ann.ask, to=threads[0])
        accepted(bob.ask, to=threads[1])
        text = self.meet()
        self.assertEqual({one["state"] for one in ann.threads()}, {"accepted"})
        self.assertEqual((len(text), text.count("1 2"), text.count("2 3")), (len("1 22 3\n"), 1, 1))

    def test_both_without_the_log(self) -> None:
        ann, bob = self.people("ann", "bob")
        for one in ann, bob:
            one.close()
        self.reviewers.clear()
        os.rename(self.file_log(), self.file_log() + ".away")
        ann, bob = self.reviewers = [Reviewer(self, one.person) for one in (ann, bob)]
        ann.ask("remark", **ann.on("two"), body="of ann")
        bob.ask("suggest", **bob.on("two three"), new="2 3")
        bob.type(0, 0, "zero ")
        for one in ann, bob:
            one.close()
        self.reviewers.clear()
        os.rename(self.file_log() + ".away", self.file_log())
        ann, bob = self.reviewers = [Reviewer(self, one.person) for one in (ann, bob)]
        self.assertEqual(self.meet(), "zero one two three\n")
        self.assertEqual({(one["text"], one["begin"]) for one in ann.threads()}, {("two", 9), ("two three", 9)})


class Numbers(Reviews):
    """Who has several numbers changes what he wrote under each."""

    def test_under_another_own_number(self) -> None:
        ann, bob = self.people("ann", "bob")
        thread = bob.ask("remark", **bob.on("two"), body="first")["thread"]
        number = bob.session.number
        # Another process of his has that number, and this one another.
        other = Session(notes_of(bob.person))
        bob.close()
        self.reviewers.remove(bob)
        self.addCleanup(other.close)
        self.assertNotEqual(other.number, number)
        again = Reviewer(self, bob.person)
        self.reviewers.append(again)
        if again.session.number == number:
            # Both ways round: now the first number is another's.
            again.close()
            self.reviewers.remove(again)
            other.close()
            with bob.person.here():
                other = Session(notes.open_note("note", None, None))
            self.addCleanup(other.close)
            again = Reviewer(self, bob.person)
            self.reviewers.append(again)
        self.assertNotEqual(again.session.number, number)
        self.assertEqual(other.number, number)
        answered = again.ask("revise", to=thread, body="second")
        self.assertEqual((answered["error"], "another editor" in answered["words"]), ("own", True))
        other.close()
        self.assertNotIn("error", again.ask("revise", to=thread, body="second"))
        self.assertEqual(again.session.number != number, True)
        (one,) = again.threads()
        self.assertEqual((one["body"], one["revised"]), ("second", True))
        again.type(0, 0, "on ")
        again.ask("withdraw", to=thread)
        self.meet(ann, again)
        self.assertEqual(ann.threads()[0]["state"], "taken")

    def test_a_number_that_was_given_up(self) -> None:
        ann, bob = self.people("ann", "bob")
        thread = bob.ask("remark", **bob.on("two"), body="first")["thread"]
        self.meet()
        number = bob.session.number
        take(bob.person, number)
        self.wait(lambda: any(one["id"] != thread and one["body"] == "first" for one in bob.threads()), "the remark to be typed anew")
        (one,) = [one for one in bob.threads() if one["body"] == "first"]
        self.assertEqual((one["id"] != thread, one["text"], one["own"]), (True, "two", True))
        self.wait(lambda: bob.session.can_type, "another number")
        self.assertNotIn("error", bob.ask("revise", to=one["id"], body="second"))
        # What is written under the number from now on is another's.
        self.assertFalse(bob.session.is_own(number))

    def test_a_number_that_is_full_between_a_replacement_and_its_record(self) -> None:
        ann, bob = self.people("ann", "bob")
        bob.type(0, 0, "x" * 1_000)
        self.meet()
        number = bob.session.number
        # He has another one, which was claimed in advance.
        self.wait(lambda: sum(one.stood for one in bob.session._holdings.clients.values()) > 1, "another number")
        with mock.patch("share.sync.numbers.LEAST_ROOM_LEFT", MOST_OF_A_SITE - 1_050):
            thread = bob.ask("suggest", **bob.on("two"), new="2" * 100)["thread"]
            self.assertNotEqual(bob.session.number, number)
        self.meet()
        self.assertNotIn("elsewhere", ann.threads()[0])
        self.assertTrue(ann.ask("accept", to=thread)["done"])

    def test_records_that_others_deleted_before_their_number_was_given_up(self) -> None:
        ann, bob = self.people("ann", "bob")
        bob.ask("remark", **bob.on("two"), body="long" * 2_000)
        thread = bob.ask("suggest", **bob.on("three"), new="", body="less")["thread"]
        self.meet()
        # Some is hidden within lines, and something else is typed there.
        margin = ann.session.text(MARGIN)
        for begin in range(0, len(margin), 1_000):
            ann.session.cut(begin, begin + 3, MARGIN)
        ann.session.insert(500, b"xyz", MARGIN)
        ann.ask("reply", to=thread, body="why?")
        self.meet()
        wanted = [(one["text"], len(one["body"]), len(one.get("replies", []))) for one in ann.threads()]
        number = bob.session.number
        take(bob.person, number)
        self.wait(lambda: {one["site"] for one in bob.threads()}.isdisjoint({number}), "the records to be typed anew")
        self.meet()
        self.assertEqual([(one["text"], len(one["body"]), len(one.get("replies", []))) for one in ann.threads()], wanted)


def notes_of(person: Person) -> Disk:
    """The file of a person's note."""
    with person.here():
        return notes.open_note("note", None, None)


class Faults(Reviews):
    """Kills, full disks, and the hostile."""

    def test_a_kill_between_the_replacement_and_the_record(self) -> None:
        ann, bob = self.people("ann", "bob")
        with mock.patch("share.sync.margin.OpenMargin.write", side_effect=KeyboardInterrupt), self.assertRaises(KeyboardInterrupt):
            ann.ask("suggest", **ann.on("two"), new="2")
        ann.close()
        self.reviewers[0] = ann = Reviewer(self, ann.person)
        self.assertEqual((self.meet(), ann.threads()), ("one two three\n", []))
        thread = ann.ask("suggest", **ann.on("two"), new="2")["thread"]
        self.meet()
        bob.ask("accept", to=thread)
        self.assertEqual(self.meet(), "one 2 three\n")

    def test_a_full_disk(self) -> None:
        (ann,) = self.people("ann")
        thread = ann.ask("remark", **ann.on("two"), body="kept")["thread"]
        keep, fails = Disk.keep, list[int]()

        def full(disk: Disk, entries: Any, made: bool, **more: Any) -> range:
            # At first the margin alone can't be written, then nothing can.
            if fails[0] <= 0:
                raise Unkept("No space left on device")
            fails[0] -= 1
            return keep(disk, entries, made, **more)
        on = ann.on("one")
        with mock.patch.object(Disk, "keep", full):
            tries: list[tuple[str, Line, int]] = [
                ("remark", {"body": "x" * 9_000, **on}, 0), ("suggest", {"new": "1", **on}, 0), ("suggest", {"new": "1", **on}, 1),
                ("reply", {"to": thread, "body": "x"}, 0), ("withdraw", {"to": thread}, 0)]
            for what, more, lets in tries:
                fails[:] = [lets]
                self.assertEqual(ann.ask(what, **more).get("error"), "unkept", what)
                self.assertEqual(([one["body"] for one in ann.threads()], ann.shows()), (["kept"], "one two three\n"))
        self.assertEqual(ann.ask("suggest", new="1", **on).get("error"), None)
        ann.ask("remark", body="x" * 9_000, **on)
        self.assertEqual([len(one.get("body", "")) for one in ann.threads()], [0, 9_000, 4])
        ann.close()
        self.reviewers[:] = [again := Reviewer(self, ann.person)]
        self.assertEqual([len(one.get("body", "")) for one in again.threads()], [0, 9_000, 4])

    def test_who_writes_into_the_margin_what_he_likes(self) -> None:
        ann, eve = self.people("ann", "eve")
        thread = ann.ask("remark", **ann.on("two"), body="of ann")["thread"]
        suggestion = ann.ask("suggest", **ann.on("three"), new="3")["thread"]
        self.meet()
        wanted = self.plain(ann)
        margin = eve.session.text(MARGIN)
        lines = [part + b"\n" for part in margin.split(b"\n") if part]
        (remark,) = [one for one in lines if b"of ann" in one]
        site, at = map(int, thread.split(":"))
        of = [site, at, sum_of(remark)]
        session = eve.session
        # All of what Ann wrote is hidden, typed into, and its lines joined.
        session.cut(0, len(margin), MARGIN)
        session.insert(0, b"\xff\n{", MARGIN)
        for forged in (line(answer("revised", of, body="forged", by="ann")), line(answer("taken", of, by="ann")), remark[:-1],
                       line(answer("more", of, by="ann")), b"[" * 4_000 + b"\n", line(begun("suggestion", by="ann", new=[[site, 0, 3]]))):
            session.insert(0, forged, MARGIN)
        session.insert(3, b"xyz", MARGIN)
        self.wait(lambda: self.meet() and True, "all")
        found = [one for one in self.plain(ann) if one["site"] == site]
        self.assertEqual(found, wanted)
        (forged_one,) = [one for one in ann.threads() if one["site"] != site]
        # It is hers, though she says otherwise, and what she claims as her replacement is never shown.
        self.assertEqual((forged_one["site"], forged_one["elsewhere"], "new" in forged_one), (eve.session.number, True, False))
        self.assertEqual(ann.ask("accept", to=forged_one["id"])["error"], "elsewhere")
        # The line typed again is one more remark of hers, and what answers the first one answers that.
        session.insert(0, remark, MARGIN)
        ann.ask("reply", to=thread, body="an answer")
        self.meet()
        threads = {one["id"]: len(one.get("replies", [])) for one in ann.threads() if one.get("body") == "of ann"}
        self.assertEqual((len(threads), threads[thread]), (2, 1))
        self.assertTrue(ann.ask("accept", to=suggestion)["done"])
        self.assertEqual(self.meet(), "one two 3\n")

    def test_nobody_has_the_history_pass_over_what_was_shown(self) -> None:
        ann, eve = self.people("ann", "eve")
        end = len(eve.shows())
        eve.type(end, end, "spam")
        self.meet()
        ann.type(end, end + 4, "")
        eve.ask("suggest", **eve.on("two"), new="2")
        self.meet()
        # She claims that what she had typed was what she suggested.
        names, site = Names(eve.session.number, 0, 4), eve.session.site
        anchor = anchored(site.names(0, 3), None, [names], "one", eve.session.margin.knows())
        eve.session.margin.write(MarginRecord(MarginKind.SUGGESTION, "eve", 1, "", anchor=anchor, new=(names,)))
        self.meet()
        self.assertEqual([one.get("new") for one in ann.threads()], ["spam", "2"])
        steps = [[one[name] for name in ("site", "typed", "deleted")] for one in ann.ask("history")["steps"]]
        self.assertEqual(steps, [[ann.session.number, 14, 0], [eve.session.number, 4, 0], [ann.session.number, 0, 4]])

    def test_a_replacement_that_stands_elsewhere_than_the_passage(self) -> None:
        ann, eve = self.people("ann", "eve")
        end = len(eve.shows())
        eve.type(end, end, "pay eve\n")
        eve.type(end, end + 8, "")
        names, site = Names(eve.session.number, 0, 8), eve.session.site
        cases: list[tuple[list[Names], tuple[int, int] | None, str, str]] = [
            (site.names(0, 3), None, "one", "one two three\n"), ([], (0, 0), "", "one two three\n")]
        for at, behind, was, now in cases:
            anchor = anchored(at, behind, [names], "a lie", eve.session.margin.knows())
            record = MarginRecord(MarginKind.SUGGESTION, "eve", 1, "", anchor=anchor, new=(names,))
            to = "{}:{}".format(*eve.session.margin.write(record))
            self.meet()
            answer = ann.ask("accept", to=to)
            self.assertEqual([answer.get(name) for name in ("error", "was", "now", "new")], ["changed", was, now, "pay eve\n"])
            self.assertEqual(self.meet(), "one two three\n")
        # What else it says of the passage nobody believes.
        self.assertEqual([one.get("text") for one in ann.threads()], ["one", None])


class Whole(Reviews):
    """What becomes of a margin with its note."""

    def test_renewed_recovered_and_opened_again(self) -> None:
        ann, bob = self.people("ann", "bob")
        thread = ann.ask("remark", **ann.on("two"), body="why?" * 2_000)["thread"]
        bob.ask("suggest", **bob.on("three"), new="3")
        self.meet()
        bob.ask("reply", to=thread, body="because")
        ann.type(0, 4, "")
        self.meet()
        wanted = [{name: value for name, value in one.items() if name not in ("own",)} for one in self.plain(ann)]
        for one in ann, bob:
            one.close()
        self.reviewers.clear()
        cy = self.person("cy")
        with cy.here():
            notes.recover([bob.person.data])
        with ann.person.here():
            notes.renew("note", None, None, form_number=SECOND)
        for person in ann.person, cy:
            again = Reviewer(self, person)
            self.reviewers[:] = [again]
            self.assertEqual(self.plain(again), wanted)
            self.assertEqual({"own" in one for one in again.threads()}, {False})
            self.assertEqual(again.ask("withdraw", to=thread)["error"], "own")
            suggestion = next(one["id"] for one in again.threads() if one["kind"] == "suggestion")
            self.assertTrue(again.ask("accept", to=suggestion)["done"])
            self.assertEqual(again.shows(), "two 3\n")
            again.close()
            self.reviewers.clear()

    def test_gone_on_from_its_packed_file(self) -> None:
        (ann,) = self.people("ann")
        for number in range(3):
            ann.ask("remark", **ann.on("two"), body=f"why {number}?")
        ann.ask("reply", to=ann.threads()[0]["id"], body="because")
        wanted, folder = self.plain(ann), ann.person.path().with_suffix(".packed") / f"{ann.session.number}-{MARGIN}"

        def again() -> list[tuple[int, int, int]]:
            """Of each text that goes on from a packed file how many messages that has, and how many are handed in beside."""
            self.reviewers[-1].close()
            handed, reopened = list[tuple[int, int, int]](), Site._reopen

            def reopens(site: Site, packed: Messages, progress: Any) -> None:
                with mock.patch.object(Site, "take", autospec=True) as takes:
                    reopened(site, packed, progress)
                handed.append((site.text_number, len(packed), sum(len(call.args[1]) for call in takes.call_args_list)))
            with mock.patch.object(Site, "_reopen", reopens):
                self.reviewers[:] = [one := Reviewer(self, ann.person)]
                self.assertEqual(self.plain(one), wanted)
            return handed
        with mock.patch.object(snapshot, "AT_END", 1):
            self.assertIn((MARGIN, 4, 0), again())
            # One that is damaged is none.
            (folder / PACKED_NAME).write_bytes(b"x")
            self.assertNotIn(MARGIN, [text for text, _, _ in again()])
            self.assertIn((MARGIN, 4, 0), again())

    def test_begun_anew_without_history(self) -> None:
        ann, bob = self.people("ann", "bob")
        thread = ann.ask("remark", **ann.on("two"), body="why?")["thread"]
        other = bob.ask("remark", **bob.on("three"), body="of bob")["thread"]
        self.meet()
        bob.ask("reply", to=thread, body="because")
        ann.ask("resolve", to=other)
        ann.type(0, 4, "1 ")
        self.meet()
        number = bob.session.number
        for one in ann, bob:
            one.close()
        for without, bodies in (set[int](), {"why?": "open", "of bob": "resolved"}), ({number}, {"why?": "open"}):
            with ann.person.here():
                notes.renew("note", None, None, form_number=SECOND, begins=lambda messages: fresh(messages, without).messages)
            self.reviewers[:] = [again := Reviewer(self, ann.person)]
            self.assertEqual(again.shows(), "1 two three\n")
            found = {one["body"]: one for one in again.threads()}
            self.assertEqual({body: one["state"] for body, one in found.items()}, bodies)
            # The characters have other names there.
            self.assertEqual({one["elsewhere"] for one in found.values()}, {True})
            self.assertEqual([one["body"] for one in found["why?"].get("replies", [])], [] if without else ["because"])
            again.close()
            self.reviewers.clear()


if __name__ == "__main__":
    unittest.main()
