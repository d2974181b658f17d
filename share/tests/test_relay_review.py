"""Remarks and suggestions in a relay's page, in Chromium: beside others' engines, in two tabs, offline, and beside what is forged."""
from __future__ import annotations

import random
import unittest
from collections.abc import Iterator, Sequence
from contextlib import closing
from typing import TYPE_CHECKING

from share.format.chunk import Packed, packed
from share.format.entry import NO_HASH, Author
from share.format.operation import INSERT, PLAIN_LOOKS, TEXT, Operation
from share.format.second.form import SealedRecords
from share.format.second.key_link import KeyLink
from share.format.second.keys import new_founding
from share.log.opening import opener_of
from share.review.record import MARGIN, sum_of
from share.tests.cards import BUTTONS, IS_WRITTEN, MARKED, REST_MS, STATE, Cards
from share.tests.editors import Editor
from share.tests.naive_margin import Fields
from share.tests.test_margin import WRONG, Typed, begun, line
from share.tests.test_relay_front import IS_HERE, NO_ROOM
from share.tests.test_relay_text import NO_ROOM_TOLD, READY, AtText
from share.tests.waiting import wait_for
from share.text.line import Line

if TYPE_CHECKING:
    from share.tests.browser import Window
if IS_HERE:
    from selenium.webdriver.common.keys import Keys

    from share.tests.browser import MIRROR

WORDS = "We meet by the mill at ten.\nBring tea and jam.\n"
ALL = """(() => { document.getElementById('which').value = 'all';
  document.getElementById('which').dispatchEvent(new Event('change')); })()"""
PUT = "document.querySelector('main .remarked.suggestion.put')?.dataset.put"
# Each thread that is listed, and whether its text isn't here.
SHOWN = """[...document.querySelectorAll('.card')].map((one) => [one.dataset.thread, ...one.className.split(' ').slice(1, 3),
  one.ariaLabel.includes("its text isn't here")]).sort(([one], [other]) => (one < other ? -1 : 1))"""
# How many locks the tabs of this browser have at a relay's page: one of the note's line, and one of each tab's number.
LOCKS_HELD = "navigator.locks.query().then(({ held }) => held.length)"
SITE = 7


class AtMargin(Cards, AtText):
    """A page and an engine with one note."""

    def both(self, text: str = WORDS) -> tuple[Window, Editor, str]:
        """Bea's page and Ann's engine, once both can write; and the note's link."""
        window, link = self.made_text()
        window.rename("Bea")
        window.paste(text)
        ann = self.engine_of("Ann", link, remarks=True)  # type: ignore[arg-type]
        ann.gets_number()
        ann.shows(text)
        return window, ann, link

    @staticmethod
    def threads(editor: Editor) -> list[Line]:
        """What an engine tells of all threads, where its text has changed meanwhile of the newer one."""
        answer: Line = editor.wait_for(lambda: next((one for one in [editor.ask("remarks", version=editor.mirror.version)]
                                                     if one.get("error") != "stale"), None), "an answer about the text of now")
        found: list[Line] = answer["threads"]
        return found

    def told(self, editor: Editor, wanted: list[Line]) -> None:
        """Waits until an engine tells that of the threads."""
        def is_told() -> bool:
            return [{name: one.get(name) for name in line} for one, line in zip(self.threads(editor), wanted)] == wanted
        editor.wait_for(is_told, f"{wanted} to be told")
        self.assertEqual(len(self.threads(editor)), len(wanted))

    @staticmethod
    def done(editor: Editor, what: str, **more: object) -> Line:
        """What an engine answers that does something."""
        found: Line = editor.ask(what, **more)
        assert "error" not in found, found
        return found

    def about(self, editor: Editor, words: str) -> Line:
        """What a request of an engine's says of the first of these words."""
        at = editor.text.index(words)
        return {"version": editor.mirror.version, "begin": at, "end": at + len(words)}


class Remarks(AtMargin):
    """What is remarked."""

    def test_a_remark_of_a_page_is_answered_by_an_engine(self) -> None:
        window, ann, _ = self.both()
        self.remark(window, "the mill", "Is it open then?")
        self.sent(window)
        window.wait_for(MARKED, ["the mill"])
        at = WORDS.index("the mill")
        self.told(ann, [{"name": "Bea", "body": "Is it open then?", "text": "the mill", "begin": at, "end": at + 8, "state": "open",
                         "kind": "remark", "own": None, "elsewhere": None}])
        thread = self.threads(ann)[0]["id"]
        self.done(ann, "reply", to=thread, body="It is, I asked.")
        self.card(window, "Is it open then?")
        window.gives("document.querySelector('.card.active li .body')?.textContent", "It is, I asked.")
        window.gives(f"{BUTTONS}.map((one) => one.textContent)", ["Reply", "Resolve", "Edit", "Take back"])
        # Each settles it, and opens it again.
        self.press(window, "Resolve")
        window.wait_for(STATE, "resolved")
        self.told(ann, [{"state": "resolved"}])
        self.done(ann, "reopen", to=thread)
        window.wait_for("document.querySelector('.card.active') && !document.querySelector('.card.active .state')")
        self.done(ann, "resolve", to=thread)
        window.wait_for(STATE, "resolved")
        self.press(window, "Reopen")
        self.told(ann, [{"state": "open"}])
        # What is one's own is changed, and taken back.
        self.write(window, "Edit")
        window.type(" So?", Keys.CONTROL, Keys.ENTER)
        self.told(ann, [{"body": "Is it open then? So?", "revised": True}])
        self.press(window, "Take back")
        self.told(ann, [{"state": "taken", "body": None}])
        self.assertEqual((window.text(), ann.text), (WORDS, WORDS))
        self.remark(window, "jam", "Which?")
        self.told(ann, [{"state": "taken"}, {"body": "Which?"}])
        self.assert_right(window)

    def test_a_remark_of_an_engine_is_answered_in_a_page(self) -> None:
        window, ann, link = self.both()
        self.done(ann, "remark", **self.about(ann, "tea"), body="Which?")
        window.wait_for(MARKED, ["tea"])
        self.card(window, "Which?")
        window.gives("document.querySelector('.card.active .name').textContent", "Ann")
        # What is another's isn't edited.
        window.gives(f"{BUTTONS}.map((one) => one.textContent)", ["Reply", "Resolve"])
        self.write(window, "Reply")
        window.type("Green.")
        self.press(window, "Reply")
        ann.wait_for(lambda: [one["body"] for one in self.threads(ann)[0].get("replies", [])] == ["Green."], "the reply")
        # It goes along with its words, and where these are gone it is there with what they were.
        ann.edit((0, 0, "First: "))
        window.shows("First: " + WORDS)
        window.wait_for(MARKED, ["tea"])
        window.run(f"{MIRROR}.focus()")
        at = window.text().index("tea")
        window.select(at, at + 4)
        window.type_over(Keys.DELETE)
        ann.shows("First: " + WORDS.replace("tea ", ""))
        self.told(ann, [{"gone": True, "text": "tea", "begin": at, "end": at}])
        window.wait_for("document.querySelector('main .remarked.gone, .card .gone, .card')")
        window.run(f"{MIRROR}.execCommand('undo')")
        window.wait_for(MARKED, ["tea"])
        self.sent(window)
        # Who opens the note anew, or for the first time, sees the same.
        for one in window, self.text_of(link):
            one.driver.refresh()
            one.wait_for(READY)
            one.wait_for(MARKED, ["tea"])
            self.card(one, "Which?")
            one.gives("document.querySelector('.card.active li .body')?.textContent", "Green.")
            self.assert_right(one)

    def test_two_pages_at_once(self) -> None:
        window, link = self.made_text()
        window.paste(WORDS)
        self.sent(window)
        other = self.text_of(link)
        other.shows(WORDS)
        self.remark(window, "mill", "one")
        self.remark(other, "jam", "two")
        for each in window, other:
            each.wait_for(MARKED, ["mill", "jam"])
        # What one tab of a browser wrote another one changes as its user's own, unless the first is open.
        self.card(other, "one")
        other.gives(f"{BUTTONS}.map((one) => one.textContent)", ["Reply", "Resolve", "Edit", "Take back"])
        self.press(other, "Take back")
        other.wait_for("document.getElementById('words').textContent.includes('another tab of yours has now')")
        held = other.run(LOCKS_HELD)
        window.close()
        wait_for(lambda: other.run(LOCKS_HELD) == held - 1, "the number of the closed tab to be let go")
        self.press(other, "Take back")
        other.wait_for("document.querySelector('.card.active > div > .body').textContent === 'taken back'")
        other.run(f"{MIRROR}.focus()")
        other.wait_for(MARKED, ["jam"])
        self.told(self.engine_of("Eve", link), [{"state": "taken"}, {"state": "open"}])
        self.assert_right(other)

    def test_a_remark_without_the_relay_is_sent_later(self) -> None:
        window, ann, _ = self.both()
        self.sent(window)
        self.relay.kill()
        window.state("offline")
        self.remark(window, "jam", "Which one?")
        window.wait_for(MARKED, ["jam"])
        window.state("offline")
        # It is on the disk.
        window.driver.refresh()
        window.wait_for(READY)
        window.wait_for(MARKED, ["jam"])
        self.assertEqual(self.threads(ann), [])
        self.relay.start()
        self.sent(window)
        self.told(ann, [{"body": "Which one?", "text": "jam"}])
        self.assert_right(window)

    def test_a_remark_that_cannot_be_kept_is_told_and_stays_a_draft(self) -> None:
        window, link = self.made_text()
        window.paste(WORDS)
        self.sent(window)
        window.run("void (window.adds = IDBObjectStore.prototype.add)")
        window.run(NO_ROOM)
        at = WORDS.index("mill")
        window.select(at, at + 4)
        window.chord(Keys.CONTROL, Keys.ALT, "m")
        window.wait_for(IS_WRITTEN)
        window.type("why?", Keys.CONTROL, Keys.ENTER)
        window.wait_for(NO_ROOM_TOLD)
        window.gives("document.querySelector('.draft textarea')?.value", "why?")
        window.run("void (IDBObjectStore.prototype.add = window.adds)")
        window.wait_for(f"!{MIRROR}.getOption('readOnly')")
        eve = self.engine_of("Eve", link)
        self.assertEqual(self.threads(eve), [])
        # There is room again.
        window.click_on(".draft textarea")
        window.type(Keys.CONTROL, Keys.ENTER)
        window.wait_for(MARKED, ["mill"])
        self.sent(window)
        self.told(eve, [{"body": "why?", "text": "mill"}])
        self.assert_right(window)


class Suggestions(AtMargin):
    """What is suggested."""

    def test_a_suggestion_of_a_page_is_accepted_by_an_engine(self) -> None:
        window, ann, _ = self.both()
        self.suggest(window, "ten", "eleven", "The bus comes then.")
        self.assertEqual(window.text(), WORDS)
        window.gives(PUT, "eleven")
        at = WORDS.index("ten")
        self.told(ann, [{"kind": "suggestion", "text": "ten", "new": "eleven", "body": "The bus comes then.", "begin": at, "end": at + 3,
                         "state": "open"}])
        self.assertEqual(ann.text, WORDS)
        thread = self.threads(ann)[0]["id"]
        self.assertTrue(self.done(ann, "accept", to=thread)["done"])
        window.shows(WORDS.replace("ten", "eleven"))
        window.run(ALL)
        self.card(window, "The bus comes then.")
        window.wait_for(STATE, "accepted")
        self.done(ann, "undo")
        window.shows(WORDS)
        window.gives(PUT, "eleven")
        self.done(ann, "reject", to=thread)
        window.wait_for(STATE, "rejected")
        self.assert_right(window)

    def test_a_suggestion_of_an_engine_is_accepted_in_a_page(self) -> None:
        window, ann, _ = self.both()
        self.done(ann, "suggest", **self.about(ann, "tea"), new="cake", body="Sweeter.")
        self.done(ann, "suggest", **self.about(ann, " and jam"), new="")
        window.gives(PUT, "cake")
        self.assertEqual(window.text(), WORDS)
        self.card(window, "Sweeter.")
        self.press(window, "Accept")
        ann.shows(WORDS.replace("tea", "cake"))
        window.wait_for(STATE, "accepted")
        self.told(ann, [{"state": "accepted", "new": "cake"}, {"state": "open", "text": " and jam"}])
        window.type(Keys.ESCAPE)
        window.press("undo")
        ann.shows(WORDS)
        self.told(ann, [{"state": "open"}, {"state": "open"}])
        window.run(f"{MIRROR}.execCommand('redo')")
        ann.shows(WORDS.replace("tea", "cake"))
        self.told(ann, [{"state": "accepted"}, {"state": "open"}])
        # That it was accepted stays when its text goes.
        at = ann.text.index("cake")
        ann.edit((at, at + 5, ""))
        window.shows(WORDS.replace("tea ", ""))
        self.told(ann, [{"state": "resolved", "gone": True}, {"state": "open"}])
        self.card(window, " and jam")
        self.press(window, "Reject")
        self.told(ann, [{"state": "resolved"}, {"state": "rejected"}])
        self.assert_right(window)

    def test_where_the_passage_has_changed_it_is_shown_what_it_becomes_before_it_is_accepted(self) -> None:
        window, ann, _ = self.both()
        self.done(ann, "suggest", **self.about(ann, "by the mill"), new="at the lake")
        window.gives(PUT, "at the lake")
        at = WORDS.index("the mill")
        ann.edit((at, at, "side of "))
        window.shows(WORDS.replace("by the mill", "by side of the mill"))
        self.card(window, "at the lake")
        self.press(window, "Accept")
        window.gives("[...document.querySelectorAll('.card.active dd')].map((one) => one.textContent)",
                     ["by the mill", "by side of the mill", "side of at the lake"])
        # She types there once more, so what was shown isn't what would come.
        ann.edit((at, at, "far "))
        window.shows(WORDS.replace("by the mill", "by far side of the mill"))
        self.press(window, "Accept this")
        window.gives("[...document.querySelectorAll('.card.active dd')].map((one) => one.textContent)",
                     ["by the mill", "by far side of the mill", "far side of at the lake"])
        ann.shows(window.text())
        self.press(window, "Accept this")
        ann.shows("We meet far side of at the lake at ten.\nBring tea and jam.\n")
        self.assert_right(window)

    def test_what_is_typed_while_suggesting_is_suggested(self) -> None:
        window, ann, _ = self.both()
        # On a busy machine keys come as late as after a rest.
        window.holds_timers(REST_MS)
        window.press("suggesting")
        window.run(f"{MIRROR}.focus()")
        window.to(WORDS.index("tea"))
        window.type("green ")
        window.gives(PUT, "green ")
        window.press("suggesting")
        self.told(ann, [{"kind": "suggestion", "new": "green ", "begin": WORDS.index("tea")}])
        self.assertEqual((window.text(), ann.text), (WORDS, WORDS))
        self.done(ann, "accept", to=self.threads(ann)[0]["id"])
        window.shows(WORDS.replace("tea", "green tea"))
        self.assert_right(window)


class Forged(AtMargin):
    """What somebody with the link may write."""

    def test_the_page_has_the_threads_that_an_engine_has(self) -> None:
        founder = SealedRecords.author_of_any_note()
        founding = new_founding(founder.name, SITE)
        form = SealedRecords(founding.key(), 0)
        text = form.messages(_packed([_inserted(TEXT, 1, 1, 0, WORDS.replace("\n", "\r").encode())]), NO_HASH, founder)
        branches = [self._branch(random.Random(seed), text.hashes[0]) for seed in range(2)]
        stranger = form.messages(_packed(_in_a_row([line(begun(body="a stranger"))])), NO_HASH, form.new_author())
        link = KeyLink("sealed", form.keys.key, self.relay.url)
        with closing(opener_of(self.relay.url, form)()) as log:
            log.append([form.opening(founding).raw, text.raw, stranger.raw])
            for some in branches:
                log.append([form.messages(_packed([one]), before, founder).raw for one, before in self._after(form, founder, some)])
        ann = self.engine_of("Ann", link.spelled())
        ann.wait_for(lambda: ann.text == WORDS and self.threads(ann), "all to be read")
        window = self.at(link.page(), "typeof CodeMirror === 'function' && document.title !== 'Note'")
        window.shows(WORDS)
        window.run(ALL)
        window.press("as-list")
        wanted = sorted([one["id"], one["kind"], one["state"], bool(one.get("elsewhere"))] for one in self.threads(ann))
        self.assertEqual({one[3] for one in wanted}, {True, False})
        window.gives(SHOWN, wanted)
        # All goes on.
        window.wait_for(READY)
        self.remark(window, "jam", "Which?")
        ann.wait_for(lambda: [one["body"] for one in self.threads(ann) if one["text"] == "jam"] == ["Which?"], "the remark")
        self.assert_right(window)

    @staticmethod
    def _branch(chance: random.Random, of: bytes) -> list[Operation]:
        """What the founder writes into the margin, perhaps on another copy of his disk: right records, and others."""
        right: Fields = {"at": [[SITE, 11, 8]], "saw": {str(SITE): of[:8].hex()}, "sum": sum_of(b"the mill"), "text": "the mill"}
        typed = Typed(chance)
        for _ in range(30):
            typed.step()
        lines = [*(one.data for one in typed.all if one.data), *(wrong(chance) for wrong in chance.sample(WRONG, 9)),
                 line(begun(**right, body="right")), line(begun(**{**right, "sum": "0" * 16})),
                 line(begun("suggestion", **right, new=[[SITE + 1, 0, 1]]))]
        chance.shuffle(lines)
        return _in_a_row([one for one in lines if one])

    @staticmethod
    def _after(form: SealedRecords, author: Author, some: list[Operation]) -> Iterator[tuple[Operation, bytes]]:
        """Each message, and the hash of the one before it."""
        before = NO_HASH
        for one in some:
            yield one, before
            (before,) = form.keys.hashes_after(author.name, before, one.spellings())


def _in_a_row(lines: Sequence[bytes]) -> list[Operation]:
    """Insertions of a margin, one after the other."""
    found, at = list[Operation](), 0
    for number, data in enumerate(lines, 1):
        found.append(_inserted(MARGIN, number, number + 1, at, data))
        at += len(data)
    return found


def _inserted(text: int, seq: int, stamp: int, at: int, data: bytes) -> Operation:
    return Operation(INSERT, SITE, seq, stamp, 1, (), at, data, PLAIN_LOOKS, text)


def _packed(some: list[Operation]) -> Packed:
    found = packed(some)
    assert found
    return found


if __name__ == "__main__":
    unittest.main()
