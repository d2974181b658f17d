"""Remarks, suggestions and what has changed, as two people see them in Chromium."""
from __future__ import annotations

import pathlib
import tempfile
import unittest
from collections.abc import Callable

from share.tests.cards import BUTTONS, CARDS, IS_IN_TEXT, IS_WRITTEN, MARKED, REST_MS, STATE, Cards
from share.tests.editors import Editor
from share.tests.pages import LOOKS_SO, Pages, Server, looks_well
from share.tests.proved_files import give_up
from share.tests.support import Person, wait_for

try:
    from selenium.webdriver.common.keys import Keys

    from share.tests.browser import CHROMIUM, CLOCK_GOES_ON, CLOCK_STANDS, DRIVER, MIRROR, Browser, Window
    IS_HERE = bool(CHROMIUM and DRIVER)
except ModuleNotFoundError:
    IS_HERE = False

BROWSER: Browser
SECOND = {"VIALSHOAL_FORM": "2", "VIALSHOAL_ZERO_BITS": "0"}
TEXT = "# Picnic\n\nWe meet by the mill at ten.\n\n" + "".join(f"Line {number} of what is to be brought.\n" for number in range(80))
BODIES = "JSON.stringify([...document.querySelectorAll('.card .body')].map((one) => one.textContent)) === JSON.stringify(words[0])"
FOCUSED_CARD = "document.activeElement.classList.contains('card') && document.activeElement.textContent.includes(words[0])"
SAYS = "document.getElementById('words').textContent.includes(words[0])"
# How far the cards are from their lines, and whether they overlap.
PLACES = """((lines) => {
  const cards = [...document.querySelectorAll('.card')].map((one) => one.getBoundingClientRect());
  const tops = lines.map((line) => MIRROR.charCoords({ line, ch: 0 }, "window").top);
  return [cards.map(({ top }, at) => Math.round(top - tops[at])), cards.every((one, at) => !at || one.top >= cards[at - 1].bottom)];
})(arguments[0])"""
# Counts cards that are taken away from now on.
REMOVED = """((place) => {
  window.removed = 0;
  new MutationObserver((all) => all.forEach((one) => { window.removed += one.removedNodes.length; })).observe(place, { childList: true });
})(document.getElementById('cards'))"""
# Closes what a test may have left open.
TIDY = """(() => {
  for (const one of document.querySelectorAll('.card form')) one.querySelector('button[type=button]').click();
  for (const one of ['suggesting', 'changed', 'as-list'].map((id) => document.getElementById(id))) {
    if (one.ariaPressed === 'true') one.click();
  }
  for (const id of ['which', 'whose']) {
    document.getElementById(id).selectedIndex = 0;
    document.getElementById(id).dispatchEvent(new Event('change'));
  }
  document.getElementById('words').replaceChildren();
})()"""
HOSTILE = "<img src=x onerror=\"document.title='bad'\"><script>document.title='bad'</script> \x1b[31m\u202eevil\u2066 \x07\nnext &lt; line"


# How long, in ms, the page waits before it asks for threads.
NEWS_MS = 250
# No request for remarks is sent until `sends` is called.
ASKING_IS_HELD = """((send, held) => {
  WebSocket.prototype.send = function (data) {
    const sends = () => { if (this.readyState === WebSocket.OPEN) send.call(this, data); };
    if (new TextDecoder().decode(data).includes('"do":"remarks"')) held.push(sends);
    else sends();
  };
  window.sends = () => {
    WebSocket.prototype.send = send;
    held.forEach((sends) => sends());
  };
})(WebSocket.prototype.send, [])"""
# Keeps what the page asks for.
COUNTS_REQUESTS = """((send) => {
  window.asked = [];
  WebSocket.prototype.send = function (data) {
    window.asked.push(...new TextDecoder().decode(data).split('\\n').filter(Boolean).map((line) => JSON.parse(line).do));
    send.call(this, data);
  };
})(WebSocket.prototype.send)"""


def setUpModule() -> None:
    """Starts one Chromium for all."""
    global BROWSER
    BROWSER = Browser(1100, 700)
    unittest.addModuleCleanup(BROWSER.close)


class Reviewing(Cards, Pages):
    """Ada and Bob, with a note that each test writes anew."""

    data: pathlib.Path
    ada: Window
    bob: Window
    # One more editor of Ada's, which tidies up.
    editor: Editor

    @classmethod
    def setUpClass(cls) -> None:
        super().setUpClass()
        cls.data = pathlib.Path(tempfile.mkdtemp(prefix="share-"))
        cls.addClassCleanup(give_up, cls.data)
        cls.ada = cls.window("Ada", "--log", str(cls.data / "shared" / "note.log"))
        cls.bob = cls.window("Bob", VIALSHOAL_LINK=Person(cls.data / "Ada").link())
        cls.editor = Editor(cls.data / "Ada")
        cls.addClassCleanup(cls.editor.close)

    @classmethod
    def window(cls, name: str, *words: str, **environment: str) -> Window:
        """A window of somebody with a data folder of his own."""
        server = Server(cls.data / name, "--no-browser", *words, VIALSHOAL_NAME=name, **SECOND, **environment)
        cls.addClassCleanup(server.close)
        window = BROWSER.open(server.path)
        cls.addClassCleanup(window.close)
        return window

    def setUp(self) -> None:
        super().setUp()
        for one in self.ada, self.bob:
            one.run(TIDY)
            one.run(f"{MIRROR}.focus()")
        # The test before may have ended with this text, of which Bob would see too late that its characters are others now.
        for text in "", TEXT:
            self.ada.run(f"{MIRROR}.setValue(arguments[0])", text)
            self.bob.shows(text)
        wait_for(self.resolves_all, "nothing of the test before to be shown")
        for one in self.ada, self.bob:
            one.to(0)

    def resolves_all(self) -> bool:
        """Has all be resolved that Ada's engine has by now; whether both windows show nothing more."""
        for thread in self.editor.ask("remarks", version=self.editor.mirror.version, open=True).get("threads", ()):
            self.editor.ask("resolve", to=thread["id"])
        return not any(one.run("document.querySelector('main .remarked, .card')") for one in (self.ada, self.bob))

    def tearDown(self) -> None:
        self.assert_no_faults(self.ada, self.bob)
        wait_for(lambda: self.ada.text() == self.bob.text(), "both to have the same text")

    def test_a_remark_is_answered_resolved_and_opened_again(self) -> None:
        ada, bob = self.ada, self.bob
        self.remark(ada, "the mill", "Is it open then?")
        for one in ada, bob:
            one.wait_for(MARKED, ["the mill"])
        self.card(bob, "Is it open then?")
        bob.wait_for("document.querySelector('main .looked-at')?.textContent === 'the mill'")
        bob.gives("document.querySelector('.card.active .name').textContent", "Ada")
        # What is another's isn't edited.
        bob.gives(f"{BUTTONS}.map((one) => one.textContent)", ["Reply", "Resolve"])
        self.write(bob, "Reply")
        bob.type("It is, I asked.")
        self.press(bob, "Reply")
        bob.wait_for("document.activeElement.classList.contains('card')")
        ada.wait_for(f"{CARDS}.some((one) => one.includes('1 reply'))")
        self.card(ada, "Is it open then?")
        ada.gives(f"{BUTTONS}.map((one) => one.textContent)", ["Reply", "Resolve", "Edit", "Take back"])
        ada.gives("document.querySelector('.card.active li .body').textContent", "It is, I asked.")
        self.press(ada, "Resolve")
        ada.wait_for(STATE, "resolved")
        bob.run(f"{MIRROR}.focus()")
        bob.wait_for("!document.querySelector('.card')")
        bob.run("document.getElementById('which').value = 'all'")
        bob.run("document.getElementById('which').dispatchEvent(new Event('change'))")
        self.card(bob, "Is it open then?")
        self.press(bob, "Reopen")
        bob.wait_for("document.querySelector('.card.active') && !document.querySelector('.card.active .state')")
        ada.wait_for("!document.querySelector('.card.active .state')")

    def test_what_is_ones_own_is_edited_and_taken_back(self) -> None:
        ada, bob = self.ada, self.bob
        self.remark(ada, "at ten", "Too earl")
        self.card(ada, "Too earl")
        self.write(ada, "Edit")
        ada.type("y!", Keys.CONTROL, Keys.ENTER)
        for one in ada, bob:
            one.wait_for(BODIES, ["Too early!"])
        self.card(bob, "Too early!")
        self.write(bob, "Reply")
        bob.type("No", Keys.CONTROL, Keys.ENTER)
        bob.wait_for("document.querySelector('.card.active li')")
        self.press(bob, "Take back")
        for one in ada, bob:
            one.wait_for("document.querySelector('.card.active li .body')?.textContent === 'taken back'")
        self.press(ada, "Take back")
        ada.wait_for("document.querySelector('.card.active > div > .body').textContent === 'taken back'")
        ada.run(f"{MIRROR}.focus()")
        ada.wait_for("!document.querySelector('.card')")
        ada.wait_for(MARKED, [])

    def test_a_suggestion_is_shown_accepted_taken_back_by_undo_and_rejected(self) -> None:
        ada, bob = self.ada, self.bob
        self.suggest(bob, "ten", "eleven", "The bus comes then.")
        self.assertEqual(bob.text(), TEXT)
        for one in ada, bob:
            one.wait_for("document.querySelector('main .remarked.suggestion.put')?.dataset.put === 'eleven'")
        self.assertEqual(ada.run("getComputedStyle(document.querySelector('main .put'), '::after').content"), '"eleven"')
        self.assertIn("line-through", ada.run("getComputedStyle(document.querySelector('main .put')).textDecorationLine"))
        self.card(ada, "The bus comes then.")
        texts = "[...document.querySelectorAll('.card.active :is(del, ins)')].map((one) => one.textContent)"
        ada.gives(texts, ["ten", "eleven"])
        self.press(ada, "Accept")
        for one in ada, bob:
            one.shows(TEXT.replace("ten", "eleven"))
        ada.wait_for(STATE, "accepted")
        ada.type(Keys.ESCAPE)
        ada.press("undo")
        for one in ada, bob:
            one.shows(TEXT)
        self.card(ada, "The bus comes then.")
        ada.wait_for("!document.querySelector('.card.active .state')")
        self.press(ada, "Reject")
        ada.wait_for(STATE, "rejected")
        bob.wait_for("!document.querySelector('main .put')")
        self.assertEqual(ada.text(), TEXT)

    def test_a_suggestion_whose_text_has_changed_is_accepted_after_it_is_shown_what_it_becomes(self) -> None:
        ada, bob = self.ada, self.bob
        self.suggest(bob, "by the mill", "at the lake")
        ada.wait_for("document.querySelector('main .put')")
        at = TEXT.index("the mill")
        ada.to(at)
        ada.type("side of ")
        bob.shows(TEXT.replace("by the mill", "by side of the mill"))
        self.card(ada, "at the lake")
        self.press(ada, "Accept")
        ada.wait_for("document.querySelectorAll('.card.active dd').length === 3")
        ada.gives("[...document.querySelectorAll('.card.active dd')].map((one) => one.textContent)",
                  ["by the mill", "by side of the mill", "side of at the lake"])
        ada.gives("document.activeElement.textContent", "Cancel")
        ada.type(Keys.ENTER)
        ada.wait_for("!document.querySelector('.card dd')")
        self.assertEqual(ada.text(), TEXT.replace("by the mill", "by side of the mill"))
        self.press(ada, "Accept")
        self.press(ada, "Accept this")
        for one in ada, bob:
            one.shows(TEXT.replace("by the mill", "side of at the lake"))
        ada.wait_for(STATE, "accepted")

    def test_an_insertion_and_a_deletion_are_suggested(self) -> None:
        ada, bob = self.ada, self.bob
        ada.to(TEXT.index(" at ten"))
        ada.press("suggest")
        ada.wait_for(IS_WRITTEN)
        ada.type(" and the lake", Keys.CONTROL, Keys.ENTER)
        bob.wait_for("document.querySelector('main .spot.put')?.dataset.put === ' and the lake'")
        self.suggest(ada, "# ", "")
        bob.wait_for("document.querySelector('main .remarked.suggestion:not(.put)')?.textContent === '# '")
        # Nothing of them is in the text yet, also not where one types beside them.
        bob.to(TEXT.index(" at ten"))
        bob.run(f"{MIRROR}.focus()")
        bob.type("s")
        text = TEXT.replace("mill at", "mills at")
        for one in ada, bob:
            one.shows(text)
        # One typed where the first is to be put, so that is asked.
        for words, presses in (" and the lake", ("Accept", "Accept this")), ("# ", ("Accept",)):
            self.card(bob, words)
            for each in presses:
                self.press(bob, each)
            bob.wait_for(STATE, "accepted")
        for one in ada, bob:
            one.wait_for(f"{MIRROR}.getValue().startsWith('Picnic') && {MIRROR}.getValue().includes(' and the lake')")

    def test_keys_alone_do_all(self) -> None:
        ada, bob = self.ada, self.bob
        self.remark(bob, "Line 70", "far below")
        self.remark(bob, "Picnic", "first")
        self.remark(bob, "mill", "second")
        ada.wait_for("document.querySelectorAll('.card').length === 2")
        ada.run(f"{MIRROR}.focus()")
        ada.to(0)
        for body in "first", "second", "far below", "first":
            ada.chord(Keys.ALT, Keys.SHIFT, Keys.DOWN)
            ada.wait_for(FOCUSED_CARD, body)
        ada.chord(Keys.ALT, Keys.SHIFT, Keys.UP)
        ada.wait_for(FOCUSED_CARD, "far below")
        ada.chord(Keys.ALT, Keys.SHIFT, Keys.UP)
        ada.wait_for(FOCUSED_CARD, "second")
        ada.type(Keys.TAB, Keys.ENTER)
        ada.wait_for(IS_WRITTEN)
        ada.type("by keys", Keys.TAB, Keys.ENTER)
        bob.wait_for(f"{CARDS}.some((one) => one.includes('1 reply'))")
        ada.wait_for(FOCUSED_CARD, "by keys")
        reached = list[str]()
        while "Resolve" not in reached and len(reached) < 9:
            ada.type(Keys.TAB)
            reached.append(ada.run("document.activeElement.textContent"))
        self.assertEqual(reached, ["Edit", "Take back", "Reply", "Resolve"])
        ada.type(Keys.ENTER)
        ada.wait_for(STATE, "resolved")
        # Back to the text, to where the remark is.
        ada.type(Keys.ESCAPE)
        ada.wait_for(IS_IN_TEXT)
        ada.gives(f"{MIRROR}.indexFromPos({MIRROR}.getCursor())", TEXT.index("mill"))
        ada.wait_for("document.querySelectorAll('.card').length === 1")
        # What has words isn't lost by Esc.
        ada.chord(Keys.CONTROL, Keys.ALT, "m")
        ada.wait_for(IS_WRITTEN)
        ada.type("kept", Keys.ESCAPE)
        ada.wait_for(f"{IS_IN_TEXT} && document.querySelector('.draft textarea').value === 'kept'")

    def test_a_screen_reader_is_told_what_cards_are(self) -> None:
        ada = self.ada
        self.remark(self.bob, "Picnic", "a first word")
        self.card(ada, "a first word")
        nodes = [(node["role"]["value"], node.get("name", {}).get("value", ""))
                 for node in ada.command("Accessibility.getFullAXTree")["nodes"] if "role" in node]
        self.assertIn(("article", "Remark by Bob, a first word"), nodes)
        self.assertIn(("complementary", "Remarks"), nodes)
        for button in "Reply", "Resolve", "Remark", "Suggest", "The next change":
            self.assertIn(("button", button), [*nodes, ("button", "The next change")])
        for role in "button", "textbox", "combobox", "article":
            self.assertEqual([name for of, name in nodes if of == role and not name], [])

    def test_anothers_edit_while_a_card_is_open_changes_nothing_of_what_is_typed(self) -> None:
        ada, bob = self.ada, self.bob
        self.remark(ada, "the mill", "one")
        self.card(ada, "one")
        self.write(ada, "Reply")
        ada.type("half a re")
        at = TEXT.index("We meet")
        ada.run("document.activeElement.id = 'typed'")
        bob.run(f"{MIRROR}.replaceRange('Come! ', {MIRROR}.posFromIndex(arguments[0]))", at)
        ada.shows(TEXT.replace("We meet", "Come! We meet"))
        self.remark(bob, "at ten", "two")
        ada.wait_for("document.querySelectorAll('.card').length === 2")
        self.card(bob, "one")
        self.press(bob, "Resolve")
        ada.wait_for(STATE, "resolved")
        self.assertEqual(ada.run("[document.activeElement.id, document.activeElement.value]"), ["typed", "half a re"])
        ada.wait_for(MARKED, ["the mill", "at ten"])
        ada.type("ply", Keys.CONTROL, Keys.ENTER)
        ada.wait_for("document.querySelector('.card.active li .body')?.textContent === 'half a reply'")
        # A remark that is being written stays with its words.
        ada.run(f"{MIRROR}.focus()")
        ada.select(TEXT.index("Picnic"), TEXT.index("Picnic") + 6)
        ada.chord(Keys.CONTROL, Keys.ALT, "m")
        ada.wait_for(IS_WRITTEN)
        ada.type("three")
        bob.run(f"{MIRROR}.replaceRange('The ', {MIRROR}.posFromIndex(2))")
        ada.wait_for(f"{MIRROR}.getValue().startsWith('# The Picnic')")
        ada.type(Keys.CONTROL, Keys.ENTER)
        bob.wait_for("[...document.querySelectorAll('main .remarked')].some((one) => one.textContent === 'Picnic')")

    def test_what_is_composed_beside_remarks_is_kept(self) -> None:
        ada, bob = self.ada, self.bob
        ada.run(CLOCK_STANDS)
        self.addCleanup(ada.run, CLOCK_GOES_ON)
        self.remark(bob, "the mill", "one")
        bob.to(TEXT.index(" at ten"))
        bob.press("remark")
        bob.wait_for(IS_WRITTEN)
        bob.type("at a place", Keys.CONTROL, Keys.ENTER)
        self.suggest(bob, "ten", "eleven")
        ada.wait_for("document.querySelectorAll('main .remarked').length === 3")
        for number, place in enumerate(("the mill", "ill", " at ten", "ten", "en.", ".\n\nLine 0")):
            text = ada.text()
            at = text.index(place)
            ada.run(f"{MIRROR}.focus()")
            ada.to(at)
            for part in "k", "ka", "kan":
                ada.command("Input.imeSetComposition", text=part, selectionStart=len(part), selectionEnd=len(part))
            self.remark(bob, f"Line {number}", f"meanwhile {number}")
            ada.command("Input.insertText", text="\u6f22")
            for one in ada, bob:
                one.shows(text[:at] + "\u6f22" + text[at:])
            ada.type("x", Keys.BACKSPACE, Keys.BACKSPACE)
            for one in ada, bob:
                one.shows(text)
        ada.wait_for("document.querySelectorAll('main .remarked').length === 9")

    def test_cards_stand_beside_their_lines_and_never_overlap(self) -> None:
        ada = self.ada
        for words in "Picnic", "We meet", "by the", "Line 9":
            self.remark(ada, words, f"about {words}, in some more words than go into one line")
        ada.to(0)
        ada.wait_for("document.querySelectorAll('.card').length === 4")
        ada.wait_for("!document.querySelector('.card.active') || document.querySelector('.card.active').textContent.includes('Picnic')")
        # The first one is at the margin's top, and the last one has room.
        self.are_placed(lambda distances: abs(distances[0]) <= 60 and abs(distances[3]) <= 3)
        self.card(ada, "about by the")
        self.are_placed(lambda distances: abs(distances[2]) <= 150)
        # What isn't in sight isn't there.
        ada.run(f"{MIRROR}.scrollTo(null, 1500)")
        ada.wait_for("!document.querySelector('.card:not(.active)')")

    def are_placed(self, is_so: Callable[[list[int]], bool]) -> None:
        """Waits until four cards of Ada's are so far from their lines, and none overlaps another one."""
        def are_so() -> bool:
            distances, are_apart = self.ada.run(PLACES.replace("MIRROR", MIRROR), [0, 2, 2, 13])
            return len(distances) == 4 and are_apart and is_so(distances)
        try:
            wait_for(are_so, "the cards to be laid out")
        except AssertionError as why:
            raise AssertionError(f"{why}: {self.ada.run(PLACES.replace('MIRROR', MIRROR), [0, 2, 2, 13])}") from why

    def test_what_is_gone_is_said(self) -> None:
        ada, bob = self.ada, self.bob
        self.remark(ada, "by the mill", "where is that?")
        at = TEXT.index("by the mill")
        ada.wait_for("document.querySelectorAll('.card').length === 1")
        ada.run(REMOVED)
        bob.run(f"{MIRROR}.replaceRange('', {MIRROR}.posFromIndex(arguments[0]), {MIRROR}.posFromIndex(arguments[1]))", at, at + 11)
        for one in ada, bob:
            self.card(one, "where is that?")
            one.wait_for("document.querySelector('.card.active .place')?.textContent === 'Its text is deleted: by the mill'")
        # It was there all the time.
        self.assertEqual(ada.run("window.removed"), 0)

    def test_a_list_has_all_and_authors_are_chosen(self) -> None:
        ada, bob = self.ada, self.bob
        self.remark(bob, "Line 75", "far below")
        self.remark(ada, "Picnic", "of mine")
        ada.press("as-list")
        ada.wait_for(f"{CARDS}.some((one) => one.includes('far below')) && {CARDS}.some((one) => one.includes('of mine'))")
        ada.run("document.getElementById('whose').value = 'Bob'")
        ada.run("document.getElementById('whose').dispatchEvent(new Event('change'))")
        ada.wait_for(f"{CARDS}.every((one) => one.startsWith('Bob')) && {CARDS}.some((one) => one.includes('far below'))")
        self.card(ada, "far below")
        ada.wait_for(f"{MIRROR}.getScrollInfo().top > 500 && document.querySelector('main .looked-at')?.textContent === 'Line 75'")

    def test_what_others_write_is_text(self) -> None:
        ada, bob = self.ada, self.bob
        bob.rename("<b>Bob</b>")
        self.addCleanup(bob.rename, "Bob")
        bob.run(f"{MIRROR}.focus()")
        bob.select(0, 8)
        bob.chord(Keys.CONTROL, Keys.ALT, "s")
        bob.wait_for(IS_WRITTEN)
        for field in "put", "why":
            bob.run("document.activeElement.value = arguments[0]", f"{HOSTILE} {field}")
            bob.type(Keys.TAB)
        bob.run("document.querySelector('.draft form').requestSubmit()")
        self.card(ada, "onerror")
        ada.wait_for("document.querySelector('main .put')")
        self.assertEqual(ada.run("document.querySelectorAll('#margin img, #margin script, main img, main script').length"), 0)
        self.assertEqual(ada.run("document.title"), "note")
        shown = HOSTILE.replace("\x1b", "\ufffd").replace("\x07", "\ufffd")
        self.assertEqual(ada.run("document.querySelector('.card.active .body bdi').textContent"), f"{shown} why")
        self.assertEqual(ada.run("document.querySelector('.card.active ins').textContent"), f"{shown} put")
        self.assertEqual(ada.run("document.querySelector('.card.active bdi.name').textContent"), "<b>Bob</b>")
        self.assertEqual(ada.run("document.querySelector('main .put').dataset.put"), f"{shown} put")
        for selector in ".card.active ins", ".card.active .name", ".card.active .body bdi":
            self.assertRegex(ada.run(f"getComputedStyle(document.querySelector('{selector}')).unicodeBidi"), "isolate")
        self.assertEqual(ada.run("getComputedStyle(document.querySelector('main .put'), '::after').unicodeBidi"), "isolate")

    def test_on_a_phone_they_are_a_sheet(self) -> None:
        ada = self.ada
        self.remark(ada, "the mill", "Is it open then?")
        self.suggest(self.bob, "ten", "eleven", "The bus comes then.")
        self.addCleanup(ada.command, "Emulation.clearDeviceMetricsOverride")
        self.addCleanup(ada.command, "Emulation.setEmulatedMedia", features=[])
        for width, height in (1280, 800), (390, 844):
            ada.command("Emulation.setDeviceMetricsOverride", width=width, height=height, deviceScaleFactor=1, mobile=width < 500)
            for scheme in "light", "dark":
                ada.command("Emulation.setEmulatedMedia", features=[{"name": "prefers-color-scheme", "value": scheme}])
                ada.wait_for(LOOKS_SO, width, scheme)
                self.begin_reply(ada, "The bus comes then.")
                looks_well(ada, width < 500)
                self.press(ada, "Cancel")
        text, sheet = (ada.run(f"document.querySelector('{one}').getBoundingClientRect().toJSON()") for one in ("main", "#margin"))
        self.assertEqual((text["width"], sheet["width"]), (390, 390))
        self.assertLessEqual(text["bottom"], sheet["top"] + 1)
        self.assertGreater(text["height"], 200)
        ada.press("unmargin")
        ada.wait_for("document.getElementById('margin').hidden")
        ada.run("document.getElementById('remarks').click()")
        self.card(ada, "The bus comes then.")
        self.press(ada, "Accept")
        ada.shows(TEXT.replace("ten", "eleven"))

    def test_no_key_asks_for_remarks(self) -> None:
        ada = self.ada
        for number in range(10, 20):
            self.remark(ada, f"Line {number}", f"about {number}")
        ada.wait_for("document.querySelectorAll('.card').length >= 3")
        # However long a busy machine takes: what is asked meanwhile was about to be before.
        ada.holds_timers(NEWS_MS)
        self.addCleanup(ada.lets_timers_run)
        ada.run(COUNTS_REQUESTS)
        ada.to(0)
        asked, typed = list[str](), ""
        # On a busy machine many keys go into an edit.
        while asked.count("edit") < 6:
            ada.type("x" * 60)
            typed += "x" * 60
            ada.shows(typed + TEXT)
            asked = ada.run("window.asked")
        self.assertLessEqual(asked.count("remarks"), asked.count("edit") // 2)

    def test_what_is_typed_becomes_a_suggestion_where_one_chose_that(self) -> None:
        ada, bob = self.ada, self.bob
        # On a busy machine keys come as late.
        ada.holds_timers(REST_MS)
        self.addCleanup(ada.lets_timers_run)
        ada.press("suggesting")
        ada.to(TEXT.index("ten"))
        ada.type(Keys.DELETE * 3, "noonx", Keys.BACKSPACE)
        ada.wait_for("document.querySelector('main .own')?.dataset.put === 'noon'")
        self.assertEqual([ada.run("document.querySelector('main .own').textContent"), ada.text()], ["ten", TEXT])
        # A key that takes more than a sign takes back a word.
        ada.type(" and more ")
        ada.chord(Keys.CONTROL, Keys.BACKSPACE)
        ada.wait_for("document.querySelector('main .own')?.dataset.put === 'noon and '")
        ada.chord(Keys.CONTROL, Keys.BACKSPACE)
        ada.type(Keys.BACKSPACE)
        ada.wait_for("document.querySelector('main .own')?.dataset.put === 'noon'")
        self.assertEqual([ada.run("document.querySelector('main .own').textContent"), ada.text()], ["ten", TEXT])
        # It is sent as one goes on elsewhere.
        ada.to(0)
        bob.wait_for("document.querySelector('main .put')?.dataset.put === 'noon'")
        for part in "k", "ka", "kan":
            ada.command("Input.imeSetComposition", text=part, selectionStart=len(part), selectionEnd=len(part))
        ada.command("Input.insertText", text="\u6f22")
        ada.wait_for("document.querySelector('main .own')?.dataset.put === words[0]", "\u6f22")
        ada.type("!", Keys.ENTER)
        ada.gives("document.querySelector('main .CodeMirror-line').textContent", "# Picnic")
        self.assertEqual(ada.text(), TEXT)
        ada.press("suggesting")
        bob.wait_for("document.querySelector('main .spot.put')?.dataset.put === words[0]", "\u6f22!\n")
        # What isn't sent yet an undo takes back.
        ada.press("suggesting")
        ada.type("no")
        ada.wait_for("document.querySelector('main .own')?.dataset.put === 'no'")
        ada.type(Keys.CONTROL, "z")
        ada.wait_for("!document.querySelector('main .own')")
        ada.press("suggesting")
        self.assertEqual(bob.text(), TEXT)
        self.card(bob, "noon")
        self.press(bob, "Accept")
        for one in ada, bob:
            one.shows(TEXT.replace("ten", "noon"))
        ada.run(f"{MIRROR}.focus()")
        ada.to(0)
        ada.type("done ")
        bob.shows("done " + TEXT.replace("ten", "noon"))

    def test_a_remark_is_about_what_was_selected_as_it_was_begun(self) -> None:
        ada = self.ada
        # Whether the note has a margin is asked, and answered late.
        ada.driver.refresh()
        ada.wait_for(f"typeof CodeMirror === 'function' && document.title === 'note' && !{MIRROR}.getOption('readOnly')")
        ada.run(ASKING_IS_HELD)
        ada.run("document.getElementById('name').dispatchEvent(new Event('change'))")
        ada.wait_for(f"!{MIRROR}.getOption('readOnly')")
        at = TEXT.index("the mill")
        ada.select(at, at + len("the mill"))
        ada.run("document.getElementById('remark').click()")
        ada.to(0)
        ada.run("void window.sends()")
        ada.wait_for("document.querySelector('.draft')")
        ada.gives("document.querySelector('main .looked-at')?.textContent", "the mill")

    def test_what_is_composed_as_one_ends_suggesting_is_suggested(self) -> None:
        ada, bob = self.ada, self.bob
        for put, presses in ("noka", ["suggesting"]), ("yoka", ["find", "suggesting"]):
            ada.press("suggesting")
            ada.to(TEXT.index("ten"))
            ada.type(put[:2])
            for part in "k", "ka":
                ada.command("Input.imeSetComposition", text=part, selectionStart=len(part), selectionEnd=len(part))
            for button in presses:
                ada.press(button)
            bob.wait_for("[...document.querySelectorAll('main .spot.put')].some((one) => one.dataset.put === words[0])", put)
            self.assertEqual([ada.text(), bob.text()], [TEXT, TEXT])

    def test_what_is_replaced_becomes_suggestions_where_one_chose_that(self) -> None:
        ada, bob = self.ada, self.bob
        ada.press("suggesting")
        ada.run(f"{MIRROR}.execCommand('replace')")
        for field, words in ("sought", "Line 1"), ("other", ""):
            ada.run("document.getElementById(arguments[0]).value = arguments[1]", field, words)
        ada.run("document.getElementById('sought').dispatchEvent(new Event('input'))")
        ada.wait_for("document.getElementById('count').textContent.endsWith('of 11')")
        ada.press("one")
        bob.wait_for(MARKED, ["Line 1"])
        ada.press("all")
        ada.wait_for("document.getElementById('count').textContent === '11 suggested'")
        ada.press("found")
        bob.wait_for(MARKED, ["Line 1"] * 11)
        self.assertEqual([ada.text(), bob.text()], [TEXT, TEXT])

    def test_what_changed_since_one_looked_is_gone_through(self) -> None:
        ada, bob = self.ada, self.bob
        # Another editor of Ada's is closed: she has looked.
        Editor(self.data / "Ada").close()
        at = TEXT.index("ten")
        bob.run(f"{MIRROR}.replaceRange('noon', {MIRROR}.posFromIndex(arguments[0]), {MIRROR}.posFromIndex(arguments[1]))", at, at + 3)
        bob.run(f"{MIRROR}.replaceRange('<b>More.</b>\\n', {MIRROR}.posFromIndex({MIRROR}.getValue().length))")
        text = TEXT.replace("ten", "noon") + "<b>More.</b>\n"
        ada.shows(text)
        ada.press("changed")
        ada.wait_for("document.getElementById('since-words').textContent.startsWith('3 changes since you looked')")
        # Of what went it is said who wrote it.
        ada.gives("[...document.querySelectorAll('#changers li')].map((one) => one.textContent)", ["Ada", "Bob"])
        # What is far below isn't marked yet.
        ada.wait_for("[...document.querySelectorAll('main .came')].map((one) => one.textContent).join() === 'noon'")
        ada.gives("[...document.querySelectorAll('main .went')].map((one) => one.dataset.went)", ["ten"])
        # What is typed meanwhile moves them.
        ada.to(0)
        ada.type("Our ")
        bob.shows("Our " + text)
        # That others changed lines is told after a while, in place of what is told now.
        ada.run("""new MutationObserver(() => window.heard.push(document.getElementById('told').textContent))
          .observe(document.getElementById('told'), { childList: true }, window.heard = [])""")
        ada.type(Keys.F8)
        ada.wait_for("document.getElementById('since-words').textContent.startsWith('1 of 3')")
        ada.wait_for("window.heard.includes('deleted, of Ada: ten')")
        ada.type(Keys.F8)
        ada.gives(f"{MIRROR}.indexFromPos({MIRROR}.getCursor())", text.index("noon") + len("Our "))
        ada.type(Keys.F8)
        ada.wait_for("document.getElementById('since-words').textContent.startsWith('3 of 3')")
        ada.wait_for("document.querySelector('main .now')?.textContent === '<b>More.</b>'")
        ada.chord(Keys.SHIFT, Keys.F8)
        ada.wait_for("document.getElementById('since-words').textContent.startsWith('2 of 3')")
        ada.type(Keys.ESCAPE)
        ada.wait_for("document.getElementById('since').hidden && !document.querySelector('main .came, main .went')")
        self.assertEqual(ada.text(), "Our " + text)

    def test_what_changed_since_a_place_of_the_history_is_shown(self) -> None:
        ada, bob = self.ada, self.bob
        bob.to(0)
        bob.type("Our ")
        ada.shows("Our " + TEXT)
        ada.press("history")
        ada.wait_for("!document.getElementById('past').hidden && document.getElementById('since-here').disabled")
        ada.press("earlier")
        ada.wait_for("document.querySelector('#past-text .CodeMirror').CodeMirror.getValue() === words[0]", TEXT)
        ada.press("since-here")
        ada.wait_for("document.getElementById('since-words').textContent === '1 change since that place of the history'")
        ada.wait_for("document.querySelector('main .came')?.textContent === 'Our '")
        ada.type(Keys.ESCAPE)
        ada.wait_for("document.getElementById('since').hidden")


class Alone(Pages):
    """A part of the page by itself."""

    def test_what_would_overlap_is_stacked(self) -> None:
        window = self.window()
        for wanted, heights, fixed, tops in (([], [], 0, []), ([5], [40], 0, [5]), ([-9], [40], 0, [0]), ([0, 100], [40, 40], 0, [0, 100]),
                                             ([0, 10, 20], [40, 40, 40], 0, [0, 48, 96]), ([0, 10, 20], [40, 40, 40], 2, [0, 48, 96]),
                                             ([100, 110, 120], [40, 40, 40], 2, [24, 72, 120]),
                                             ([100, 110, 120], [40, 40, 40], 1, [62, 110, 158])):
            window.run("import('/margin.js').then(({ stacked }) => { window.stacked = stacked(...arguments); })", wanted, heights, fixed)
            window.wait_for("JSON.stringify(window.stacked) === JSON.stringify(words[0])", tops)

    def test_what_is_written_in_a_card_stays_as_an_answer_comes_late(self) -> None:
        window = self.window()
        window.run("""import('/card.js').then(({ Card }) => {
          const record = { id: "1:2", kind: "suggestion", state: "open", text: "ten", new: "noon", name: "Ada", time: 1 };
          window.said = [];
          const told = { looked: () => {}, left: () => {}, says: (words) => window.said.push(words), does: () => true };
          window.card = new Card(record, told);
          window.card.draw(record, true);
          document.body.append(window.card.element);
          window.card.does("reply");
        })""")
        window.wait_for(IS_WRITTEN)
        window.type("I asked")
        window.run("window.card.ask({ was: 'ten', now: 'then', new: 'noon' })")
        window.type(" them.")
        window.wait_for("document.activeElement.value === 'I asked them.' && window.said.length === 1")

    def test_what_is_being_sent_can_not_be_typed_on(self) -> None:
        window = self.window()
        window.run("""import('/forms.js').then(({ Form }) => {
          window.form = new Form({ words: "Reply", text: "", done: () => new Promise((done) => { window.done = done; }),
            left: () => { window.isLeft = true; } });
          document.body.append(window.form.element);
          window.form.focus();
        })""")
        window.wait_for(IS_WRITTEN)
        window.type("one", Keys.CONTROL, Keys.ENTER)
        window.wait_for("window.done")
        window.type(" two")
        window.run("window.done(false)")
        window.wait_for("!document.activeElement.readOnly")
        window.type(" three")
        window.wait_for("document.activeElement.value === 'one three'")
        self.assertIsNone(window.run("window.isLeft"))

    def test_lines_that_go_before_threads_are_answered_are_asked_about_no_more(self) -> None:
        window = self.window()
        window.run("""Promise.all(['/threads.js', '/places.js'].map((one) => import(one))).then(async ([{ Threads }, { Places }]) => {
          const [cm, answers] = [CodeMirror(document.body, { value: "one\\ntwo\\nthree" }), []];
          const inSight = () => [0, cm.lastLine()].map((line) => ({ line, ch: 0 }));
          const threads = new Threads({ cm, places: new Places(cm), inSight, composing: { isOn: false } },
            () => new Promise((done) => { answers.push(() => done({ threads: [], of: 0, isOld: () => false })); }),
            { came: () => {}, isListed: () => false, kept: () => [] });
          const asked = threads.now();
          cm.replaceRange("", { line: 0, ch: 3 }, { line: 2, ch: 5 });
          answers[0]();
          await asked;
          cm.replaceRange("!", { line: 0, ch: 3 });
          window.answers = answers;
        })""")
        window.wait_for("window.answers?.length === 2")

    def test_what_came_before_a_connection_ended_is_taken_in(self) -> None:
        window = self.window()
        window.run("""import('/connection.js').then(({ Connection }) => {
          const [heard, sockets, Real] = [[], [], WebSocket];
          window.WebSocket = class { static OPEN = 1; readyState = 1; constructor() { sockets.push(this); } send() {} close() {} };
          let isBusy = false;
          const one = new Connection({ came: (line) => heard.push(line.answer ?? line.notice), isBusy: () => isBusy, waits: () => {},
            settles: () => { isBusy = false; }, ended: () => { heard.push("ended"); } });
          one.open();
          window.WebSocket = Real;
          sockets[0].onmessage({ data: JSON.stringify({ notice: "opening" }) });
          isBusy = true;
          sockets[0].onmessage({ data: JSON.stringify({ answer: "remark" }) });
          sockets[0].onclose({ code: 1006, reason: "" });
          window.heard = heard;
        })""")
        window.wait_for("window.heard && JSON.stringify(window.heard) === JSON.stringify(words[0])", ["opening", "remark", "ended"])

    def window(self) -> Window:
        """A window with a note."""
        server = Server(self.folder / "data", "--no-browser")
        self.addCleanup(server.close)
        window = BROWSER.open(server.path)
        self.addCleanup(window.close)
        self.addCleanup(self.assert_no_faults, window)
        return window


class FirstForm(Pages):
    """A note of the first form, which has no margin."""

    def test_the_buttons_say_what_makes_one_that_has(self) -> None:
        server = Server(self.folder / "data", "--no-browser", VIALSHOAL_FORM="1")
        self.addCleanup(server.close)
        window = BROWSER.open(server.path)
        self.addCleanup(window.close)
        window.type("tea")
        window.shows("tea")
        for button in "remark", "suggest", "remarks":
            window.run("document.getElementById('words').replaceChildren()")
            window.press(button)
            window.wait_for(SAYS, "bin/note renew NAME --form 2")
            self.assertTrue(window.run("document.getElementById('margin').hidden"))
        self.assert_no_faults(window)


def load_tests(loader: unittest.TestLoader, tests: unittest.TestSuite, _: object) -> unittest.TestSuite:
    """The tests, where there is a browser."""
    if IS_HERE:
        return tests
    print("Chromium, its driver or python3-selenium isn't installed: the page's tests in a browser are skipped.", flush=True)
    return loader.suiteClass([])


if __name__ == "__main__":
    unittest.main()
