"""All editors are at one note of a relay's, and two pages of the relay, in Chromium and in Firefox. These are offline at times; their tabs
are closed amid a word, and their browsers killed, and opened again. What has to be so of the others has to be so of these.

    SHARE_SECONDS=300 VIALSHOAL_SEED=7 share/tests/run test_all_at_relay
"""
import contextlib
import os
import random
import unittest
from unittest import mock

from share.relay.page_files import missing_for_texts
from share.tests.long import test_all_editors
from share.tests.firefox import FIREFOX
from share.tests.relays import RelayProcess, page_of_free_claims
from share.tests.long.test_all_editors import SECONDS, Author, Done
from share.tests.writers import Cut, Writer
from share.tests.writers_at_relay import FirefoxAtRelay, PageAtRelay

MISSING = missing_for_texts()


class AuthorAtRelay(Author):
    """Who writes in a page of the relay."""

    writer: PageAtRelay

    def write(self, many: int, done: Done) -> None:
        """Does some things, some of them offline, perhaps."""
        super().write(many, done)
        with contextlib.suppress(Cut):
            self._is_offline(False)

    def _act(self) -> None:
        what = self._chance.random()
        if what < 0.1:
            self.close_tab()
        elif what < 0.35:
            self._is_offline(not self.writer.is_offline)
        super()._act()

    def close_tab(self) -> None:
        """Types a word, and closes the tab before it is shown. What is there of it is told once all have met."""
        word = self._new_word()
        self.writer.go_to(self._some_line())
        self.writer.type(word.text[:self._chance.randint(1, len(word.text))])
        self.writer.close_tab()
        self.did["closed"] += 1
        self.steps.clear()

    def _is_offline(self, is_offline: bool) -> None:
        if is_offline != self.writer.is_offline:
            self.writer.go_offline(is_offline)
            self.did["offline"] += is_offline


@unittest.skipIf(MISSING, f"texts aren't shown here: {MISSING} is missing")
@unittest.skipUnless(FIREFOX, "there is no Firefox here")
class AllAtRelay(test_all_editors.AllEditors):
    """Two people, each with two editors, and two more with a page of the relay each."""

    def setUp(self) -> None:
        # On a busy machine a number is searched for long.
        environment = mock.patch.dict(os.environ, VIALSHOAL_FORM="2", VIALSHOAL_ZERO_BITS="0")
        environment.start()
        self.addCleanup(environment.stop)
        super().setUp()

    def log_of_all(self) -> RelayProcess:
        relay = RelayProcess(self.folder / "kept", page=page_of_free_claims(self.folder / "page"))
        self.addCleanup(relay.close)
        return relay

    def people(self) -> list[tuple[type[Writer], str]]:
        return [*super().people(), (PageAtRelay, "cy"), (FirefoxAtRelay, "di")]

    def author(self, writer: Writer) -> Author:
        if not isinstance(writer, PageAtRelay):
            return super().author(writer)
        # Its page says nothing of the text.
        return AuthorAtRelay(writer, self.words, self.deciding, random.Random(self.chance.random()))

    def turns(self) -> list[Author | None]:
        """In a short run those of pages, and an engine: the others are killed at other logs."""
        return [one for one in super().turns() if SECONDS or one is None or isinstance(one, AuthorAtRelay)]

    def meet(self) -> str:
        text = super().meet()
        for author in self.authors:
            if isinstance(author.writer, PageAtRelay):
                self.assertEqual(author.writer.errors(), [], author.writer.tag)
        return text


if __name__ == "__main__":
    unittest.main()
