"""The engine of the terminal's editor, of Emacs, of Emacs with Evil, of Neovim and of a page is killed amid typing: typing goes on, and
each key is kept once, in its order."""
import random
import unittest

from share.tests.killing import Kills, rounds_and_plants
from share.tests.support import Case
from share.tests.test_relay_front import IS_HERE
from share.tests.writers import Emacs, EvilEmacs, Neovim, OwnEditor, PageInChromium, Writer

ROUNDS = 3


class EngineKilled(Case):
    """An editor of each kind, at a note of its own."""

    seed = 18

    def rounds(self, kills: Kills) -> None:
        """Do some rounds."""
        rounds_and_plants(kills, ROUNDS)

    def typed(self, kind: type[Writer]) -> None:
        """Type in such an editor while its engine is killed."""
        self.person("ada").open().session.close()
        writer = kind(self, "ada", "")
        self.addCleanup(writer.close)
        self.rounds(Kills(writer, random.Random(self.seed)))

    def test_in_the_terminal(self) -> None:
        self.typed(OwnEditor)

    def test_in_emacs(self) -> None:
        self.typed(Emacs)

    def test_in_emacs_with_evil(self) -> None:
        self.typed(EvilEmacs)

    def test_in_neovim(self) -> None:
        self.typed(Neovim)

    @unittest.skipUnless(IS_HERE, "there is no Chromium here")
    def test_in_a_page(self) -> None:
        self.typed(PageInChromium)
