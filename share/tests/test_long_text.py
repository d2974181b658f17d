"""Each editor has the whole of a long text: a terminal, Emacs, Neovim and a page of Chromium."""
import unittest
from concurrent.futures import ThreadPoolExecutor

from share.tests.long.test_all_editors import EDITORS, begun
from share.tests.support import Case


class LongText(Case):
    """A note that is longer than what a command prints of it."""

    def test_each_editor_has_the_whole_of_it(self) -> None:
        text = "".join(f"t{number:04}.\n" for number in range(1, 1_500))
        link = begun(self, self.redis().url, text)
        with ThreadPoolExecutor() as threads:
            writers = [*threads.map(lambda kind: kind(self, "ada", link), EDITORS)]
        for writer in writers:
            self.assertEqual(writer.seen().text, text, writer.tag)
            writer.close()


if __name__ == "__main__":
    unittest.main()
