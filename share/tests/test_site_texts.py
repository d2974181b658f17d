"""What a relay's page has of a note's text, over the core, in Node: two people who edit at random show the same, and what is told of
changes makes the one text the other."""
import gzip
import json
import pathlib
import random
import subprocess
import unittest

from share.relay.page_files import PAGE_FOLDER, PageFiles, core_path, missing_for_texts

HERE = pathlib.Path(__file__).parent
SEEDS, STEPS = 6, 400


@unittest.skipUnless(core_path(), "the core isn't here as WebAssembly (bin/library --wasm)")
class Texts(unittest.TestCase):
    """Values of a note in one process."""

    def test_who_edit_at_random_show_the_same(self) -> None:
        for seed in random.Random(78).sample(range(2**31), SEEDS):
            words = ["node", "--no-warnings", str(HERE / "site_texts.mjs"), str(PAGE_FOLDER), str(core_path()), str(seed), str(STEPS)]
            run = subprocess.run(words, capture_output=True, text=True, check=False)
            self.assertEqual((run.returncode, run.stderr), (0, ""), seed)
            found = json.loads(run.stdout)
            self.assertEqual((found["writers"], found["characters"] > 0, found["dressed"] > 0, found["steps"] > 0), (2, True, True, True))

    @unittest.skipIf(missing_for_texts(), "the page's files aren't all here")
    def test_the_page_that_shows_them_is_small(self) -> None:
        """All that a browser loads and keeps at first: what formats a text comes as that is asked for."""
        sizes = {address: len(gzip.compress(one.data, mtime=0)) for address, one in PageFiles().files.items()}
        later = [size for address, size in sizes.items() if address.startswith("/markdownit.")]
        self.assertEqual(len(later), 1)
        self.assertLess(sum(sizes.values()) - sum(later), 400_000)


if __name__ == "__main__":
    unittest.main()
