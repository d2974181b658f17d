"""What of a text in a relay's page is left out since another copy of its number holds the place, over the core, in Node: whoever typed it,
or built on it, is told, types on under another number, and has it typed again, once."""
import json
import pathlib
import subprocess
import unittest

from share.admission.record_judge import RecordJudge
from share.format.second.form import SealedRecords
from share.relay.page_files import PAGE_FOLDER, core_path
from share.tests.waiting import PATIENCE

HERE = pathlib.Path(__file__).parent
TOLD = "Left out, since others hold its place: {} characters of you. History shows that at its end, and types it again."


@unittest.skipUnless(core_path(), "the core isn't here as WebAssembly (bin/library --wasm)")
class Lost(unittest.TestCase):
    """Two people, one of whom has another copy of his number somewhere."""

    def test_both_are_told_and_have_it_typed_again_once(self) -> None:
        words = ["node", "--no-warnings", str(HERE / "site_lost.mjs"), str(PAGE_FOLDER), str(core_path())]
        run = subprocess.run(words, capture_output=True, text=True, check=False, timeout=PATIENCE)
        self.assertEqual((run.returncode, run.stderr), (0, ""))
        found = json.loads(run.stdout)
        (ann, bob), (ann_again, bob_again), (opened,) = found["steps"]
        # What Ann deleted herself isn't told her.
        self.assertEqual([[(one["own"], one["text"], one["characters"]) for one in who["leftOut"]] for who in (ann, bob)], [
            [(True, "here", 4), (False, " and Bob", 8)], [(False, "heree", 5), (True, " and Bob", 8)]])
        self.assertEqual([ann["said"], bob["said"]], [[TOLD.format(4)], [TOLD.format(8)]])
        self.assertRegex(ann["shows"], r"\Aboth there[0-9]+\Z")
        self.assertEqual(bob["shows"], ann["shows"])
        wanted = ann["shows"].replace("both ", "both here") + "! and Bob"
        for who in ann_again, bob_again, opened:
            self.assertEqual((who["shows"], who["leftOut"], who["said"]), (wanted, [], []))
            # In the looks that it had.
            self.assertEqual(who["dressed"], [{"begin": 5, "end": 7, "bold": True}])
        self.assertEqual(found["why"], "Nothing that you typed is left out.")
        self.assertEqual(len({*found["sites"], ann["site"], bob["site"]}), 4)
        self.assertEqual(opened["site"], ann["site"])
        # So it is for engines.
        form = SealedRecords(bytes.fromhex(found["key"]), 0)
        judge = RecordJudge([form.open(bytes.fromhex(raw)) for raw in found["raws"]], form=form)
        judge.let_through()
        self.assertEqual((judge.left_out(), judge.incomplete()), ([], 0))


if __name__ == "__main__":
    unittest.main()
