"""Tests of how bin/mutants cuts files of wrong bodies apart, and of how it counts what the prover's tool says of them."""
from __future__ import annotations

import tempfile
import unittest
from pathlib import Path

from tools import TOP
from tools.mutants import Malformed, Verdict, bodies_of, counted, cut, verdicts

FIRST = "refused by: the clause of `f`\nfile: src/a.rt\nold: 1\nnew: 2\n"
SECOND = "file: src/a.rt\nold: 3\nnew: 4\n"
SAID = [
    "rt: must-fail a/f--one.edit: refused, as it must be: note: src/a.rt:1:1: it is not proved that what the function ensures holds",
    "rt: must-fail a/f--two.edit: refused, as it must be (only because a proof file names what the edit took away, so this says little",
    "rt: must-fail a/f--three.edit: refused, as it must be (only by a limit of the prover, which gave no verdict, so this says less",
    "rt: must-fail a/f--five.edit: refused, as it must be: ./proofs/a/f/Answers.antt:15:13: error: `loop-col-preserved`: as printed",
    "rt: must-fail a/f--four.edit: NOT REFUSED: the crate is still proved with this edit",
    "rt: must-fail low/g--one.edit: refused, as it must be: note: src/low.rt:1:1: it is not proved",
    "rt: a is kept",
]


class Mutants(unittest.TestCase):
    def bodies(self, text: str) -> list[tuple[str, str, str]]:
        with tempfile.TemporaryDirectory() as room:
            path = Path(room) / "a.edits"
            path.write_text(text)
            return [(body.name, body.clause, body.text) for body in cut("a", path, "src/a.rt")]

    def test_a_file_is_cut_at_its_heads(self) -> None:
        expected = [("f--one", "the clause of `f`", FIRST), ("f--two", "(no clause named)", SECOND)]
        self.assertEqual(self.bodies(f"== f--one\n{FIRST}\n== f--two\n{SECOND}"), expected)

    def test_other_files_are_refused(self) -> None:
        for text in FIRST, f"== f one\n{FIRST}", f"== f--one\n{FIRST}== f--two\n{SECOND}", "== f--one\nfile: src/b.rt\n":
            with self.assertRaises(Malformed):
                self.bodies(text)

    def test_all_files_of_the_repository_can_be_cut(self) -> None:
        for folder in TOP.glob("crates/*/mutants"):
            with self.subTest(folder.parent.name):
                self.assertTrue(bodies_of(folder.parent.name))

    def test_what_a_clause_refuses_is_counted_apart(self) -> None:
        found = verdicts(SAID, ["a"])
        self.assertEqual([len(found[verdict]) for verdict in Verdict], [1, 1, 1, 1, 1])
        missed, report = counted(found, 6)
        self.assertEqual(missed, 2)
        self.assertIn("1 refused by a clause, 1 by a stored proof, 1 by a name in one, 1 at a limit of the prover, 2 let", report[0])
        listed = [line.split(":")[1] for line in report[1:]]
        self.assertEqual(listed, [f" must-fail a/f--{name}.edit" for name in ("two", "three", "five", "four")])


if __name__ == "__main__":
    unittest.main()
