"""Tests of what bin/counts reads."""
from __future__ import annotations

import unittest

from tools.counts import DEFINED, RECIPES, crates, deepest, places, repeated_words


class Counts(unittest.TestCase):
    def test_words_are_what_is_defined_and_not_what_a_record_has(self) -> None:
        source = (
            "-- one\n-- more\nabbrev pub one : ℕ → ℕ\none n = n + 1\n\nabbrev hidden : ℕ\n\n"
            "pub record Two : Type 0 where\n  pub after : ℕ\npub data Three : Type 0 where\n"
            "module _ {T : Type 0} where\n  -- four\n  unfoldable pub four : T\npub mod Other\n"
        )
        self.assertEqual(DEFINED.findall(source), [("-- one\n-- more\n", "one"), ("", "Two"), ("", "Three"), ("  -- four\n", "four")])

    def test_two_crates_define_one_word_where_it_means_the_same(self) -> None:
        self.assertEqual(list(repeated_words()), ["◌>>=◌"])

    def test_a_stack_has_the_functions_of_crates(self) -> None:
        counted = (
            "fn=(1) looks::looks::Looks::copy'<texts::Replica as Clone>::clone'core::option::map'main\n"
            "cfn=(2) looks::a'texts::b::{{closure}}'texts::b'hex::decode'site_cli::main\n"
        )
        self.assertEqual(deepest(counted), ["looks::a", "texts::b", "site_cli::main"])

    def test_each_recipe_has_steps_that_name_files(self) -> None:
        for heading in RECIPES.values():
            steps, files = places(heading)
            self.assertTrue(1 < steps <= files, heading)

    def test_the_lowest_crate_is_first(self) -> None:
        self.assertEqual(crates()[0], "looks")
        self.assertLess(crates().index("texts"), crates().index("site_cli"))


if __name__ == "__main__":
    unittest.main()
