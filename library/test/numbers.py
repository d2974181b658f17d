"""Compares the numbers and words of vialshoal.h and of the library with what else has them: the crate that refuses, docs/FORMATS.md, the
crate for C, Python, Node; and the versions of all that has one; and that each call which takes a length lets null through at 0."""
from __future__ import annotations

import ctypes
import json
import re
import subprocess
import unittest
from pathlib import Path
from typing import ClassVar

from vialshoal import _library

TOP = Path(__file__).resolve().parents[2]
LIBRARY = TOP / "library"
HEADER = (LIBRARY / "vialshoal.h").read_text()
NODE = LIBRARY / "node" / "errors.js"
MOST = 300


def read(path: str) -> str:
    return (TOP / path).read_text()


def numbered(pattern: str, text: str) -> dict[str, int]:
    """Names and their numbers."""
    return {name: int(number) for name, number in re.findall(pattern, text, re.MULTILINE)}


def in_header(least: int, most: int) -> dict[str, int]:
    """The header's constants in the enumerations of refusals and misuse whose numbers lie between these."""
    names, _, rest = HEADER.partition("/* Numbers of refusals")[2].partition("/* What the taking")
    assert rest, "vialshoal.h has no numbers of refusals"
    return {name: number for name, number in numbered(r"^    VIALSHOAL_(\w+) = (\d+)", names).items() if least <= number <= most}


def as_constants(variants: dict[str, int]) -> dict[str, int]:
    """Variants of Rust by the names that constants have."""
    return {re.sub(r"(?<=.)([A-Z])", r"_\1", name).upper(): number for name, number in variants.items()}


class Numbers(unittest.TestCase):
    def setUp(self) -> None:
        self.library = ctypes.CDLL(_library.path())
        self.library.vialshoal_strerror.restype = ctypes.c_char_p

    def words(self, number: int) -> str:
        words: bytes = self.library.vialshoal_strerror(number)
        return words.decode("ascii")

    def test_refusals_are_those_of_the_crate(self) -> None:
        variants = read("crates/looks/src/refusal.rt").partition("pub enum Refusal {")[2].partition("\n}")[0]
        refusals = numbered(r"^    (\w+) = (\d+),", variants)
        self.assertEqual(sorted(refusals.values()), [*range(1, 24)])
        self.assertEqual(in_header(1, 99), as_constants(refusals))
        table = read("docs/FORMATS.md").partition("## Refusals\n")[2].partition("\n### ")[0]
        self.assertEqual({name: int(number) for number, name in re.findall(r"^ +(\d+) (\w+)", table, re.MULTILINE)}, refusals)

    def test_numbers_of_misuse_are_those_of_the_crate(self) -> None:
        constants = numbered(r"^pub const (\w+): u32 = (1\d\d);", read("crates/vialshoal_c/src/numbers.rt"))
        self.assertEqual(in_header(100, MOST), constants)

    def test_each_number_has_words_of_its_own(self) -> None:
        named = {0, *in_header(1, MOST).values()}
        unnamed = {self.words(number) for number in {*range(MOST), 2**32 - 1} - named}
        self.assertEqual(len(unnamed), 1)
        self.assertEqual(len({self.words(number) for number in named} - unnamed), len(named))

    def test_python_says_the_same(self) -> None:
        for number, words in _library.REASONS.items():
            self.assertEqual(words, self.words(number), number)

    @unittest.skipUnless(NODE.exists(), "Node's package has no words")
    def test_node_says_the_same(self) -> None:
        constants = {number: name for name, number in in_header(1, MOST).items()}
        found = re.findall(r"^    (\d+): \['(\w+)', '([^']*)'", NODE.read_text(), re.MULTILINE)
        self.assertTrue(found)
        for number, code, words in found:
            self.assertEqual((code, words), (constants[int(number)], self.words(int(number))), number)


class Calls(unittest.TestCase):
    calls: ClassVar = dict(re.findall(r"^uint32_t vialshoal_(\w+)\(([^;]*)\);", HEADER, re.MULTILINE))

    def those_with(self, word: str) -> set[str]:
        return {name for name, taken in self.calls.items() if word in taken}

    def test_each_that_takes_a_length_lets_null_through(self) -> None:
        calls = self.those_with("size_t")
        self.assertGreater(len(calls), 20)
        tested = set(re.findall(r"vialshoal_(\w+)\([^;]*NULL, 0[,)]", read("library/test/nulls.c")))
        self.assertEqual(calls - tested, set())

    def test_each_that_is_in_front_of_the_crate_has_a_name_of_its_own(self) -> None:
        changes, reads, notes = (set(re.findall(r"^OF_THE_CRATE\((\w+)\);", read(f"library/c/{file}.c"), re.MULTILINE))
                                 for file in ("null", "reads", "note"))
        of_notes = self.those_with("vialshoal_note *")
        self.assertEqual(reads, self.those_that_read() - of_notes)
        self.assertEqual(changes, self.those_with("size_t") - of_notes - reads - {"hand_out"})
        self.assertEqual(notes, self.those_with("size_t") & of_notes | self.those_with("const vialshoal_note *"))
        renamed = set(re.findall(r"^vialshoal_(\w+) vialshoal_c_\1$", read("library/c/symbols"), re.MULTILINE))
        self.assertEqual(renamed, changes | reads | notes)

    def those_that_read(self) -> set[str]:
        reads = self.those_with("const vialshoal_text *") | self.those_with("const vialshoal_past_text *")
        return reads - self.those_with("vialshoal_file *")

    def test_each_that_reads_is_made_by_several_threads_at_once(self) -> None:
        reads = self.those_that_read()
        job = read("library/test/threads.c").partition("static void *reads(")[2].partition("\n}\n")[0]
        self.assertEqual(reads - set(re.findall(r"vialshoal_(\w+)\(", job)), set())


class Versions(unittest.TestCase):
    def test_all_have_one(self) -> None:
        major, minor, patch = re.findall(r"^#define VIALSHOAL_VERSION_(?:MAJOR|MINOR|PATCH) (\d+)$", HEADER, re.MULTILINE)
        version = f"{major}.{minor}.{patch}"
        library = Path(_library.path()).resolve()
        self.assertEqual(json.loads(read("library/node/package.json"))["version"], version)
        self.assertIn(f'\nversion = "{version}"\n', read("rust/Cargo.toml"))
        self.assertIn(f'\nversion = "{version}"\n', read("library/python/pyproject.toml"))
        self.assertIn(f"\nVersion: {version}\n", (library.parent / "vialshoal.pc").read_text())
        self.assertEqual(library.name, f"libvialshoal.so.{version}")
        asked = subprocess.run(["readelf", "--dynamic", library], stdout=subprocess.PIPE, text=True, check=True).stdout
        self.assertIn(f"[libvialshoal.so.{major}]", asked)
        self.assertEqual(ctypes.CDLL(str(library)).vialshoal_version(), int(major) * 1_000_000 + int(minor) * 1000 + int(patch))


if __name__ == "__main__":
    unittest.main()
