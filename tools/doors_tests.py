"""Tests of bin/doors: sources that are right, and broken ones, each of which has to be refused."""
from __future__ import annotations

import unittest

from tools.doors import ASKED, CRATES, GIVEN, WITHIN, faults

OP_LIST, TAGS, CODES = "op_log/src/op_list.rt", "piece_list/src/tags.rt", "vialshoal_c/src/codes.rt"


def function(*lines: str) -> str:
    """A source with one function, which has a contract."""
    body = "\n".join(f"    {line}" for line in lines)
    return f"/// Makes room.\nfn make_room(&mut self, n: usize) -> Result<(), Refusal>\n    ensures ok {{ n ≤ MAX_FILE }}\n{{\n{body}\n}}\n"


class Doors(unittest.TestCase):
    def is_right(self, name: str, *lines: str) -> None:
        self.assertEqual(faults(name, function(*lines)), [], lines)

    def is_refused(self, name: str, *lines: str) -> None:
        self.assertNotEqual(faults(name, function(*lines)), [], lines)

    def test_the_librarys_errors_are_made_nowhere(self) -> None:
        self.is_right(TAGS, "let made: Result<Vec<u8>, AllocError> = Vec::with_capacity(alloc, n);", "made?;")
        self.is_refused(TAGS, "return Err(AllocError.into());")
        self.is_refused(TAGS, "return Err(Refusal::from(AllocFailed(n)));")
        self.assertNotEqual(faults(TAGS, "use std::alloc::{AllocError as Full};\n"), [])
        self.assertNotEqual(faults(TAGS, "use std::alloc::*;\n"), [])

    def test_an_error_of_refused_memory_is_made_nowhere(self) -> None:
        self.is_refused(TAGS, "return Err(io::Error::from(ErrorKind::OutOfMemory));")
        self.assertNotEqual(faults(TAGS, "use std::io::ErrorKind::OutOfMemory;\n"), [])
        self.is_right("script_rows/src/playing.rt", "return Err(ErrorKind::OutOfMemory.into());")

    def test_what_gives_refused_memory_is_used_where_it_is_listed(self) -> None:
        self.is_refused(TAGS, "return Err(Refusal::of_error(&error, Refusal::ReadFault));")
        self.is_right("script_io/src/input.rt", "return Err(Refusal::of_error(&error, Refusal::ReadFault));")
        self.is_refused(TAGS, "out.push(OUT_OF_MEMORY)?;")

    def test_a_limit_that_stands_for_memory_is_the_listed_one(self) -> None:
        self.is_right(OP_LIST, "Refusal::within_memory(self.len + 1, MAX_OPS)?;")
        self.is_right(OP_LIST, "Refusal::within_memory(", "    self.len + 1,", "    MAX_OPS", ")?;")
        for broken in "self.len + 1, MAX_OPS >> 16", "self.len + 1, 65_536", "self.len + 2, MAX_OPS", "self.len + 1, MAX_LOOKS":
            self.is_refused(OP_LIST, f"Refusal::within_memory({broken})?;")
        self.is_refused(TAGS, "Refusal::within_memory(self.len + 1, MAX_OPS)?;")
        self.is_refused(OP_LIST, "let test = Refusal::within_memory;", "test(self.len + 1, 2)?;")

    def test_memory_is_asked_for_by_lengths(self) -> None:
        self.is_right(TAGS, "self.tags.reserve(n)?;")
        self.is_right(TAGS, "self.tags.reserve(self.tags.len() + 1)?;")
        self.is_right(TAGS, "let mut taken = Vec::with_capacity(alloc, fronts.len())?;")
        for broken in "usize::MAX", "65_536", "n << 16", "n * n", "MAX_FILE", "!0", "n.pow(2)", "n.saturating_mul(9)", "n.wrapping_sub(1)":
            for call in "self.tags.reserve", "self.reserve_many", "self.tags.try_resize", "Vec::with_capacity", "bytes.repeat":
                self.is_refused(TAGS, f"{call}({broken})?;")
        self.is_refused(TAGS, "self.tags.reserve(if n == 1 { most } else { n })?;")
        self.is_refused(TAGS, "let made = IndexMap::with_capacity_and_hasher(alloc, 1 << 20, hasher)?;")
        self.is_refused(TAGS, "let made = vec![0; 65_536];")
        self.is_refused(TAGS, "let block = alloc.allocate(1 << 30, 8)?;")

    def test_what_a_name_is_bound_to_counts(self) -> None:
        self.is_right(TAGS, "let wanted = self.tags.len() + n;", "self.tags.reserve(wanted)?;")
        self.is_refused(TAGS, "let wanted = usize::MAX;", "self.tags.reserve(wanted)?;")
        self.is_refused(TAGS, "let wanted: usize = n << 20;", "self.tags.reserve(wanted)?;")
        self.is_refused(TAGS, "let most = n * n;", "let wanted = most + 1;", "self.tags.reserve(wanted)?;")
        self.is_refused(TAGS, "let mut wanted = n;", "wanted = 1 << 20;", "self.tags.reserve(wanted)?;")
        self.is_refused(TAGS, "let mut wanted = n;", "wanted <<= 20;", "self.tags.reserve(wanted)?;")
        wanted = "let wanted = ((self.homes.len() + n) / HALF).min(self.chunks.len() + n);"
        self.is_right("rank_index/src/index.rt", wanted, "self.groups.reserve(wanted)?;")
        self.is_refused("rank_index/src/index.rt", wanted.replace("/", "*"), "self.groups.reserve(wanted)?;")

    def test_what_asks_for_memory_is_called_and_not_named(self) -> None:
        self.is_refused(TAGS, "let ask = Vec::reserve;", "ask(&mut self.tags, most)?;")
        self.is_refused(TAGS, "let ask = Vec::<u8>::with_capacity;")

    def test_comments_and_words_of_literals_are_no_code(self) -> None:
        self.is_right(TAGS, "// Of AllocError, and Vec::with_capacity(alloc, usize::MAX).", 'let said = "AllocError";')

    def test_a_refusals_number_isnt_written_in_the_library(self) -> None:
        self.is_right(CODES, "Err(why) => u32::from(why.number()),", "Put::none(u32::from(why.number()))", "colour: looks.colour.number(),")
        number = "u32::from(why.number())"
        for broken in "Refusal::RoomFull.number() + 1", f"{number} + 1", f"({number}) + 1", "u32::from(why.number() + 1)", "7":
            self.is_refused(CODES, f"Err(why) => Put::none({broken}),")
        self.is_refused(CODES, "let number = u32::from(why.number());", "number + 1")
        self.is_refused(CODES, "u32::from('\\u{7}')")
        self.is_right("vialshoal_c/src/numbers.rt", "pub const NOT_OPEN: u32 = 101;")

    def test_what_is_listed_is_there(self) -> None:
        for name in {*WITHIN, *ASKED, *(file for files in GIVEN.values() for file in files)}:
            self.assertTrue((CRATES / name).is_file(), name)


if __name__ == "__main__":
    unittest.main()
