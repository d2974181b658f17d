"""Lines that are made of the pieces in which bytes come: the same ones wherever these were cut."""
import random
import unittest

from share.tests.counting import looked_at
from share.text.line import PIECE, Assembler


def lines_of(data: bytes, most: int | None) -> list[bytes | None]:
    """The lines that end in some bytes, all at once."""
    return [None if most is not None and len(line) > most else line for line in data.split(b"\n")[:-1]]


class Framing(unittest.TestCase):
    """Pieces of any size."""

    def test_each_cut_gives_the_same_lines(self) -> None:
        chance = random.Random(5)
        for _ in range(500):
            data = bytes(chance.choices(b"ab\r\n\n\0", k=chance.randrange(40)))
            most = chance.choice((None, 0, 1, 2, 3, 8))
            assembler, found, at = Assembler(most), list[bytes | None](), 0
            while at < len(data):
                size = chance.randint(1, 6)
                found += assembler.lines(data[at:at + size])
                at += size
            self.assertEqual(found, lines_of(data, most), (data, most))

    def test_a_line_has_the_bound_s_bytes_and_no_more(self) -> None:
        for size, line in (4, b"x" * 4), (5, None):
            for data in b"x" * size + b"\n", b"x" * size + b"\nafter\nend":
                assembler = Assembler(4)
                self.assertEqual(assembler.lines(data)[0], line)
                self.assertEqual(assembler.lines(b"\nab\n")[-1], b"ab")

    def test_what_is_passed_over_is_not_kept(self) -> None:
        assembler = Assembler(10)
        for _ in range(1_000):
            self.assertEqual(assembler.lines(b"x" * 10), [])
            self.assertLessEqual(len(assembler._begun), 10)
        self.assertEqual(assembler.lines(b"\nshort\n"), [None, b"short"])

    def test_without_a_bound_a_line_may_have_any_length(self) -> None:
        def assembled() -> None:
            assembler, piece = Assembler(None), b"x" * PIECE
            for _ in range(256):
                self.assertEqual(assembler.lines(piece), [])
            (line,) = assembler.lines(b"\n")
            self.assertEqual(len(line or b""), 256 * PIECE)
        # To copy all that came before with each piece would be 8 GB.
        self.assertEqual(looked_at("share.text.line", assembled), 256 * PIECE)


if __name__ == "__main__":
    unittest.main()
