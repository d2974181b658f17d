"""Messages' spelling: what is a message here is one to the program, and says the same as in a second reading.

Messages are made at random with fields at their bounds and beyond, and are damaged at random. With
VIALSHOAL_EXAMPLES=N it tries N times as many, and others each time.
"""
import ast
import os
import pathlib
import random
import unittest

from share.format import operation as messages
from share.format.operation import CHANGE_LOOKS, DELETE, INSERT, LONGEST_MESSAGE, RESTORE, Operation
from share.program.process import Program
from share.tests.naive import about, head, inserting, is_spelled, reading, spelled
from share.text.names import Names

TIMES = int(os.environ.get("VIALSHOAL_EXAMPLES", "0"))
TRIES = 4_000 * max(TIMES, 1)
# So many are handed to one run of the program.
RUN = 4_000
FILE = 2**24
LETTERS = b"AZaz"


class Maker:
    """Makes messages, of which each field is wrong now and then."""

    def __init__(self, chance: random.Random):
        self.chance = chance
        # How often a field is wrong.
        self.often = 0.0

    def message(self) -> bytes:
        """The bytes of a message, or of what is almost one."""
        self.often = self.chance.choice([0, 0.02, 0.1])
        kind = self.chance.choice([INSERT, INSERT, DELETE, CHANGE_LOOKS, RESTORE])
        site = self.pick([1, 2, 3, 65_528, 65_535], [0])
        rest = self.insertion(site) if kind == INSERT else self.change() if kind == CHANGE_LOOKS else b""
        if kind != INSERT:
            rest += self.ranges()
        raw = bytearray(head(kind, site, self.pick([1, 2, 2**32 - 1], [0]),
                             self.pick([1, 2, 3, 2**47, 2**48 - 1], [0, 2**48, 2**64 - 1])) + rest)
        for at, wrong in (0, 0x4E), (2, 1), (2, 2), (2, 3), (3, 0), (3, 5), (4, 1), (5, 0), (5, 2):
            if self.chance.random() < self.often / 5:
                raw[at] = wrong
        return bytes(raw)

    def pick(self, right: list[int], wrong: list[int]) -> int:
        """A value that a field may have, or one that it may not."""
        return self.chance.choice(wrong if self.chance.random() < self.often else right)

    def insertion(self, site: int) -> bytes:
        """What an Insert has after its head."""
        long = self.chance.random() < 0.01
        length = self.pick([4_096] if long else [1, 1, 2], [4_097] if long else [0])
        at = self.pick([0, 0, 1, 7, FILE - length], [FILE - length + 1, FILE, 2**32 - 1])
        cause_site = self.chance.choice([0, 0, site, 1, 65_535])
        cause = self.pick([0, 1, 6, FILE - 1], [FILE, 2**32 - 1])
        if cause_site == 0:
            cause = self.pick([0], [1])
        elif cause_site == site and at:
            cause = self.pick([0, at - 1], [at, min(at + 1, 2**32 - 1)])
        return b"".join([cause_site.to_bytes(2, "big"), cause.to_bytes(4, "big"), at.to_bytes(4, "big"), self.font(),
                         self.colour(), self.offset(), length.to_bytes(2, "big"), self.chance.randbytes(length)])

    def change(self) -> bytes:
        """A selection of looks, and what is selected."""
        selected = self.pick([1, 2, 3, 4, 5, 6, 7], [0, 8, 9, 128, 255])
        parts = [self.font(), self.colour(), self.offset()]
        return bytes([selected]) + b"".join(part for number, part in enumerate(parts) if selected >> number & 1)

    def font(self) -> bytes:
        """A font's length and name."""
        length = self.pick([1, 2, 16, 31], [0, 32, 255])
        name = bytearray(self.chance.choices(LETTERS + b"09.", k=length))
        if name:
            name[0] = self.pick([*LETTERS], [*b"09.@[`{/:\xc1"])
            name[-1] = self.pick([*LETTERS] if length == 1 else [*LETTERS, *b"09."], [*b"/:@[`{-_ \x00\xe9"])
        return bytes([length]) + name

    def colour(self) -> bytes:
        """A colour."""
        return bytes([self.pick([0, 1, 15], [16, 255])])

    def offset(self) -> bytes:
        """A vertical offset, which may be any byte."""
        return bytes([self.chance.randrange(256)])

    def ranges(self) -> bytes:
        """A set of names, of few ranges or of as many as can be."""
        long = self.chance.random() < 0.005
        count = self.pick([1_024] if long else [1, 1, 2, 3, 5], [1_025] if long else [0])
        if long:
            # Else one of so many would be wrong each time.
            self.often /= 500
        site, at, out = 1, 0, b""
        for _ in range(count):
            if self.chance.random() < 0.3:
                site, at = min(site + self.chance.choice([1, 1, 300]), 65_535), self.chance.choice([0, 5])
            length = self.pick([1, 1, 2], [0, FILE, 2**32 - 1])
            if self.chance.random() < 0.02 and not long:
                length = max(1, FILE - at + self.pick([0], [1]))
            out += b"".join([self.pick([site], [0, site - 1]).to_bytes(2, "big"),
                             at.to_bytes(4, "big"), length.to_bytes(4, "big")])
            at = (at + length + self.pick([1, 1, 9], [0])) % 2**32
        return self.pick([count], [count + 1, max(0, count - 1)]).to_bytes(2, "big") + out

    def damaged(self, raw: bytes) -> bytes:
        """The same with some bytes that are other ones, lacking, or too many."""
        data = bytearray(raw)
        for _ in range(self.chance.choice([1, 1, 2, 4])):
            at = self.chance.randrange(len(data)) if data else 0
            what = self.chance.randrange(4)
            if what == 0 and data:
                data[at] ^= 1 << self.chance.randrange(8)
            elif what == 1 and data:
                data[at] = self.chance.choice([0, 1, 2, 15, 16, 31, 255])
            elif what == 2:
                data[at:at + self.chance.randrange(4)] = self.chance.randbytes(self.chance.randrange(4))
            else:
                del data[at:]
        return bytes(data) or b"\0"


def with_ranges(count: int) -> bytes:
    """A change of looks that is as long as one of so many ranges can be."""
    ranges = b"".join(b"\xff\xff" + (2 * number).to_bytes(4, "big") + b"\0\0\0\1" for number in range(count))
    return head(CHANGE_LOOKS, 1, 1, 2) + b"\x07\x1f" + b"F" * 31 + b"\x0f\xff" + count.to_bytes(2, "big") + ranges


def with_bytes(length: int) -> bytes:
    """An Insert of so many bytes, at the end of the longest file."""
    at = (FILE - length).to_bytes(4, "big")
    return head(INSERT, 1, 1, 2) + bytes(6) + at + b"\x01F\0\0" + length.to_bytes(2, "big") + b"x" * length


def deleting(at: int, length: int) -> bytes:
    """A Delete of one range of another site."""
    return spelled(about(DELETE, 1, 1, 2, [(2, at, length)]))


# The longest messages and files, and what is longer or shorter than any.
RIGHT = [with_ranges(1_024), with_bytes(1), with_bytes(4_096), deleting(FILE - 1, 1), deleting(0, FILE)]
WRONG = [with_ranges(1_025), with_ranges(0), with_ranges(1_024) + b"x", with_bytes(0), with_bytes(4_097),
         deleting(FILE - 1, 2), deleting(FILE, 1), deleting(0, FILE + 1), deleting(1, 2**32 - 1)]


def made() -> list[bytes]:
    """What is tried: messages, and some of them damaged."""
    maker = Maker(random.Random(None if TIMES else 6))
    out = [*RIGHT, *WRONG]
    for number in range(TRIES - len(out)):
        raw = maker.message()
        out.append(maker.damaged(raw) if number % 3 == 0 else raw)
    return out


def handing(program: Program, raw: bytes) -> bytes:
    """The event that hands these bytes in."""
    return program.event("take", raw.hex().encode())


class AsTheProgram(unittest.TestCase):
    """What a message is, the program says."""

    def test_what_is_spelled(self) -> None:
        tried = made()
        spelled = list(map(is_spelled, tried))
        for begin in range(0, len(tried), RUN):
            program = Program(1)
            answers = program.ask([handing(program, raw) for raw in tried[begin:begin + RUN]])
            program.close()
            for raw, right, [answer] in zip(tried[begin:], spelled[begin:], answers):
                self.assertEqual(right, answer not in (b"refused 1", b"refused 2"), (answer, raw.hex()))
                self.assertNotIn(answer, (b"refused 20", b"refused 21"))
        self.assertEqual(len(RIGHT[0]), LONGEST_MESSAGE)
        self.assertEqual(spelled[:len(RIGHT + WRONG)], [True] * len(RIGHT) + [False] * len(WRONG))
        # Neither is seldom.
        self.assertTrue(0.2 < sum(spelled) / len(spelled) < 0.8, sum(spelled))

    def test_each_byte(self) -> None:
        # Each byte of a message of each kind, as each byte that there is.
        chance = random.Random(7)
        maker = Maker(chance)
        short = [raw for raw in (maker.message() for _ in range(200)) if len(raw) < 90 and is_spelled(raw)]
        kinds = {raw[3]: raw for raw in short}
        self.assertEqual(len(kinds), 4)
        program = Program(1)
        for raw in kinds.values():
            tried = [raw[:at] + bytes([byte]) + raw[at + 1:] for at in range(len(raw)) for byte in range(256)]
            if not TIMES:
                tried = chance.sample(tried, 1_000)
            for one, [answer] in zip(tried, program.ask([handing(program, one) for one in tried])):
                self.assertEqual(is_spelled(one), answer not in (b"refused 1", b"refused 2"), (answer, one.hex()))
        program.close()


class SecondReading(unittest.TestCase):
    """What is read of a message is what its bytes say, field by field."""

    def test_names(self) -> None:
        for raw in filter(is_spelled, made()):
            message, read = Operation.read(raw), reading(raw)
            self.assertLessEqual(len(raw), LONGEST_MESSAGE)
            self.assertEqual((message.site, message.seq, message.stamp, message.kind, message.size, spelled(message)),
                             (read.site, read.seq, read.stamp, read.kind, 1, raw))
            ranges = tuple(Names(*one) for one in read.ranges)
            new = Names(read.site, read.at, read.length) if read.kind == INSERT else None
            self.assertEqual((message.new, message.mentions), (new, ranges))
            self.assertEqual(message.names, (new,) if new else ranges if read.kind in (DELETE, RESTORE) else ())
            self.assertEqual([*message.spellings()], [raw])

    def test_texts(self) -> None:
        for raw in [one for one in made() if is_spelled(one)][:TRIES // 10]:
            for text in 2, 16, 65_535:
                other = raw[:4] + text.to_bytes(2, "big") + raw[6:]
                message = Operation.read(other, text)
                self.assertEqual(message, Operation.read(raw)._replace(text=text))
                self.assertEqual([*message.spellings()], [other])
                self.assertFalse(is_spelled(other))
                self.assertRaises(ValueError, Operation.read, raw, text)

    def test_letters_in_a_row(self) -> None:
        row = Operation.read(spelled(inserting(7, 3, 9, (2, 5), 4, b"a")))._replace(size=3, data=b"abc", text=2)
        self.assertEqual([*row.spellings()], [one for each in row.each() for one in each.spellings()])
        self.assertEqual([Operation.read(one, 2) for one in row.spellings()], [*row.each()])

    def test_what_does_not_begin_as_a_message(self) -> None:
        raw = spelled(inserting(1, 1, 1, None, 0, b"x"))
        self.assertEqual(Operation.read(raw).stamp, 1)
        for bad in b"", raw[:19], raw[:20], b"OU" + raw[2:]:
            self.assertRaises(ValueError, Operation.read, bad)
            self.assertFalse(is_spelled(bad))


class TheProgramAlone(unittest.TestCase):
    """Messages are made by the program, and read here, in one file, which spells them again where they are hashed."""

    def test_no_other_file_packs_a_message(self) -> None:
        reads = pathlib.Path(messages.__file__)
        for path in (path for path in reads.parents[1].rglob("*.py") if path.parent.name != "tests"):
            nodes = [*ast.walk(ast.parse(path.read_bytes()))]
            packs = {ast.unparse(one.value) for one in nodes if isinstance(one, ast.Attribute) and one.attr.startswith("pack")}
            forms = {name.name for one in nodes if isinstance(one, ast.ImportFrom) and one.module == "share.format.operation"
                     for name in one.names}
            tags = [one for one in nodes if isinstance(one, ast.Constant) and one.value == messages.TAG]
            self.assertEqual(bool(packs if path == reads else packs & forms), path == reads, path.name)
            self.assertEqual(bool(tags or "TAG" in forms), path == reads, path.name)

    def test_what_is_spelled_again_was_read(self) -> None:
        places = set()
        for path in (path for path in pathlib.Path(messages.__file__).parents[1].rglob("*.py") if "tests" not in path.parts):
            nodes = ast.walk(ast.parse(path.read_bytes()))
            if any(isinstance(one, ast.Attribute) and one.attr == "spellings" for one in nodes):
                places.add(path.parent.name)
        # For the hashes of the second form, and for the checksums of the engine's journal.
        self.assertLessEqual(places, {"second", "engine"})


if __name__ == "__main__":
    unittest.main()
