"""Plays the repository's scripts through the Python package, as far as the library has their events, and compares the answers
with those that the program is to give. What wasn't played is told, and why; the last line is 'N passed, M failed'.

  VIALSHOAL_LIBRARY=library/out/libvialshoal.so PYTHONPATH=library/python python3 library/test/scripts.py
"""
from __future__ import annotations

import hashlib
import re
import sys
from collections import Counter
from collections.abc import Callable, Iterator
from dataclasses import dataclass, field
from pathlib import Path
from typing import Optional

TOP = Path(__file__).resolve().parents[2]
sys.path.insert(0, str(TOP))

from tools import rows
from tools.running import Files, Stream
from vialshoal import Misused, Name, NameRange, Refused, Shown, TakingKind, Text

SCRIPT_ROWS = TOP / "crates" / "script_rows"
MAX_LINES, MAX_LINE = 1 << 20, 32_768
# The library has texts alone.
SCREEN = frozenset(b"open close move scroll point select key views marks show click".split())
NO_FILE, NOT_WRITTEN = 21, 22

# -- scripts


def no_files() -> Optional[Files]:
    return {}


@dataclass(frozen=True)
class Script:
    """Lines for this many sites, the first of this number, and whether their answers are right."""

    name: str
    first: int
    count: int
    lines: bytes
    is_right: Callable[[bytes], bool]
    # Why it can't be played, if so.
    left_out: Optional[str]
    # What lies in its folder before and after it, where that is told.
    files: Files = field(default_factory=dict)
    files_after: Optional[Files] = field(default_factory=no_files)


def reason(lines: bytes) -> Optional[str]:
    """Why the library can't play these lines, if it can't."""
    verbs = {words[1] for words in (line.split(b" ") for line in lines.split(b"\n")) if len(words) > 1}
    return "events of the screen" if verbs & SCREEN else None


def of_the_program(row: rows.Row) -> bool:
    """Whether a row is of arguments and streams, which the library hasn't."""
    helps = b"--help" in row.words or b"-h" in row.words
    return helps or bool(row.complaint) or (row.output, row.errors) != (Stream.READ, Stream.READ)


def script_of(row: rows.Row) -> Script:
    if of_the_program(row):
        return Script(row.name, 1, 1, b"", bool, "arguments and streams")
    words = b" ".join(row.words).decode().replace("=", " ").split()
    given = dict(zip(words[::2], words[1::2]))

    def is_right(answers: bytes) -> bool:
        return hashlib.sha256(answers).hexdigest() == row.digest if row.digest else answers == row.expected

    return Script(row.name, int(given.get("--first", 1)), int(given.get("--count", 2)), row.script, is_right,
                  reason(row.script), row.files, row.files_after)


def repeated(lines: bytes) -> bytes:
    """The lines of script_rows, in which <3*ab> stands for ababab."""
    return re.sub(rb"<(\d+)\*([^>]*)>", lambda found: found[2] * int(found[1]), lines)


def scripts_of_script_rows() -> Iterator[Script]:
    asked = (SCRIPT_ROWS / "stdin").read_bytes().split(b"\n= ")[1:]
    told = (b"\n" + (SCRIPT_ROWS / "stdout").read_bytes()).split(b"\n= ")[1:]
    assert len(asked) == len(told)
    for row, wanted in zip(asked, told):
        head, _, lines = row.partition(b"\n")
        first, count, _, _, name = head.split(b" ", 4)
        title, _, answers = wanted.partition(b"\n")
        assert title.startswith(name)
        # (the last row's answers have the file's last line end behind them)
        answers = answers.removesuffix(b"\n") if wanted is told[-1] else answers
        lines = repeated(lines)
        yield Script(name.decode(), int(first), int(count), lines, answers.__eq__, reason(lines), files_after=None)


# -- their events


class NoEvent(Exception):
    """A line spells no event."""


def needs(holds: bool) -> None:
    if not holds:
        raise NoEvent


def number(word: bytes, least: int = 0, most: int = (1 << 32) - 1) -> int:
    needs(re.fullmatch(rb"\d{1,10}", word) is not None and least <= int(word) <= most)
    return int(word)


def bytes_spelled(word: bytes) -> bytes:
    needs(re.fullmatch(rb"(?:[^\\]|\\[0-9a-fA-F]{2})*", word, re.DOTALL) is not None)
    return re.sub(rb"\\(..)", lambda found: bytes.fromhex(found[1].decode()), word)


def bytes_in_hex(word: bytes) -> bytes:
    needs(re.fullmatch(rb"(?:[0-9a-fA-F]{2})+", word) is not None)
    return bytes.fromhex(word.decode())


def printed(data: bytes) -> bytes:
    return b"".join(b"%c" % byte if 32 <= byte < 127 and byte != 92 else b"\\%02x" % byte for byte in data)


@dataclass(frozen=True)
class Looks:
    font: Optional[str]
    colour: Optional[int]
    offset: Optional[int]


def names(words: list[bytes]) -> list[NameRange]:
    """Names of sites: one range or more, each a site, an offset and a length."""
    numbers = [number(word) for word in words]
    needs(len(numbers) >= 3 and len(numbers) % 3 == 0)
    ranges = [NameRange(*numbers[at:at + 3]) for at in range(0, len(numbers), 3)]
    needs(all(1 <= it.site <= 65535 and it.length >= 1 and it.offset + it.length <= 1 << 24 for it in ranges))
    return ranges


def fronts(numbers: list[int]) -> dict[int, int]:
    """Fronts: a site and a number each, and no site twice."""
    found = dict(zip(numbers[::2], numbers[1::2]))
    needs(len(numbers) == 2 * len(found) and all(1 <= site <= 65535 for site in found))
    return found


def file_named(word: bytes) -> str:
    needs(re.fullmatch(rb"[!-.0-~]{1,31}", word) is not None and word not in (b".", b".."))
    return word.decode()


def looks(words: list[bytes]) -> Looks:
    found = re.fullmatch(rb"(?:font=([A-Za-z][A-Za-z0-9.]{0,30}))?(?: ?colour=(\d{1,10}))?(?: ?offset=(-?\d{1,10}))?",
                         b" ".join(words))
    if found is None or not words or any(b"=" not in word for word in words):
        raise NoEvent
    font, colour, offset = found.groups()
    needs(offset is None or -128 <= int(offset) <= 127)
    return Looks(font.decode() if font else None, None if colour is None else number(colour, most=15),
                 None if offset is None else int(offset))


def copied(source: Text[bytes], beg: int, end: int, into: Text[bytes], pos: int) -> list[bytes]:
    """Puts a copy of a range into a text, as the range looks."""
    if not (beg <= end <= len(source) and pos <= len(into)):
        raise Refused(11)
    parts = [(source[max(run.beg, beg):min(run.end, end)], run.looks) for run in source.runs() if beg < run.end and run.beg < end]
    sent: list[bytes] = []
    for data, its_looks in parts:
        try:
            sent += into.insert(pos, data, its_looks)
        except Refused as why:
            raise Refused(why.number, sent + why.messages) from why
        pos += len(data)
    return sent


class Run:
    """A script's run: the texts of its sites, the messages that they sent, the files that they kept, and the answers."""

    def __init__(self, script: Script) -> None:
        self.script = script
        self.texts: dict[tuple[int, int], Text[bytes]] = {}
        self.sent: list[bytes] = []
        self.files = dict(script.files)
        self.answers: list[bytes] = []

    def text(self, site: int, text: int) -> Text[bytes]:
        needs(0 <= site - self.script.first < self.script.count)
        if (site, text) not in self.texts:
            self.texts[site, text] = Text(text, site=site)
        return self.texts[site, text]

    def send(self, messages: list[bytes]) -> list[bytes]:
        first = len(self.sent) + 1
        self.sent += messages
        return [b"send m%d %s" % (at, message.hex().encode()) for at, message in enumerate(messages, first)]

    def edit(self, site: int, verb: bytes, text: Text[bytes], words: list[bytes]) -> list[bytes]:
        if verb == b"type":
            needs(len(words) >= 2)
            pos, data = number(words[0]), bytes_spelled(b" ".join(words[1:]))
            return text.insert(pos, data)
        if verb == b"looks":
            needs(len(words) >= 3)
            beg, end, given = number(words[0]), number(words[1]), looks(words[2:])
            return text.change_looks(beg, end, font=given.font, colour=given.colour, offset=given.offset)
        if verb == b"delete":
            return text.delete_names(names(words))
        if verb == b"restore" and words:
            return text.restore_names(names(words))
        numbers = [number(word) for word in words]
        needs(len(numbers) == {b"cut": 2, b"recall": 1, b"restore": 0, b"save": 4}[verb])
        if verb == b"save":
            beg, end, into, pos = numbers
            needs(1 <= into <= 16)
            return copied(text, beg, end, self.text(site, into), pos)
        if verb == b"cut":
            return text.delete(*numbers)
        return text.recall(*numbers) if verb == b"recall" else text.restore()

    def edited(self, site: int, verb: bytes, text: Text[bytes], words: list[bytes]) -> list[bytes]:
        try:
            return [*self.send(self.edit(site, verb, text, words)), b"ok"]
        except Refused as why:
            if not why.messages:
                raise
            return [*self.send(why.messages), b"partial %d %d" % (len(why.messages), why.number)]

    def message(self, word: bytes) -> bytes:
        if word.startswith(b"m"):
            return self.sent[number(word[1:], 1, len(self.sent)) - 1]
        return bytes_in_hex(word)

    def take(self, text: Text[bytes], word: bytes) -> bytes:
        taking = text.take(self.message(word))
        if taking.kind is TakingKind.TAKEN:
            return b"taken %d %d%s" % (taking.drained, taking.dropped, b" stopped" * taking.stopped)
        return taking.kind.name.lower().encode()

    def unpack(self, text: Text[bytes], word: bytes) -> bytes:
        try:
            it = text.unpack(bytes_in_hex(word))
        except Refused as why:
            if not why.done:
                raise
            return b"partial %d %d" % (why.done, why.number)
        return b"unpacked %d %d %d%s" % (it.taken, it.known, it.waiting, b" stopped" * it.stopped)

    def merge(self, text: Text[bytes], of: int, word: bytes) -> bytes:
        return b"merged %d" % text.merge(self.text(number(word), of))

    def is_folder(self, file: str) -> bool:
        return any(path.startswith(f"{file}/") for path in self.files)

    def keep(self, text: Text[bytes], file: str, packed: bool) -> bytes:
        data = text.store(packed=packed)
        if self.is_folder(file):
            raise Refused(NOT_WRITTEN)
        self.files[file] = data
        return b"ok"

    def reopen(self, site: int, of: int, file: str) -> bytes:
        text = self.text(site, of)
        if text.fronts() or text.waiting:
            raise Refused(3)
        if file not in self.files:
            raise Refused(NO_FILE)
        data = self.files[file]
        loaded = Text.load(data)
        # (the library opens a file as whose text and site it is)
        if data[4:8] != of.to_bytes(2, "big") + site.to_bytes(2, "big"):
            raise Refused(2)
        self.texts[site, of] = loaded
        return b"ok"

    def answer(self, line: bytes) -> list[bytes]:
        words = line.split(b" ") if line.count(b" ") >= 2 else [b"", b"", b""]
        site, verb, of, words = number(words[0]), words[1], number(words[2], 1, 16), words[3:]
        text = self.text(site, of)
        if verb in (b"type", b"cut", b"looks", b"recall", b"restore", b"delete", b"save"):
            return self.edited(site, verb, text, words)
        if verb == b"keep" and words[1:] in ([], [b"packed"]):
            return [self.keep(text, file_named(b"".join(words[:1])), len(words) == 2)]
        if verb == b"reopen" and len(words) == 1:
            return [self.reopen(site, of, file_named(words[0]))]
        if verb == b"take" and len(words) == 1:
            return [self.take(text, words[0])]
        if verb == b"unpack" and len(words) == 1:
            return [self.unpack(text, words[0])]
        if verb == b"merge" and len(words) == 1:
            return [self.merge(text, of, words[0])]
        numbers = [number(word) for word in words]
        if verb in ASKED and ASKED[verb][0] in (None, len(numbers)):
            return [*ASKED[verb][1](text, numbers)]
        raise NoEvent

    def play(self) -> bytes:
        *lines, last = self.script.lines.split(b"\n")
        lines = [line.removesuffix(b"\r") for line in lines] + [last] * (last != b"")
        for at, line in enumerate(lines):
            if at >= MAX_LINES or len(line) > MAX_LINE:
                self.answers.append(b"refused 21")
                break
            if line and not line.startswith(b"#"):
                self.answers += self.answered(line)
        return b"".join(line + b"\n" for line in self.answers)

    def answered(self, line: bytes) -> list[bytes]:
        try:
            return self.answer(line)
        except NoEvent:
            return [b"refused 20"]
        except Misused as why:
            # (nothing but positions outside the text and names that aren't here is misuse)
            assert why.number in (103, 106)
            return [b"refused 11"]
        except Refused as why:
            return [b"refused %d" % why.number]


# -- what is asked


def text_asked(text: Shown[bytes], _: list[int]) -> Iterator[bytes]:
    yield b"text %d%s%s" % (len(text), b" " * bool(text), printed(bytes(text)))


def runs_asked(text: Text[bytes], _: list[int]) -> Iterator[bytes]:
    for run in text.runs():
        yield b"run %s %d %d %d" % (run.font.encode(), run.colour, run.offset, run.end - run.beg)
    yield b"ok"


def front_asked(text: Text[bytes], _: list[int]) -> Iterator[bytes]:
    for site, front in text.fronts().items():
        yield b"front %d %d" % (site, front)
    yield b"waiting %d" % text.waiting


def settle_asked(text: Text[bytes], _: list[int]) -> Iterator[bytes]:
    settling = text.settle()
    yield b"settled %d %d%s" % (settling.drained, settling.dropped, b" stopped" * settling.stopped)


def stretches(pairs: list[tuple[int, int]]) -> Iterator[tuple[int, int, int]]:
    """Where both of these go up by 1, in one: the first two, and how many."""
    beg = 0
    for end in range(1, len(pairs) + 1):
        if end == len(pairs) or pairs[end] != (pairs[end - 1][0] + 1, pairs[end - 1][1] + 1):
            yield (*pairs[beg], end - beg)
            beg = end


def shown_names(text: Text[bytes], site: int, offsets: range) -> Iterator[tuple[int, int]]:
    """The offsets of those characters that are shown, and where."""
    for offset in offsets:
        try:
            place = text.place(Name(site, offset))
        except Misused:
            # (a site's characters have the offsets from 0 on)
            return
        if place.is_shown:
            yield offset, place.pos - 1


def where_asked(text: Text[bytes], words: list[int]) -> Iterator[bytes]:
    site, at, length = words
    needs(1 <= site <= 65535 and length >= 1 and at + length <= 1 << 24)
    for offset, pos, many in stretches([*shown_names(text, site, range(at, at + length))]):
        yield b"shown %d %d %d %s" % (offset, pos, many, printed(text[pos:pos + many]))
    yield b"ok"


def names_asked(text: Text[bytes], words: list[int]) -> Iterator[bytes]:
    beg, end = words
    shown = text.names(beg, end)
    # (no stretch is of two sites, whose offsets lie 2^32 apart here)
    for pos, at, many in stretches([(pos, (name.site << 32) + name.offset) for pos, name in enumerate(shown, beg)]):
        yield b"name %d %d %d %d" % (pos, at >> 32, at % (1 << 32), many)
    yield b"ok"


def since_asked(text: Text[bytes], numbers: list[int]) -> Iterator[bytes]:
    for message in text.since(fronts(numbers)):
        yield b"message " + message.hex().encode()
    yield b"ok"


def pack_asked(text: Text[bytes], numbers: list[int]) -> Iterator[bytes]:
    for chunk in text.pack(fronts(numbers)):
        yield b"chunk " + chunk.hex().encode()
    yield b"ok"


def past_asked(text: Text[bytes], numbers: list[int]) -> Iterator[bytes]:
    with text.past(fronts(numbers)) as past:
        yield from text_asked(past, [])


Asked = Callable[[Text[bytes], list[int]], Iterator[bytes]]
# How many numbers each is asked with, if that is fixed.
ASKED: dict[bytes, tuple[Optional[int], Asked]] = {
    b"text": (0, text_asked),
    b"runs": (0, runs_asked),
    b"front": (0, front_asked),
    b"settle": (0, settle_asked),
    b"where": (3, where_asked),
    b"names": (2, names_asked),
    b"since": (None, since_asked),
    b"pack": (None, pack_asked),
    b"past": (None, past_asked),
}


def is_right(script: Script) -> bool:
    run = Run(script)
    return script.is_right(run.play()) and script.files_after in (None, run.files)


def main() -> int:
    scripts = [*map(script_of, map(rows.load, rows.names())), *scripts_of_script_rows()]
    played = [script for script in scripts if not script.left_out]
    wrong = [script for script in played if not is_right(script)]
    for script in wrong:
        print(f"{script.name}: the library answers otherwise")
    for why, many in Counter(script.left_out for script in scripts if script.left_out).items():
        print(f"{many} scripts weren't played: {why}")
    print(f"{len(played) - len(wrong)} passed, {len(wrong)} failed")
    return 1 if wrong else 0


if __name__ == "__main__":
    sys.exit(main())
