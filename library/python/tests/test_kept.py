"""Texts that are kept in files: against texts in memory, cut off at any byte, on full disks, with bytes of anybody's, by killed programs.

  VIALSHOAL_LIBRARY=library/out/libvialshoal.so python3 -m unittest discover library/python/tests
"""
from __future__ import annotations

import errno
import os
import random
import resource
import shutil
import signal
import stat
import subprocess
import sys
import tempfile
import time
import unittest
from collections.abc import Callable, Iterator
from contextlib import contextmanager
from functools import partial
from pathlib import Path
from typing import Any
from unittest import mock

from hypothesis import given
from hypothesis import strategies as st

from examples import tries
from test_text import Edit, edited, edits, one_edit
from test_threads import seq_of, side_by_side
from vialshoal import Damaged, FrontsDiffer, Misused, Refused, Text
from vialshoal import _journal as journal

# An edit here, or one that site 2 makes and this one takes in, as a message or in a chunk; or the file is closed and opened.
steps = st.lists(st.tuples(st.sampled_from(("edit", "edit", "take", "unpack", "merge", "open")), one_edit), max_size=15)
# A program that types for ever, and says after each edit how many it has made.
TYPES = """
import sys
from vialshoal import Text
with Text.open(sys.argv[1], site=1) as text:
    while True:
        text.insert(len(text), b"0123456789" * int(sys.argv[2]))
        print(text.front(1), flush=True)
"""


def state(text: Text[Any]) -> tuple[object, ...]:
    return bytes(text), text.runs(), text.fronts(), text.names(0, len(text)), text.number, text.site


@contextmanager
def full_at(length: int) -> Iterator[None]:
    """Has files grow no longer than this, as on a disk that is full then."""
    soft, hard = resource.getrlimit(resource.RLIMIT_FSIZE)
    resource.setrlimit(resource.RLIMIT_FSIZE, (length, hard))
    try:
        yield
    finally:
        resource.setrlimit(resource.RLIMIT_FSIZE, (soft, hard))


class InAFolder(unittest.TestCase):
    def setUp(self) -> None:
        folder = tempfile.TemporaryDirectory()
        self.addCleanup(folder.cleanup)
        self.folder = Path(folder.name)
        self.path = self.folder / "note"

    def put(self, data: bytes) -> Path:
        """Another file with these bytes."""
        path = self.folder / "other"
        path.write_bytes(data)
        return path


class Played:
    """A kept text, one in memory that does the same, and what the file had, by how long it was."""

    def __init__(self, path: Path) -> None:
        path.unlink(missing_ok=True)
        self.path = path
        self.text, self.plain, self.other = Text.open(path, site=1), Text(1, site=1), Text(1, site=2)
        self.sent: list[bytes] = []
        self.had = [(path.stat().st_size, state(self.plain))]

    def do(self, verb: str, edit: Edit) -> None:
        if verb == "edit":
            self.sent += edited(self.text, edit)[1]
            for message in self.sent[self.plain.front(1):]:
                self.plain.take(message)
        elif verb == "open":
            self.text.close()
            self.text = Text.open(self.path)
        else:
            edited(self.other, edit)
            self.bring(verb)
        self.had.append((self.path.stat().st_size, state(self.plain)))

    def bring(self, verb: str) -> None:
        self.plain.merge(self.other)
        if verb == "merge":
            self.text.merge(self.other)
        elif verb == "unpack":
            for chunk in self.other.pack(self.text.fronts()):
                self.text.unpack(chunk)
        else:
            for message in [*self.other.since(self.text.fronts())]:
                self.text.take(message)
        self.other.merge(self.text)

    def close(self) -> None:
        for text in (self.text, self.plain, self.other):
            text.close()


class AsInMemory(InAFolder):
    @given(steps, st.booleans())
    @tries(60)
    def test_it_is_the_same_text_whenever_it_is_opened(self, given_steps: list[tuple[str, Edit]], is_small: bool) -> None:
        # (with the limit of 0, the file is written anew after nearly each call)
        with mock.patch.object(journal, "_LEAST", 0 if is_small else 1 << 16):
            played = Played(self.path)
            for verb, edit in given_steps:
                played.do(verb, edit)
                self.assertEqual(state(played.text), state(played.plain))
            played.do("open", ("", 0, 0, b""))
            self.assertEqual(state(played.text), state(played.plain))
            self.assertEqual([*map(seq_of, played.sent)], [*range(1, len(played.sent) + 1)])
            self.assertEqual(played.text.insert(0, b"x"), played.plain.insert(0, b"x"))
            played.close()

    @given(steps, st.data())
    @tries(60)
    def test_cut_off_anywhere_it_has_what_was_kept_before(self, given_steps: list[tuple[str, Edit]], data: st.DataObject) -> None:
        played = Played(self.path)
        for verb, edit in given_steps:
            played.do(verb, edit)
        played.close()
        whole = self.path.read_bytes()
        end = data.draw(st.integers(played.had[0][0], len(whole)))
        length, had = [it for it in played.had if it[0] <= end][-1]
        with Text.open(self.put(whole[:end])) as text, Text(1, site=3) as other:
            self.assertEqual((state(text), text.torn), (had, whole[length:end]))
            # It goes on, and what was torn is gone.
            text.insert(0, b"new")
            other.merge(text)
            self.assertEqual(bytes(other), bytes(text))
            now = state(text)
        with Text.open(self.folder / "other") as text:
            self.assertEqual((state(text), text.torn), (now, b""))

    def test_a_new_one_that_is_cut_off_is_new(self) -> None:
        Text.open(self.path, site=1).close()
        head = self.path.read_bytes()
        for end in range(len(head)):
            with Text.open(self.put(head[:end]), site=1) as text:
                self.assertEqual(text.insert(0, b"x"), text.pack() and [*text.since({})])

    def test_it_is_of_a_text_and_a_site(self) -> None:
        with self.assertRaises(FileNotFoundError):
            Text.open(self.path)
        self.assertEqual([*self.folder.iterdir()], [])
        with Text.open(self.path, 7, site=2, units="code points") as text:
            text.insert(0, "\N{EURO SIGN}")
        opened: Any = Text.open
        for wrong in ({"site": 1}, {"text": 1}, {"text": 1, "site": 2}):
            self.assertRaisesRegex(ValueError, "is of text 7 at site 2", opened, self.path, **wrong)
        for text_number, site in ((None, None), (7, None), (None, 2)):
            with Text.open(str(self.path), text_number, site=site, units="code points") as text:
                self.assertEqual((str(text), text.number, text.site), ("\N{EURO SIGN}", 7, 2))
        self.assertRaises(ValueError, opened, self.put(b""))
        self.assertRaises(TypeError, opened, 5.0)
        for wrong in ({"site": 0}, {"text": 65536, "site": 1}):
            self.assertRaises(Misused, opened, self.folder / "none", **wrong)

    def test_the_list_becomes_one_packed_file(self) -> None:
        (self.folder / "link").symlink_to(self.path)
        with Text.open(self.folder / "link", site=1) as text:
            self.path.chmod(0o640)
            sizes = []
            for _ in range(3000):
                text.insert(len(text), b"x")
                sizes.append(self.path.stat().st_size)
            packed = text.store(packed=True)
        self.assertLess(sizes[-1], max(sizes) // 2)
        self.assertIn(packed[:1000], self.path.read_bytes())
        self.assertEqual(stat.S_IMODE(self.path.stat().st_mode), 0o640)
        self.assertEqual(sorted(it.name for it in self.folder.iterdir()), ["link", "note"])
        with Text.open(self.path) as text:
            self.assertEqual(bytes(text), b"x" * 3000)

    def test_one_with_too_many_operations_to_be_packed_is_kept_as_chunks(self) -> None:
        refused = mock.patch.object(Text, "_file", side_effect=Refused(13))
        with Text.open(self.path, site=1) as text, mock.patch.object(journal, "_LEAST", 0), refused:
            for _ in range(10):
                text.insert(0, b"x")
                now = state(text)
        self.assertNotIn(b"OTP1", self.path.read_bytes())
        with Text.open(self.path) as text:
            self.assertEqual(state(text), now)


class OnBadDisks(InAFolder):
    """Disks that are full or fail: what was told as kept is there, and nothing is handed out that isn't."""

    def test_a_full_one_is_told_and_loses_nothing(self) -> None:
        with Text.open(self.path, site=1) as text, Text(1, site=2) as other:
            sent, chance = text.insert(0, b"kept"), random.Random(1)
            for room in range(0, 60, 7):
                before = self.path.read_bytes()
                with full_at(len(before) + room):
                    with self.assertRaisesRegex(OSError, f"File too large: '{self.path}'"):
                        text.insert(0, chance.randbytes(60))
                    calls: list[Callable[[], object]] = [text.pack, text.store, partial(other.merge, text), partial(next, text.since({}))]
                    for call in calls:
                        self.assertRaises(OSError, call)
                self.assertEqual(self.path.read_bytes(), before)
            self.assertEqual(bytes(other), b"")
            sent += text.keep()
            self.assertEqual([*map(seq_of, sent)], [*range(1, 11)])
            for message in sent:
                other.take(message)
            self.assertEqual((bytes(other), text.keep()), (bytes(text), []))
            now = state(text)
        with Text.open(self.path) as text:
            self.assertEqual(state(text), now)

    def test_what_was_taken_in_is_told_as_well(self) -> None:
        with Text.open(self.path, site=1) as text, Text(1, site=2) as other:
            [message] = other.insert(0, b"x" * 100)
            with full_at(self.path.stat().st_size):
                calls: list[Callable[[], object]] = [
                    partial(text.take, message), partial(text.unpack, other.pack()[0]), partial(text.merge, other)]
                for call in calls:
                    self.assertRaises(OSError, call)
            text.keep()
        with Text.open(self.path) as text:
            self.assertEqual(bytes(text), b"x" * 100)

    def test_a_file_that_cannot_be_written_anew_goes_on(self) -> None:
        with Text.open(self.path, site=1) as text, mock.patch.object(journal, "_LEAST", 0):
            with mock.patch("os.replace", side_effect=OSError(errno.ENOSPC, "full")) as replace:
                for _ in range(100):
                    text.insert(0, b"x")
            self.assertLess(replace.call_count, 10)
            self.assertEqual([*self.folder.iterdir()], [self.path])
            now = state(text)
        with Text.open(self.path) as text:
            self.assertEqual(state(text), now)

    @given(edits, st.randoms(use_true_random=False))
    @tries(60)
    def test_calls_that_fail_at_random(self, given_edits: list[Edit], chance: random.Random) -> None:
        self.path.unlink(missing_ok=True)
        fails = {name: getattr(os, name) for name in ("pwrite", "fdatasync", "ftruncate", "fsync", "replace")}

        def failing(name: str) -> Any:
            def call(*words: Any) -> Any:
                if chance.random() < 0.2:
                    if name == "pwrite":
                        fails[name](words[0], words[1][:chance.randrange(len(words[1]) + 1)], words[2])
                    raise OSError(errno.ENOSPC, "full")
                return fails[name](*words)
            return call

        with Text.open(self.path, site=1) as text, mock.patch.object(journal, "_LEAST", 20):
            told, sent = 0, list[bytes]()
            with mock.patch.multiple(os, **{name: failing(name) for name in fails}):
                for edit in given_edits:
                    try:
                        sent += edited(text, edit)[1]
                    except OSError:
                        pass
                    told = len(sent)
                    self.assertGreaterEqual(self.kept(), told)
            sent += text.keep()
            self.assertEqual([*map(seq_of, sent)], [*range(1, text.front(1) + 1)])
            self.assertEqual(self.kept(), len(sent))

    def kept(self) -> int:
        """How many operations are in the file as it is."""
        with Text.open(self.put(self.path.read_bytes())) as text:
            return text.front(1)


class ByAnybody(InAFolder):
    """Bytes that something else has changed."""

    @given(steps, st.data())
    @tries(150)
    def test_a_change_is_told_or_is_in_what_was_last(self, given_steps: list[tuple[str, Edit]], data: st.DataObject) -> None:
        played = Played(self.path)
        for verb, edit in given_steps:
            played.do(verb, edit)
        played.close()
        whole = self.path.read_bytes()
        beg = data.draw(st.integers(0, len(whole)))
        end = data.draw(st.integers(beg, min(beg + 9, len(whole))))
        changed = whole[:beg] + data.draw(st.binary(max_size=9)) + whole[end:]
        try:
            text = Text.open(self.put(changed))
        except (Damaged, ValueError):
            return
        with text:
            # (what stands before the change is there, and nothing but the last entry may be missing)
            lengths = sorted({length for length, _ in played.had})
            last_but_one = lengths[-2] if len(lengths) > 1 else lengths[-1]
            self.assertIn(state(text), [had for length, had in played.had if length >= last_but_one or changed == whole[:length]])

    def test_an_entry_that_is_whole_behind_one_that_is_not_is_not_lost(self) -> None:
        with Text.open(self.path, site=1) as text:
            ends = []
            for _ in range(3):
                text.insert(0, b"abc")
                ends.append(self.path.stat().st_size)
        whole = self.path.read_bytes()
        for at in range(ends[1]):
            with self.assertRaises(Damaged):
                Text.open(self.put(whole[:at] + bytes([whole[at] ^ 1]) + whole[at + 1:]))
        with Text.open(self.put(whole[:ends[1]] + bytes(40))) as text:
            self.assertEqual((text.front(1), text.torn), (2, bytes(40)))

    def test_what_has_the_right_sums_is_read_as_anybodys(self) -> None:
        head = journal._head
        with Text(1, site=1) as text, Text(2, site=1) as other:
            other.insert(0, b"x")
            text.insert(0, b"x")
            text.insert(0, b"y")
            files = [head(1, 1, b"none"), head(0, 1, b""), head(1, 0, b""), head(1, 1, text.store()),
                     head(1, 2, text.store(packed=True)) + text.store(packed=True),
                     head(2, 1, text.store(packed=True)) + text.store(packed=True), b"OTP1", b"OTJ2" + head(1, 1, b"")[4:]]
            lists = [b"\xff\xff", b"\x06\x00OTC1\0\1", other._packed({}), text._packed({1: 1}), text._packed({})[:-1]]
        for data in files:
            with self.subTest(data=data), self.assertRaises(Damaged):
                Text.open(self.put(data))
        for chunks in lists:
            path = self.put(b"")
            its = journal.Journal(str(path), False)
            its.begin(1, 1)
            its.append(chunks)
            its.close()
            with self.subTest(chunks=chunks):
                if chunks == lists[1]:
                    Text.open(path).close()
                else:
                    self.assertRaises(Damaged, Text.open, path)


class Alone(InAFolder):
    def test_a_second_one_is_refused_in_words(self) -> None:
        opens = "import sys; from vialshoal import Text; Text.open(sys.argv[1])"
        with Text.open(self.path, site=1) as text, mock.patch.object(journal, "_LEAST", 0):
            for _ in range(3):
                text.insert(0, b"x")
                self.assertRaisesRegex(BlockingIOError, "open already", Text.open, self.path)
                ran = subprocess.run([sys.executable, "-B", "-c", opens, self.path], stderr=subprocess.PIPE, text=True)
                self.assertIn("BlockingIOError: [Errno 11] it is open already", ran.stderr)
        self.assertEqual(subprocess.run([sys.executable, "-B", "-c", opens, self.path]).returncode, 0)

    def test_a_process_that_was_forked_off_writes_nothing(self) -> None:
        text = Text.open(self.path, site=1)
        text.insert(0, b"x")
        process = os.fork()
        if not process:
            try:
                text.insert(0, b"y")
            except PermissionError:
                text.close()
                time.sleep(1000)
            finally:
                os._exit(1)
        try:
            text.insert(1, b"z")
            text.close()
            with Text.open(self.path) as again:
                self.assertEqual((bytes(again), os.waitpid(process, os.WNOHANG)), (b"xz", (0, 0)))
        finally:
            os.kill(process, signal.SIGKILL)
            os.waitpid(process, 0)

    def test_one_that_was_taken_away_is_told(self) -> None:
        with Text.open(self.path, site=1) as text:
            self.path.rename(self.folder / "other")
            self.assertRaises(FileNotFoundError, text.insert, 0, b"x")
            (self.folder / "other").rename(self.path)
            self.assertEqual(len(text.keep()), 1)

    def test_threads_share_it(self) -> None:
        sent: list[list[bytes]] = [[], [], [], []]
        with Text.open(self.path, site=1) as text:
            def types(mine: list[bytes]) -> None:
                for _ in range(25):
                    mine += text.insert(0, b"x")

            side_by_side(*(partial(types, mine) for mine in sent))
        with Text.open(self.path) as text:
            messages = sorted((message for mine in sent for message in mine), key=seq_of)
            self.assertEqual([*text.since({})], messages)


class Killed(InAFolder):
    def test_all_that_it_was_told_is_kept_is_there(self) -> None:
        front, chance = 0, random.Random(1)
        for size in (1, 1, 300, 3000, 1, 60_000):
            program = [sys.executable, "-B", "-c", TYPES, str(self.path), str(size)]
            with subprocess.Popen(program, stdout=subprocess.PIPE, text=True) as process:
                assert process.stdout
                for _ in range(chance.randrange(1, 8)):
                    self.assertTrue(process.stdout.readline(), "the program ended by itself")
                process.kill()
                said = process.stdout.read().split("\n")
            # (the last line may be torn, too)
            front = max([front, *map(int, said[:-1])])
            with Text.open(self.path) as text:
                self.assertGreaterEqual(text.front(1), front)
                front = text.front(1)
                self.assertEqual(bytes(text), (b"0123456789" * len(bytes(text)))[:len(text)])


class Copied(InAFolder):
    """A file that was copied: both go on, and meet."""

    def test_the_one_that_is_behind_is_told_and_stays_as_it_is(self) -> None:
        (self.folder / "a").mkdir()
        with Text.open(self.folder / "a" / "note", site=1) as text:
            text.insert(0, b"both ")
        shutil.copytree(self.folder / "a", self.folder / "b")
        with Text.open(self.folder / "a" / "note") as one, Text(1, site=2) as other:
            for message in [*one.since({}), *one.insert(5, b"went on")]:
                other.take(message)
            other.insert(0, b"we ")
            for verb in ("take", "unpack", "merge"):
                with Text.open(self.folder / "b" / "note") as behind:
                    self.goes_no_further(behind, other, verb)
                    with behind.copy(site=3) as another:
                        another.merge(other)
                        self.assertEqual(bytes(another), b"we both went on")
                with Text.open(self.folder / "b" / "note") as behind:
                    self.assertEqual(bytes(behind), b"both ")

    def goes_no_further(self, behind: Text[bytes], other: Text[bytes], verb: str) -> None:
        calls: dict[str, Callable[[], object]] = {
            "take": lambda: [behind.take(it) for it in other.since({})], "merge": lambda: behind.merge(other),
            "unpack": lambda: [behind.unpack(it) for it in other.pack()]}
        with self.assertRaises(FrontsDiffer) as caught:
            calls[verb]()
        self.assertEqual((caught.exception.number, caught.exception.site, caught.exception.seq), (8, 1, 2))
        self.assertIn("operations of site 1 from 2 on were made elsewhere", str(caught.exception))
        then: list[Callable[[], object]] = [lambda: behind.insert(0, b"x"), lambda: behind.take(b""), behind.keep]
        for call in then:
            self.assertRaises(FrontsDiffer, call)

    def test_a_batch_hands_nothing_out_then(self) -> None:
        with Text.open(self.path, site=1) as text, Text(1, site=1) as copy:
            copy.insert(0, b"x")
            with self.assertRaises(FrontsDiffer):
                with text.batch() as chunks:
                    text.merge(copy)
            self.assertEqual(chunks, [])


if __name__ == "__main__":
    unittest.main()
