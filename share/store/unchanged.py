"""Sees whether a file of SQLite that is open is what SQLite has left there: that no other program cut it off, wrote to it,
or took away what belongs to it.

SQLite looks at none of this. It goes on with what it remembers of the file, so that all seems well until it is opened again.
The file itself isn't opened for it, and what the system says of it is looked at: who closes a file of SQLite takes the locks
away from all that have it open in the same process.
"""
import contextlib
import math
import os
import pathlib
import struct
import threading
import time
import weakref
from collections.abc import Iterator

from share.log.folder import Inode, inode_of
from share.log.sqlite_file import INDEX, WRITTEN_AHEAD, beside

# How long the index is as soon as it is in use. It is reached as memory: where it is cut off, who reads there is ended.
INDEX_BYTES = 32_768
# The log begins with what it is, the size of a page, two salts and two sums. Each page comes after its number, what a commit ends
# with, the salts and the sums so far.
LOG_HEAD, FRAME = struct.Struct(">8I"), struct.Struct(">6I")
SUMMED_HEAD, SUMMED_FRAME, WORD = 24, 8, 0xFFFFFFFF
SALTS_OF_LOG, SALTS_OF_FRAME, COMMITS = slice(16, 24), slice(8, 16), slice(4, 8)
# How it begins says in which order bytes are summed.
ORDERS = {0x377F0682: "<", 0x377F0683: ">"}
# SQLite moves the log's pages into the file after a commit with which the log has this many, and then alone.
LOG_PAGES = 250
# Of how many pages that is looked at each time, which takes a tenth of a millisecond a page.
SUMMED_AT_ONCE = 4
# How much of it is compared in one go, and how many pages are read.
COMPARED_AT_ONCE, FRAMES_OF_A_KEY, FRAMES_AT_ONCE = 2**18, 5, 16
# What is written within this time of another writing may leave a file with the same time.
TICK_SECONDS = 0.05
# The file itself is read through once nothing was written there for this time: who reads it keeps the log from beginning anew.
QUIET_SECONDS = 1.0
# After this time without a change of the log its sums are looked at: who types on makes none so long.
SUMMED_AFTER_SECONDS = 0.5


# How a file was left: its bytes, and when something of it was changed last.
FileState = tuple[int, int]
# No file is so.
UNKNOWN: FileState = -1, 0


class Ahead:
    """What the log beside a file was seen to have committed. There are no locks on the log."""

    def __init__(self, path: pathlib.Path):
        self._file = os.open(beside(path, WRITTEN_AHEAD), os.O_RDONLY | os.O_CLOEXEC)
        # Its head and pages, up to the end of the last commit; how many of these bytes SQLite's own sums are known to be right of, and
        # the last of these sums.
        self._seen, self._summed = bytearray(), 0
        # Into what each part of it is read that is compared: to make room takes longer than to compare.
        self._part = memoryview(bytearray(COMPARED_AT_ONCE))
        self._sums: tuple[int, ...] = (0, 0)
        # When it was changed last as far as was seen, and when that was seen first; and whether nothing can have been written since
        # it was compared that this time doesn't show.
        self._changed, self._since, self._is_settled = -1, 0.0, False
        try:
            self.note()
        except BaseException:
            self.close()
            raise

    def close(self) -> None:
        """Lets go of the file."""
        os.close(self._file)

    def __len__(self) -> int:
        return len(self._seen)

    def is_full(self) -> bool:
        """Whether it has so many pages that SQLite moves them into the file with each commit."""
        page: int = LOG_HEAD.unpack_from(self._seen)[2] if self._seen else 0
        return page > 0 and len(self._seen) >= LOG_HEAD.size + LOG_PAGES * (FRAME.size + page)

    def note(self) -> bool:
        """Takes over what was committed since, all of it where the log begins anew; whether something was."""
        head = self._read(0, LOG_HEAD.size)
        if head != self._seen[:LOG_HEAD.size]:
            if not self._may_begin(head):
                return False
            self._seen, self._summed, self._sums = bytearray(head), LOG_HEAD.size, LOG_HEAD.unpack(head)[6:]
        before = end = len(self._seen)
        for pages, committed in self._pages(before):
            end = len(self._seen) + committed if committed else end
            self._seen += pages
        del self._seen[end:]
        return end > before

    def changed(self) -> int:
        """When it was changed last."""
        return os.fstat(self._file).st_ctime_ns

    def written_at(self) -> int:
        """When something was written there last. SQLite, run by root, changes its owner as it opens it, which is no writing."""
        return os.fstat(self._file).st_mtime_ns

    def rested(self) -> float:
        """For how many seconds it wasn't changed, as far as was seen."""
        now, changed = time.monotonic(), self.changed()
        if changed != self._changed:
            self._changed, self._since, self._is_settled = changed, now, False
        return now - self._since

    def is_there(self) -> bool:
        """Whether what was seen is there still."""
        rested = self.rested()
        if self._is_settled:
            return True
        found = self._is_as_seen() or self.is_right()
        self._is_settled = found and rested > TICK_SECONDS
        return found

    def _is_as_seen(self) -> bool:
        if self._has_that_alone():
            return True
        self.note()
        return all(map(self._has, range(0, len(self._seen), COMPARED_AT_ONCE)))

    def _has_that_alone(self) -> bool:
        """Whether what was seen is there, in one reading, and no page follows that belongs to it: so it is nearly always."""
        size = len(self._seen)
        if not size or size + FRAME.size > len(self._part):
            return False
        read = os.preadv(self._file, [self._part[:size + FRAME.size]], 0)
        if read < size or not self._seen.startswith(self._part[:size]):
            return False
        return read < size + FRAME.size or self._part[size:size + FRAME.size].tobytes()[SALTS_OF_FRAME] != self._seen[SALTS_OF_LOG]

    def _has(self, begin: int) -> bool:
        """Whether the part that begins there is there still."""
        part = self._part[:len(self._seen) - begin]
        # Two views would be compared byte by byte, which takes eighty times as long.
        return os.preadv(self._file, [part], begin) == len(part) and self._seen.startswith(part, begin)

    def is_right(self) -> bool:
        """Whether it is what SQLite wrote, by its own sums. Another process may have been about to write as it was seen."""
        before, head = len(self._seen), self._seen[:LOG_HEAD.size]
        del self._seen[self._summed:]
        return self._is_as_seen() and self.adds_up() and (len(self._seen) >= before or head != self._seen[:LOG_HEAD.size])

    def adds_up(self, most: float = math.inf) -> bool:
        """Whether the next pages of what was seen have the sums that SQLite wrote beside them."""
        if not self._seen:
            return True
        begins, _, page = LOG_HEAD.unpack_from(self._seen)[:3]
        size = FRAME.size + page
        while self._summed < len(self._seen) and most > 0:
            frame = self._seen[self._summed:self._summed + size]
            sums = _summed(frame[:SUMMED_FRAME] + frame[FRAME.size:], self._sums, ORDERS[begins])
            if sums != FRAME.unpack_from(frame)[4:]:
                return False
            self._summed, self._sums, most = self._summed + size, sums, most - 1
        return True

    def _may_begin(self, head: bytes) -> bool:
        """Whether the log may begin so: as SQLite begins it, and not as it did before."""
        order = ORDERS.get(LOG_HEAD.unpack(head)[0]) if len(head) == LOG_HEAD.size else None
        if order is None or _summed(head[:SUMMED_HEAD], (0, 0), order) != LOG_HEAD.unpack(head)[6:]:
            return False
        # The first salt is one more each time.
        before = LOG_HEAD.unpack_from(self._seen)[4] if self._seen else 0
        return not self._seen or 0 < (LOG_HEAD.unpack(head)[4] - before & WORD) <= WORD // 2

    def _read(self, begin: int, size: int) -> bytes:
        return os.pread(self._file, size, begin)

    def _pages(self, begin: int) -> Iterator[tuple[bytes, int]]:
        """The pages that follow from a place on, some at a time, each with what is before it; and where the last of them that ends a commit
        does, 0 where none does."""
        if not self._seen:
            return
        salts, size = self._seen[SALTS_OF_LOG], FRAME.size + LOG_HEAD.unpack_from(self._seen)[2]
        # Mostly there is none, or those of a key.
        most = FRAMES_OF_A_KEY * size
        while len(frames := self._read(begin, most)) >= size:
            committed = at = 0
            while at + size <= len(frames) and frames[at + SALTS_OF_FRAME.start:at + SALTS_OF_FRAME.stop] == salts:
                at += size
                committed = at if any(frames[at - size + COMMITS.start:at - size + COMMITS.stop]) else committed
            yield frames[:at], committed
            if at + size <= len(frames) or len(frames) < most:
                return
            begin, most = begin + at, FRAMES_AT_ONCE * size


def _summed(data: bytes | bytearray, sums: tuple[int, ...], order: str) -> tuple[int, ...]:
    """The sums of a log with some bytes more."""
    one, other = sums
    for first, second in struct.iter_unpack(f"{order}2I", data):
        one = (one + first + other) & WORD
        other = (other + second + one) & WORD
    return one, other


class FileWatch:
    """How a file was left by those who have it open in this process."""

    def __init__(self, path: pathlib.Path):
        self._path, self._log = str(path), str(beside(path, WRITTEN_AHEAD))
        self._inodes = {one: (found.st_dev, found.st_ino) for one in (self._path, self._log, str(beside(path, INDEX)))
                        if (found := os.stat(one))}
        # The least that each may have.
        self._sizes = dict(zip(self._inodes, (1, 0, INDEX_BYTES)))
        self._writing = threading.RLock()
        self._state, self._ahead = self._now(), Ahead(path)
        # Whether a commit that was made isn't in the log, and whether that is damaged; and when what nobody has looked at yet was seen in
        # the file itself.
        self._awaits, self._is_damaged, self._moved = False, False, math.inf
        # How many have the file open.
        self._users = 0

    def use(self) -> "FileWatch":
        """Counts one more who has the file open, and lets go of this when he does. It is called with `_knowing` held."""
        self._users += 1
        return self

    def let_go(self) -> None:
        """One less has the file open; with the last one nothing is known of it any more."""
        with _knowing:
            self._users -= 1
            if not self._users:
                if _known.get(self._inodes[self._path]) is self:
                    del _known[self._inodes[self._path]]
                self._ahead.close()

    def fault(self) -> str | None:
        """What another program did to the file, in words, where that is seen at once: SQLite cuts none of these off. Nothing,
        where another file took the name."""
        for path, inode in self._inodes.items():
            # It may grow while it is looked at, and another thread see that.
            least = self._sizes[path]
            try:
                found = os.stat(path)
            except OSError:
                return None if path == self._path else f"{os.path.basename(path)} was taken away"
            if (found.st_dev, found.st_ino) != inode:
                return None if path == self._path else f"{os.path.basename(path)} was replaced"
            if found.st_size < least:
                return f"{os.path.basename(path)} was {'cut off' if found.st_size else 'emptied'}"
            if found.st_size > least:
                self._sizes[path] = found.st_size
        return None

    def written(self, moves: bool = False) -> "Written":
        """Takes note of what is written meanwhile, and whether the log's pages are moved into the file. Only one thread writes at a time;
        what another program writes meanwhile isn't taken over."""
        return Written(self, moves)

    def begin_writing(self) -> tuple[bool, int]:
        """Waits until no other thread writes; whether the file is as it was left, and when the log was written to last."""
        self._writing.acquire()
        try:
            return self._state == self._now(), self._ahead.written_at()
        except BaseException:
            self._writing.release()
            raise

    def end_writing(self, is_known: bool, before: int, is_done: bool, moves: bool) -> None:
        """Lets others write, and notes what was written since the beginning, which gave the first two."""
        try:
            if is_done:
                self._awaits |= not self._ahead.note() and self._ahead.written_at() != before
        finally:
            try:
                # Where SQLite moved no pages of the log into the file, another program wrote there.
                if is_known and (moves or self._ahead.is_full()) and self._state != (now := self._now()):
                    self._knows(now)
            finally:
                self._writing.release()

    def unknown(self, at_end: bool = False) -> FileState | None:
        """How the file is, where another process has written to it, or at the end where that isn't looked at yet."""
        if self._state == self._now() != UNKNOWN and not at_end:
            return None
        with self._writing:
            now = self._now()
            return now if self._state != now or at_end and self._moved < math.inf else None

    def fault_of_log(self, at_end: bool = False) -> str | None:
        """What another program did to the log, in words; at the end SQLite's own sums say it, too."""
        with self._writing:
            # Another process may have been about to commit.
            lacks = self._awaits and not self._ahead.note()
            self._awaits = False
            self._is_damaged = self._is_damaged or lacks or not self._ahead.is_there() or at_end and not self._adds_up(math.inf)
        return f"{os.path.basename(self._log)} was written to" if self._is_damaged else None

    def sum_up(self) -> bool:
        """Whether the log is as it was left, and its next pages by SQLite's own sums, too. That is seen between keys, so that the next one
        needn't wait for it; the sums take so long that they wait for a pause."""
        with self._writing:
            rested = self._ahead.rested()
            if rested > TICK_SECONDS:
                self._is_damaged = self._is_damaged or not self._ahead.is_there()
            if rested > SUMMED_AFTER_SECONDS:
                self._is_damaged = self._is_damaged or not self._adds_up(SUMMED_AT_ONCE)
        return not self._is_damaged

    def ahead(self) -> int:
        """How many bytes the log was seen to have."""
        return len(self._ahead)

    def _adds_up(self, most: float) -> bool:
        return self._ahead.adds_up(most) or self._ahead.is_right()

    def unseen(self) -> FileState | None:
        """How the file is, where something was written that nobody has looked at, and whatever else is written shows."""
        with self._writing:
            return self._state if self._moved < time.monotonic() - QUIET_SECONDS else None

    def saw(self, state: FileState) -> None:
        """Says that a file that was left so is right."""
        with self._writing:
            if self._state == state:
                self._moved = math.inf

    def knows(self, state: FileState) -> None:
        """Says that a file that is so is right, but for what was written in the same moment."""
        with self._writing:
            self._knows(state)

    def _knows(self, state: FileState) -> None:
        self._state, self._moved = state, time.monotonic()

    def doubts(self) -> None:
        """Forgets how the file was left."""
        self._state = UNKNOWN

    def _now(self) -> FileState:
        try:
            found = os.stat(self._path)
        except OSError:
            return UNKNOWN
        return found.st_size, found.st_ctime_ns


class Written(contextlib.AbstractContextManager[None]):
    """What this process writes to a file."""

    def __init__(self, watch: FileWatch, moves: bool):
        self._watch, self._moves = watch, moves
        self._began = False, 0

    def __enter__(self) -> None:
        self._began = self._watch.begin_writing()

    def __exit__(self, _: object, why: BaseException | None, where: object) -> None:
        self._watch.end_writing(*self._began, why is None, self._moves)


_known: "weakref.WeakValueDictionary[Inode, FileWatch]" = weakref.WeakValueDictionary()
_knowing = threading.Lock()


def fault(path: pathlib.Path) -> str | None:
    """What another program did to the file of this name, in words, where this process has it open. Nothing is held on to: with
    the last who has it open goes what is beside it, and whoever comes next makes it anew."""
    with _knowing:
        found = _known.get(inode_of(path) or (0, 0))
    return found.fault() if found else None


def doubt(path: pathlib.Path) -> None:
    """Says that the file of this name can't be read, whatever it seems to be."""
    with _knowing:
        found = _known.get(inode_of(path) or (0, 0))
    if found:
        found.doubts()


def left(path: pathlib.Path) -> FileWatch | None:
    """How the file of this name was left, which has just been opened and read, until it is let go of; None where nothing is beside it,
    so that one process alone can have it open."""
    inode = inode_of(path) or (0, 0)
    with _knowing, contextlib.suppress(OSError):
        if not (found := _known.get(inode)):
            found = _known[inode] = FileWatch(path)
        return found.use()
    return None
