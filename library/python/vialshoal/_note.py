"""Notes that several people edit: 16 texts each, which show what counts of the note's entries."""
from __future__ import annotations

import ctypes
import os
import struct
import threading
from collections.abc import Callable, Iterable, Mapping
from ctypes import byref, c_bool, c_uint16, c_uint32, c_uint64
from dataclasses import dataclass
from types import TracebackType
from typing import Any, AnyStr, Literal, NoReturn, Optional, overload

from . import _given as given
from . import _library as c
from ._answers import Change, ChangeKind, Damaged, Looks, NameRange, Refused, done
from ._code_points import CodePoints
from ._composing import DELETE, INSERT, Triple
from ._given import Buffer
from ._note_file import CLAIM, ENTRY, NoteFile, beginning
from ._shown import Shown, Units, alone
from ._text import Past, Path

TEXTS = 16
HASH = 32
# No entry has a longer body.
BODY = 16_172
ZEROS = bytes(HASH)
# As CHead has them: to pack the fields takes a third of the time.
HEAD = struct.Struct("=32s32sIHHH2x")
# As the file of an open note has what came to it.
_CLAIM, _ENTRY = struct.Struct(">B32sH32s"), struct.Struct(">B32s32sIHHH")
# No record there has a longer body, and no entry has one half as long.
_LONGEST = 65_535 - _ENTRY.size


def _hash(data: Buffer) -> bytes:
    found = given.data(data)
    if len(found) != HASH:
        raise ValueError(f"a key or a hash has {HASH} bytes, not {len(found)}")
    return found


def _packed(head: Head) -> bytes:
    """A head as C has it."""
    author, before = _hash(head.author), _hash(head.before)
    try:
        return HEAD.pack(author, before, head.first, head.count, head.site, head.text)
    except struct.error:
        given.number(head.first, given.MOST)
        for one in head.count, head.site, head.text:
            given.number(one, given.MOST_SITE)
        raise


@dataclass(frozen=True)
class Head:
    """The head of an entry of messages: its author's key, the hash of the message before its first one, or zeros, the number of its first
    message and how many it has, the site and the text (docs/NOTES.md)."""

    author: bytes
    before: bytes
    first: int
    count: int
    site: int
    text: int


@dataclass(frozen=True)
class Entry:
    """An entry of messages, as whoever opened it has it."""

    head: Head
    body: bytes


def _record(entry: Entry) -> bytes:
    head = entry.head
    return _ENTRY.pack(ENTRY, head.author, head.before, head.first, head.count, head.site, head.text) + entry.body


def _entry(record: bytes) -> Entry:
    _, author, before, first, count, site, text = _ENTRY.unpack_from(record)
    return Entry(Head(author, before, first, count, site, text), record[_ENTRY.size:])


class Note:
    """A note as one site has it. It decides which messages of the entries that it is given count, and its texts show that and own edits;
    notes of one key, founder and base that were given the same entries, in any order, show the same. What seals, signs and carries
    entries is the caller's, and to see that a base is whole and in order (docs/NOTES.md). Threads may share it: calls of a note and of its
    texts are made one after the other."""

    def __init__(self, *, site: int, key: Buffer, founder: Buffer, number: int = 0, base: Iterable[Buffer] = (),
                 base_key: Buffer = ZEROS, root: Buffer = ZEROS) -> None:
        self._lock = threading.RLock()
        self._handle = c.NoteHandle()
        self._file: Optional[NoteFile] = None
        self._site = given.number(site, given.MOST_SITE)
        # Entries of own edits that `say` hasn't answered: where memory was refused they may count already, and are to be said yet.
        self._made: list[Entry] = []
        # Those that a disk refused to keep: they don't count before it does.
        self._unkept: list[Entry] = []
        # Of which texts a `NoteText` is told the changes.
        self._heard: set[int] = set()
        chunks = b"".join(len(chunk).to_bytes(2, "little") + chunk for chunk in map(given.data, base))
        done(c.long_calls.vialshoal_note_new(
            self._handle, site, _hash(key), _hash(founder), given.number(number, given.MOST_SITE), _hash(base_key), _hash(root),
            chunks, len(chunks)))

    @classmethod
    def open(cls, path: Path, *, site: int, key: Buffer, founder: Buffer, number: int = 0, base: Iterable[Buffer] = (),
             base_key: Buffer = ZEROS, root: Buffer = ZEROS) -> Note:
        """The note that is kept in a file, which is begun where it isn't there. What came is on the disk before `update` shows what counts of
        it, and own entries before `say` answers them: whoever opens the file again sends those of `kept` that others may lack. A call that
        can't have it kept raises an `OSError`, and shows and says nothing of it: the next one that can does. Own edits that weren't said
        aren't kept.

        A file is open once at a time (`BlockingIOError`), and another note's is a `ValueError`; `Damaged` is raised where something else has
        changed it."""
        chunks = [*map(given.data, base)]
        made = cls(site=site, key=key, founder=founder, number=number, base=chunks, base_key=base_key, root=root)
        begins = beginning(_hash(key), _hash(founder), number, _hash(base_key), _hash(root), chunks)
        file = NoteFile(os.fspath(path), begins)
        try:
            made._take_in(file, path)
        except BaseException:
            file.close()
            raise
        made._file = file
        return made

    def _take_in(self, file: NoteFile, path: Path) -> None:
        """Takes in what a file has, whose bytes may be anybody's."""
        try:
            for record in file.records():
                if record[0] == CLAIM:
                    _, author, number, rank = _CLAIM.unpack(record)
                    self.claim(author, number, rank)
                elif record[0] == ENTRY:
                    self.add(_entry(record))
                else:
                    raise Damaged(f"{path} has a record that is neither a claim nor an entry")
        except (Refused, struct.error) as why:
            if isinstance(why, Refused) and why.number == c.OUT_OF_MEMORY:
                raise
            raise Damaged(f"what {path} has is refused: {why}") from why
        self.update()

    def kept(self) -> list[Entry]:
        """The entries that the file of an open note has, own ones too, in the order in which they came."""
        with self._lock:
            if self._file is None:
                raise ValueError("the note isn't kept in a file")
            return [_entry(record) for record in self._file.records() if record[0] == ENTRY]

    @property
    def site(self) -> int:
        """The number of the site."""
        return self._site

    def close(self) -> None:
        """Frees it; all other calls are refused after this, those of its texts too."""
        with self._lock:
            c.long_calls.vialshoal_note_free(self._handle)
            if self._file is not None:
                self._file.close()
            self._file = None

    def __del__(self) -> None:
        if hasattr(self, "_handle"):
            self.close()

    def __enter__(self) -> Note:
        return self

    def __exit__(self, kind: Optional[type[BaseException]], error: Optional[BaseException], trace: Optional[TracebackType]) -> None:
        self.close()

    def __repr__(self) -> str:
        return f"<Note of site {self._site}{', closed' * (not self._handle.at)}>"

    def __reduce__(self) -> NoReturn:
        # (two that have one handle would free it twice)
        raise TypeError("a note isn't copied or pickled so: one that is given the same entries is the same")

    def claim(self, author: Buffer, site: int, rank: Buffer) -> None:
        """A claim of a number came; its rank is the hash that was searched for. It counts after the next `update`."""
        with self._lock:
            done(c.calls.vialshoal_note_claim(self._handle, _hash(author), given.number(site, given.MOST_SITE), _hash(rank)))
            if self._file is not None:
                self._file.gather(_CLAIM.pack(CLAIM, _hash(author), site, _hash(rank)))

    def add(self, entry: Entry) -> None:
        """An entry came, perhaps again, or an own one. It counts after the next `update`."""
        head, body = _packed(given.instance(entry, Entry).head), given.data(entry.body)
        with self._lock:
            if self._file is not None and len(body) > _LONGEST:
                done(c.MALFORMED)
            done(c.calls_for(64 * len(body)).vialshoal_note_add(self._handle, head, body, len(body)))
            if self._file is not None:
                self._file.gather(_record(entry))

    def update(self) -> None:
        """Has the texts show what counts of all that came. Own edits that `say` didn't answer are taken back."""
        with self._lock:
            self._keep()
            for entry in self._made:
                self.add(entry)
            done(c.long_calls.vialshoal_note_update(self._handle))

    def say(self, author: Buffer) -> list[Entry]:
        """Entries, by an author who holds the site's number, that say all own edits which weren't said. They count here from now on: seal,
        sign, keep and send them. Where memory is refused, the next call answers them."""
        with self._lock:
            own = [entry for text in range(1, TEXTS + 1) for entry in self._own(text, _hash(author))]
            self._unkept = [entry for entry in own if entry not in self._made]
            if self._made or self._unkept:
                self.update()
            entries, self._made = self._made, []
            return entries

    def _keep(self) -> None:
        """Has the file, if there is one, have what came and what is said, before any of it counts."""
        if self._file is not None:
            self._file.keep(map(_record, self._unkept))
        self._made += self._unkept
        self._unkept = []

    def _own(self, text: int, author: bytes) -> list[Entry]:
        head, need = c.CHead(), c_uint64()
        room = ctypes.create_string_buffer(BODY)
        found: list[Entry] = []
        while True:
            number = c.long_calls.vialshoal_note_own(self._handle, text, author, len(found), byref(head), room, BODY, byref(need))
            if number == c.NO_MESSAGE:
                return found
            done(number)
            said = Head(bytes(head.author), bytes(head.before), head.first, head.count, head.site, head.text)
            found.append(Entry(said, c.begin_of(room, need.value)))

    @overload
    def text(self, number: int = 1, *, units: Literal["bytes"] = "bytes") -> NoteText[bytes]: ...

    @overload
    def text(self, number: int = 1, *, units: Literal["code points"]) -> NoteText[str]: ...

    def text(self, number: int = 1, *, units: Units = "bytes") -> NoteText[Any]:
        """One of its texts, 1 to 16. Changes are told once, to the first that asks for them, as whatever counts code points does: ValueError
        where another one does, too."""
        return NoteText(self, number, units)


class NoteText(Shown[AnyStr]):
    """A text of a note: what counts, and own edits, which are shown at once and are to be said by `Note.say`."""

    def __init__(self, note: Note, number: int, units: Units) -> None:
        self._note, self._number = given.instance(note, Note), given.number(number, TEXTS, 1)
        self._reads, self._long_reads = (c.reads_of_note(calls, note._handle, number) for calls in (c.calls, c.long_calls))
        self._begin(units)
        self._lock = note._lock
        self._sent = c_uint32()
        # How many bytes were shown when changes were asked for last.
        self._told = 0
        # Whether changes are told here.
        self._hears = False
        with self._lock:
            self._length()
            if units != "bytes":
                self._hear()

    @property
    def number(self) -> int:
        """The number of the text."""
        return self._number

    def _called(self) -> str:
        return f"NoteText {self._number} of site {self._note.site}"

    # -- own edits

    def _edited(self, call: Callable[..., int], *words: Any) -> None:
        done(call(self._handle, self._number, *words, byref(self._sent)))

    def _dress(self, beg: int, end: int, font: Optional[str], colour: Optional[int], offset: Optional[int]) -> None:
        selected = (font is not None) + 2 * (colour is not None) + 4 * (offset is not None)
        spelled = given.font(font or "")
        self._edited(c.calls.vialshoal_note_change_looks, beg, end, selected, spelled, len(spelled), given.number(colour or 0, 255),
                     given.offset(offset or 0))

    @alone
    def insert(self, pos: int, data: AnyStr, looks: Optional[Looks] = None) -> None:
        """Puts bytes, or characters, after the first `pos` ones, in the default looks; others are an edit of their own, after it."""
        put, byte = self._spelled(data), self._byte(pos)
        of_it = None if looks is None else (given.instance(looks, Looks).font, looks.colour, looks.offset)
        if of_it is not None:
            # (those that are none are refused before anything is put in)
            self._dress(byte, byte, *of_it)
        self._edited(c.calls_for(len(put)).vialshoal_note_insert, byte, put, len(put))
        if of_it is not None:
            self._dress(byte, byte + len(put), *of_it)

    @alone
    def delete(self, beg: int, end: int) -> None:
        """Deletes a range."""
        self._edited(c.calls.vialshoal_note_delete, self._byte(beg), self._byte(end))

    @alone
    def change_looks(self, beg: int, end: int, *, font: Optional[str] = None, colour: Optional[int] = None,
                     offset: Optional[int] = None) -> None:
        """Gives a range those of these looks that are named."""
        self._dress(self._byte(beg), self._byte(end), font, colour, offset)

    @alone
    def delete_names(self, names: Iterable[NameRange]) -> None:
        """Deletes the characters of these names that are shown, wherever they stand."""
        ranges = given.ranges(names)
        self._edited(c.calls.vialshoal_note_delete_names, ranges, len(ranges))

    @alone
    def restore_names(self, names: Iterable[NameRange]) -> None:
        """Shows the characters of these names again, each at its own place."""
        ranges = given.ranges(names)
        self._edited(c.calls.vialshoal_note_restore_names, ranges, len(ranges))

    # -- how far it is

    @alone
    def front(self, site: int) -> int:
        """How many of a site's operations are shown."""
        front = c_uint32()
        done(c.calls.vialshoal_note_front(self._handle, self._number, given.number(site, given.MOST_SITE), byref(front)))
        return front.value

    @alone
    def fronts(self) -> dict[int, int]:
        """How many operations of each site are shown, by the sites that have some."""
        room = (c_uint16 * 0)()
        while (number := c.calls.vialshoal_note_sites(self._handle, self._number, room, len(room), byref(self._long))) == c.TOO_SHORT:
            room = (c_uint16 * self._long.value)()
        done(number)
        return {site: self.front(site) for site in room[:self._long.value]}

    def past(self, fronts: Mapping[int, int]) -> Past[AnyStr]:
        """The text as it was, up to these fronts."""
        asked = given.fronts(fronts)
        return Past._opened(self, lambda past: c.long_calls.vialshoal_note_past(self._handle, self._number, asked, len(asked), past))

    # -- what changed of what is shown

    def _hear(self) -> None:
        """Has changes be told here, and nowhere else: each would miss what the other one was told."""
        if self._hears:
            return
        if self._number in self._note._heard:
            raise ValueError(f"another NoteText is told the changes of text {self._number}: use that one")
        self._note._heard.add(self._number)
        self._hears = True

    def _changes(self) -> list[Triple]:
        """The changes of bytes since this was called last: where the text was begun anew, all gives way to all."""
        self._hear()
        room, is_anew = (c.CChange * 64)(), c_bool()
        found: list[Triple] = []
        while True:
            number = c.calls.vialshoal_note_changes(self._handle, self._number, byref(is_anew), room, len(room), byref(self._long))
            if number == c.TOO_SHORT:
                room = (c.CChange * self._long.value)()
                continue
            done(number)
            if is_anew.value or not self._long.value:
                break
            found += [(it.kind, it.beg, it.end) for it in room[:self._long.value]]
        length = self._length()
        if is_anew.value:
            found = [(DELETE, 0, self._told)] * (self._told > 0) + [(INSERT, 0, length)] * (length > 0)
        self._told = length
        return found

    def _followed(self, points: CodePoints) -> CodePoints:
        changes = self._changes()
        if changes:
            points.follow(changes, self._range)
        return points

    @alone
    def changes(self) -> list[Change]:
        """What changed of what is shown since this was called last, one after the other, own edits too; in code points the first call has
        one insertion of all. Where the text was begun anew, since messages no longer count that did, all of it gives way to all of it."""
        told = self._changes() if self._points is None else self._followed(self._points).tell()
        return [Change(ChangeKind(kind), beg, end) for kind, beg, end in told]
