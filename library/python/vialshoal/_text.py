"""Texts: replicas of sites, and what they were."""
from __future__ import annotations

import ctypes
import os
from collections.abc import Callable, Iterable, Iterator, Mapping
from ctypes import byref, c_uint32, c_uint64
from typing import Any, AnyStr, Literal, Optional, Union, overload

from . import _given as given
from . import _library as c
from ._answers import Damaged, FrontsDiffer, Looks, NameRange, Refused, Settling, Taking, TakingKind, Unpacking, done
from ._changing import Changing, edits, takes
from ._composing import INSERT
from ._deltas import Delta
from ._given import Buffer
from ._journal import Journal, Kept
from ._shown import Shown, Units, alone
from ._states import Digests, Fronts, SiteState, spelled, states_in
from ._versions import between


Path = Union[str, "os.PathLike[str]"]
# What a packed file begins with.
_PACKED = b"OTP1"


class Text(Changing[AnyStr]):
    """A site's replica of a text: bytes that it and other sites edit. Of a `Text[str]`, which is one of the units "code
    points", all positions and lengths count code points.

    An edit answers the messages that it made, after those that an earlier one couldn't answer: it was interrupted, or not kept."""

    def _begin(self, units: Units) -> None:
        super()._begin(units)
        self._digests = Digests()

    @overload
    def __init__(self: Text[bytes], text: int = 1, *, site: int, units: Literal["bytes"] = "bytes") -> None: ...

    @overload
    def __init__(self: Text[str], text: int = 1, *, site: int, units: Literal["code points"]) -> None: ...

    def __init__(self, text: int = 1, *, site: int, units: Units = "bytes") -> None:
        self._begin(units)
        self._number, self._site = given.number(text, given.MOST_SITE), given.number(site, given.MOST_SITE)
        done(c.calls.vialshoal_new(self._handle, text, site))

    @overload
    @classmethod
    def load(cls, file: Buffer, *, units: Literal["bytes"] = "bytes") -> Text[bytes]: ...

    @overload
    @classmethod
    def load(cls, file: Buffer, *, units: Literal["code points"]) -> Text[str]: ...

    @classmethod
    def load(cls, file: Buffer, *, units: Units = "bytes") -> Text[Any]:
        """The text of a file that `store` answered, packed or not, at its site. No edit may have been made since it was
        stored."""
        file, text = given.data(file), cls.__new__(cls)
        text._begin(units)
        done(c.long_calls.vialshoal_load(text._handle, file, len(file)))
        text._number, text._site = (int.from_bytes(file[at:at + 2], "big") for at in (4, 6))
        return text

    @overload
    @classmethod
    def open(cls, path: Path, text: Optional[int] = None, *, site: Optional[int] = None,
             units: Literal["bytes"] = "bytes") -> Text[bytes]: ...

    @overload
    @classmethod
    def open(cls, path: Path, text: Optional[int] = None, *, site: Optional[int] = None,
             units: Literal["code points"]) -> Text[str]: ...

    @classmethod
    def open(cls, path: Path, text: Optional[int] = None, *, site: Optional[int] = None, units: Units = "bytes") -> Text[Any]:
        """The text that is kept in a file, for its site to go on; a file that isn't there is begun for text `text`, or 1, at site
        `site`. Each call that changes the text has the disk keep what it changed before it answers; one that can't raises an
        `OSError`, and what it made is kept and handed out with the next one that can. What waits isn't kept.

        A file is open once at a time (`BlockingIOError`). `Damaged` is raised where something else has changed it, and
        `FrontsDiffer` by a call that is given what the site has made elsewhere: the file was copied, and both went on."""
        journal = Journal(os.fspath(path), may_be_made=site is not None)
        try:
            kept = journal.read()
            if kept is None:
                made = cls._begun(journal, 1 if text is None else text, site, units)
            elif text in (None, kept.text) and site in (None, kept.site):
                made = cls._of(kept, units, path)
            else:
                raise ValueError(f"{path} is of text {kept.text} at site {kept.site}")
        except BaseException:
            journal.close()
            raise
        made._journal, made._kept = journal, made.fronts()
        return made

    @classmethod
    def _begun(cls, journal: Journal, text: int, site: Optional[int], units: Units) -> Text[Any]:
        if site is None:
            raise ValueError("a file that has nothing yet needs a site")
        made: Text[Any] = cls(text, site=site, units=units)
        journal.begin(text, site)
        return made

    @classmethod
    def _of(cls, kept: Kept, units: Units, path: Path) -> Text[Any]:
        """The text of a file, whose bytes may be anybody's."""
        try:
            is_packed = kept.history.startswith(_PACKED)
            made: Text[Any] = cls.load(kept.history, units=units) if is_packed else cls(kept.text, site=kept.site, units=units)
            for entry in kept.entries if is_packed else [kept.history, *kept.entries]:
                for chunk in c.chunks_in(entry):
                    made.unpack(chunk)
        except Refused as why:
            if why.number == c.OUT_OF_MEMORY:
                raise
            raise Damaged(f"what {path} has is refused: {why}") from why
        if made.waiting or (made.number, made.site) != (kept.text, kept.site):
            raise Damaged(f"what {path} has isn't of one text")
        return made

    def copy(self, *, site: int) -> Text[AnyStr]:
        """A fork: a text of another site, which has made nothing in this one, that holds all that this one holds."""
        if given.number(site, given.MOST_SITE, 1) == self._site or self.front(site):
            raise ValueError(f"site {site} makes operations of its own: a copy needs a site that nobody else is")
        made: Text[Any] = Text(self._number, site=site, units=self.units)
        made.merge(self)
        return made

    @property
    def number(self) -> int:
        """The number of the text, which all of its sites have."""
        return self._number

    @property
    def site(self) -> int:
        """The number of the site."""
        return self._site

    @alone
    def store(self, *, packed: bool = False) -> bytes:
        """The text as a file, with all that was taken in, from which its site goes on. A packed one has a byte for most
        keystrokes where the other has some 50; a text of more than 4,194,304 operations is refused then (13)."""
        self._keep()
        return self._file(c.long_calls.vialshoal_store_packed if packed else c.long_calls.vialshoal_store)

    @alone
    def save(self) -> bytes:
        """The text as an Oberon text file: its characters and their looks, and nothing of who wrote them
        (docs/FORMATS.md, "Text files"). A text of more than 1,048,576 bytes is refused (13)."""
        return self._file(c.long_calls.vialshoal_save)

    # -- edits

    @edits
    def insert(self, pos: int, data: AnyStr, looks: Optional[Looks] = None) -> list[bytes]:
        """Puts bytes, or characters, after the first `pos` ones, in these looks or the default ones, and answers the messages
        that tell it."""
        put, byte = self._spelled(data), self._byte(pos)
        calls = c.calls_for(len(put))
        if looks is None:
            return self._edited(calls.vialshoal_insert(self._handle, byte, put, len(put), byref(self._sent)))
        font = given.font(given.instance(looks, Looks).font)
        return self._edited(calls.vialshoal_insert_in_looks(
            self._handle, byte, put, len(put), font, len(font), given.number(looks.colour, 255), given.offset(looks.offset),
            byref(self._sent)))

    def paste(self, pos: int, data: AnyStr, looks: Optional[Looks] = None) -> list[bytes]:
        """As `insert`, and answers chunks of 16,000 bytes at most in place of the messages: a refusal's `messages` are chunks, too."""
        chunks: list[bytes] = []
        try:
            with self.batch() as chunks:
                self.insert(pos, data, looks)
        except Refused as why:
            raise type(why)(why.number, chunks) from why
        return chunks

    @edits
    def delete(self, beg: int, end: int) -> list[bytes]:
        """Deletes a range."""
        return self._edited(c.calls.vialshoal_delete(self._handle, self._byte(beg), self._byte(end), byref(self._sent)))

    @edits
    def change_looks(self, beg: int, end: int, *, font: Optional[str] = None, colour: Optional[int] = None,
                     offset: Optional[int] = None) -> list[bytes]:
        """Gives a range those of these looks that are named."""
        selected = (font is not None) + 2 * (colour is not None) + 4 * (offset is not None)
        spelled = given.font(font or "")
        return self._edited(c.calls.vialshoal_change_looks(
            self._handle, self._byte(beg), self._byte(end), selected, spelled, len(spelled), given.number(colour or 0, 255),
            given.offset(offset or 0), byref(self._sent)))

    @edits
    def restore(self) -> list[bytes]:
        """Shows again what `delete` took out last."""
        return self._edited(c.calls.vialshoal_restore(self._handle, byref(self._sent)))

    @edits
    def recall(self, pos: int) -> list[bytes]:
        """Puts a copy of what `delete` took out last after the first `pos` bytes, or characters."""
        return self._edited(c.calls.vialshoal_recall(self._handle, self._byte(pos), byref(self._sent)))

    @edits
    def delete_names(self, names: Iterable[NameRange]) -> list[bytes]:
        """Deletes the characters of these names that are shown, wherever they stand, by one message at most."""
        ranges = given.ranges(names)
        return self._edited(c.calls.vialshoal_delete_names(self._handle, ranges, len(ranges), byref(self._sent)))

    @edits
    def restore_names(self, names: Iterable[NameRange]) -> list[bytes]:
        """Shows the characters of these names again, each at its own place, by one message at most."""
        ranges = given.ranges(names)
        return self._edited(c.calls.vialshoal_restore_names(self._handle, ranges, len(ranges), byref(self._sent)))

    # -- what other sites made

    @takes
    def take(self, message: Buffer) -> Taking:
        """Takes a message in, or lets it wait for what it builds on."""
        message, taking = given.data(message), c.CTaking()
        done(c.calls.vialshoal_take(self._handle, message, len(message), byref(taking)))
        return Taking(TakingKind(taking.kind), taking.drained, taking.dropped, taking.stopped)

    @takes
    def unpack(self, chunk: Buffer) -> Unpacking:
        """Takes the operations of a chunk in, one after the other, or lets them wait for what they build on. Where one is
        refused those before it stand, as many as the refusal's `done` says."""
        chunk, it = given.data(chunk), c.CUnpacking()
        # (each byte may be an operation)
        number = c.calls_for(64 * len(chunk)).vialshoal_unpack(self._handle, chunk, len(chunk), byref(it))
        if it.done:
            raise Refused(number, done=it.done)
        done(number)
        return Unpacking(it.taken, it.known, it.waiting, it.stopped)

    @takes
    def settle(self) -> Settling:
        """Takes in what waits, as far as it is ready."""
        settling = c.CSettling()
        done(c.calls.vialshoal_settle(self._handle, byref(settling)))
        return Settling(settling.drained, settling.dropped, settling.stopped)

    @alone
    def forget(self) -> int:
        """Throws away what waits, and answers how many messages it was."""
        count = c_uint32()
        done(c.calls.vialshoal_forget(self._handle, byref(count)))
        return count.value

    def merge(self, other: Text[Any]) -> int:
        """Takes in all that another text holds, and answers how many of its operations were new."""
        with self._turn_with(given.instance(other, Text)):
            return self._merged(other)

    @takes
    def _merged(self, other: Text[Any]) -> int:
        if other is self:
            self._length()
            return 0
        other._keep()
        done(c.long_calls.vialshoal_merge(self._handle, other._handle, byref(self._long)))
        return self._long.value

    @property
    @alone
    def waiting(self) -> int:
        """How many messages wait."""
        count = c_uint32()
        done(c.calls.vialshoal_waiting(self._handle, byref(count)))
        return count.value

    @alone
    def front(self, site: int) -> int:
        """How many of a site's operations were taken in."""
        return self._front(given.number(site, given.MOST_SITE))

    @alone
    def fronts(self) -> dict[int, int]:
        """How many operations of each site were taken in, by the sites that have some."""
        return self._fronts()

    @alone
    def state(self) -> bytes:
        """How far this text is, as bytes to be sent: its fronts, and a hash of each site's operations up to its front."""
        self._keep()
        digests = self._followed_digests()
        return spelled(self._number, (SiteState(site, front, digests.at(site, front)) for site, front in self._fronts().items()))

    @alone
    def check(self, state: Buffer) -> dict[int, int]:
        """The fronts that the state of another text says. `FrontsDiffer` is raised where that has other operations than this one, as
        far as this one has as many of a site, or more of this site's own."""
        digests, fronts = self._followed_digests(), self._fronts()
        found = states_in(state, self._number)
        for site, front, digest in found:
            if front > fronts.get(site, 0):
                if site == self._site:
                    raise FrontsDiffer(c.BEHIND, site, fronts.get(site, 0) + 1)
            elif digest != digests.at(site, front):
                raise FrontsDiffer(c.CONFLICT, site, front)
        return {it.site: it.front for it in found}

    def _followed_digests(self) -> Digests:
        """The hashes of all that is here by now."""
        while (message := self._next_message(given.fronts({}), self._digests.index)) is not None:
            self._digests.add(message)
        return self._digests

    def _asked(self, fronts: Fronts) -> Mapping[int, int]:
        return fronts if isinstance(fronts, Mapping) else self.check(fronts)

    # -- what was taken in past fronts, and what it was up to them. These may be another text's state, which is checked

    @alone
    def since(self, fronts: Fronts) -> Iterator[bytes]:
        """The messages of what was taken in past these fronts, in the order of taking: they bring a text that has the
        operations up to the fronts to what this one has. A site that isn't named has the front 0.

        The fronts are read at once, and the messages one by one: what is taken in between two steps comes as well, last.
        So when the iterator ends, it gave all that this text has by then."""
        asked = given.fronts(self._asked(fronts))
        # (a text that is closed is refused here, and not at the first step)
        self._length()
        return self._since(asked)

    def _since(self, fronts: ctypes.Array[c.CSiteFront]) -> Iterator[bytes]:
        index = c_uint64()
        while (message := self._next_since(fronts, index)) is not None:
            yield message

    @alone
    def _next_since(self, fronts: ctypes.Array[c.CSiteFront], index: c_uint64) -> Optional[bytes]:
        self._keep()
        return self._next_message(fronts, index)

    @alone
    def pack(self, fronts: Fronts = {}) -> list[bytes]:
        """What was taken in past these fronts, in chunks of 16,000 bytes at most, none where that is nothing: to unpack all,
        in this order, does what taking the messages of `since` does. They have a byte for most keystrokes where messages
        have some 50."""
        self._keep()
        return [*c.chunks_in(self._packed(self._asked(fronts)))]

    def past(self, fronts: Fronts) -> Past[AnyStr]:
        """The text as it was, up to these fronts."""
        return Past(self, fronts)

    def diff(self, start: Fronts, end: Optional[Fronts] = None) -> Delta[AnyStr]:
        """What makes the text as it was up to some fronts what it was up to others, or is now."""
        with self.past(start) as was, self.past(self.fronts() if end is None else end) as now:
            return Delta(False, between(was, now))


class Past(Shown[AnyStr]):
    """A text as it was, up to fronts that `Text.fronts` answers: what of the operations within them can be taken in, which
    leaves out one that builds on an operation past them. A site that isn't named has the front 0. It takes as long as
    taking these operations in, and is a copy that stays as it is, also when the text is closed."""

    _reads, _long_reads = (c.reads(calls, c.PastHandle, "past_") for calls in (c.calls, c.long_calls))

    def __init__(self, text: Text[AnyStr], fronts: Fronts) -> None:
        asked = given.fronts(given.instance(text, Text)._asked(fronts))
        self._open(text, lambda past: c.long_calls.vialshoal_past(text._handle, asked, len(asked), past))

    @classmethod
    def _opened(cls, text: Shown[AnyStr], opens: Callable[[Any], Any]) -> Past[AnyStr]:
        """A text as it was, which a call opens."""
        made = cls.__new__(cls)
        made._open(text, opens)
        return made

    def _open(self, text: Shown[AnyStr], opens: Callable[[Any], Any]) -> None:
        self._begin(text.units)
        with text._lock:
            done(opens(self._handle))
        if self._points is not None:
            self._points.follow([(INSERT, 0, self._length())], self._range)
