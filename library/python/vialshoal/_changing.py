"""What is around each call that changes a text: they are made one after the other, and kept before they are told."""
from __future__ import annotations

from collections.abc import Callable, Iterator
from contextlib import contextmanager, suppress
from ctypes import byref
from functools import wraps
from typing import Any, AnyStr, Concatenate, Optional, ParamSpec, TypeVar

from . import _given as given
from . import _library as c
from ._answers import Change, ChangeKind, FrontsDiffer, Misused, Refused, Replacement, done
from ._composing import Triple
from ._deltas import Delta, Deltas, Listener
from ._journal import Journal
from ._names import Effect, effect_of_all
from ._replica import Replica
from ._shown import Units, alone

C = TypeVar("C", bound="Changing[Any]")
P = ParamSpec("P")
R = TypeVar("R")


def _in_turn(method: Callable[Concatenate[C, P], R], is_own: bool) -> Callable[Concatenate[C, P], R]:
    @wraps(method)
    def called(self: C, /, *words: P.args, **named: P.kwargs) -> R:
        try:
            with self._lock:
                made = self._begins(is_own)
                try:
                    return method(self, *words, **named)
                finally:
                    self._ends(made)
        finally:
            self._tell()
    return called


def edits(method: Callable[Concatenate[C, P], R]) -> Callable[Concatenate[C, P], R]:
    """A call by which the site itself changes the text."""
    return _in_turn(method, is_own=True)


def takes(method: Callable[Concatenate[C, P], R]) -> Callable[Concatenate[C, P], R]:
    """A call that takes in what other sites made."""
    return _in_turn(method, is_own=False)


class Changing(Replica[AnyStr]):
    """A text whose changes are kept in a file, if it has one, before anybody gets them."""

    def _begin(self, units: Units) -> None:
        super()._begin(units)
        # How many turns there are, one in the other, and how many of these are batches, in which edits hand out nothing.
        self._turns = self._batches = 0
        # The file; up to where it has the text; whether the text may be further; and the first operation of this site that was made
        # elsewhere, if any: nothing is kept from then on.
        self._journal: Optional[Journal] = None
        self._kept: dict[int, int] = {}
        self._is_unkept = False
        self._elsewhere = 0
        self._deltas: Deltas[AnyStr] = Deltas()
        self._is_noted = True

    # -- turns: no other thread comes in between, and listeners are told as the last has ended

    def _begins(self, is_own: bool) -> Optional[int]:
        """Begins a call that changes the text. Where that is kept and others change it: how many operations its site has made."""
        self._refuse_where_elsewhere()
        if self._deltas.are_wanted and self._deltas.is_own is not is_own:
            self._gather()
            self._deltas.is_own = is_own
        self._turns += 1
        if self._journal is None:
            return None
        self._is_unkept = True
        return None if is_own else self._front(self._site)

    def _ends(self, made: Optional[int]) -> None:
        try:
            if made is not None:
                self._took(made)
        finally:
            self._turns -= 1
            if self._deltas.listeners and not self._turns:
                self._gather()
                self._deltas.publish()

    def _tell(self) -> None:
        # (another thread that is in a turn tells all as that ends)
        if self._deltas.queue and not self._turns:
            self._deltas.tell()

    @contextmanager
    def _turn_with(self, other: Changing[Any]) -> Iterator[None]:
        """A turn in which another text stays as it is, too."""
        # (two threads that lock the same two lock them in one order)
        first, second = sorted((self, other), key=id)
        try:
            with first._lock, second._lock:
                self._turns += 1
                try:
                    yield
                finally:
                    self._ends(None)
        finally:
            self._tell()

    def close(self) -> None:
        """Frees it, and closes its file; all other calls are refused after this."""
        with self._lock:
            journal, self._journal = self._journal, None
            try:
                if journal is not None and journal.is_own():
                    self._keep_in(journal)
            finally:
                super().close()
                if journal is not None:
                    journal.close()

    # -- keeping

    def _refuse_where_elsewhere(self) -> None:
        if self._elsewhere:
            raise FrontsDiffer(c.BEHIND, self._site, self._elsewhere)

    def _took(self, made: int) -> None:
        """Ends a change by others, who make nothing in this site's name."""
        if self._front(self._site) > made:
            self._elsewhere = made + 1
        self._refuse_where_elsewhere()
        if not self._batches:
            self._keep()

    def _keep(self) -> None:
        """Has the file have all that the text holds. Raises OSError where it can't."""
        if self._journal is not None:
            self._keep_in(self._journal)

    def _keep_in(self, journal: Journal) -> None:
        if self._is_unkept and not self._elsewhere:
            fronts = self._fronts()
            if fronts != self._kept:
                journal.append(self._packed(self._kept))
            self._kept, self._is_unkept = fronts, False
            if journal.has_grown():
                journal.rewrite(self._history())

    def _history(self) -> bytes:
        try:
            return self._file(c.long_calls.vialshoal_store_packed)
        except Refused as why:
            if why.number != c.BAD_FILE:
                raise
            return self._packed({})

    @edits
    def keep(self) -> list[bytes]:
        """Has the file have all that the text holds, where a call couldn't (`OSError`), and answers the messages that weren't
        handed out because of it."""
        return self._handed_out()

    @property
    def torn(self) -> bytes:
        """What stood in the file behind all that was kept whole, as it was opened: the begin of what a program was about to keep
        when it ended. Nobody was told that this is kept, unless the disk lost something."""
        return b"" if self._journal is None else self._journal.torn

    # -- handing out

    def _handed_out(self) -> list[bytes]:
        """All messages that weren't handed out, which are kept by then."""
        if self._batches:
            return []
        self._keep()
        messages = self._messages()
        if messages:
            self._let_go()
        return messages

    def _edited(self, number: int) -> list[bytes]:
        messages = [] if number == c.NOT_OPEN else self._handed_out()
        if number:
            raise (Misused if number > 100 else Refused)(number, messages)
        return messages

    @contextmanager
    def batch(self, origin: object = None) -> Iterator[list[bytes]]:
        """Calls that are one change, with this origin: they are kept together as the block ends, and the list has then the chunks
        of all that they made and took in, of 16,000 bytes at most; edits answer no messages meanwhile. Other threads wait for its
        end. One within another is a part of that."""
        chunks: list[bytes] = []
        with self._turn_with(self):
            before = self._fronts()
            before[self._site] = self._front(self._site) - self._unsent()
            if not self._batches:
                self._originates(origin)
            self._batches += 1
            try:
                yield chunks
            finally:
                self._batches -= 1
                if not self._batches:
                    self._originates(None)
                    chunks += self._handed_out_past(before)

    @property
    @alone
    def is_in_batch(self) -> bool:
        """Whether the thread that asks is in a batch."""
        return self._batches > 0

    def _originates(self, origin: object) -> None:
        if self._deltas.are_wanted:
            self._gather()
        self._deltas.origin = origin

    def _handed_out_past(self, fronts: dict[int, int]) -> Iterator[bytes]:
        self._refuse_where_elsewhere()
        self._keep()
        packed = self._packed(fronts)
        self._let_go()
        return c.chunks_in(packed)

    # -- what changed of what is shown. It is told once, by one of these

    def _told(self) -> list[Triple]:
        return self._changes() if self._points is None else self._followed(self._points).tell()

    @alone
    def changes(self) -> list[Change]:
        """What changed of what is shown since this was called last, one after the other; in code points the first call has one insertion
        of all."""
        return [Change(ChangeKind(kind), beg, end) for kind, beg, end in self._told()]

    def _read(self, beg: int, end: int) -> AnyStr:
        return self._shown(self._range(self._byte(beg), self._byte(end)))

    def _gather(self) -> None:
        self._deltas.add(self._told(), self._read, self._effect())

    def _effect(self) -> Optional[Effect]:
        """Which names the site itself showed and hid since the last delta, where an undo manager asks for that."""
        made, self._deltas.made = self._deltas.made, self._front(self._site)
        if not self._deltas.managers or not self._deltas.is_own:
            return None
        return effect_of_all(self._messages_past({**self._fronts(), self._site: made}))

    def _want_deltas(self) -> None:
        if not self._is_noted:
            raise TypeError("the noting of changes has ended")
        self._gather()
        self._deltas.are_wanted = True

    @alone
    def delta(self) -> list[Delta[AnyStr]]:
        """What changed of what is shown since this was called last, with what was put in: what the site did itself and what others
        did by turns, in the order of doing. The first call has all that is shown, as others'."""
        self._want_deltas()
        return self._deltas.take()

    @alone
    def subscribe(self, listener: Listener) -> Callable[[], None]:
        """Has a listener be called with each delta from now on, before the call that made it has ended, unless another thread changes
        the text then, which tells it. The text isn't locked: the listener may call it, and may find it further than the delta.
        What it raises is logged. Answers what ends it. What wasn't told by now isn't told any more."""
        self._want_deltas()
        self._deltas.publish()
        self._deltas.take()
        self._deltas.listeners.append(listener)

        def end() -> None:
            with self._lock, suppress(ValueError):
                self._deltas.listeners.remove(listener)
        return end

    @alone
    def _feed(self, feed: Callable[[list[Delta[AnyStr]]], object], listener: Listener, is_manager: bool) -> Callable[[], None]:
        """Subscribes a listener, and has each delta be given to a feed before that, while the text is locked. Answers what ends both."""
        end = self.subscribe(listener)
        self._deltas.feeds.append(feed)
        self._deltas.managers += is_manager

        def end_both() -> None:
            end()
            with self._lock:
                if feed in self._deltas.feeds:
                    self._deltas.feeds.remove(feed)
                    self._deltas.managers -= is_manager
        return end_both

    @alone
    def end_noting(self, shown: int = 0) -> None:
        """Ends the noting of changes, for good: those that weren't told are let go with their memory, which grows as others change
        the text and `changes` isn't called; `changes` has none from now on. `shown` is how many bytes the caller shows, and
        `replacement` goes on from there. A text of code points, or with listeners, follows its changes, and can't do without."""
        if self._points is not None or self._deltas.listeners:
            raise TypeError("a text of code points, and one with listeners, follows its changes")
        done(c.calls.vialshoal_end_noting(self._handle, given.position(shown)))
        self._is_noted = False

    @alone
    def replacement(self) -> Replacement:
        """Where noting has ended: what was reported last gives way to what is shown, which is reported by that."""
        replacing = c.CReplacing()
        done(c.calls.vialshoal_replacement(self._handle, byref(replacing)))
        return Replacement(replacing.deleted, replacing.inserted)
