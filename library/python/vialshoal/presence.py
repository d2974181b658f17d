"""Who is there, and where: what each says of itself, until it leaves or wasn't heard of for a while. Nothing of it is kept. The package for
Node has the same, and takes what this one says.

>>> ann, bob = Presence(), Presence()
>>> bob.take(ann.set({"name": "Ann"})) == [ann.id]
True
>>> [*bob.states().values()]
[{'name': 'Ann'}]
"""
from __future__ import annotations

import json
import re
import secrets
import threading
import time
from collections.abc import Callable, Iterable, Mapping
from contextlib import suppress
from dataclasses import dataclass
from typing import Any, NoReturn, Optional

from ._answers import Refused
from ._given import Buffer, data

State = dict[str, Any]
Listener = Callable[[list[str]], object]

_MALFORMED = 1
# Of 64 bits, in hex.
_ID = re.compile("[0-9a-f]{16}")
# What other programs take for a number that is whole.
_MOST_CLOCK = (1 << 53) - 1


@dataclass
class _Known:
    """Somebody's last state, none of one who left; its number; and when it came."""

    clock: int
    state: Optional[State]
    at: float


def _no_number(_: str) -> NoReturn:
    raise ValueError("no number")


def _is_entry(entry: object) -> bool:
    if not isinstance(entry, list) or len(entry) != 3:
        return False
    of, clock, state = entry
    is_id = isinstance(of, str) and _ID.fullmatch(of) is not None
    return is_id and type(clock) is int and 0 <= clock <= _MOST_CLOCK and isinstance(state, (dict, list, type(None)))


def _entries_of(given: Buffer) -> list[tuple[str, int, Optional[State]]]:
    spelled = data(given).decode("utf-8", "replace")
    with suppress(ValueError, RecursionError):
        entries = json.loads(spelled, parse_constant=_no_number)
        if isinstance(entries, list) and all(map(_is_entry, entries)):
            return [(of, clock, state) for of, clock, state in entries]
    raise Refused(_MALFORMED)


def _encoded(known: Mapping[str, _Known]) -> bytes:
    entries = [[of, it.clock, it.state] for of, it in known.items()]
    return json.dumps(entries, separators=(",", ":"), allow_nan=False).encode()


class Presence:
    """The states of all who take part, each by an id of 64 bits, which it needs beside its site's number: one may have two windows open.
    Who says anything of itself calls `tick` every few seconds. Threads may share it."""

    def __init__(self, id: Optional[str] = None, *, timeout: float = 30.0, now: Callable[[], float] = time.monotonic) -> None:
        self.id = secrets.token_hex(8) if id is None else id
        if not _ID.fullmatch(self.id):
            raise TypeError("an id is 16 digits of hex")
        self._timeout, self._now = timeout, now
        self._known: dict[str, _Known] = {}
        self._listeners: list[Listener] = []
        self._lock = threading.RLock()

    def _tell(self, changed: list[str]) -> None:
        for listener in [*self._listeners] if changed else []:
            listener(changed)

    def _renew(self, state: Optional[State]) -> bytes:
        own = self._known.get(self.id)
        renewed = _Known(own.clock + 1 if own else 1, state, self._now())
        # (what JSON doesn't have isn't said)
        said = _encoded({self.id: renewed})
        self._known[self.id] = renewed
        return said

    @property
    def state(self) -> Optional[State]:
        """What one says of oneself."""
        own = self._known.get(self.id)
        return own.state if own else None

    def set(self, state: Optional[State]) -> bytes:
        """Says something of oneself, or by None that one leaves, and answers what is to be sent to the others."""
        if not isinstance(state, (dict, type(None))):
            raise TypeError("a state is a dict, or None of one who leaves")
        with self._lock:
            said = self._renew(state)
        self._tell([self.id])
        return said

    def states(self) -> dict[str, State]:
        """The states of those who are there, oneself too, by their ids."""
        with self._lock:
            return {of: it.state for of, it in self._known.items() if it.state is not None}

    def encode(self, ids: Optional[Iterable[str]] = None) -> bytes:
        """What is known of some, or of all, for one who comes."""
        with self._lock:
            return _encoded(self._known if ids is None else {it: self._known[it] for it in ids if it in self._known})

    def leave(self, ids: Iterable[str]) -> bytes:
        """Says of others that they left, as one sees it by whom they were heard, and answers what is to be sent."""
        here = self.states()
        left = [it for it in dict.fromkeys(ids) if it != self.id and it in here]
        with self._lock:
            gone = {it: _Known(self._known[it].clock + 1, None, self._now()) for it in left}
            self._known |= gone
        self._tell(left)
        return _encoded(gone)

    def take(self, given: Buffer) -> list[str]:
        """Takes in what others sent, and answers the ids of those whose states changed. Other bytes are refused (1)."""
        entries = _entries_of(given)
        with self._lock:
            changed = [of for of, clock, state in entries if self._takes(of, clock, state)]
        self._tell(changed)
        return changed

    def _takes(self, of: str, clock: int, state: Optional[State]) -> bool:
        known = self._known.get(of)
        if known is not None and clock <= known.clock:
            return False
        if of == self.id:
            # (what one has said of oneself, or was said to have left, before; `tick` says it anew)
            if known is not None:
                self._known[of] = _Known(clock, known.state, float("-inf"))
            return False
        self._known[of] = _Known(clock, state, self._now())
        return state is not None or (known is not None and known.state is not None)

    def tick(self) -> Optional[bytes]:
        """Lets those go who weren't heard of for long, and answers what is to be sent, if it is time to say again that one is there."""
        with self._lock:
            now = self._now()
            old = {of: it for of, it in self._known.items() if of != self.id and now - it.at >= self._timeout}
            gone = [of for of, it in old.items() if it.state is not None]
            for of, it in old.items():
                it.state = None
                # (its number is remembered for as long again, so that nothing old comes back)
                if of not in gone and now - it.at >= 2 * self._timeout:
                    del self._known[of]
            own = self._known.get(self.id)
            is_due = own is not None and own.state is not None and now - own.at >= self._timeout / 2
            said = self._renew(self.state) if is_due else None
        self._tell(gone)
        return said

    def subscribe(self, listener: Listener) -> Callable[[], None]:
        """Has a listener be called with the ids of those whose states changed. Answers what ends it."""
        self._listeners.append(listener)

        def end() -> None:
            with suppress(ValueError):
                self._listeners.remove(listener)
        return end
