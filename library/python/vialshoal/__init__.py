"""Texts that sites edit and merge.

>>> with Text(1, site=1) as a, Text(1, site=2) as b:
...     for message in a.insert(0, b"Oberon"):
...         _ = b.take(message)
...     for message in b.delete(0, 2):
...         _ = a.take(message)
...     bytes(a), bytes(b)
(b'eron', b'eron')

An edit answers the messages that it made; the other sites' texts take these, in any order and any number of times. Texts
that took the same show the same.

One that was away takes what the other has past its fronts, message by message or in chunks, which are shorter; and fronts
open a text as it was:

>>> with Text(1, site=1) as a, Text(1, site=2) as b:
...     _ = a.insert(0, b"Oberon"), a.delete(0, 1)
...     for message in a.since(b.fronts()):
...         _ = b.take(message)
...     _ = a.delete(0, 1)
...     for chunk in a.pack(b.fronts()):
...         _ = b.unpack(chunk)
...     _ = b.insert(4, b"!", Looks(colour=3))
...     with b.past({1: 1}) as past:
...         bytes(b), b.fronts(), bytes(past)
(b'eron!', {1: 3, 2: 1}, b'Oberon')

A text is bytes, and so positions count bytes. A `Text[str]` shows them as UTF-8, and its positions count code points:

>>> with Text(1, site=3, units="code points") as c:
...     _ = c.insert(0, "na\N{LATIN SMALL LETTER I WITH DIAERESIS}ve")
...     _ = c.insert(len(c), "!")
...     c[3:], len(c), len(bytes(c))
('ve!', 6, 7)

What another site made may be no UTF-8: a byte that is of no character is one code point, shown as Python's handler
"surrogateescape" does, and the same byte again where it is put in.
"""
from ._answers import (Anchor, Change, ChangeKind, Damaged, FrontsDiffer, Looks, Misused, Name, NameRange, Place, Refused, Replacement, Run,
                       Settling, Taking, TakingKind, Unpacking)
from ._backlog import Backlog, Received
from ._deltas import Delete, Delta, Insert, Retain
from ._merging import merge_chunks
from ._note import Entry, Head, Note, NoteText
from ._shown import Shown, Units
from ._text import Past, Text
from ._undo import Undone, UndoManager
from .presence import Presence
from .site_numbers import SiteNumbers

__version__ = "0.1.0"
__all__ = ["Anchor", "Backlog", "Change", "ChangeKind", "Damaged", "Delete", "Delta", "Entry", "FrontsDiffer", "Head", "Insert",
           "Looks", "Misused", "Name", "NameRange", "Note", "NoteText", "Past", "Place", "Presence", "Received", "Refused", "Replacement", "Retain", "Run",
           "Settling", "Shown", "SiteNumbers", "Taking", "TakingKind", "Text", "UndoManager", "Undone", "Units", "Unpacking",
           "merge_chunks"]
