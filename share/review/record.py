"""A record of a note's margin: one line of JSON, read strictly, since anybody with the link may write there whatever he likes.

docs/REVIEW.md says which lines are records. All who have the same line have the same record of it, or none: so what readers of JSON
differ in (what is nested deeply, halves of surrogate pairs, numbers that are none) is no record.
"""
import hashlib
import json
import re
from collections.abc import Mapping
from enum import Enum
from typing import Any, NamedTuple

from share.format.operation import MOST_INSERTED, MOST_OF_A_SITE
from share.text.names import Name, Names

VERSION = 1
# The text of a note that is its margin.
MARGIN = 2
# The most bytes of a line, with its end, and how deeply values are nested at most, the record itself being one.
MOST_OF_A_LINE, MOST_NESTED = MOST_INSERTED, 16
# No record has fewer bytes.
LEAST_OF_A_LINE = len('{"v":1,"is":"","by":"","time":0}\n')
GREATEST_TIME, GREATEST_SITE_NAMED = 2**53 - 1, 65_535
# The most characters of a name, of what was selected, and of a body; the most parts of a record beside its line.
MOST_BY, MOST_SELECTED, MOST_OF_A_BODY, MOST_PARTS = 40, 200, 100_000, 1_000
# The bytes of a hash that a record has, and the letters of these.
SUM_BYTES = 8
_HASH = re.compile("[0-9a-f]{16}")
_SITE = re.compile("[1-9][0-9]{0,4}")
_CONTROL = re.compile("[\0-\x1f\x7f-\x9f]")
# A string of a line, or what has no end; and what opens or ends a nested value.
_STRING, _NESTING = re.compile(rb'"(?:[^"\\]|\\.)*"?'), re.compile(rb"[][{}]")


class MarginKind(str, Enum):
    """What a record is."""

    REMARK = "remark"
    SUGGESTION = "suggestion"
    REPLY = "reply"
    STATE = "state"
    TAKEN = "taken"
    REVISED = "revised"
    MORE = "more"

    @property
    def begins(self) -> bool:
        """Whether it begins a thread."""
        return self in (MarginKind.REMARK, MarginKind.SUGGESTION)

    @property
    def has_body(self) -> bool:
        """Whether it has a body, which other records may go on with."""
        return self in (MarginKind.REMARK, MarginKind.SUGGESTION, MarginKind.REPLY, MarginKind.REVISED)


class MarginState(str, Enum):
    """What a thread's state is said to be."""

    OPEN = "open"
    RESOLVED = "resolved"
    REJECTED = "rejected"


class Ref(NamedTuple):
    """What names a record: its first character, and its sum."""

    site: int
    at: int
    sum: str

    @property
    def name(self) -> Name:
        """The name of its first character."""
        return self.site, self.at


class Anchor(NamedTuple):
    """Of which characters something is said, in their order in the text then; or the character before a place, (0, 0) at the front."""

    at: tuple[Names, ...]
    behind: Name | None
    # Of sites: the begin of the hash of the message that inserted the last one of their characters here.
    saw: dict[int, str]
    # What was selected, readable, and the sum of all the bytes.
    text: str
    sum: str


class MarginRecord(NamedTuple):
    """A record."""

    kind: MarginKind
    by: str
    time: int
    sum: str
    body: str = ""
    of: Ref | None = None
    anchor: Anchor | None = None
    # A suggestion's replacement.
    new: tuple[Names, ...] = ()
    state: MarginState | None = None
    # Of a state: whether the suggestion was accepted, or that was taken back; None where it says neither.
    accepts: bool | None = None
    # How many parts go on with it; which part it is, and which of an anchor's characters it has.
    parts: int = 0
    part: int = 0
    at: tuple[Names, ...] = ()
    saw: Mapping[int, str] = {}


class _NoRecord(ValueError):
    """A line that is none."""


def sum_of(data: bytes) -> str:
    """The sum of some bytes, of a record's those of its line with the end."""
    return hashlib.sha256(data).digest()[:SUM_BYTES].hex()


def read_line(data: bytes) -> MarginRecord | None:
    """The record that is the bytes of one insertion; None where they are none."""
    if not LEAST_OF_A_LINE <= len(data) <= MOST_OF_A_LINE or data.find(b"\n") != len(data) - 1:
        return None
    try:
        fields = _Fields(_object_in(data))
        fields.number("v", VERSION, VERSION)
        kind = MarginKind(fields.string("is"))
        by = fields.string("by")
        if len(by) > MOST_BY or _CONTROL.search(by):
            raise _NoRecord
        return _READERS[kind](fields, MarginRecord(kind, by, fields.number("time", 0, GREATEST_TIME), sum_of(data)))
    except (ValueError, RecursionError):
        return None


def _object_in(data: bytes) -> dict[str, Any]:
    """The object of a line."""
    if data.count(b"[") + data.count(b"{") > MOST_NESTED and _nested(data) > MOST_NESTED:
        raise _NoRecord
    found = json.loads(data.decode(), parse_constant=_refused)
    if not isinstance(found, dict):
        raise _NoRecord
    if b"\\u" in data:
        # A half of a surrogate pair can't be encoded.
        json.dumps(found, ensure_ascii=False).encode()
    return found


def _nested(data: bytes) -> int:
    """How deeply values are nested."""
    depth = deepest = 0
    for one in _NESTING.findall(_STRING.sub(b"", data)):
        depth += 1 if one in b"[{" else -1
        deepest = max(deepest, depth)
    return deepest


def _refused(name: str) -> None:
    raise _NoRecord(name)


class _Fields:
    """The fields of a record, each of which is what it has to be, or nothing is."""

    def __init__(self, found: dict[str, Any]):
        self._found = found

    def __contains__(self, name: str) -> bool:
        return name in self._found

    def string(self, name: str) -> str:
        """A string."""
        found = self._found.get(name)
        if not isinstance(found, str):
            raise _NoRecord
        return found

    def truth(self, name: str) -> bool | None:
        """Whether it is true or false; what else it may be says nothing."""
        found = self._found.get(name)
        return found if isinstance(found, bool) else None

    def hash(self, name: str) -> str:
        """The begin of a hash."""
        return _hash(self._found.get(name))

    def number(self, name: str, least: int, most: int) -> int:
        """A whole number."""
        return _number(self._found.get(name), least, most)

    def names(self, name: str) -> tuple[Names, ...]:
        """Names in their order in a text."""
        return tuple(map(_names, _list_in(self._found.get(name))))

    def place(self, name: str) -> Name:
        """The character before a place."""
        site, at = _list_in(self._found.get(name), 2)
        found = _number(site, 0, GREATEST_SITE_NAMED), _number(at, 0, MOST_OF_A_SITE - 1)
        if not found[0] and found[1]:
            raise _NoRecord
        return found

    def ref(self, name: str) -> Ref:
        """What names a record."""
        site, at, of = _list_in(self._found.get(name), 3)
        return Ref(_number(site, 1, GREATEST_SITE_NAMED), _number(at, 0, MOST_OF_A_SITE - 1), _hash(of))

    def saw(self, name: str) -> dict[int, str]:
        """Hashes by sites."""
        found = self._found.get(name)
        if not isinstance(found, dict) or not all(map(_SITE.fullmatch, found)):
            raise _NoRecord
        return {_number(int(site), 1, GREATEST_SITE_NAMED): _hash(of) for site, of in found.items()}


def _number(found: object, least: int, most: int) -> int:
    """A whole number, however it is spelled: not all readers know 1.0 from 1."""
    if isinstance(found, bool) or not isinstance(found, int | float) or isinstance(found, float) and not found.is_integer():
        raise _NoRecord
    if not least <= found <= most:
        raise _NoRecord
    return int(found)


def _hash(found: object) -> str:
    if not isinstance(found, str) or not _HASH.fullmatch(found):
        raise _NoRecord
    return found


def _list_in(found: object, length: int | None = None) -> list[object]:
    if not isinstance(found, list) or length not in (None, len(found)):
        raise _NoRecord
    return found


def _names(found: object) -> Names:
    site, at, length = _list_in(found, 3)
    one = Names(_number(site, 1, GREATEST_SITE_NAMED), _number(at, 0, MOST_OF_A_SITE - 1), _number(length, 1, MOST_OF_A_SITE))
    if one.at + one.length > MOST_OF_A_SITE:
        raise _NoRecord
    return one


def _with_body(fields: _Fields, one: MarginRecord) -> MarginRecord:
    parts = fields.number("parts", 1, MOST_PARTS) if "parts" in fields else 0
    return one._replace(body=fields.string("body"), parts=parts)


def _anchored(fields: _Fields, one: MarginRecord) -> MarginRecord:
    """A remark or a suggestion."""
    if ("at" in fields) == ("behind" in fields):
        raise _NoRecord
    at = fields.names("at") if "at" in fields else ()
    behind = None if at else fields.place("behind")
    text = fields.string("text")
    if len(text) > MOST_SELECTED:
        raise _NoRecord
    one = _with_body(fields, one)._replace(anchor=Anchor(at, behind, fields.saw("saw"), text, fields.hash("sum")))
    if one.kind is MarginKind.REMARK:
        return one
    new = fields.names("new")
    if behind and not new:
        # It suggests nothing.
        raise _NoRecord
    return one._replace(new=new)


def _answering(fields: _Fields, one: MarginRecord) -> MarginRecord:
    return _with_body(fields, one)._replace(of=fields.ref("of"))


def _with_state(fields: _Fields, one: MarginRecord) -> MarginRecord:
    return one._replace(of=fields.ref("of"), state=MarginState(fields.string("state")), accepts=fields.truth("accepts"))


def _taken(fields: _Fields, one: MarginRecord) -> MarginRecord:
    return one._replace(of=fields.ref("of"))


def _more(fields: _Fields, one: MarginRecord) -> MarginRecord:
    at = fields.names("at") if "at" in fields else ()
    saw = fields.saw("saw") if "saw" in fields else {}
    return one._replace(of=fields.ref("of"), part=fields.number("part", 1, MOST_PARTS), body=fields.string("body"), at=at, saw=saw)


_READERS = {MarginKind.REMARK: _anchored, MarginKind.SUGGESTION: _anchored, MarginKind.REPLY: _answering, MarginKind.STATE: _with_state,
            MarginKind.TAKEN: _taken, MarginKind.REVISED: _answering, MarginKind.MORE: _more}
