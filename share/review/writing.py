"""The lines of a record that is written, one for each insertion: of one that is too long for a line, others go on with it."""
import json
from collections import deque
from typing import Any

from share.review.record import MOST_OF_A_LINE, MOST_PARTS, VERSION, MarginKind, MarginRecord, Ref, sum_of
from share.text.errors import Trouble
from share.text.names import Names

TOO_LONG = "That is too long, or scattered over too many stretches, to be remarked on. Select less, or write less."


class _Left:
    """What of a record isn't written yet."""

    def __init__(self, one: MarginRecord):
        self._at, self._body = deque(one.anchor.at if one.anchor else ()), one.body
        self._saw = deque(sorted(one.anchor.saw.items()) if one.anchor else ())

    def has_more(self) -> bool:
        """Whether anything is."""
        return bool(self._at or self._saw or self._body)

    def put_into(self, fields: dict[str, Any]) -> None:
        """Puts as much as there is room for into a line's fields, which have none of it yet."""
        room = MOST_OF_A_LINE - len(_line(fields | {"at": [], "saw": {}, "body": ""}))
        at, saw = list[Names](), dict[str, str]()
        while self._at and (size := _bytes_of_value(self._at[0]) + 1) <= room:
            at.append(self._at.popleft())
            room -= size
        while self._saw and (size := _bytes_of_value(dict([self._saw[0]]))) <= room:
            site, of = self._saw.popleft()
            saw[str(site)] = of
            room -= size
        many = _fitting(self._body, room)
        fields |= ({"at": at} if at else {}) | ({"saw": saw} if saw else {}) | {"body": self._body[:many]}
        self._body = self._body[many:]


def lines_of(one: MarginRecord, site: int, at: int) -> list[bytes]:
    """The lines of a record, the first of which is inserted as these characters of a site, and the others after it."""
    fields, left = _own_fields(one), _Left(one)
    if one.kind.has_body:
        left.put_into(longer := fields | {"parts": MOST_PARTS})
        if not left.has_more():
            left = _Left(one)
            left.put_into(fields)
            return [_line(_ordered(fields, one))]
        fields = longer
    parts = list[dict[str, Any]]()
    ref = Ref(site, at, "0" * len(sum_of(b"")))
    while left.has_more() and len(parts) < MOST_PARTS:
        parts.append(_beginning(one, MarginKind.MORE) | {"of": ref, "part": len(parts) + 1})
        left.put_into(parts[-1])
    if left.has_more():
        raise Trouble(TOO_LONG)
    if parts:
        fields["parts"] = len(parts)
    first = _line(_ordered(fields, one))
    return [first, *(_line(part | {"of": ref._replace(sum=sum_of(first))}) for part in parts)]


def _beginning(one: MarginRecord, kind: MarginKind) -> dict[str, Any]:
    return {"v": VERSION, "is": kind.value, "by": one.by, "time": one.time}


def _own_fields(one: MarginRecord) -> dict[str, Any]:
    """The fields of a record but for those that may be cut."""
    fields = _beginning(one, one.kind)
    if one.of:
        fields["of"] = one.of
    if one.state:
        fields |= {"state": one.state.value} | ({} if one.accepts is None else {"accepts": one.accepts})
    if one.anchor:
        fields |= {"behind": one.anchor.behind} if one.anchor.behind else {}
        fields |= {"text": one.anchor.text, "sum": one.anchor.sum}
    if one.kind is MarginKind.SUGGESTION:
        fields["new"] = one.new
    return fields


def _ordered(fields: dict[str, Any], one: MarginRecord) -> dict[str, Any]:
    """The fields of a record's line, with those that it may not lack."""
    return fields | {"saw": fields.get("saw", {})} if one.anchor else fields


def _line(fields: dict[str, Any]) -> bytes:
    return json.dumps(fields, ensure_ascii=False, separators=(",", ":")).encode() + b"\n"


def _bytes_of_value(value: object) -> int:
    """How many bytes a value takes."""
    return len(_line({"": value})) - len(_line({"": None})) + len("null")


def _fitting(text: str, room: int) -> int:
    """How many letters of a text there is room for."""
    low, high = 0, min(len(text), room)
    while low < high:
        middle = (low + high + 1) // 2
        if len(_line({"": text[:middle]})) - len(_line({"": ""})) <= room:
            low = middle
        else:
            high = middle - 1
    return low
