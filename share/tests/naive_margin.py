"""What a margin says, slowly: all records sorted, and everything found by looking through all of them. It shares nothing with
share/review but what docs/REVIEW.md says."""
import hashlib
import json
from collections.abc import Callable, Iterable
from typing import Any, NamedTuple

# A record, or what one has, as JSON has it.
Fields = dict[str, Any]


class Inserted(NamedTuple):
    """An insertion of the margin."""

    site: int
    at: int
    stamp: int
    data: bytes


class Found(NamedTuple):
    """A record that was inserted."""

    key: tuple[int, int]
    name: tuple[int, int]
    sum: str
    fields: Fields


def naive_threads(inserted: Iterable[Inserted]) -> list[Fields]:
    """All threads, by their keys."""
    records = sorted((found for one in {*inserted} if (found := _found(one))), key=lambda one: one.key)
    return [_thread(one, records) for one in records if one.fields["is"] in ("remark", "suggestion")]


def naive_record(data: bytes) -> Fields | None:
    """What a line says; None where it is no record."""
    if len(data) > 4_096 or not data.endswith(b"\n") or b"\n" in data[:-1] or _depth(data) > 16:
        return None
    try:
        found = json.loads(data.decode("utf-8"), parse_constant=lambda name: _fail())
        json.dumps(found, ensure_ascii=False).encode("utf-8")
        return found if isinstance(found, dict) and _is_record(found) else None
    except (ValueError, RecursionError):
        return None


def _fail() -> None:
    raise ValueError


def _found(one: Inserted) -> Found | None:
    fields = naive_record(one.data)
    return Found((one.stamp, one.site), (one.site, one.at), hashlib.sha256(one.data).hexdigest()[:16], fields) if fields else None


def _depth(data: bytes) -> int:
    """How deeply brackets outside of strings are nested."""
    depth = deepest = 0
    is_inside = is_escaped = False
    for letter in data.decode("latin-1"):
        if is_inside:
            is_inside = is_escaped or letter != '"'
            is_escaped = letter == "\\" and not is_escaped
        elif letter == '"':
            is_inside = True
        elif letter in "[{":
            depth += 1
            deepest = max(deepest, depth)
        elif letter in "]}":
            depth -= 1
    return deepest


def _is_number(value: object, least: int, most: int) -> bool:
    return type(value) in (int, float) and value == value and least <= value <= most and value == int(value)  # type: ignore


def _is_hash(value: object) -> bool:
    return isinstance(value, str) and len(value) == 16 and all(letter in "0123456789abcdef" for letter in value)


def _is_names(value: object) -> bool:
    return isinstance(value, list) and all(
        isinstance(one, list) and len(one) == 3 and _is_number(one[0], 1, 65_535) and _is_number(one[1], 0, 2**24 - 1)
        and _is_number(one[2], 1, 2**24) and one[1] + one[2] <= 2**24 for one in value)


def _is_place(value: object) -> bool:
    return (isinstance(value, list) and len(value) == 2 and _is_number(value[0], 0, 65_535) and _is_number(value[1], 0, 2**24 - 1)
            and (value[0] > 0 or value[1] == 0))


def _is_ref(value: object) -> bool:
    return (isinstance(value, list) and len(value) == 3 and _is_number(value[0], 1, 65_535) and _is_number(value[1], 0, 2**24 - 1)
            and _is_hash(value[2]))


def _is_saw(value: object) -> bool:
    return isinstance(value, dict) and all(site in SITES and _is_hash(of) for site, of in value.items())


SITES = frozenset(map(str, range(1, 65_536)))


def _is_body(fields: Fields) -> bool:
    return isinstance(fields.get("body"), str) and ("parts" not in fields or _is_number(fields["parts"], 1, 1_000))


def _is_anchored(fields: Fields) -> bool:
    if ("at" in fields) is ("behind" in fields):
        return False
    if not (_is_names(fields["at"]) and fields["at"] if "at" in fields else _is_place(fields["behind"])):
        return False
    return (_is_body(fields) and _is_saw(fields.get("saw")) and _is_hash(fields.get("sum"))
            and isinstance(fields.get("text"), str) and len(fields["text"]) <= 200)


def _is_suggestion(fields: Fields) -> bool:
    return _is_anchored(fields) and _is_names(fields.get("new")) and bool(fields["new"] or "at" in fields)


def _is_answer(fields: Fields) -> bool:
    return _is_ref(fields.get("of")) and _is_body(fields)


def _is_more(fields: Fields) -> bool:
    return (_is_ref(fields.get("of")) and isinstance(fields.get("body"), str) and _is_number(fields.get("part"), 1, 1_000)
            and _is_names(fields.get("at", [])) and _is_saw(fields.get("saw", {})))


KINDS: dict[str, Callable[[Fields], bool]] = {
    "remark": _is_anchored, "suggestion": _is_suggestion, "reply": _is_answer, "revised": _is_answer, "more": _is_more,
    "state": lambda fields: _is_ref(fields.get("of")) and fields.get("state") in ("open", "resolved", "rejected"),
    "taken": lambda fields: _is_ref(fields.get("of"))}


def _is_record(fields: Fields) -> bool:
    by = fields.get("by")
    if not isinstance(by, str) or len(by) > 40 or any(ord(letter) < 32 or 127 <= ord(letter) < 160 for letter in by):
        return False
    kind = fields.get("is")
    return (_is_number(fields.get("v"), 1, 1) and _is_number(fields.get("time"), 0, 2**53 - 1) and isinstance(kind, str)
            and kind in KINDS and KINDS[kind](fields))


def _means(of: Any, records: list[Found]) -> Found | None:
    """The record that is named so."""
    alike = [one for one in records if one.sum == of[2]]
    named = [one for one in alike if [*one.name] == of[:2]]
    return next(iter([*named, *alike]), None)


def _answers(one: Found, kind: str, records: list[Found]) -> list[Found]:
    """The records of a kind that name one, and may."""
    return [other for other in records if other.fields["is"] == kind and _means(other.fields["of"], records) is one
            and (kind in ("reply", "state") or other.key[1] == one.key[1])]


def _parts(one: Found, records: list[Found]) -> list[Fields]:
    found, more = list[Fields](), _answers(one, "more", records)
    for part in range(1, int(one.fields.get("parts", 0)) + 1):
        fitting = [other.fields for other in more if other.fields["part"] == part]
        if not fitting:
            break
        found.append(fitting[0])
    return found


def _remark(one: Found, records: list[Found]) -> Fields:
    revised, taken = _answers(one, "revised", records), _answers(one, "taken", records)
    now = revised[-1] if revised else one
    body = now.fields["body"] + "".join(part["body"] for part in _parts(now, records))
    return {"name": one.name, "key": one.key, "by": one.fields["by"], "time": int(one.fields["time"]),
            "body": None if taken else body[:100_000], "is_revised": bool(revised) and not taken}


def _thread(one: Found, records: list[Found]) -> Fields:
    parts, states, fields = _parts(one, records), _answers(one, "state", records), one.fields
    saw = dict[int, str]()
    for some in [fields, *parts]:
        for site, of in some.get("saw", {}).items():
            saw.setdefault(int(site), of)
    at = [*fields.get("at", []), *(names for part in parts for names in part.get("at", []))]
    first = _remark(one, records)
    of_acceptance = [state for state in states if isinstance(state.fields.get("accepts"), bool)]
    if of_acceptance and not of_acceptance[-1].fields["accepts"]:
        states = [state for state in states if state not in of_acceptance]
    state = states[-1].fields["state"] if states else "open"
    return {"first": first, "kind": fields["is"], "state": None if first["body"] is None else state,
            "anchor": {"at": _names(at), "behind": _place(fields["behind"]) if "behind" in fields else None, "saw": saw,
                       "text": fields["text"], "sum": fields["sum"]},
            "new": _names(fields["new"]) if fields["is"] == "suggestion" else (),
            "replies": [_remark(reply, records) for reply in _answers(one, "reply", records)]}


def _names(found: list[list[float]]) -> tuple[tuple[int, ...], ...]:
    return tuple(tuple(map(int, one)) for one in found)


def _place(found: list[float]) -> tuple[int, ...]:
    return tuple(map(int, found))
