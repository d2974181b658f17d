"""Threads of a margin as editors and scripts are told them. What is false or empty isn't said."""
from collections.abc import Callable, Iterable, Iterator, Sequence
from typing import NamedTuple

from share.engine.margins import Stood
from share.format.presence import clean_name
from share.review.margin import Remark
from share.review.record import MOST_SELECTED, MarginKind
from share.text.line import Line
from share.text.names import Names
from share.text.rope import Measured, readable, swapped
from share.text.units import Units

# The most threads of an answer, the most characters of what it has of bodies, and of a thread's replies; and for how many characters
# all else of a remark stands.
MOST_PAGE, MOST_OF_BODIES, MOST_REPLIED, BESIDE_A_BODY = 2_000, 4_000_000, 500_000, 300
# The most bytes of a character.
MOST_OF_A_CHARACTER = 4
TAKEN, ACCEPTED = "taken", "accepted"


class ToldTo(NamedTuple):
    """What is to be known of a note to tell somebody its threads: its text and the units in which places are told; which numbers are his;
    and what characters say that are here, shown or not."""

    text: Measured
    units: Units
    is_own: Callable[[int], bool]
    data: Callable[[Names], bytes | None]


def thread_lines(found: Sequence[Stood], told: ToldTo, most: float = MOST_OF_BODIES) -> list[Line]:
    """Threads as lines; as many as an answer has room for, one at least."""
    lines, said = list[Line](), 0
    for one in found:
        line = _thread_line(one, told)
        said += _length(line) + sum(map(_length, line.get("replies", ())))
        if lines and said > most:
            break
        lines.append(line)
    return lines


def _length(line: Line) -> int:
    return BESIDE_A_BODY + sum(len(line.get(name, "")) for name in ("body", "text", "new"))


def _thread_line(one: Stood, told: ToldTo) -> Line:
    thread, spot = one.thread, one.spot
    state = TAKEN if thread.state is None else ACCEPTED if spot.is_accepted else thread.state.value
    # Where its characters are here they themselves say what was selected.
    text_then = _readable(_first_of(thread.anchor.at), told)[:MOST_SELECTED] if spot.holds else thread.anchor.text
    line: Line = {**_remark(thread.first, told), "kind": thread.kind.value, "state": state, "text": text_then}
    if spot.begin is not None:
        line |= {"begin": _position(spot.begin, told), "end": _position(spot.end, told)}
    line |= {"gone": spot.is_gone, "elsewhere": not spot.holds, "changed": spot.is_changed and not spot.is_accepted}
    if thread.kind is MarginKind.SUGGESTION and spot.holds:
        line["new"] = _readable(thread.new, told)
    return _said(line | {"replies": _replies(thread.replies, told)})


def _first_of(names: Iterable[Names]) -> Iterator[Names]:
    """The first of some characters, as many as what is told of a passage may take."""
    left = MOST_SELECTED * MOST_OF_A_CHARACTER
    for one in names:
        yield one._replace(length=min(one.length, left))
        left -= one.length
        if left <= 0:
            break


def _said(line: Line) -> Line:
    """A line without what is false or empty."""
    return {name: value for name, value in line.items() if value not in (False, "", []) or type(value) is int}


def _replies(replies: Sequence[Remark], told: ToldTo) -> list[Line]:
    """The last replies, as many as there is room for."""
    found, said = list[Line](), 0
    for reply in reversed(replies):
        said += len(reply.body or "") + BESIDE_A_BODY
        if said > MOST_REPLIED:
            break
        found.append(_said(_remark(reply, told) | {"taken": reply.body is None}))
    return found[::-1]


def _remark(one: Remark, told: ToldTo) -> Line:
    site, at = one.name
    return {"id": f"{site}:{at}", "site": site, "name": clean_name(one.by), "own": told.is_own(site), "time": one.time,
            "body": one.body or "", "revised": one.is_revised}


def _position(place: int, told: ToldTo) -> int:
    """A place in units; within a character that of its begin."""
    return told.text.position(told.text.boundary(place), told.units)


def _readable(names: Iterable[Names], told: ToldTo) -> str:
    return readable(swapped(b"".join(told.data(one) or b"" for one in names)))
