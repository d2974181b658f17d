"""When a person looked at a note, and what had come of its first text by then: so that what changed since can be shown.

It is kept beside the note's file, which has a copy of its own where the folder was copied. A look says how far each site's messages
went, and what names the last one, so that what doesn't count any more isn't taken for seen.
"""
import json
from collections.abc import Mapping, Sequence
from contextlib import suppress
from typing import Any, NamedTuple

from share.admission.judging import Judging
from share.admission.ledger import Branch, Row
from share.admission.lines import Path
from share.format.entry import digest
from share.format.history import Messages
from share.store import beside

SEEN_SUFFIX = ".seen"
# The most looks that are kept, and how long the file may be.
MOST_LOOKS, LONGEST_SEEN = 200, 1 << 24


class Front(NamedTuple):
    """The seq of the last message of a site, and what names it."""

    seq: int
    name: bytes


class Look(NamedTuple):
    """When a person looked, in seconds since 1970, and what had come by then, by sites."""

    time: int
    fronts: Mapping[int, Front]


class Still(NamedTuple):
    """How far of each site the messages that were seen still count, and whether all of them do."""

    fronts: Mapping[int, int]
    is_all: bool


def fronts_in(messages: Messages) -> dict[int, Front]:
    """How far messages that count go. What is in no entry yet isn't named."""
    ends = {part.holder.site: part for part in messages.parts() if isinstance(part.holder, Branch | Path)}
    return {site: Front(part.end, part.holder.named(part.end)) for site, part in ends.items() if isinstance(part.holder, Branch | Path)}


def still_counting(looks: Sequence[Look], judge: Judging, rows: Mapping[bytes, Row]) -> Still:
    """What of the last of some looks still counts. Where it isn't known any more up to where, what was seen before does. The entries
    that were withdrawn are among these rows."""
    found, is_all = dict[int, int](), True
    for site, front in looks[-1].fronts.items() if looks else ():
        if judge.entry_of(site, front.seq) == front.name:
            found[site] = front.seq
        else:
            found[site] = max(_still_of(site, one.fronts[site], judge, rows) for one in looks
                              if site in one.fronts and one.fronts[site].seq <= front.seq)
            is_all = False
    return Still(found, is_all)


def _still_of(site: int, front: Front, judge: Judging, rows: Mapping[bytes, Row]) -> int:
    """How many messages of a site still count of those up to a front."""
    if judge.entry_of(site, front.seq) == front.name:
        return front.seq
    name = front.name
    while name not in judge and (row := rows.get(name)):
        name = row.entry.before
    return min(front.seq, judge.front_up_to(judge.holder(site) or b"", site, name)) if name in judge else 0


def looks_at(name: str, note: bytes) -> list[Look]:
    """The looks at a note, which has this identity, the earliest first."""
    of, _, data = beside.kept_bytes(name, SEEN_SUFFIX, LONGEST_SEEN).partition(b"\n")
    # What isn't as it was written isn't there.
    with suppress(ValueError, RecursionError, TypeError, KeyError):
        if of == digest(data).hex().encode() and (found := json.loads(data))["note"] == note.hex():
            return _looks_in(found["looks"])
    return []


def keep_looks(name: str, note: bytes, looks: Sequence[Look]) -> None:
    """Keeps the looks at a note."""
    data = _spelled(note, looks)
    while len(data) > LONGEST_SEEN and len(looks) > 1:
        looks = looks[len(looks) // 2:]
        data = _spelled(note, looks)
    beside.write(name, SEEN_SUFFIX, digest(data).hex().encode() + b"\n" + data)


def with_look(looks: Sequence[Look], look: Look) -> list[Look]:
    """Some looks and a later one. Of many in which nothing came the first and the last are kept, and of too many every other one of the
    earlier half."""
    found = [*looks]
    if len(found) > 1 and found[-2].fronts == found[-1].fronts == look.fronts:
        found.pop()
    found.append(look)
    return found if len(found) <= MOST_LOOKS else found[:MOST_LOOKS // 2:2] + found[MOST_LOOKS // 2:]


def _spelled(note: bytes, looks: Sequence[Look]) -> bytes:
    """Looks as they are kept: of each the fronts that aren't those of the one before it."""
    kept, before = list[Any](), Look(0, {})
    for look in looks:
        gone = [site for site in before.fronts if site not in look.fronts]
        new = {str(site): [front.seq, front.name.hex()] for site, front in look.fronts.items() if before.fronts.get(site) != front}
        kept.append([look.time, new, gone])
        before = look
    return json.dumps({"note": note.hex(), "looks": kept}, separators=(",", ":")).encode()


def _looks_in(kept: Any) -> list[Look]:
    """The looks that were kept so."""
    looks, fronts = list[Look](), dict[int, Front]()
    for time, new, gone in kept:
        fronts = {site: front for site, front in fronts.items() if site not in gone}
        fronts |= {int(site): Front(seq, bytes.fromhex(name)) for site, (seq, name) in new.items()}
        looks.append(Look(time, fronts))
    return looks
