"""What is told of what doesn't count in a note of the second form, as a plain, slow program: what was left out for a smaller rank or
hash, and what waits.

It is what docs/SHARING.md says of the first form, text by text, of messages in place of entries.
"""
from collections.abc import Iterable

from share.tests.naive_second import LEAP, ZEROS, Answer, Copied, Entry, Kind, Place, Saying, Why, copied_of


def told(answer: Answer) -> list[Saying]:
    """What doesn't count since something lesser holds in its place, or since it builds on such; without that of which a copy counts, or
    of which its author, who says of nothing what stands for it, says that it was made anew."""
    lost = [one for one, why in answer.left_out.values() if (why in (Why.HOLDER, Why.BRANCH, Why.BASE) or _is_anothers(answer, one, why))
            and not _counts_elsewhere(answer, one) and not _is_said_anew(answer, one)]
    for place in _built_on_what_was_left_out(answer):
        lost += held_up(answer, place, [entry for entry in answer.entries if not _tells_copies(answer, _who(entry))])
    return [one for one in lost if not _is_copied(answer, one)]


def incomplete(answer: Answer) -> int:
    """How many messages wait for something."""
    if answer.base is None:
        return len(answer.said)
    waiting = _blocked(answer) - _built_on_what_was_left_out(answer)
    return (sum(len(held_up(answer, place, answer.entries)) for place in waiting)
            + sum(why in (Why.LOOSE, Why.UNCLAIMED) and not _is_anothers(answer, one, why) for one, why in answer.left_out.values()))


def _is_anothers(answer: Answer, one: Saying, why: Why) -> bool:
    """Whether a message is of somebody who doesn't claim its number, which another one holds."""
    return why is Why.UNCLAIMED and one.message.site in answer.holders


def held_up(answer: Answer, place: Place, entries: Iterable[Entry]) -> list[Saying]:
    """The messages of a chain that don't count and aren't wrong, but those of which one of these entries says that they were made anew."""
    messages, held = answer.following[place], answer.chains[place]
    said = {entry.head.before for entry in entries if entry.head.kind == Kind.ANEW and _who(entry) == (*place, held[0].author)}
    up_to = max((one.message.seq for one in held if one.hash in said), default=0)
    return [one for one in messages if one.message.seq > up_to]


def _who(entry: Entry) -> tuple[int, int, bytes]:
    """The number, text and author of an entry."""
    return entry.head.site, entry.head.text, entry.head.author


def is_blocked(answer: Answer, place: Place) -> bool:
    """Whether something of a chain doesn't count that isn't wrong."""
    rest = answer.following[place]
    return bool(rest) and answer.verdict(rest[0]).why is not Why.WRONG


def _blocked(answer: Answer) -> set[Place]:
    """The chains of which that is so."""
    return {place for place in answer.following if is_blocked(answer, place)}


def _built_on_what_was_left_out(answer: Answer) -> set[Place]:
    """Those of them whose next message builds on what was left out."""
    # The characters that were left out, as far as each number has them.
    ends: dict[Place, int] = {}
    for one, why in answer.left_out.values():
        if why in (Why.HOLDER, Why.BRANCH, Why.BASE, Why.PLACE) or _is_anothers(answer, one, why):
            ends[one.place] = max(ends.get(one.place, 0), one.message.at + len(one.message.data))
    found: set[Place] = set()
    while more := {place for place in _blocked(answer) - found if _builds_on(answer, answer.following[place][0], ends, found)}:
        found |= more
    return found


def _builds_on(answer: Answer, one: Saying, ends: dict[Place, int], left_out: set[Place]) -> bool:
    """Whether a message builds on characters that were left out: it lacks some of a number, of which it mentions what was left out, or
    which is left out from here on; or others are in their place."""
    text = one.message.text
    if one.message.stamp > answer.greatest(text) + LEAP:
        return False
    lacking = {site for site, offset in one.mentions() if (text, (site, offset)) not in answer.stamps}
    if lacking:
        return any((site, text) in left_out or min(offset for of, offset in one.mentions() if of == site) < ends.get((site, text), 0)
                   for site in lacking)
    beyond = answer.beyond(one, answer.through[one.place])
    return answer.verdict(one).why is Why.OTHERS and any(offset < ends.get((site, text), 0) for site, offset in beyond)


def _counts_elsewhere(answer: Answer, one: Saying) -> bool:
    """Whether just this message counts in its place."""
    return any(other.message == one.message for other in answer.through.get(one.place, []))


def _tells_copies(answer: Answer, who: tuple[int, int, bytes]) -> bool:
    """Whether an author says of own messages what stands for them."""
    site, _, author = who
    own = [copied_of(entry) for entry in answer.entries if entry.head.kind == Kind.COPIES and _who(entry) == who]
    return any((word.site, word.author) == (site, author) for word in own)


def _is_said_anew(answer: Answer, one: Saying) -> bool:
    """Whether its author says that a message was made anew, and doesn't say what stands for what."""
    who = (*one.place, one.author)
    own = [entry.head.before for entry in answer.entries if entry.head.kind == Kind.ANEW and _who(entry) == who]
    return not _tells_copies(answer, who) and any(one.hash in _up_to(answer, last) for last in own)


def _up_to(answer: Answer, last: bytes) -> set[bytes]:
    """The hashes of a message and of those before it."""
    found = set[bytes]()
    while last in answer.said:
        found.add(last)
        last = answer.said[last].before
    return found


def _is_copied(answer: Answer, one: Saying) -> bool:
    """Whether a copy of a message counts: by the word of its author, or since it has all that was typed, as one message or as all those
    of one author and number together."""
    others: dict[tuple[int, bytes], dict[int, bytes]] = {}
    for entry in answer.entries:
        if entry.head.kind != Kind.COPIES or entry.head.text != one.message.text:
            continue
        word = copied_of(entry)
        if (word.author, word.site) != (one.author, one.message.site):
            continue
        if entry.head.before != ZEROS and one.hash not in _up_to(answer, entry.head.before):
            continue
        for by, found in _copies(answer, word, one):
            if (entry.head.author, entry.head.site) == (one.author, one.message.site):
                return True
            if found:
                others.setdefault((word.by_site, word.by), {})[by] = found.message.data
    data = one.message.data
    return bool(data) and any(data in (b"".join(parts[seq] for seq in sorted(parts)), *parts.values()) for parts in others.values())


def _copies(answer: Answer, word: Copied, one: Saying) -> Iterable[tuple[int, Saying | None]]:
    """The copies that count of a message, as a word has it, by their seqs; or 0, where nothing had to be made anew."""
    for seq, copy, many in word.stretches:
        if not seq <= one.message.seq < seq + many:
            continue
        by = copy + one.message.seq - seq
        counting = [said for said in answer.through.get((word.by_site, one.message.text), [])
                    if (said.author, said.message.seq) == (word.by, by)
                    and (word.last == ZEROS or said.hash in _up_to(answer, word.last))]
        if not copy:
            yield 0, None
        elif counting:
            yield by, counting[0]
