"""Rebases edits that don't count any more: their number was another's too, or what they build on was left out.

What the user saw is looked at in a process of its own, and what remained of these edits in that text is done
again under the new number: what was typed goes after the same characters, what was deleted is deleted, and looks are
set.
"""
from bisect import bisect_left
from collections.abc import Collection, Iterable, Iterator, Sequence
from contextlib import closing
from itertools import chain
from typing import NamedTuple

from share.admission.judges import judge_of
from share.admission.judging import Judging
from share.admission.ledger import Row
from share.format.entry import Copy, Entry, Form
from share.format.operation import CHANGE_LOOKS, DELETE, RESTORE, Operation
from share.program.alike import One
from share.program.effects import Stretch
from share.program.retyping import words_of
from share.program.site import Edited, Site
from share.program.undo import looks_of
from share.review.record import MARGIN
from share.store.own import Anew
from share.sync.standing import said_of_copies
from share.sync.lost import ToRebase, who
from share.sync.state import Holdings
from share.text.errors import Refused
from share.text.looks import DEFAULT, Dressed, dressed
from share.text.names import Name, Names, united, without

# The most stretches in looks that are looked at.
MOST_DRESSED_AGAIN = 20_000
# The most characters that are rebased in one go, or those of one entry more; a site has room for four times as many.
REBASED_AT_ONCE = 2**22


class Done(NamedTuple):
    """A message that was made, and the one for which it stands; none was needed where it is None."""

    old: Operation
    new: Operation | None


class Rebased:
    """What was lost, and what was rebased of it by a client; `last` is an entry of that one."""

    def __init__(self, holdings: Holdings, lost: Sequence[ToRebase], done: Sequence[Done], last: Entry):
        self._holdings, self._lost, self._last = holdings, lost, last
        # What was typed in one go may have come apart, and be several messages now.
        self._made: dict[Operation, list[Operation]] = {}
        for one in done:
            self._made.setdefault(one.old, []).extend([one.new] if one.new else [])

    def _each(self) -> Iterator[tuple[Entry, Operation, list[int]]]:
        """The lost messages, with the seqs of those that stand for them now."""
        for entry, messages in self._lost:
            for message in messages:
                yield entry, message, [one.seq for one in self._made.get(message, ())]

    def anew(self) -> list[Anew]:
        """What the note's file has of it for versions that don't know copies."""
        return [Anew(entry.author, message.site, message.seq, self._last.site, min(seqs, default=0), message.text)
                for entry, message, seqs in self._each()
                if Copy(entry.author, message.site, message.seq, message.text) not in self._holdings.anew]

    def hidings(self) -> list[Copy]:
        """Those of what was made that hide copies."""
        return [Copy(self._last.author, self._last.site, seq, message.text) for entry, message, seqs in self._each()
                if Copy(entry.author, message.site, message.seq, message.text) in self._holdings.hidings for seq in seqs]

    def copies(self, form: Form, last: Entry) -> list[Entry]:
        """The entries that say what stands for what, up to the last entry that was made. What stood for something else stands
        for that, too."""
        holdings, pairs = self._holdings, dict[bytes, list[tuple[int, int]]]()
        for entry, message, seqs in self._each():
            pairs.setdefault(entry.hash, []).extend((message.seq, seq) for seq in seqs or [0])
            for of, old in holdings.standing.originals(entry, message.seq, holdings.rows):
                original = holdings.rows[of].entry
                if seqs or holdings.judge.entry_of(original.site, old, original.text) != original.name_of(old):
                    pairs.setdefault(of, []).extend((old, seq) for seq in seqs or [0])
        said = said_of_copies(form, holdings.clients, holdings.rows, last, pairs, holdings.withdrawn())
        return said + words_of(self._typed_for_others(), form, holdings.clients[who(last)].author, last)

    def _typed_for_others(self) -> Iterator[tuple[One, Operation]]:
        """The messages of others for which what was lost had been typed again, and what stands for these now."""
        holdings = self._holdings
        for entry, messages in self._lost:
            for message in messages if entry.size else ():
                for new in self._made.get(message, ()):
                    copy = Copy(entry.author, message.site, message.seq, message.text)
                    for of, last in holdings.recovered.originals(copy, entry.name_of(message.seq), holdings.judge):
                        yield One(of, message, last), new


def at_once(lost: Sequence[ToRebase]) -> tuple[Sequence[ToRebase], bool]:
    """The first of what was lost, as much as is rebased in one go; and whether that is all."""
    length = 0
    for number, one in enumerate(lost, 1):
        length += length_of(one.messages)
        if length > REBASED_AT_ONCE and number < len(lost):
            return lost[:number], False
    return lost, True


def length_of(messages: Iterable[Operation]) -> int:
    """How many characters messages insert."""
    return sum(names.length for names in (each.new for each in messages) if names)


def with_claims(rows: Sequence[Row], lost: Sequence[ToRebase]) -> set[bytes]:
    """The hashes of lost entries, and of the claims of those who made them."""
    whos = {who(one.entry) for one in lost}
    return {one.entry.hash for one in lost} | {row.entry.hash for row in rows
                                               if row.entry.kind.is_claim and who(row.entry) in whos}


class _Differing(NamedTuple):
    """What differs between the text that was seen and the one that counts."""

    # What was inserted in the one alone. Two clients of one number may have used the same names.
    seen: list[Names]
    counted: list[Names]
    # Other names that may be shown in one of them alone.
    named: list[Names]

    def common(self, names: Iterable[Names]) -> list[Names]:
        """Those of these names that are each of one character in both texts."""
        return without(without(united(names), self.seen), self.counted)


def rebase(form: Form, rows: Sequence[Row], lost: Sequence[Operation], judge: Judging, site: Site,
           first: Collection[bytes] = ()) -> list[Done]:
    """Does at a site, which has all that counts of a text, what remains of lost messages of that."""
    done = (_inserted_again(lost, site) if site.text_number == MARGIN else
            _done_again(form, rows, lost, judge, site, first))
    made = {one.old for one in done}
    return done + [Done(message, None) for message in lost if message not in made]


def _inserted_again(lost: Sequence[Operation], site: Site) -> list[Done]:
    """Inserts again what lost messages inserted into a margin, each whole: it is one record there, whatever of it is shown."""
    return [one for message in lost if message.data for one in _all_of(message, site.insert(0, message.data))]


def _done_again(form: Form, rows: Sequence[Row], lost: Sequence[Operation], judge: Judging, site: Site,
                first: Collection[bytes]) -> list[Done]:
    """Does again in a text what remains of lost messages in what was seen of it."""
    # These entries first, then what was made here, then what came first: so what was seen as these edits were made is found
    # again.
    order = {row.entry.hash: bytes([row.entry.hash not in first, not row.made]) + row.place.to_bytes(8, "big")
             for row in rows}
    before = judge_of(form, (row.entry for row in rows), prefers=lambda entry: order[entry.hash])
    seen = before.let_through_in_order(site.text_number)
    seen_ones = {(message.site, message.seq): message for message in seen}
    here = [message for message in lost if seen_ones.get((message.site, message.seq)) == message]
    gone = [message for message in lost if seen_ones.get((message.site, message.seq)) != message]
    differing = _differing(seen, judge.let_through_in_order(site.text_number))
    with closing(Site(lost[0].site, seen, text=site.text_number)) as old:
        hidden = [*_hidden(here, differing, old)]
        done = [*_restored(here, differing, old, site)]
        typed = _typed(here, old)
        # It is shown in both texts while that is typed, so that what was typed inside it stands there again.
        old.restore(chain.from_iterable(names for _, names in hidden))
        done += _typed_again(typed, differing, old, site)
        done += [one for message, names in hidden for one in _all_of(message, site.delete(names)[0])]
        done += _looked(here, differing, old, site)
    return done + _at_the_end(gone, site)


def _differing(seen: Sequence[Operation], now: Sequence[Operation]) -> _Differing:
    """The names of what messages speak of that count in one of the texts alone."""
    counted = {(message.site, message.seq): message for message in now}
    only_seen = [message for message in seen if counted.get((message.site, message.seq)) != message]
    for message in seen:
        if counted.get((message.site, message.seq)) == message:
            del counted[message.site, message.seq]
    seen_names, counted_names = (united(filter(None, (each.new for each in some))) for some in (only_seen, counted.values()))
    differing = _Differing(seen_names, counted_names, [])
    return differing._replace(named=differing.common(
        names for message in (*only_seen, *counted.values()) if message.kind in (DELETE, RESTORE)
        for names in message.mentions))


def _shown(names: Sequence[Names], old: Site) -> list[Names]:
    """Those of these characters that the old text shows."""
    return united(Names(one.site, stretch.at, len(stretch.data))
                  for one, stretches in zip(names, old.where(names)) for stretch in stretches)


def _hidden(lost: Sequence[Operation], differing: _Differing, old: Site) -> Iterator[tuple[Operation, list[Names]]]:
    """What lost messages deleted and the old text hides, which is deleted again."""
    for message in lost:
        if message.kind == DELETE:
            yield message, differing.common(without(message.mentions, _shown(message.mentions, old)))


def _restored(lost: Sequence[Operation], differing: _Differing, old: Site, site: Site) -> list[Done]:
    """Brings back what lost messages brought back and the old text shows."""
    return [one for message in lost if message.kind == RESTORE
            for one in _all_of(message, site.restore(differing.common(_shown(message.mentions, old)))[0])]


def _typed(lost: Sequence[Operation], old: Site) -> list[tuple[Operation, Names]]:
    """What is shown of lost messages in the old text."""
    return [(message, part) for message in lost if message.new for part in _shown([message.new], old)]


def _typed_again(typed: Sequence[tuple[Operation, Names]], differing: _Differing, old: Site, site: Site) -> list[Done]:
    """Types again what lost messages typed."""
    was, now = _positions(old, differing.named), _positions(site, differing.named)
    gone = sorted([*_positions(old, differing.seen).values(), *(at for name, at in was.items() if name not in now)])
    come = sorted([*_positions(site, differing.counted).values(), *(at for name, at in now.items() if name not in was)])
    found = old.where([one for _, one in typed]) if typed else []
    stretches = sorted((stretch.position, stretch.data, message)
                       for (message, _), shown in zip(typed, found) for stretch in shown)
    done, more, looks = [], 0, dressed(old.runs(), MOST_DRESSED_AGAIN) if stretches else []
    for position, data, message in stretches:
        place = _place_in_new(position - bisect_left(gone, position), come) + more
        made = _all_of(message, site.insert(place, data))
        done += made + _in_looks(made, position, looks, site)
        more += len(data)
    return done


def _in_looks(made: Sequence[Done], position: int, looks: Sequence[Dressed], site: Site) -> list[Done]:
    """Gives what was typed again the looks that it had in the old text, where it began at a position."""
    done: list[Done] = []
    for old, new in made:
        names = new.new if new else None
        if not names:
            continue
        for one in looks:
            begin, end = max(one.begin, position), min(one.end, position + names.length)
            if begin < end:
                part = Names(names.site, names.at + begin - position, end - begin)
                done += _all_of(old, site.look(one.looks.differing(DEFAULT), [part]))
        position += names.length
    return done


def _looked(lost: Sequence[Operation], differing: _Differing, old: Site, site: Site) -> list[Done]:
    """Gives characters again the looks that they have in the old text and not in the new one."""
    done = []
    for message in lost:
        if message.kind != CHANGE_LOOKS:
            continue
        for parts in looks_of(old, differing.common(message.mentions)):
            for part, was in parts:
                for there, now in chain.from_iterable(looks_of(site, [part])):
                    if was != now:
                        done += _all_of(message, site.look(was.differing(now), [there]))
    return done


def _place_in_new(common: int, come: Sequence[int]) -> int:
    """Where in the new text the first characters end that are in both; `come` has the positions of
    those that are in the new one alone."""
    place = common
    for position in come:
        if position >= place:
            break
        place += 1
    return place


def _at_the_end(lost: Sequence[Operation], site: Site) -> list[Done]:
    """Types at the end what was typed after something that isn't known any more."""
    typed = [(message, message.data[-names.length:]) for message in lost if (names := message.new)]
    done, end = [], len(site.text()) if typed else 0
    for message, data in typed:
        done += _all_of(message, site.insert(end, data))
        end += len(data)
    return done


def _all_of(old: Operation, edited: Edited) -> list[Done]:
    if edited.refused:
        raise Refused(edited.refused)
    return [Done(old, message) for message in edited.messages]


def _positions(site: Site, names: list[Names]) -> dict[Name, int]:
    """The positions of those characters of these names that are shown."""
    found: dict[Name, int] = {}
    stretches: list[list[Stretch]] = site.where(names) if names else []
    for one, shown in zip(names, stretches):
        for stretch in shown:
            found |= {(one.site, stretch.at + number): stretch.position + number
                      for number in range(len(stretch.data))}
    return found
