"""Whether the quick program agrees with the plain one on what counts, and what is told, of sets of entries of the second form, made at
random: `python3 -m share.tests.second_agreement N SEED` tries N sets, and prints how many agreed and what was in them."""
import random
import sys
import time
from collections import Counter
from collections.abc import Iterable, Sequence
from functools import cache
from typing import NamedTuple
from unittest import mock

from share.admission.message_judge import MessageJudge
from share.admission.reasons import Reason
from share.format.history import Messages
from share.format.operation import Operation
from share.tests import naive_second as second
from share.tests.naive_chunks import Message, inserting
from share.tests.naive_second import Answer, Bad, Entry, Founding, Kind, Note, Place, base_hashes, opened, rank
from share.tests.record_agreement import agrees_on_records
from share.tests.second_attacks import ATTACKS, Attacked
from share.tests.second_sets import COPIED, RIGHT, STEPS, ZERO_BITS, Branch, Set, cut
from share.text.names import Names

# Of one set that was made so many are taken: parts of it, in orders of their own.
TAKEN = 30
TYPING = ["type_on"] * 3
# How often it is said how far it is.
SAID = 5_000


class Record(NamedTuple):
    """An entry as the quick program has it."""

    kind: int
    author: bytes
    site: int
    text: int
    first: int
    size: int
    before: bytes
    operations: tuple[Operation, ...] = ()
    hashes: tuple[bytes, ...] = ()
    ons: tuple[bytes, ...] = ()
    rank: bytes = b""
    founding: Founding | None = None
    links: tuple[bytes, ...] = ()


def operation(one: Message) -> Operation:
    """A message as the quick program has it."""
    ranges = tuple(Names(*each) for each in one.ranges)
    return Operation(kind=one.kind, site=one.site, seq=one.seq, stamp=one.stamp, size=1, mentions=ranges, at=one.at, data=one.data,
                     looks=one.looks, text=one.text)


def joined(some: Iterable[Operation], ons: Sequence[bytes] = ()) -> tuple[Operation, ...]:
    """Operations, letters typed one after the other in one, as chunks are read."""
    found = list[Operation]()
    for one in some:
        last = found[-1] if found else None
        if last and last.data and len(one.data) == 1 and len(last.data) == last.size and one.looks == last.looks and (
                one.seq, one.stamp, one.at) == (last.seq + last.size, last.stamp + last.size, last.at + last.size) and (
                one.mentions == (Names(one.site, one.at - 1, 1),)):
            found[-1] = last._replace(size=last.size + 1, data=last.data + one.data)
        else:
            found.append(one)
    return tuple(found)


def record(note: Note, entry: Entry, secret: bytes) -> Record:
    """An entry as the quick program has it; of a base it is known what it began with."""
    head = entry.head
    one = Record(head.kind, head.author, head.site, head.text, head.first, head.size, head.before)
    if head.kind == Kind.OPENING:
        body = entry.body
        return one._replace(founding=Founding(body[:32], body[32:64], body[64:96], int.from_bytes(body[96:], "big")))
    if head.kind == Kind.CLAIM:
        return one._replace(rank=rank(note.identity, head.author, entry.counter))
    operations = joined(map(operation, entry.messages))
    if head.kind == Kind.BASE:
        return one._replace(operations=operations, links=tuple(base_hashes(secret, entry.messages, head.before)))
    return one._replace(operations=operations, hashes=tuple(said.hash for said in entry.says), ons=tuple(said.on for said in entry.says))


class Typed(Attacked):
    """A set in which letters are typed one after the other, also with one of them wrong, and others speak of them."""

    def type_on(self) -> None:
        """Some letters, of which one may have another place, stamp, cause or word of what it builds on than one that is typed on."""
        if (branch := self._leaf()) is None:
            return
        count, begin = self._chance.randint(2, 7), len(branch.said)
        wrong = self._chance.randrange(6 * count)
        for number in range(count):
            branch = self._letter(branch, self._chance.randrange(4) if number == wrong else None)
        self._send(branch, begin)

    def _letter(self, branch: Branch, wrong: int | None) -> Branch:
        """A branch with one more letter."""
        at, stamp, on = branch.length, branch.stamp + 1, b""
        cause = (branch.site, at - 1) if at else None
        if wrong == 0:
            at += 1
        elif wrong == 1:
            stamp = max(1, stamp + self._chance.choice([-2, -1, 1]))
        elif wrong == 2:
            cause = (branch.site, self._chance.randrange(at)) if at else None
        elif wrong == 3:
            on = bytes(32)
        message = inserting(branch.text, branch.site, branch.next_seq, stamp, cause, at, self._chance.choice([b"a", b"b"]))
        return branch.gone_on(self.note, message, on)


class Reader:
    """Opens a note's entries, each once."""

    def __init__(self, one: Set):
        self._secret = one.made.founding.secret
        self.entry = cache(lambda raw: opened(one.note, raw, ZERO_BITS))
        self.record = cache(lambda raw: record(one.note, self.entry(raw), self._secret))

    def judged(self, note: Note, raws: Iterable[bytes]) -> Answer:
        """What counts, as the plain program has it."""
        with mock.patch.object(second, "opened", lambda _, raw, __: self.entry(raw)):
            return second.judged(note, raws, ZERO_BITS)

    def records(self, raws: Iterable[bytes]) -> list[Record]:
        """Those that can be opened."""
        found = list[Record]()
        for raw in raws:
            try:
                found.append(self.record(raw))
            except Bad:
                pass
        return found


class Counting:
    """Follows what is told to count and to cease."""

    def __init__(self, one: Set):
        self.judge = MessageJudge(one.note.digest)
        self.counts: dict[Place, list[Operation]] = {}

    def turn(self) -> None:
        """Takes over what is otherwise, each message after its causes."""
        for text, turn in self.judge.count().items():
            for gone in reversed([*turn.ceased]):
                of = self.counts[gone.site, text]
                assert gone in of[gone.seq - 1:], gone
                del of[gone.seq - 1:]
            self._take(text, turn.counting)

    def _take(self, text: int, messages: Messages) -> None:
        for one in messages:
            of = self.counts.setdefault((one.site, text), [])
            assert one.seq == len(of) + 1, one
            for site, at, length in one.mentions:
                last = self.counts.get((site, text), [])
                assert sum(len(each.data) for each in last) >= at + length, one
            of.append(one)

    def shown(self) -> dict[Place, list[Operation]]:
        """What was told to count."""
        return {place: some for place, some in self.counts.items() if some}


def differences(answer: Answer, counting: Counting) -> list[str]:
    """Where the two programs differ."""
    judge, found = counting.judge, list[str]()
    expected = {place: [*map(operation, some)] for place, some in answer.counted().items()}
    if counting.shown() != expected:
        found.append("what is told to count")
    for text in {text for _, text in answer.through}:
        order = [*judge.in_order(text)]
        if sorted(order) != sorted(one for place, some in expected.items() if place[1] == text for one in some):
            found.append("what counts in order")
    for (site, text), through in answer.through.items():
        if [*judge.hashes(site, text)] != [one.hash for one in through]:
            found.append("whose hashes count")
    reasons = {of: why.name for of, (_, why) in answer.left_out.items()}
    if {of: reason.name for of in answer.said if (reason := judge.reason(of))} != reasons:
        found.append("why others don't")
    holders = {site: judge.holder(site) for site in answer.holders}
    if answer.base is not None and holders != answer.holders:
        found.append("who holds numbers")
    return found


def agrees(one: Set, reader: Reader, raws: Sequence[bytes], chance: random.Random) -> Answer:
    """Judges some entries in an order, in batches, with repeats, in both programs; what the plain one says."""
    answer, counting = reader.judged(one.note, raws), Counting(one)
    coming = [*raws, *chance.choices(raws, k=len(raws) // 4)] if raws else []
    chance.shuffle(coming)
    often = chance.choice([0.1, 0.5, 1])
    for each in reader.records(coming):
        counting.judge.add(each)
        if chance.random() < often:
            counting.turn()
    counting.turn()
    if found := differences(answer, counting):
        raise AssertionError(f"{found}: {one!r}, {[one.raws.index(raw) if raw in one.raws else raw for raw in coming]}")
    return answer


def a_set(chance: random.Random) -> Set:
    """A set as test_second_form makes them, of few steps or of more."""
    steps = ["claim"] * chance.choice([3, 6, 9]) + ["begin"] * chance.choice([2, 3]) + chance.choices(
        chance.choice([RIGHT + TYPING, STEPS + TYPING * 3, RIGHT + TYPING + ATTACKS]), k=chance.choice([4, 8, 14, 24]))
    return Typed([(step, chance.randrange(2**16)) for step in steps], chance.random() < 0.3)


def parts(one: Set, chance: random.Random) -> Iterable[list[bytes]]:
    """Parts of a set, whole and with some missing, folded, doubled or damaged."""
    yield one.raws
    folded = [raw for branch in one.branches if branch.is_chain for raw in cut(one.note, branch, chance)]
    for _ in range(TAKEN - 1):
        raws = [*one.raws, *(raw for raw in folded if chance.random() < 0.3)]
        keeps = chance.choice([0.7, 0.9, 0.97])
        some = [raw for raw in raws if chance.random() < keeps or raw in one.made.begin and chance.random() < 0.9]
        if chance.random() < 0.1 and some:
            raw = chance.choice(some)
            at = chance.randrange(len(raw))
            some.append(raw[:at] + bytes([raw[at] ^ 1]) + raw[at + 1:])
        yield some


def agreed(count: int, seed: int) -> tuple[Counter[str], int]:
    """Judges so many sets in both programs; how often messages didn't count, by reasons, and how many did."""
    chance, found, through, tried = random.Random(seed), Counter[str](), 0, 0
    while tried < count:
        one = a_set(chance)
        reader = Reader(one)
        for some in parts(one, chance):
            answer = agrees(one, reader, some, chance)
            agrees_on_records(one, answer, some, random.Random(tried))
            found.update(why.name for _, why in answer.left_out.values())
            through += sum(len(said) for (site, _), said in answer.through.items() if site not in COPIED)
            tried += 1
            if tried % SAID == 0:
                print(f"{tried} sets agreed", file=sys.stderr)
            if tried == count:
                break
    return found, through


if __name__ == "__main__":
    began, cpu = time.monotonic(), time.process_time()
    reasons_found, counted_messages = agreed(int(sys.argv[1]), int(sys.argv[2]))
    assert reasons_found.keys() <= {one.name for one in Reason}
    print(f"{sys.argv[1]} sets agreed in {time.monotonic() - began:.0f} s ({time.process_time() - cpu:.0f} s of a processor);"
          f" {counted_messages} messages counted; others by reasons: {dict(sorted(reasons_found.items()))}")
