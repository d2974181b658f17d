"""Whether the quick program agrees with the plain ones on what is told of sets of records: what counts, what was left out and what waits.
Records are opened as those of a note are."""
import random
from collections import Counter
from collections.abc import Iterable, Iterator, Sequence, Set
from functools import cache

from share.admission.ledger import Row
from share.admission.record_judge import RecordJudge
from share.admission.runs import runs
from share.format.entry import Bad, Entry
from share.format.second.form import PlainRecords
from share.format.second.record import Record
from share.sync.backlog import Backlog
from share.tests import naive_told
from share.tests.naive_second import Answer, Saying, is_loose
from share.tests import second_sets
from share.tests.second_sets import ZERO_BITS


class Judged:
    """Records of a set as they come, and what is told of them."""

    def __init__(self, one: second_sets.Set):
        self.form = PlainRecords(one.note.key, ZERO_BITS)
        self.judge = RecordJudge(form=self.form)
        self.opened, self.extended = cache(self.form.open), 0

    def come(self, records: Iterable[Record]) -> None:
        """Adds records as they are read in a page of a file: those that follow one another in one step, where that is the same."""
        rows = self.judge.unknown(Row(0, record, False) for record in {record.hash: record for record in records}.values())
        for run in runs(rows):
            if len(run) > 1 and self.judge.extend(run):
                self.extended += len(run)
                continue
            for row in run:
                self.judge.add_new(row)

    def records(self, raws: Sequence[bytes]) -> list[Record]:
        """Those that can be opened."""
        found = list[Record]()
        for raw in raws:
            try:
                found.append(self.opened(raw))
            except Bad:
                pass
        return found


def in_parts(records: Sequence[Record], chance: random.Random) -> Iterator[Sequence[Record]]:
    """Records one by one, or some at once."""
    most, begin = chance.choice([1, 4, 20]), 0
    while begin < len(records):
        end = begin + chance.randint(1, most)
        yield records[begin:end]
        begin = end


def stretches(some: Sequence[Saying]) -> Counter[tuple[int, int, bytes, int]]:
    """How often each place of an author is among messages: of a number with two histories two have one seq."""
    return Counter((one.message.text, one.message.site, one.author, one.message.seq) for one in some)


def told_differences(answer: Answer, judge: RecordJudge) -> list[str]:
    """Where what is told differs."""
    found, lost = list[str](), naive_told.told(answer)
    left = judge.left_out()
    if Counter((one.text, one.site, one.author, seq) for one in left for seq in range(one.first, one.last + 1)) != stretches(lost):
        found.append("what was left out")
    if sum(one.characters for one in left) != sum(len(one.message.data) for one in lost):
        found.append("how many characters were left out")
    if judge.incomplete() != naive_told.incomplete(answer):
        found.append("how much waits")
    return found


def kept_differences(answer: Answer, judge: RecordJudge) -> list[str]:
    """Where it differs which records have messages that don't count, and which of them hold others up."""
    found, through = list[str](), {one.hash for some in answer.through.values() for one in some}
    for who in {(one.message.site, one.author) for one in answer.said.values()}:
        own = {one.hash for one in answer.said.values() if (one.message.site, one.author) == who} - through
        loose = {of for of in own if is_loose(answer, answer.said[of])}
        if not have(judge.not_counting(*who), own - loose) or not have((row.entry for row in judge.not_through(*who)), own):
            found.append("which records don't count")
    for site, text in answer.through:
        blocked = naive_told.is_blocked(answer, (site, text)) and site not in answer.base_sites
        held = {one.hash for one in naive_told.held_up(answer, (site, text), answer.entries)} if blocked else set()
        if not have(judge.held_up(site, text), held):
            found.append("what is held up")
    return found


def have(records: Iterable[Entry], messages: Set[bytes]) -> bool:
    """Whether records have all of some messages, and each has one of them."""
    hashes = [{*record.hashes} for record in records if isinstance(record, Record)]
    return all(some & messages for some in hashes) and messages <= {of for some in hashes for of in some}


def record_differences(answer: Answer, judge: RecordJudge) -> list[str]:
    """Where the two programs differ."""
    found = told_differences(answer, judge) + kept_differences(answer, judge)
    for (site, text), through in answer.through.items():
        if judge.front(site, text) != len(through) or [judge.entry_of(site, seq, text) for seq in range(1, len(through) + 2)] != [
                *(one.hash for one in through), None]:
            found.append("whose messages count")
        if judge.length(site, text) != sum(len(one.message.data) for one in through):
            found.append("how long a file is")
    return found


def agrees_on_records(one: second_sets.Set, answer: Answer, raws: Sequence[bytes], chance: random.Random) -> RecordJudge:
    """Judges some entries, of which the plain program says this, in an order, in batches, with repeats."""
    judged = Judged(one)
    coming = [*raws, *chance.choices(raws, k=len(raws) // 4)] if raws else []
    if chance.random() < 0.7:
        chance.shuffle(coming)
    often = chance.choice([0, 0.1, 0.5, 1])
    for some in in_parts(judged.records(coming), chance):
        judged.come(some)
        if chance.random() < often:
            judged.judge.count()
        if chance.random() < often:
            judged.judge.left_out()
            judged.judge.incomplete()
    if found := record_differences(answer, judged.judge):
        raise AssertionError(f"{found}: {one!r}, {[one.raws.index(raw) if raw in one.raws else raw for raw in coming]}")
    return judged.judge


def with_little_room(one: second_sets.Set, raws: Sequence[bytes], room: int | None, chance: random.Random) -> RecordJudge:
    """What has records as they come, with room for some bytes of what doesn't count, and reads what was dropped again as soon as it may
    have its turn."""
    form, backlog = PlainRecords(one.note.key, ZERO_BITS), Backlog()
    judge, records = RecordJudge(form=form, room=room), Judged(one).records(raws)
    for place, entry in enumerate(records):
        judge.add(entry, place)
        backlog.add(judge.dropped())
        if chance.random() < 0.5 or place == len(records) - 1:
            judge.count()
            while turns := judge.turns():
                for again in backlog.take(turns):
                    judge.add(records[again], again)
                    backlog.add(judge.dropped())
                judge.count()
    return judge
