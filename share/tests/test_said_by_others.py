"""Whatever somebody with the link says of messages, in whatever order it comes: who has it open, or prints it, goes on."""
import random
import unittest
from collections.abc import Iterable, Sequence

from hypothesis import given

from share.admission.judging import Judging
from share.admission.ledger import Row, Who
from share.format.entry import Author, Entry, Form
from share.format.second.form import PlainRecords
from share.format.second.record import Record
from share.program import retyping
from share.store.own import Client
from share.sync.handover import Handover
from share.sync.hiding import wanted
from share.sync.lost import who
from share.sync.state import Holdings
from share.tests import test_judge
from share.tests.record_agreement import Judged
from share.tests.second_agreement import Typed
from share.tests.second_sets import SITES, ZERO_BITS
from share.tests.test_judge import AUTHORS, FORM, History, handed, histories
from share.tests.test_message_judge import SEEDS, sets, tries

# How often somebody looks, of each entry that comes; how much is asked each time; and the most messages of which an editor says at once
# that they are copies.
LOOKS, ASKED, MOST_SAID_HERE = 0.15, 20, 1_000
SAYING = ["write"] * 4 + ["fork"] * 3 + ["say_copied"] * 5 + ["claim", "say_made_anew", "forge"]


class SaidByOthers(unittest.TestCase):
    """Somebody's entries and those of all others, as an editor has them."""

    @tries(40)
    @given(sets(), SEEDS)
    def test_all_that_is_asked_is_answered(self, one: Typed, seed: int) -> None:
        chance = random.Random(seed)
        records = Judged(one).records(chance.sample(one.raws, len(one.raws)))
        own = [(site, author.name) for author, site in zip(one.authors, SITES)]
        self.come(PlainRecords(one.note.key, ZERO_BITS), records, own, chance)

    @tries(40)
    @given(histories(SAYING), SEEDS)
    def test_and_in_the_first_form(self, history: History, seed: int) -> None:
        chance = random.Random(seed)
        own = [(site, author.name) for author, site in zip(AUTHORS, test_judge.SITES)]
        self.come(FORM, handed([*history.entries], chance), own, chance)

    def come(self, form: Form, entries: Sequence[Entry], numbers: Iterable[Who], chance: random.Random) -> None:
        """Entries come to who has two of the numbers, and made some of what is under these."""
        holdings = Holdings(form, Handover())
        for site, name in chance.sample([*numbers], 2):
            client = Client(site, Author(name, b""), stood=True, retired=chance.random() < 0.5)
            holdings.clients[who(client)] = client
        for place, entry in enumerate(entries, 1):
            if entry.hash not in holdings.judge:
                holdings._add(Row(place, entry, who(entry) in holdings.clients and chance.random() < 0.7 and can_be_made(entry)))
            if chance.random() < LOOKS or place == len(entries):
                self.look(holdings)
                for _ in range(ASKED):
                    self.ask(holdings.judge, entries, chance)

    def look(self, holdings: Holdings) -> None:
        """What an editor does in each turn, and as something was lost."""
        holdings.count()
        for look in (holdings.lost, holdings.left_out, holdings.broken, holdings.waited_for, holdings.fronts_of_copies):
            look()
        for text in 1, 2:
            wanted(holdings, text)
        retyping.as_lines(retyping.left_out(holdings.judge, holdings.anew), set())
        for lost in retyping.lost(holdings.judge, holdings.anew):
            self.assertTrue(lost.messages)

    def ask(self, judge: Judging, entries: Sequence[Entry], chance: random.Random) -> None:
        """What others' words may have somebody ask."""
        entry, other = chance.choices(entries, k=2)
        names = [name for one in (entry, other) for name in (one.before, *(one.names if isinstance(one, Record) else (one.hash,)))]
        last, seq = chance.choice(names), chance.choice([1, 2, 3, 9, 2**32 - 1])
        site, text = other.site, chance.choice([1, 2, 3])
        found, name = judge.message_in(last, seq), judge.name_in(last, seq)
        self.assertEqual((found is None, found.seq if found else seq), (name is None, seq))
        judge.front_up_to(entry.author, site, last, text)
        self.assertIn(judge.is_chained(chance.choice(names), last), (True, False))
        if judge.message_counts(entry.author, site, seq, text):
            self.assertEqual(judge.message(site, seq, text).seq, seq)
        if entry.size and entry.kind.has_messages and entry.hash in judge:
            self.assertLessEqual({*judge.not_copied(entry)}, {*entry.messages})


def can_be_made(entry: Entry) -> bool:
    """Whether an editor may have made what somebody says."""
    return not entry.kind.says_copies or max(many for _, _, many in entry.copied.stretches) <= MOST_SAID_HERE


if __name__ == "__main__":
    unittest.main()
