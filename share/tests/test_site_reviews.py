"""What a relay's page has of a note over the core, in Node, beside what Python judges and an engine tells: which messages count of sets
with forks, folds and forged entries, which don't for good, and the threads of margins that people edit at random."""
import json
import pathlib
import random
import subprocess
import unittest
from collections import Counter
from typing import Any

from share.admission.record_judge import RecordJudge
from share.format.entry import Bad
from share.format.second.form import PlainRecords
from share.format.second.record import Record, RecordKind
from share.relay.page_files import PAGE_FOLDER, core_path
from share.tests import second_sets
from share.tests.editors import accepted
from share.tests.second_agreement import a_set, parts
from share.tests.second_sets import RIGHT
from share.tests.test_review import Reviewed
from share.text.line import Line
from share.text.names import Names

HERE = pathlib.Path(__file__).parent
SETS, SEEDS, STEPS = 20, 4, 60


class Page:
    """A process of Node with the modules."""

    def __init__(self) -> None:
        words = ["node", "--no-warnings", str(HERE / "site_margin.mjs"), str(PAGE_FOLDER), str(core_path())]
        self._node = subprocess.Popen(words, text=True, stdin=subprocess.PIPE, stdout=subprocess.PIPE)

    def asked(self, what: str, form: PlainRecords, records: list[Record]) -> Any:
        """What the page has of some records."""
        assert self._node.stdin and self._node.stdout
        words = {"do": what, "key": form.keys.key.hex(), "identity": records[0].note.hex(), "raws": [one.raw.hex() for one in records]}
        self._node.stdin.write(json.dumps(words) + "\n")
        self._node.stdin.flush()
        return json.loads(self._node.stdout.readline())

    def close(self) -> None:
        """Ends it."""
        self._node.communicate()


@unittest.skipUnless(core_path(), "the core isn't here as WebAssembly (bin/library --wasm)")
class Counting(unittest.TestCase):
    """Which messages count."""

    def test_as_python_judges(self) -> None:
        page, chance, many = Page(), random.Random(5), 0
        self.addCleanup(page.close)
        for _ in range(SETS):
            one = a_set(chance)
            form = PlainRecords(one.note.key, second_sets.ZERO_BITS)
            for raws in parts(one, chance):
                records = opened(form, raws)
                judge = RecordJudge(form=form)
                for each in records:
                    judge.add(each)
                if not judge.begun() or not any(each.kind is RecordKind.OPENING for each in records):
                    continue
                judge.let_through()
                chance.shuffle(records)
                many += 1
                self.assertEqual(page.asked("counts", form, records), counting(judge), (one, records))
        self.assertGreater(many, SETS)


@unittest.skipUnless(core_path(), "the core isn't here as WebAssembly (bin/library --wasm)")
class LeftOut(unittest.TestCase):
    """Which messages don't count for good."""

    def test_as_python_tells(self) -> None:
        page, chance, many = Page(), random.Random(6), Counter[bool]()
        self.addCleanup(page.close)
        for _ in range(SETS):
            # Of what is said of copies a page knows nothing.
            steps = [*RIGHT, *RIGHT, "fork", "fork", "say_anew", "forge", "leap"]
            one = second_sets.Set([(chance.choice(steps), chance.randrange(2**31)) for _ in range(chance.randint(10, 40))], False)
            form = PlainRecords(one.note.key, second_sets.ZERO_BITS)
            for raws in parts(one, chance):
                records, judge = opened(form, raws), RecordJudge(form=form)
                for each in records:
                    judge.add(each)
                if not judge.begun():
                    continue
                chance.shuffle(records)
                wanted = Counter((left.text, left.site, left.author.hex(), seq) for left in judge.left_out()
                                 for seq in range(left.first, left.last + 1))
                self.assertEqual(Counter(map(tuple, page.asked("leftOut", form, records))), wanted, (one, records))
                many[bool(wanted)] += 1
        self.assertGreater(min(many[True], many[False]), SETS // 4)


def opened(form: PlainRecords, raws: list[bytes]) -> list[Record]:
    """Those that are entries of the note."""
    found = list[Record]()
    for raw in raws:
        try:
            found.append(form.open(raw))
        except Bad:
            pass
    return found


def counting(judge: RecordJudge) -> list[list[object]]:
    """Of each text and number how many messages count, what their characters are, and what inserted each, as a page says it."""
    found: list[list[object]] = []
    for text in 1, 2:
        for site in sorted({*second_sets.SITES, *second_sets.COPIED}):
            front = judge.front(site, text)
            if front:
                length = judge.length(site, text)
                hashes = [judge.inserter((site, at), text) or b"" for at in range(length)]
                data = (judge.inserted(Names(site, 0, length), text) or b"") if length else b""
                found.append([text, site, front, True, ["" if judge.is_of_base(site) else each.hex() for each in hashes], data.hex()])
    return found


@unittest.skipUnless(core_path(), "the core isn't here as WebAssembly (bin/library --wasm)")
class Threads(Reviewed):
    """What is told of threads."""

    def test_as_an_engine_tells_them(self) -> None:
        page, states = Page(), set[str]()
        self.addCleanup(page.close)
        for seed in range(SEEDS):
            self._step_on(random.Random(seed))
            session = self.session()
            form, records = session._form, [row.entry for row in session._holdings.judge.rows() if isinstance(row.entry, Record)]
            assert isinstance(form, PlainRecords)
            wanted = self.threads()
            found = page.asked("threads", form, records)
            self.assertEqual([as_engine(one) for one in found], [as_engine(one) for one in wanted], seed)
            self._has_the_same_history(page.asked("history", form, records))
            states.update(one["state"] for one in wanted)
            states.update(name for one in wanted for name in ("gone", "changed", "replies") if name in one)
        self.assertEqual(states, {"open", "accepted", "rejected", "resolved", "taken", "gone", "changed", "replies"})

    def _has_the_same_history(self, found: Any) -> None:
        """That the page has the steps of the engine, and at each place the text."""
        wanted = self.ask("history")
        self.assertEqual((found["length"], found["steps"]), (wanted["length"], [
            {name: value for name, value in one.items() if name not in ("own", "name")} for one in wanted["steps"]]))
        for at in range(0, wanted["length"] + 1, 7):
            self.assertEqual(found["texts"][at], self.ask("past", at=at)["text"], at)

    def _step_on(self, chance: random.Random) -> None:
        self.type(0, 0, " ".join(str(number) for number in range(40)))
        for _ in range(STEPS):
            begin = chance.randrange(len(self.text) + 1)
            end = min(len(self.text), begin + chance.choice([0, 1, 5, 20]))
            what = chance.choice(["type", "type", "delete", "undo", "remark", "suggest", "answer", "answer"])
            if what in ("type", "delete"):
                self.type(begin, begin if what == "type" else end, "x\u00e9" if what == "type" else "", chance.randrange(2))
            elif what == "undo":
                self.ask(chance.choice(["undo", "undo", "redo"]), chance.randrange(2))
            elif what == "remark":
                self.ask("remark", begin=begin, end=end, body=chance.choice(["?", "long " * 2_000]))
            elif what == "suggest":
                self.ask("suggest", begin=begin, end=end, new=chance.choice(["", "new"]) if begin < end else "new")
            elif threads := self.threads():
                to = chance.choice(threads)["id"]
                does = chance.choice(["accept", "accept", "resolve", "reject", "reopen", "withdraw", "reply", "revise"])
                if does == "accept":
                    accepted(self.ask, to=to)
                else:
                    self.ask(does, to=to, body="so")


def as_engine(line: Line) -> Line:
    """A thread without what says whose it is."""
    return {**{name: value for name, value in line.items() if name != "own"},
            "replies": [{name: value for name, value in reply.items() if name != "own"} for reply in line.get("replies", [])]}


if __name__ == "__main__":
    unittest.main()
