"""Where threads are in the text: as it is when all is looked up anew, whatever was typed, deleted and brought back meanwhile. What a key
costs beside few remarks and very many is printed where VIALSHOAL_FIGURES is set, as `share/tests/run` doesn't."""
import itertools
import json
import os
import random
import unittest
from collections.abc import Callable
from contextlib import closing
from functools import partial
from typing import Any
from unittest import mock

from share.engine import margins, nearby
from share.engine.spots import Followed
from share.engine.whereabouts import Extent, Whereabouts
from share.format.history import Messages
from share.format.operation import length_after
from share.program.order import FullOrder
from share.program.site import Site
from share.review.anchor import anchored
from share.review.places import NameSet, Spans
from share.review.record import MarginKind, MarginRecord
from share.review.writing import lines_of
from share.tests.counting import instructions
from share.tests.editors import accepted
from share.tests.naive_margin import Inserted
from share.tests.test_margin import operation
from share.tests.test_review import Reviewed
from share.text.change import Change, make
from share.text.errors import Trouble
from share.text.line import Line
from share.text.names import Names, united

FIGURES = bool(os.environ.get("VIALSHOAL_FIGURES"))
# How many remarks are very many, as a key's work is counted beside them and within what they are about.
BESIDE, WITHIN = (100_000, 20_000) if FIGURES else (10_000, 3_000)


class Anew(Reviewed):
    """What is followed is what is found anew."""

    def test_at_random(self) -> None:
        for seed in range(6):
            with (mock.patch.object(nearby, "MOST_FOLLOWED", (2_000, 3)[seed % 2]),
                  mock.patch.object(margins, "MOST_IN_A_SLICE", (300, 1, 2)[seed % 3])):
                self._goes_on_at_random(random.Random(seed))

    def _goes_on_at_random(self, chance: random.Random) -> None:
        self.type(0, 0, " ".join(str(number) for number in range(40)))
        for _ in range(30):
            self._step(chance)
            if chance.random() < 0.4:
                begin = chance.randrange(len(self.text) + 1)
                end = chance.choice([begin, len(self.text), min(len(self.text), begin + 9)])
                wanted = [one["id"] for one in self._anew() if _meets(one, begin, end)]
                self.assertEqual([one["id"] for one in self.threads(begin=begin, end=end)], wanted)
            if chance.random() < 0.2:
                self.assertEqual(self.threads(), self._anew())
        self.assertEqual(self.threads(), self._anew())

    def _step(self, chance: random.Random) -> None:
        begin = chance.randrange(len(self.text) + 1)
        end = min(len(self.text), begin + chance.choice([0, 1, 5, 20]))
        threads = self.threads() if chance.random() < 0.5 else []
        what = chance.choice(["type", "type", "delete", "undo", "remark", "suggest", "answer"])
        number = chance.randrange(2)
        if what == "type":
            self.type(begin, begin, "x" * chance.randint(1, 4), number)
        elif what == "delete":
            self.type(begin, end, "", number)
        elif what == "undo":
            self.ask(chance.choice(["undo", "undo", "redo"]), number)
        elif what == "remark":
            self.ask("remark", number, begin=begin, end=end, body="?")
        elif what == "suggest":
            self.ask("suggest", number, begin=begin, end=end, new=chance.choice(["", "new"]) if begin < end else "new")
        elif threads:
            to = chance.choice(threads)["id"]
            self._answers(chance.choice(["accept", "accept", "accept", "resolve", "reject", "reopen", "withdraw"]), number, to)

    def _answers(self, does: str, number: int, to: str) -> None:
        if does == "accept":
            accepted(self.ask, number, to=to)
        else:
            self.ask(does, number, to=to)

    def test_within_what_many_are_about_at_random(self) -> None:
        for seed in range(6):
            with (mock.patch.object(nearby, "MOST_FOLLOWED", (2_000, 2_000, 5)[seed % 3]),
                  mock.patch.object(nearby, "MOST_TOLD_APART", (8, 1)[seed % 2]),
                  mock.patch.object(margins, "MOST_IN_A_SLICE", (300, 300, 2)[seed % 3])):
                self._within_at_random(random.Random(seed))

    def _within_at_random(self, chance: random.Random) -> None:
        self.type(0, 0, " ".join(str(number) for number in range(20)))
        for step in range(60):
            size = len(self.text)
            begin = chance.randrange(size + 1)
            end = min(size, begin + chance.choice([1, 1, 2, 9, size // 2]))
            number = chance.randrange(2)
            what = chance.choice(["type", "delete", "delete", "undo", "undo", "said", "answer"] + ["said"] * 9 * (step < 12))
            if what in ("type", "delete"):
                self.type(begin, begin if what == "type" else end, "x" * chance.randint(1, 3) if what == "type" else "", number)
            elif what == "undo":
                self.ask(chance.choice(["undo", "undo", "redo"]), number, begin=begin // 2, end=size)
            elif what == "said":
                self._says(chance)
            elif what == "answer" and (names := self.session().margin.said.threads()):
                to = "{}:{}".format(*chance.choice(names))
                self._answers(chance.choice(["accept", "accept", "reopen", "reject"]), number, to)
            note = self.engine._note
            assert note
            note.reviewing.shown.look()
            wanted = self._anew()
            self.assertEqual(note.reviewing.shown.counts(), (len(wanted), sum(one["state"] == "open" for one in wanted)))
            for size in 0, 1, 3:
                begin = chance.randrange(len(self.text) + 1)
                end = min(len(self.text), begin + size)
                self.assertEqual(self.threads(begin=begin, end=end), [one for one in wanted if _meets(one, begin, end)])
            if step % 7 == 5:
                self.assertEqual(self.threads(), wanted)
        self.assertEqual(self.threads(), self._anew())

    def _says(self, chance: random.Random) -> None:
        """Somebody says something of characters, whether they are shown or not, in whatever order."""
        session = self.session()
        lengths = {run.site: run.at + len(run.data) for run in session.site.history.runs() if run.data}

        def names(site: int) -> Names:
            at = chance.randrange(lengths[site])
            return Names(site, at, chance.choice([1, 5, lengths[site]]))
        found = [names(chance.choice([*lengths])) for _ in range(chance.choice([1, 1, 2, 4]))]
        found = [one._replace(length=min(one.length, lengths[one.site] - one.at)) for one in found]
        behind = chance.choice([(0, 0), (found[0].site, found[0].at), None, None])
        own = session.number in lengths and chance.random() < 0.5
        new = united([names(session.number) for _ in range(2)]) if own else []
        new = [one._replace(length=min(one.length, lengths[one.site] - one.at)) for one in new]
        kind = MarginKind.SUGGESTION if new or behind is None and chance.random() < 0.5 else MarginKind.REMARK
        anchor = anchored([] if behind else found, behind, new, "", session.margin.knows())
        session.margin.write(MarginRecord(kind, "Ann", 1, "", "?", anchor=anchor, new=tuple(new)))

    def _anew(self) -> list[Line]:
        """All threads, as one is told that asks for the first time."""
        note = self.engine._note
        assert note
        before, note.reviewing.shown = note.reviewing.shown, margins.ShownMargin(self.session())
        taken = self.session().margin
        texts = taken._taken_in._history, taken.of_text._history
        taken._taken_in._history = taken.of_text._history = None
        try:
            return self.threads()
        finally:
            note.reviewing.shown.close()
            note.reviewing.shown = before
            taken._taken_in._history, taken.of_text._history = texts

    def test_keys_are_answered_while_all_are_first_looked_at(self) -> None:
        worked = dict[int, list[int]]()
        for most in 100, 400:
            self._written(most)
            with mock.patch.object(margins, "MOST_IN_A_SLICE", 20), mock.patch.object(nearby, "MOST_FOLLOWED", 90):
                worked[most] = self._typing_as_all_are_looked_at()
            self.assertEqual(self.threads(), self._anew())
        (few, many) = worked.values()
        self.assertGreater(len(many), 4 * len(few))
        self.assertLess(max(many), 2 * max(few))

    def test_a_further_part_of_all_costs_what_it_has(self) -> None:
        worked = list[int]()
        for most in 100, 400:
            self._written(most)
            self.threads(most=1)
            peer, version = self.editors[0][0], self.editors[0][1].version
            asked = [json.dumps({"do": "remarks", "id": 2, "version": version, "from": 50, "most": 1}).encode()]
            worked.append(instructions(partial(self.engine.take, peer, asked)))
            self.meet()
            wanted = self._anew()
            self.assertEqual(self.threads(), wanted)
            thread = wanted[50]["id"]
            self.ask("resolve", to=thread)
            still = [one["id"] for one in wanted if one["id"] != thread and one["state"] == "open"]
            self.assertEqual([one["id"] for one in self.threads(open=True)], still)
            answer = self.ask("remarks", open=True, most=2, **{"from": 50})
            self.assertEqual(([one["id"] for one in answer["threads"]], answer["of"]), (still[50:52], len(still)))
        few, many = worked
        self.assertLess(many, 1.5 * few)

    def test_an_acceptance_is_taken_back_while_all_are_first_looked_at(self) -> None:
        worked = list[int]()
        for most in 100, 400:
            self.type(0, 0, "tea\n")
            thread = self.ask("suggest", begin=0, end=3, new="jam")["thread"]
            self._written(most)
            self.assertTrue(self.ask("accept", to=thread)["done"])
            peer, asked = self.editors[0][0], [json.dumps({"do": "undo", "id": 2}).encode()]
            with mock.patch.object(margins, "MOST_IN_A_SLICE", 20):
                self.session().margin.forget()
                worked.append(instructions(partial(self.engine.take, peer, asked)))
                self.assertTrue(self.session().margin.has_more())
            self.meet()
            self.assertTrue(self.text.startswith("tea\n"))
            self.assertEqual(next(one["state"] for one in self.threads() if one["id"] == thread), "open")
            # Whoever says something of it meanwhile is heard.
            self.ask("resolve", to=thread)
            self.assertEqual(next(one["state"] for one in self.threads() if one["id"] == thread), "resolved")
        few, many = worked
        self.assertLess(many, 2 * few)

    def _written(self, most: int) -> None:
        """Somebody remarks on the begin of each of some new lines; nobody looks at that."""
        session, names, end = self.session(), self.session().site.names, len(self.text)
        self.type(end, end, "".join(f"{number:03}\n" for number in range(most)))
        for number in range(most):
            anchor = anchored(names(end + 4 * number, end + 4 * number + 3), None, [], "", session.margin.knows())
            session.margin.write(MarginRecord(MarginKind.REMARK, "Ann", number, "", "?", anchor=anchor))

    def _typing_as_all_are_looked_at(self) -> list[int]:
        """An editor asks for what is remarked at the begin, and types until that is answered; how much work each key is with the turn in
        which it is answered."""
        note, peer, counts = self.engine._note, self.editors[0][0], list[int]()
        assert note
        note.reviewing.shown = margins.ShownMargin(self.session())
        self.addCleanup(note.reviewing.shown.close)
        self.session().margin.forget()
        version = self.editors[0][1].version
        self.engine.take(peer, [json.dumps({"do": "remarks", "id": 1, "version": version, "begin": 0, "end": 8}).encode()])
        while peer.waits:
            counts.append(instructions(self._key))
        self.assertEqual(note.reviewing.shown.counts()[0], len(self.session().margin.said))
        return counts

    def _key(self) -> None:
        """An editor types a character, which is answered."""
        peer, mirror, sent, asked = self.editors[0]
        mirror.edit([(len(mirror.text), len(mirror.text), "x")])
        self.engine.take(peer, asked)
        self.engine.turn()
        lines = [*map(json.loads, sent)]
        sent.clear()
        self.assertEqual(lines[0], {"answer": "edit", "edits": mirror.made, "version": mirror.version})
        for line in lines:
            mirror.take(line)

    def test_after_a_fault(self) -> None:
        self.type(0, 0, "one two three\n")
        for words in "one", "two", "three":
            self.remark(words)
        edits = {"something comes within the first one": (1, 1, "x"), "all of it goes": (0, 4, "")}
        for (what, edit), fault in zip(edits.items(), ("share.engine.whereabouts.Site.where", "share.program.order.Site.take")):
            with self.subTest(what):
                self.threads()
                self.type(*edit)
                with mock.patch(fault, side_effect=Trouble("The program ended.")):
                    self.assertEqual(self.ask("remarks")["error"], "failed")
                self.assertEqual(self.threads(), self._anew())

    def test_a_key_and_a_stretch_cost_the_same_among_very_many(self) -> None:
        self.type(0, 0, "".join(f"{number:05}\n" for number in range(2_000)))
        note, peer = self.engine._note, self.editors[0][0]
        assert note
        peer.sees_remarks = True
        self.ask("remarks")
        shown, said = note.reviewing.shown, self.session().margin.said
        site, knows = self.session().site, self.session().margin.knows()
        # What many are about isn't within the stretch.
        anchors = [anchored(site.names(6 * number, 6 * number + 5), None, [], "", knows) for number in range(100, 2_000)]
        worked, made = dict[str, list[int]](), 0
        for most in 10, BESIDE:
            while made < most:
                one = MarginRecord(MarginKind.REMARK, "Ann", made, "", "why?", anchor=anchors[made % len(anchors)])
                (data,) = lines_of(one, 9, 300 * made)
                shown._touch(said.add(operation(Inserted(9, 300 * made, made + 1, data))))
                made += 1
            shown.look()
            self.assertEqual(shown.counts(), (most, most))
            self.ask("remarks", begin=0, end=40)
            works: dict[str, Callable[[], object]] = {
                "key": partial(self.type, 3, 3, "x"), "deleted": partial(self.type, 0, 1, ""),
                "stretch": partial(self.ask, "remarks", begin=0, end=40)}
            for name, work in works.items():
                worked.setdefault(name, []).append(instructions(work))
        self.assertEqual(shown.counts(), (BESIDE, BESIDE))
        for counted, (few, many) in worked.items():
            if FIGURES:
                print(f"{counted}: {few} instructions beside 10 remarks, {many} beside {BESIDE:,}")
            self.assertLess(many, 1.1 * few, counted)

    def test_a_key_within_what_very_many_remarks_are_about_costs_the_same(self) -> None:
        self._costs_the_same(lambda number: (number % 150, 500 - number % 149), MarginKind.REMARK)

    def test_a_key_within_what_very_many_would_delete_costs_the_same(self) -> None:
        self._costs_the_same(lambda _: (0, 500), MarginKind.SUGGESTION)

    def test_a_key_within_what_many_would_delete_in_parts_costs_the_same(self) -> None:
        self._costs_the_same(lambda number: (number % 150, 500 - number % 149), MarginKind.SUGGESTION)

    def _costs_the_same(self, stretch: Callable[[int], tuple[int, int]], kind: MarginKind) -> None:
        """A key costs the same however many are about what is around it."""
        self.type(0, 0, "".join(f"{number:04}\n" for number in range(120)))
        note = self.engine._note
        assert note
        self.editors[0][0].sees_remarks = True
        shown, site = note.reviewing.shown, self.session().site
        worked = dict[str, list[tuple[int, int]]]()
        for most, before in (10, 0), (WITHIN, 10):
            self._remarked([site.names(*stretch(number)) for number in range(before, most)], kind)
            many = shown.counts()[1]
            # Where each is has to be looked for once.
            self.ask("remarks", most=1)
            works: dict[str, Callable[[], object]] = {
                "deleted": partial(self.type, 300, 301, ""), "deleted again": partial(self.type, 300, 301, ""),
                "typed": partial(self.type, 300, 300, "x"), "undone": partial(self.ask, "undo"), "undone again": partial(self.ask, "undo"),
                "shown elsewhere": partial(self.ask, "remarks", begin=len(self.text) - 1, end=len(self.text))}
            for name, work in works.items():
                worked.setdefault(name, []).append(self._work(work))
            self.assertEqual(shown.counts()[1], many)
        for name, (few, many_more) in worked.items():
            # Of which of those that would be deleted one is shown may be asked again, at once.
            self.assertLessEqual(many_more[1], few[1] + 1, f"what was asked: {name}")
            self.assertLess(many_more[0], 2 * few[0], f"work: {name}")

    def _remarked(self, many: list[list[Names]], kind: MarginKind) -> None:
        """Somebody says something of each of these characters."""
        note = self.engine._note
        assert note
        said, knows = self.session().margin.said, self.session().margin.knows()
        made = len(said)
        for number, names in enumerate(many, made):
            one = MarginRecord(kind, "Ann", number, "", "why?", anchor=anchored(names, None, [], "", knows))
            (data,) = lines_of(one, 9, 300 * number)
            note.reviewing.shown._touch(said.add(operation(Inserted(9, 300 * number, number + 1, data))))
        note.reviewing.look()

    def _work(self, work: Callable[[], object]) -> tuple[int, int]:
        """How many instructions some work takes, and how many events the program is asked for."""
        asked, ask = list[int](), Site._ask

        def asks(site: Site, events: list[bytes]) -> Any:
            asked.append(len(events))
            return ask(site, events)
        with mock.patch.object(Site, "_ask", asks):
            worked = instructions(work)
        return worked, sum(asked)


def _meets(one: Line, begin: int, end: int) -> bool:
    if "begin" not in one:
        return False
    if one["begin"] == one["end"] or begin == end:
        return bool(one["begin"] <= end and begin <= one["end"])
    return bool(one["begin"] < end and begin < one["end"])


class Hidden(unittest.TestCase):
    """Where hidden characters would be shown."""

    def test_where_they_are_as_they_are_shown_again(self) -> None:
        chance, order = random.Random(1), FullOrder()
        self.addCleanup(order.close)
        with closing(Site(5)) as site, closing(Site(6)) as other:
            for _ in range(25):
                for one, two in (site, other), (other, site):
                    before = len(one.history)
                    for _ in range(3):
                        size = len(one.text())
                        at = chance.randint(0, size)
                        if chance.random() < 0.5:
                            one.insert(at, b"x" * chance.randint(1, 5))
                        else:
                            one.cut(at, min(size, at + chance.randint(0, 9)))
                    two.take(Messages(one.history[before:]))
                lengths = {name: length_after((run for run in site.history.runs() if run.site == name), 0) for name in (5, 6)}
                order.take(site.history, site.history[:])
                for name in (5, chance.randrange(lengths[5])), (6, chance.randrange(lengths[6])):
                    (shown,) = site.where([Names(*name, 1)])
                    wanted = shown[0].position if shown else None
                    if wanted is None:
                        with closing(Site(7, site.history)) as again:
                            again.restore([Names(*name, 1)])
                            wanted = again.where([Names(*name, 1)])[0][0].position
                    self.assertEqual(order.place(name, site), wanted)
            self.assertIsNone(order.place((5, lengths[5]), site))

    def test_a_program_that_could_not_take_all_in_begins_anew(self) -> None:
        order = FullOrder()
        self.addCleanup(order.close)
        with closing(Site(5)) as site:
            site.insert(0, b"abc")
            order.take(site.history, site.history[:])
            site.insert(1, b"xy")
            site.cut(1, 2)
            with mock.patch.object(Site, "take", side_effect=Trouble("It ended.")), self.assertRaises(Trouble):
                order.take(site.history, site.history[:])
            order.take(site.history, site.history[:])
            self.assertEqual([order.place((5, at), site) for at in range(5)], [0, 2, 3, 1, 1])


class Sets(unittest.TestCase):
    """Names and stretches, as they are found one by one."""

    def test_names_at_random(self) -> None:
        for seed in range(200):
            chance, names, plain = random.Random(seed), NameSet(), set[tuple[int, int]]()
            for _ in range(20):
                one = Names(chance.randint(1, 2), chance.randrange(30), chance.randint(1, 6))
                each = {(one.site, one.at + number) for number in range(one.length)}
                self.assertEqual(names.meets([one]), bool(each & plain))
                lacks = [(some.site, some.at + number) for some in names.lacks([one]) for number in range(some.length)]
                self.assertEqual((len(lacks), {*lacks}), (len(each - plain), each - plain))
                if chance.random() < 0.5:
                    names.add([one])
                    plain |= each

    def test_stretches_at_random(self) -> None:
        for seed in range(200):
            chance = random.Random(seed)
            begins = chance.choices(range(-2, 30), k=seed % 20)
            spans = [(begin, begin + chance.randint(1, 9), number) for number, begin in enumerate(begins)]
            found = Spans(spans)
            for _ in range(20):
                begin = chance.randrange(30)
                end = begin + chance.randint(1, 9)
                self.assertEqual(sorted(found.meeting(begin, end)), [of for first, last, of in spans if first < end and begin < last])

    def test_where_characters_are_at_random(self) -> None:
        with closing(Site(5)) as site, closing(Site(6)) as other:
            chance = random.Random(1)
            for _ in range(30):
                for one, two in (site, other), (other, site):
                    before, size = len(one.history), len(one.text())
                    one.insert(chance.randint(0, size), b"x" * chance.randint(1, 5))
                    one.cut(at := chance.randint(0, size), min(size, at + chance.randint(0, 2)))
                    two.take(Messages(one.history[before:]))
            some = [Names(chance.choice([5, 6]), chance.randrange(60), chance.choice([1, 3, 30])) for _ in range(100)]
            found = Whereabouts(some, site)
            for names, answer in zip(some, site.where(some)):
                places = [at for one in answer for at in range(one.position, one.position + len(one.data))]
                wanted = Extent(min(places), max(places) + 1, len(places), len(answer) == 1) if places else None
                self.assertEqual(found.of(names), wanted)
                shown = [(names.site, one.at + number) for one in answer for number in range(len(one.data))]
                self.assertEqual([found.some([names], which) for which in range(len(shown))], shown)
                self.assertEqual(found.some([names], 7) is None, not shown)


class Following(unittest.TestCase):
    """Where characters are after changes."""

    def test_at_random(self) -> None:
        for seed in range(300):
            chance = random.Random(seed)
            size = chance.randint(0, 30)
            text, changes = bytearray(range(size)), list[Change]()
            for _ in range(chance.randint(0, 8)):
                begin = chance.randint(0, len(text))
                end = min(len(text), begin + chance.choice([0, 0, 1, 3]))
                changes.append(Change(begin, end, b"\xff" * chance.choice([0, 0, 1, 4])))
                make(text, [changes[-1]])
            followed = Followed(changes)
            self.assertEqual([followed.now(at) for at in range(size)], [text.find(at) if at in text else None for at in range(size)])
            for begin, end in itertools.product(range(-1, size), range(1, size + 2)):
                if begin >= end:
                    continue
                low, high = followed.around(begin, end)
                kept = [at for at in range(size) if at in text]
                before = max((at for at in kept if at <= begin), default=None)
                after = min((at for at in kept if at >= end - 1), default=None)
                self.assertEqual(low, -1 if before is None else text.index(before), (seed, begin, end))
                self.assertGreaterEqual(high, len(text) if after is None else text.index(after) + 1, (seed, begin, end))
            for begin in range(len(text) + 1):
                for end in range(begin, len(text) + 1):
                    low, high = followed.before(begin, end)
                    near = text[max(0, begin - 1):end + 1]
                    self.assertTrue(all(low <= at <= high for at in near if at != 0xFF), (seed, begin, end))
                    # All that was between those beside it, too.
                    self.assertTrue(all(low <= at <= high for at in range(size)
                                        if near.count(0xFF) < len(near) and min(one for one in near if one != 0xFF) <= at
                                        <= max(one for one in near if one != 0xFF)), (seed, begin, end))


if __name__ == "__main__":
    unittest.main()
