"""What a margin says: the quick program says what the plain one does, whatever was inserted in whatever order, and however hostile; and
what comes costs the same however much there is."""
import json
import os
import random
import time
import unittest
from collections.abc import Callable, Iterable, Sequence
from hashlib import sha256
from typing import Any

from hypothesis import HealthCheck, given, settings
from hypothesis import strategies as st

from share.format.operation import INSERT, PLAIN_LOOKS, Operation
from share.review.anchor import MOST_ANCHORED, Knows, anchored, holds
from share.review.margin import Margin, Remark, Thread
from share.review.places import NameIndex
from share.review.record import MARGIN, MOST_OF_A_LINE, Anchor, MarginKind, MarginRecord, MarginState, Ref, read_line, sum_of
from share.review.writing import lines_of
from share.tests.counting import instructions
from share.tests.naive_margin import Fields, Inserted, naive_record, naive_threads
from share.text.errors import Trouble
from share.text.names import Name, Names

TIMES = int(os.environ.get("VIALSHOAL_EXAMPLES", "0"))
SITES = range(1, 5)
# How much more may be done for one of very many.
MOST_TIMES = 1.1


def tries(count: int) -> settings:
    """That a test tries so many examples, the same ones each time unless more are asked for."""
    return settings(max_examples=count * max(TIMES, 1), derandomize=not TIMES, database=None, deadline=None,
                    suppress_health_check=list(HealthCheck))


def line(fields: Any, end: bytes = b"\n") -> bytes:
    """A line of a margin."""
    return json.dumps(fields, ensure_ascii=False, separators=(",", ":")).encode("utf-8", "surrogatepass") + end


def begun(kind: str = "remark", **more: object) -> Fields:
    """The fields of a remark, or of a suggestion."""
    new: Fields = {"new": [[1, 8, 2]]} if kind == "suggestion" else {}
    return {"v": 1, "is": kind, "by": "Ann", "time": 5, "at": [[1, 2, 3]], "saw": {"1": "0" * 16}, "text": "text", "sum": "1" * 16,
            "body": "a body", **new, **more}


def answer(kind: str, of: Sequence[object], **more: object) -> Fields:
    """The fields of what names another record."""
    own: dict[str, Fields] = {"reply": {"body": "an answer"}, "state": {"state": "resolved"}, "revised": {"body": "better"},
                              "more": {"part": 1, "body": " and more"}}
    return {"v": 1, "is": kind, "by": "Bob", "time": 6, "of": of, **own.get(kind, {}), **more}


class Typed:
    """Insertions that several sites make at random: right records, forged ones, and rubbish."""

    def __init__(self, chance: random.Random):
        self._chance, self.all = chance, list[Inserted]()
        self._ats, self._stamps = dict.fromkeys(SITES, 0), dict.fromkeys(SITES, 0)

    def put(self, data: bytes) -> None:
        """Somebody inserts bytes, knowing of all before or not."""
        site, chance = self._chance.choice(SITES), self._chance
        self._stamps[site] = max(self._stamps[site], chance.choice([0, *self._stamps.values()])) + chance.randint(1, 3)
        self.all.append(Inserted(site, self._ats[site], self._stamps[site], data))
        self._ats[site] += len(data)

    def ref(self) -> list[object]:
        """What names something that is there, or says so."""
        chance = self._chance
        if not self.all or chance.random() < 0.05:
            return [chance.choice(SITES), chance.randrange(99), "f" * 16]
        one = chance.choice(self.all)
        found: list[object] = [one.site, one.at, sum_of(one.data)]
        if chance.random() < 0.2:
            # It was typed anew under another number.
            found[0] = chance.choice(SITES)
        if chance.random() < 0.1:
            found[chance.randrange(3)] = chance.choice([0, 1, -1, "f" * 16, None, True, 1.5, 2.0, 2**70])
        return found

    def step(self) -> None:
        """One more insertion."""
        chance = self._chance
        kind = chance.choice(["remark", "suggestion", "reply", "reply", "state", "state", "taken", "revised", "more", "more", "wrong",
                              "again"])
        if kind in ("remark", "suggestion"):
            parts: Fields = chance.choice([{}, {"parts": 2}, {"parts": 3}])
            self.put(line(begun(kind, **parts, time=chance.randrange(3))))
        elif kind == "again" and self.all:
            self.put(chance.choice(self.all).data)
        elif kind == "wrong":
            self.put(chance.choice(WRONG)(chance))
        elif kind != "again":
            some: dict[str, Fields] = {
                "more": {"part": chance.randint(1, 4), "at": [[2, chance.randrange(9), 1]],
                         "saw": {str(chance.randint(1, 3)): "2" * 16}},
                "state": {"state": chance.choice(["open", "resolved", "rejected"]), "accepts": chance.choice([True, False, None])},
                "revised": {"parts": 1} if chance.random() < 0.5 else {}}
            self.put(line(answer(kind, self.ref(), time=chance.randrange(9), **some.get(kind, {}))))


def misspelled(chance: random.Random) -> bytes:
    """A record of which some bytes are others."""
    data = bytearray(line(begun()))
    for _ in range(chance.randint(1, 3)):
        data[chance.randrange(len(data))] = chance.choice(b'\n\0"\\{[]},:x1\xff')
    return bytes(data)


def with_field(chance: random.Random) -> bytes:
    """A record with a field that it mustn't have, or may."""
    name = chance.choice([*begun("suggestion"), "behind", "parts", "part", "other"])
    value: object = chance.choice([
        None, True, 0, 1, 1.0, -1, 2.5, 2**53, 1e300, "", "x", [], [[1, 2, 3]], [[1, 2, 0]], [0, 0], {}, {"0": "0" * 16}, {"7": "a" * 16},
        {"65536": "a" * 16}, {"07": "a" * 16}, "\ud800", "é" * 41, "\x80", [[1, 2**24 - 1, 2]]])
    fields = begun(chance.choice(["remark", "suggestion"])) | {name: value}
    if chance.random() < 0.3:
        del fields[chance.choice([*fields])]
    return line(fields)


def raw(text: str) -> Callable[[random.Random], bytes]:
    """A remark whose line has this before its end."""
    return lambda chance: line(begun())[:-2] + b"," + text.encode("utf-8", "surrogatepass") + b"}\n"


WRONG: list[Callable[[random.Random], bytes]] = [
    misspelled, misspelled, with_field, with_field, with_field,
    lambda chance: line(begun()) * 2, lambda chance: line(begun())[:-1], lambda chance: line(begun()) + b" ", lambda chance: b"\n",
    lambda chance: b"\n" + line(begun()), lambda chance: line([begun()]), lambda chance: line("x"), lambda chance: b"",
    lambda chance: line(begun(body="x" * MOST_OF_A_LINE)), lambda chance: line(begun(v=2)), lambda chance: line(begun(v=True)),
    lambda chance: b"\xef\xbb\xbf" + line(begun()), lambda chance: b" \t" + line(begun()),
    raw('"x":' + "[" * 100 + "]" * 100), raw('"x":' + "[" * 15 + "]" * 15), raw('"x":' + "[" * 16 + "]" * 16),
    raw('"x":' + '{"a":' * 1_500 + "1" + "}" * 1_500), raw('"x":' + '"' + "[" * 100 + '"'), raw('"x":NaN'), raw('"x":-Infinity'),
    raw('"x":1e999'), raw(f'"x":{"9" * 3_000}'), raw(f'"time":{"9" * 3_000}'), raw('"time":1e1'), raw('"time":1e999'),
    raw('"time":9007199254740992'), raw('"time":9007199254740991'), raw(r'"x":"\ud800"'), raw(r'"x":"\ud83d\ude00"'), raw('"x":"\ud800"'),
    raw(r'"\udc00":1'), raw(r'"x":["\udfff"]'), raw(r'"x":"\ud800","x":1'), raw('"body":1,"body":"b"'), raw('"is":"other"'),
    raw(r'"by":"\u0007"'), raw('"by":""'), raw('"text":"' + "t" * 201 + '"'), raw('"saw":[]'), raw('"behind":[0,0]')]


def operation(one: Inserted) -> Operation:
    """The operation that inserts something."""
    return Operation(INSERT, one.site, one.at + 1, one.stamp, 1, (), one.at, one.data, PLAIN_LOOKS, MARGIN)


def margin_of(some: Iterable[Inserted]) -> Margin:
    """What these say."""
    margin = Margin()
    for one in some:
        margin.add(operation(one))
    return margin


def plain(value: Any) -> Any:
    """A thread as the plain program has it."""
    if isinstance(value, Thread | Remark | Anchor):
        return {name: plain(getattr(value, name)) for name in value._fields}
    if isinstance(value, Names):
        return tuple(value)
    if isinstance(value, tuple) and value and isinstance(value[0], Remark):
        return [*map(plain, value)]
    return tuple(map(plain, value)) if isinstance(value, tuple) else getattr(value, "value", value)


def threads(margin: Margin) -> list[Fields]:
    """All threads of a margin, as the plain program has them."""
    return [{**found, "replies": [*found["replies"]]} for found in map(plain, margin.each())]


class Records(unittest.TestCase):
    """Which lines are records."""

    def test_each_line_that_is_wrong_in_one_way(self) -> None:
        for number, wrong in enumerate(WRONG):
            for seed in range(300 if number < 5 else 1):
                data = wrong(random.Random(seed))
                self.assertEqual(read_line(data) is None, naive_record(data) is None, data)

    def test_one_that_is_none_takes_no_longer_than_a_record(self) -> None:
        def seconds(data: bytes) -> float:
            def once() -> float:
                begin = time.thread_time()
                read_line(data)
                return time.thread_time() - begin
            return min(once() for _ in range(5))
        record = line(begun(other=[1] * 1_500))
        for wrong in b"[" * 20 + b'"' + b'\\"' * 2_000 + b"\n", b"{" * 4_000 + b"\n", b'["' * 2_000 + b"\n":
            self.assertLess(seconds(wrong), 50 * seconds(record))

    def test_right_ones(self) -> None:
        for kind in "remark", "suggestion":
            self.assertIsNotNone(read_line(line(begun(kind))))
        place = {name: value for name, value in begun("suggestion", behind=[0, 0]).items() if name != "at"}
        self.assertIsNotNone(read_line(line(place)))
        for wrong in {**place, "new": []}, {**place, "at": [[1, 1, 1]]}, {**place, "behind": [0, 1]}, begun("suggestion", new=None):
            self.assertIsNone(read_line(line(wrong)), wrong)
        for kind in "reply", "state", "taken", "revised", "more":
            self.assertIsNotNone(read_line(line(answer(kind, [1, 0, "0" * 16]))), kind)

    @tries(200)
    @given(st.data())
    def test_what_is_written_is_read(self, data: st.DataObject) -> None:
        text = st.text(st.characters(blacklist_categories=["Cs"]))
        names = st.lists(st.builds(Names, st.integers(1, 65_535), st.integers(0, 2**23), st.integers(1, 2**23)), min_size=1, max_size=600)
        at, body = tuple(data.draw(names)), data.draw(text) * data.draw(st.sampled_from([1, 1, 50, 900]))
        saw = data.draw(st.dictionaries(st.integers(1, 65_535), st.just("a" * 16), max_size=400))
        anchor = Anchor(at, None, saw, data.draw(text)[:200], "b" * 16)
        kind = data.draw(st.sampled_from([MarginKind.REMARK, MarginKind.SUGGESTION, MarginKind.REPLY, MarginKind.REVISED]))
        new = (Names(7, 1, 2),) if kind is MarginKind.SUGGESTION else ()
        of = Ref(1, 2, "c" * 16)
        one = MarginRecord(kind, "Änn", 3, "", body)
        one = one._replace(anchor=anchor, new=new) if kind.begins else one._replace(of=of)
        lines = lines_of(one, 7, 11)
        self.assertTrue(all(len(each) <= MOST_OF_A_LINE for each in lines))
        first, *parts = found = [record for each in lines if (record := read_line(each))]
        self.assertEqual((len(found), first.parts, [part.part for part in parts]),
                         (len(lines), len(parts), [*range(1, len(parts) + 1)]))
        self.assertEqual({part.of for part in parts} - {Ref(7, 11, sum_of(lines[0]))}, set())
        if kind.begins:
            margin = margin_of(_in_a_row(lines))
            thread = margin.thread((7, 11))
            self.assertEqual((thread.anchor, thread.first.body, thread.new), (anchor, body[:100_000], new))

    def test_what_is_too_scattered_is_refused_in_words(self) -> None:
        at = tuple(Names(12_345, 10 * number, 1) for number in range(2**20, 2**20 + 400_000))
        with self.assertRaises(Trouble):
            lines_of(MarginRecord(MarginKind.REMARK, "", 0, "", "", anchor=Anchor(at, None, {}, "", "0" * 16)), 1, 0)


def _in_a_row(lines: Sequence[bytes], site: int = 7, at: int = 11) -> list[Inserted]:
    found = list[Inserted]()
    for stamp, data in enumerate(lines, 1):
        found.append(Inserted(site, at, stamp, data))
        at += len(data)
    return found


class Margins(unittest.TestCase):
    """What all records say together."""

    @tries(400)
    @given(st.integers(0, 2**32 - 1), st.integers(1, 60))
    def test_as_the_plain_program_has_it(self, seed: int, many: int) -> None:
        chance = random.Random(seed)
        typed = Typed(chance)
        for _ in range(many):
            typed.step()
        wanted = naive_threads(typed.all)
        for _ in range(3):
            some = typed.all + chance.sample(typed.all, len(typed.all) // 2)
            chance.shuffle(some)
            self.assertEqual(threads(margin_of(some)), wanted)

    @tries(150)
    @given(st.integers(0, 2**32 - 1))
    def test_what_is_told_to_be_otherwise_is_all_that_is(self, seed: int) -> None:
        chance = random.Random(seed)
        typed = Typed(chance)
        for _ in range(40):
            typed.step()
        chance.shuffle(typed.all)
        margin, before = Margin(), dict[Name, Thread]()
        for one in typed.all:
            told = margin.add(operation(one))
            now = {name: margin.thread(name) for name in margin.threads()}
            self.assertLessEqual({name for name, thread in now.items() if before.get(name) != thread}, told)
            before = now

    def test_only_its_author_changes_a_remark(self) -> None:
        of = [1, 0, sum_of(line(begun()))]
        for site, body in (1, "better"), (2, "a body"):
            margin = margin_of([Inserted(1, 0, 1, line(begun())), Inserted(site, 999, 2, line(answer("revised", of)))])
            self.assertEqual(margin.thread((1, 0)).first.body, body)
            margin = margin_of([Inserted(1, 0, 1, line(begun())), Inserted(site, 999, 2, line(answer("taken", of)))])
            self.assertEqual(margin.thread((1, 0)).state is None, site == 1)

    def test_a_later_state_wins_wherever_it_stands(self) -> None:
        of = [1, 0, sum_of(line(begun()))]
        some = [Inserted(1, 0, 1, line(begun())), Inserted(2, 0, 2, line(answer("state", of))),
                Inserted(3, 0, 2, line(answer("state", of, state="rejected")))]
        for order in some, some[::-1]:
            self.assertEqual(str(margin_of(order).thread((1, 0)).state.value), "rejected")  # type: ignore[union-attr]

    def test_an_acceptance_that_is_taken_back_says_nothing(self) -> None:
        first = line(begun("suggestion"))
        no, done, back = ("rejected", None), ("resolved", True), ("open", False)
        cases: list[tuple[list[tuple[str, object]], str, bool]] = [
            ([], "open", False), ([done], "resolved", True), ([done, back], "open", False), ([done, no], "rejected", True),
            ([no, done, back], "rejected", False), ([done, no, back], "rejected", False), ([done, done, back], "open", False),
            ([done, back, done], "resolved", True), ([done, back, no], "rejected", False), ([no, back], "rejected", False),
            ([done, ("open", None)], "open", True), ([("resolved", 1)], "resolved", False), ([done, ("open", "x")], "open", True)]
        for said, wanted, is_accepted in cases:
            states = (answer("state", [7, 11, sum_of(first)], state=state, **({} if accepts is None else {"accepts": accepts}))
                      for state, accepts in said)
            margin = margin_of(_in_a_row([first, *map(line, states)]))
            self.assertEqual((margin.thread((7, 11)).state, margin.is_said_accepted((7, 11))), (MarginState(wanted), is_accepted), said)
        for accepts in True, False, None:
            written = MarginRecord(MarginKind.STATE, "", 0, "", of=Ref(7, 11, sum_of(first)), state=MarginState.RESOLVED, accepts=accepts)
            (data,) = lines_of(written, 7, 99)
            self.assertEqual(read_line(data), written._replace(sum=sum_of(data)))

    def test_typed_anew_under_another_number(self) -> None:
        remark, of = line(begun()), [1, 0, sum_of(line(begun()))]
        margin = margin_of([Inserted(5, 0, 9, remark), Inserted(2, 0, 10, line(answer("reply", of)))])
        self.assertEqual([reply.body for reply in margin.thread((5, 0)).replies], ["an answer"])
        # As soon as it counts itself, it is what is named.
        margin.add(operation(Inserted(1, 0, 1, remark)))
        self.assertEqual([len(margin.thread(name).replies) for name in ((5, 0), (1, 0))], [0, 1])

    def test_one_costs_the_same_among_very_many(self) -> None:
        margin, number, worked = Margin(), 0, dict[int, int]()
        for most in 10, 100_000:
            while number < most:
                margin.add(operation(Inserted(1, number, number + 1, line(begun(time=number)))))
                number += 1
            remark = operation(Inserted(2, number, number + 1, line(begun(time=number))))
            state = operation(Inserted(3, number, number + 2, line(answer("state", [2, number, sum_of(remark.data)]))))
            worked[most] = instructions(lambda: (margin.add(remark), margin.add(state), margin.thread((2, number))))
        self.assertEqual(len(margin), 100_002)
        self.assertLess(worked[100_000], MOST_TIMES * worked[10])

    def test_letters_in_a_row_are_passed_over_at_once(self) -> None:
        letters = Operation(INSERT, 1, 1, 1, 100_000, (), 0, b"\n" * 100_000, PLAIN_LOOKS, MARGIN)
        few, margin = letters.part(0, 10), Margin()
        self.assertLess(instructions(lambda: margin.add_all([letters])), MOST_TIMES * instructions(lambda: margin.add_all([few])))
        records = [operation(Inserted(2, 0, 1, line(begun()))), letters, operation(Inserted(3, 0, 1, line(begun())))]
        self.assertEqual(margin.add_all(records), {(2, 0), (3, 0)})

    def test_many_that_are_alike_and_deep_rows_of_answers_cost_no_more(self) -> None:
        margin, worked = Margin(), dict[int, int]()
        of, at = [1, 0, sum_of(line(begun()))], 0
        for most in 10, 5_000:
            while at < most:
                margin.add(operation(Inserted(1, at, at + 1, line(begun()))))
                reply = line(answer("reply", of, time=at))
                margin.add(operation(Inserted(2, at, at + 1, reply)))
                of, at = [2, at, sum_of(reply)], at + 1
            more = [operation(Inserted(1, at, at + 1, line(begun()))), operation(Inserted(2, at, at + 1, line(answer("reply", of))))]
            worked[most] = instructions(lambda: [*map(margin.add, more)])
            at += 1
        self.assertLess(worked[5_000], MOST_TIMES * worked[10])


class Anchors(unittest.TestCase):
    """What anchors hold."""

    def setUp(self) -> None:
        self.files, self.base = {1: b"one of the first", 2: b"and a second", 9: b"base"}, {9}

    def knows(self, **more: Any) -> Knows:
        """What a note has."""
        def data(one: Names) -> bytes | None:
            found = self.files.get(one.site, b"")[one.at:one.at + one.length]
            return found if len(found) == one.length else None

        def inserter(name: Name) -> bytes | None:
            return sha256(repr(name).encode()).digest() if name[1] < len(self.files.get(name[0], b"")) else None
        return Knows(inserter, data, self.base.__contains__)._replace(**more)

    def test_as_long_as_the_messages_are_those_that_were_seen(self) -> None:
        at, new = [Names(2, 3, 4), Names(1, 0, 3), Names(9, 1, 2)], [Names(1, 5, 2)]
        one = anchored(at, None, new, "text", self.knows())
        self.assertEqual(set(one.saw), {1, 2})
        self.assertTrue(holds(one, new, 1, self.knows()))
        # Another's text is no replacement of one's own.
        self.assertFalse(holds(one, new, 2, self.knows()))
        # Another branch of a number has other hashes.
        other = self.knows(inserter=lambda name: sha256(b"x" + repr(name).encode()).digest())
        self.assertFalse(holds(one, new, 1, other))
        self.assertFalse(holds(one._replace(saw={1: one.saw[1]}), new, 1, self.knows()))
        self.files[2] = b"and"
        self.assertFalse(holds(one, new, 1, self.knows()))

    def test_of_the_base_the_bytes_are_compared(self) -> None:
        one = anchored([Names(9, 0, 4)], None, [], "base", self.knows())
        self.assertEqual(one.saw, {})
        self.assertTrue(holds(one, [], 1, self.knows()))
        self.files[9] = b"bass"
        self.assertFalse(holds(one, [], 1, self.knows()))
        del self.files[9]
        self.assertFalse(holds(one, [], 1, self.knows()))

    def test_places(self) -> None:
        for behind in (0, 0), (1, 3), (9, 3):
            one = anchored([], behind, [], "", self.knows())
            self.assertTrue(holds(one, [], 1, self.knows()), behind)
        self.assertFalse(holds(one._replace(behind=(9, 4)), [], 1, self.knows()))
        self.assertFalse(holds(one._replace(behind=(1, 4)), [], 1, self.knows()))

    def test_what_is_too_much_or_there_twice_holds_nothing(self) -> None:
        self.files[9] = b"x" * 3 * MOST_ANCHORED

        def fail(one: Names) -> None:
            raise AssertionError(one)
        for at in [Names(9, 0, 3), Names(9, 2, 3)], [Names(9, 0, MOST_ANCHORED + 1)], [Names(9, 5, MOST_ANCHORED), Names(9, 2, 3)]:
            one = anchored(at, None, [], "", self.knows())
            self.assertFalse(holds(one, [], 1, self.knows(data=fail)), at)
        self.assertTrue(holds(anchored([Names(9, 0, MOST_ANCHORED)], None, [], "", self.knows()), [], 1, self.knows()))

    @tries(100)
    @given(st.integers(0, 2**32 - 1))
    def test_which_speak_of_some_characters(self, seed: int) -> None:
        chance, index, all_of = random.Random(seed), NameIndex[int](), list[tuple[Names, int]]()

        def names() -> Names:
            at = chance.randrange(chance.choice([10, 1_000, 2**24]))
            return Names(chance.randint(1, 2), at, min(2**24 - at, 1 + chance.randrange(chance.choice([1, 5, 1_000, 2**24]))))
        for of in range(30):
            some = [names() for _ in range(chance.randint(1, 3))]
            index.add(some, of)
            all_of += [(one, of) for one in some]
        for _ in range(20):
            site, at, length = one = names()
            self.assertEqual(index.meeting([one]), {of for (its, begin, size), of in all_of
                                                    if its == site and begin < at + length and at < begin + size})

    def test_looking_for_some_costs_the_same_among_very_many(self) -> None:
        index, number, worked = NameIndex[int](), 0, dict[int, int]()
        for most in 10, 100_000:
            while number < most:
                index.add([Names(1, 10 * number, 3 + number % 5)], number)
                number += 1
            worked[most] = instructions(lambda: (index.meeting([Names(1, 0, 9), Names(2, 0, 9)]), index.add([Names(3, 1, 9)], 7)))
        self.assertLess(worked[100_000], MOST_TIMES * worked[10])


if __name__ == "__main__":
    unittest.main()
