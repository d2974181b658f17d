"""What a margin says, by the modules of a relay's page in Node: as Python and the plain program have it, whatever was inserted."""
import random
import unittest
from typing import Any

from share.review.record import Anchor, MarginKind, MarginRecord, MarginState, Ref, read_line
from share.review.writing import lines_of
from share.tests.naive_margin import Fields, Inserted, naive_threads
from share.tests.test_margin import WRONG, Typed, answer, begun, line
from share.tests.test_site_modules import Modules
from share.text.names import Names

SEEDS, WRITTEN = 120, 60


def in_page(one: Fields) -> Fields:
    """A thread of the plain program as the page has it."""
    anchor, found = one["anchor"], {name: value for name, value in one.items() if name != "first"}
    return {**found, "first": remark(one["first"]), "replies": [remark(reply) for reply in one["replies"]], "new": listed(one["new"]),
            "anchor": {**anchor, "at": listed(anchor["at"]), "behind": anchor["behind"] and [*anchor["behind"]],
                       "saw": {str(site): of for site, of in anchor["saw"].items()}}}


def remark(one: Fields) -> Fields:
    """What somebody wrote, as the page has it."""
    site, at = one["name"]
    return {"id": f"{site}:{at}", "site": site, "by": one["by"], "time": one["time"], "body": one["body"], "isRevised": one["is_revised"]}


def listed(names: Any) -> list[list[int]]:
    """Names as JSON has them."""
    return [[*each] for each in names]


class Margins(Modules):
    """Lines, and what they say together."""

    def test_the_same_lines_are_records(self) -> None:
        lines = [wrong(random.Random(seed)) for number, wrong in enumerate(WRONG) for seed in range(300 if number < 5 else 1)]
        lines += [line(begun("suggestion")), *(line(answer(kind, [1, 0, "0" * 16])) for kind in ("reply", "state", "taken", "revised"))]
        found = self.asked("records", lines=[each.hex() for each in lines])
        for data, one in zip(lines, found, strict=True):
            wanted = read_line(data)
            self.assertEqual(one is None, wanted is None, data)
            if wanted:
                self.assertEqual((one["kind"], one["by"], one["time"], one["sum"], one["body"], one["parts"], one["accepts"]),
                                 (wanted.kind.value, wanted.by, wanted.time, wanted.sum, wanted.body, wanted.parts, wanted.accepts))

    def test_the_same_lines_are_written(self) -> None:
        for seed in range(WRITTEN):
            one = written(random.Random(seed))
            self.assertEqual(self.asked("written", record=fields(one), site=7, at=11), [each.hex() for each in lines_of(one, 7, 11)], seed)

    def test_as_the_plain_program_has_it(self) -> None:
        for seed in range(SEEDS):
            chance = random.Random(seed)
            typed = Typed(chance)
            for _ in range(chance.randint(1, 60)):
                typed.step()
            wanted = [in_page(one) for one in naive_threads(typed.all)]
            some = typed.all + chance.sample(typed.all, len(typed.all) // 2)
            chance.shuffle(some)
            self.assertEqual(self.asked("margin", inserted=[as_line(one) for one in some]), wanted, seed)


def written(chance: random.Random) -> MarginRecord:
    """A record that somebody writes."""
    kind = chance.choice([*MarginKind][:-1])
    one = MarginRecord(kind, chance.choice(["", "\u00c4nn"]), chance.randrange(2**53), "")
    text = "".join(chance.choices('ab"\\\n\t\x01\x7f\u00e9\u2028\U0001f44d', k=chance.choice([1, 20, 3_000, 9_000])))
    if kind.has_body:
        one = one._replace(body=text)
    if not kind.begins:
        state = chance.choice([*MarginState]) if kind is MarginKind.STATE else None
        return one._replace(of=Ref(65_535, 3, "c" * 16), state=state, accepts=chance.choice([True, False, None]) if state else None)
    at = tuple(Names(chance.randint(1, 65_535), chance.randrange(2**23), 1 + number) for number in range(chance.choice([0, 1, 700])))
    saw = {site: f"{site:016x}" for site in chance.sample(range(1, 65_536), chance.choice([0, 1, 400]))}
    anchor = Anchor(at, None if at else (0, 0), saw, text[:200], "b" * 16)
    return one._replace(anchor=anchor, new=(Names(7, 1, 2),) if kind is MarginKind.SUGGESTION else ())


def fields(one: MarginRecord) -> Fields:
    """A record as the page has it."""
    anchor = one.anchor and {"at": listed(one.anchor.at), "behind": one.anchor.behind, "saw": one.anchor.saw, "text": one.anchor.text,
                             "sum": one.anchor.sum}
    return {"kind": one.kind.value, "by": one.by, "time": one.time, "body": one.body, "anchor": anchor, "new": listed(one.new),
            "of": one.of and {"id": f"{one.of.site}:{one.of.at}", "sum": one.of.sum}, "state": one.state and one.state.value,
            "accepts": one.accepts}


def as_line(one: Inserted) -> Fields:
    """An insertion as it is handed on."""
    return {"site": one.site, "at": one.at, "stamp": one.stamp, "data": one.data.hex()}


if __name__ == "__main__":
    unittest.main()
