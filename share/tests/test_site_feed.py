"""What of a note's entries counts as the page of its text has it, over the core, in Node: of all that may be of its base that which Python
has of it, whatever else whoever has the link makes of it."""
import json
import os
import pathlib
import random
import subprocess
import unittest
from collections import Counter
from collections.abc import Sequence
from itertools import groupby
from typing import Any

from share.admission.record_judge import RecordJudge
from share.format.chunk import packed
from share.format.entry import NO_HASH, Bad
from share.format.operation import Operation
from share.format.second.form import SealedRecords
from share.format.second.keys import Founding
from share.format.second.record import RECORD_HEAD, RecordKind
from share.relay.page_files import PAGE_FOLDER, core_path
from share.tests.naive import inserting

HERE = pathlib.Path(__file__).parent
SETS = 60
FOUNDER, SECRET = SealedRecords.author_of_any_note(), os.urandom(32)
# The founder's number, those of the base, and one that has nothing.
FOUNDED, COPIED, STRANGE = 1, (7, 9), 11
TEXTS = 1, 2


def letters(text: int, site: int, data: bytes, first: int = 1) -> list[Operation]:
    """Letters that were typed one after the other."""
    return [inserting(site, seq, seq, (site, seq - 2) if seq > 1 else None, seq - 1, bytes([byte]))._replace(text=text)
            for seq, byte in enumerate(data, first)]


class Copied:
    """A note that begins with messages, and entries that whoever has its link makes of them."""

    def __init__(self, messages: Sequence[Operation], chance: random.Random):
        self.messages, self._chance = messages, chance
        founding = Founding(SECRET, NO_HASH, FOUNDER.name, FOUNDED)
        self.links = [NO_HASH, *founding.links(NO_HASH, messages)]
        self.founding = founding._replace(root=self.links[-1])
        self.form = SealedRecords(self.founding.key())
        self.opening = self.form.opening(self.founding).raw
        # Where the messages end that follow one another, of each.
        self._ends = list[int]()
        for _, some in groupby(range(len(messages)), lambda at: (messages[at].text, messages[at].site, messages[at].seq - at)):
            indices = [*some]
            self._ends += [indices[-1] + 1] * len(indices)

    def entry(self, begin: int, end: int, link: bytes | None = None) -> bytes:
        """The entry of some messages of one number and text, after the message that a link names."""
        part = packed(self.messages[begin:end], self.messages[begin].at)
        assert part
        return self.form.base(part, self.links[begin] if link is None else link).raw

    def stretch(self) -> tuple[int, int]:
        """Some messages of one number and text."""
        begin = self._chance.randrange(len(self.messages))
        return begin, self._chance.randint(begin + 1, self._ends[begin])

    def whole(self) -> list[bytes]:
        """The entries that have all, as who renews a note makes them, cut anyhow."""
        found, begin = list[bytes](), 0
        while begin < len(self.messages):
            end = self._chance.randint(begin + 1, self._ends[begin])
            found.append(self.entry(begin, end))
            begin = end
        return found

    def strange(self) -> bytes:
        """What isn't copied, or not so."""
        chance, (begin, end) = self._chance, self.stretch()
        what = chance.randrange(6)
        if what == 0:
            return self.entry(begin, end, chance.randbytes(32))
        if what == 1:
            return self.entry(begin, end, NO_HASH)
        if what == 2:
            part = packed(letters(1, STRANGE, b"x"))
            assert part
            return self.form.base(part, chance.choice([NO_HASH, self.links[begin], chance.randbytes(32)])).raw
        if what == 3:
            return self.entry(begin, end)
        return self.misspelled(self.entry(begin, end), what == 4)

    def is_right(self, raw: bytes) -> bool:
        """Whether it is an entry of the base."""
        try:
            return self.form.open(raw).kind is RecordKind.BASE
        except Bad:
            return False

    def misspelled(self, raw: bytes, is_longer: bool) -> bytes:
        """An entry with the same messages, which are spelled longer, or of which its head says something else."""
        form, chance = self.form, self._chance
        _, _, _, _, site, text, first, size, before = RECORD_HEAD.unpack_from(raw)
        body = form.open(raw).body
        if is_longer:
            body = body[:7] + bytes([body[7] | 0x80, 0]) + body[8:]
        else:
            site, text, first, size = chance.choice([
                (STRANGE, text, first, size), (site, 3 - text, first, size), (site, text, first + 1, size), (site, text, first, size + 1),
                (site, text, first, max(1, size - 1))])
        head = RECORD_HEAD.pack(form.number, RecordKind.BASE, form.note, form.public, site, text, first, size, before)
        unsigned = form._unsigned(head, body)
        return unsigned + form._signature(unsigned, form.itself)


@unittest.skipUnless(core_path(), "the core isn't here as WebAssembly (bin/library --wasm)")
class Begins(unittest.TestCase):
    """What a note begins with."""

    node: "subprocess.Popen[str]"

    @classmethod
    def setUpClass(cls) -> None:
        words = ["node", "--no-warnings", str(HERE / "site_feed.mjs"), str(PAGE_FOLDER), str(core_path())]
        cls.node = subprocess.Popen(words, text=True, stdin=subprocess.PIPE, stdout=subprocess.PIPE)

    @classmethod
    def tearDownClass(cls) -> None:
        cls.node.communicate()

    def counted(self, form: SealedRecords, parts: Sequence[Sequence[bytes]]) -> Any:
        """What counts as entries come part by part."""
        assert self.node.stdin and self.node.stdout
        self.node.stdin.write(json.dumps({"key": form.keys.key.hex(), "parts": [[raw.hex() for raw in part] for part in parts]}) + "\n")
        self.node.stdin.flush()
        return json.loads(self.node.stdout.readline())

    def agrees(self, note: Copied, parts: Sequence[Sequence[bytes]]) -> list[Any]:
        """What the page has, which is what Python has."""
        found, judge = self.counted(note.form, parts), RecordJudge(form=note.form)
        for part, one in zip(parts, found, strict=True):
            for raw in part:
                try:
                    judge.add(note.form.open(raw))
                except Bad:
                    pass
            if judge.begun():
                judge.let_through()
            founded = [FOUNDED] if one["isOpen"] else []
            copied = [site for site in (*COPIED, STRANGE) if judge.is_of_base(site)]
            self.assertEqual((one["begins"], sorted(one["taken"]), one["numbers"]), (judge.begun(), [*founded, *copied], founded))
            fronts = {(text, site): judge.front(site, text) for text in TEXTS for site in (FOUNDED, *COPIED, STRANGE)}
            self.assertEqual({(text, site): front for text, *more in one["fronts"] for site, front in more},
                             {place: front for place, front in fronts.items() if front} if judge.begun() else {})
        return found

    def test_of_what_may_be_copied_that_counts_which_counts_in_python(self) -> None:
        chance, many = random.Random(9), Counter[bool]()
        for _ in range(SETS):
            blocks = [letters(1, 7, b"tea" * 9), letters(1, 9, b"or"), letters(2, 7, b"well")]
            if chance.randrange(4) == 0:
                # Whoever renews a note may copy so that nothing of it counts.
                blocks = chance.choice([blocks[::-1], [*blocks, letters(2, 7, b"again")], [letters(1, 7, b"second", 2)],
                                        [blocks[0], letters(1, 7, b"!", 30)]])
            note = Copied([one for block in blocks for one in block], chance)
            raws = [note.opening, *note.whole(), *(note.strange() for _ in range(chance.randrange(4)))]
            if chance.randrange(3):
                chance.shuffle(raws)
            at = chance.randrange(1, len(raws))
            if chance.randrange(4) == 0:
                raws[at:at + 1] = [note.misspelled(raws[at], False)] if chance.randrange(2) and note.is_right(raws[at]) else []
            said = packed(letters(1, FOUNDED, b"said"))
            assert said
            raws.append(note.form.messages(said, NO_HASH, FOUNDER).raw)
            at = chance.randrange(len(raws))
            many[self.agrees(note, [raws[:at], raws[at:]])[1]["begins"]] += 1
        self.assertEqual({*many}, {False, True})

    def test_why_nothing_counts_is_said(self) -> None:
        chance = random.Random(1)
        note = Copied(letters(1, 7, b"tea"), chance)
        whole = note.whole()
        found = self.agrees(note, [[], [note.opening], whole])
        self.assertEqual(["lacks" in one["why"] for one in found], [True, True, False])
        self.assertEqual((found[-1]["why"], found[-1]["isCopy"]), ("", True))
        note = Copied([*letters(1, 9, b"or"), *letters(1, 7, b"tea")], chance)
        self.assertRegex(self.agrees(note, [[note.opening, *note.whole()]])[0]["why"], "out of order")


if __name__ == "__main__":
    unittest.main()
