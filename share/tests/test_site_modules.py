"""The modules of a relay's page, in Node: keys, links, entries, claims and messages, byte by byte as docs/NOTES.md and docs/RELAY.md have
them, beside the vectors and beside Python."""
import json
import os
import pathlib
import random
import shutil
import subprocess
import tempfile
import unittest
from collections import Counter
from contextlib import closing
from typing import Any

from share.format.chunk import Packed, packed, packed_in_parts
from share.format.entry import NO_HASH, Author, Bad, Copied
from share.format.heartbeat import Hears, Lack, Said, Way, heartbeat_of, token_of
from share.format.history import Messages
from share.format.operation import CHANGE_LOOKS, DELETE, INSERT, RESTORE, Operation, length_after
from share.format.presence import AT_FRONT, Present, leaving, presence_of, read_presence, with_count
from share.format.second.claim import found_among, number_of_rank, rank_of
from share.format.second.form import SealedRecords
from share.format.second.key_link import KeyLink, link_of
from share.format.second.keys import new_founding
from share.format.second.record import RECORD_HEAD, Record
from share.format.second.signature import FIELD, ORDER, REFUSED_POINTS, is_signed, public_of, signed
from share.log.base import InLog
from share.log.opening import opener_of
from share.log.polling import can_read
from share.log.relay_messages import AppendRequest, ReadRequest, Refusal, RelayPage, Why
from share.program.replay import as_line, steps
from share.program.site import Rewrite, Site
from share.relay.page_files import PAGE_FOLDER
from share.tests.naive import about, inserting
from share.tests.relays import RelayProcess, form_of, record
from share.tests.support import Case, raws_of
from share.tests.waiting import PATIENCE
from share.text.errors import Trouble
from share.text.looks import Looks

HERE = pathlib.Path(__file__).parent
PLAIN = {"font": "Oberon10.Scn.Fnt", "colour": 1, "offset": 0}
VECTORS = json.loads((HERE / "data" / "second_form.json").read_bytes())
KINDS = {"opening": 1, "claim": 2, "base": 3, "messages": 4, "anew": 5, "copies": 6, "renewed": 7}
TURNS = 120
AUTHOR = SealedRecords.author_of_any_note()


def beside_modules(folder: pathlib.Path) -> None:
    """Puts what tries the page's modules beside copies of them."""
    shutil.copytree(PAGE_FOLDER, folder, dirs_exist_ok=True)
    shutil.copyfile(HERE / "site_trial.js", folder / "trial.js")


def searches(folder: pathlib.Path) -> None:
    """Makes these a page, which also searches for claims in a worker."""
    (folder / "index.html").write_text('<!DOCTYPE html><title>trial</title><script type="module" src="./trial.js"></script>'
                                       '<script type="module" src="./searches.js"></script>')
    (folder / "searches.js").write_text('import { claimFor } from "./claim.js";\nglobalThis.claimFor = claimFor;\n')


class Modules(unittest.TestCase):
    """A process of Node with the modules."""

    node: "subprocess.Popen[str]"

    @classmethod
    def setUpClass(cls) -> None:
        folder = tempfile.TemporaryDirectory(prefix="share-site-")
        cls.addClassCleanup(folder.cleanup)
        beside_modules(pathlib.Path(folder.name))
        words = ["node", "--no-warnings", "--experimental-websocket", str(HERE / "site_modules.mjs"), folder.name]
        cls.node = subprocess.Popen(words, text=True, stdin=subprocess.PIPE, stdout=subprocess.PIPE)

    @classmethod
    def tearDownClass(cls) -> None:
        cls.node.communicate()

    def asked(self, what: str, **words: object) -> Any:
        """What a module answers."""
        self.ask(what, **words)
        return self.answer()

    def ask(self, what: str, **words: object) -> None:
        """Asks for something."""
        assert self.node.stdin
        self.node.stdin.write(json.dumps({"do": what, **words}) + "\n")
        self.node.stdin.flush()

    def answer(self) -> Any:
        """The next line."""
        assert self.node.stdout and can_read(self.node.stdout, PATIENCE), "Node says nothing"
        return json.loads(self.node.stdout.readline())


class Vectors(Modules):
    """What was made beforehand, by others."""

    def test_keys_links_and_proofs(self) -> None:
        note = VECTORS["sealed"]
        self.assertEqual(self.asked("keys", key=note["key"]), {name: note[name] for name in ("append", "public", "identity")})
        self.assertEqual(self.asked("founding", founding=note["founding"]), note["key"])
        for one in VECTORS["authors"].values():
            self.assertEqual(self.asked("author", secret=one["secret"]), one["name"])
        proof = VECTORS["proof"]
        self.assertEqual(self.asked("proof", key=note["key"], challenge=proof["challenge"], origin=proof["origin"]), proof["signature"])
        url, link = VECTORS["links"][0]["url"], VECTORS["links"][0]["link"]
        self.assertEqual(self.asked("link", key=note["key"], url=url), {"link": link, "page": VECTORS["page"]})
        for given in link, VECTORS["page"], VECTORS["page"].partition("#")[2], VECTORS["page"].replace("/#", "/?utm=1#"):
            self.assertEqual(self.asked("readLink", given=given, relay=url), {"key": note["key"], "url": url})

    def test_entries(self) -> None:
        note, secrets = VECTORS["sealed"], {one["name"]: one["secret"] for one in VECTORS["authors"].values()}
        raws = [one["raw"] for one in note["entries"]]
        for what, raw, found in zip([one["what"] for one in note["entries"]], raws,
                                    self.asked("opened", key=note["key"], raws=raws, bits=VECTORS["bits"])):
            _, number, _, author, site, text, first, count, before = RECORD_HEAD.unpack_from(bytes.fromhex(raw))
            head = {"site": site, "text": text, "first": first, "count": count, "before": before.hex()}
            self.assertEqual({name: found.get(name) for name in ("kind", "author", *head)},
                             {"kind": KINDS[what], "author": author.hex(), **head})
            again = self.asked("sealed", key=note["key"], kind=number, secret=secrets.get(author.hex(), note["append"]), place=head,
                               body=found["body"])
            self.assertEqual(again, raw)
        # With as many zeros as notes have two of them claim nothing.
        refused = [one for one in self.asked("opened", key=note["key"], raws=raws, bits=20) if "why" in one]
        self.assertEqual(refused, [{"why": "claims a number that wasn't searched for"}] * 2)

    def test_claims(self) -> None:
        note, claims = VECTORS["sealed"]["identity"], VECTORS["claims"]
        for who, bits, begin in ("bob", VECTORS["bits"], 0), ("cy", VECTORS["bits"], 0), ("full", 20, claims["full"]["counter"] - 700):
            author = VECTORS["authors"]["cy" if who == "full" else who]["name"]
            one = claims[who]
            self.assertEqual(self.asked("rank", note=note, author=author, counter=one["counter"], bits=bits),
                             {"rank": one["rank"], "site": one["site"]})
            found = self.asked("searched", note=note, author=author, taken=[], begin=begin, bits=bits)
            self.assertEqual(found, {"counter": str(one["counter"]), "site": one["site"]})
        # What is taken is searched past.
        taken = [claims["bob"]["site"]]
        found = self.asked("searched", note=note, author=VECTORS["authors"]["bob"]["name"], taken=taken, begin=0, bits=8)
        python = next(found_among(range(10**9), bytes.fromhex(note), bytes.fromhex(VECTORS["authors"]["bob"]["name"]), taken, 8))
        self.assertEqual((int(found["counter"]), found["site"]), python)

    def test_what_was_said_under_a_number_that_is_lost_is_kept_under_it(self) -> None:
        note, claims = VECTORS["sealed"], VECTORS["claims"]
        numbers = [{**claims[who], "secret": VECTORS["authors"][who]["secret"]} for who in ("bob", "cy")]
        # The first of each is being kept as the others are said.
        said = [[{"site": one["site"], "text": 1, "first": first, "count": 1, "before": bytes(32).hex() if first == 1 else note["key"],
                  "body": "0000"} for first in range(1, many)] for one, many in zip(numbers, (4, 3))]
        found = self.asked("own", key=note["key"], numbers=numbers, said=said)
        names, heads = ("kind", "site", "author", "first"), list[tuple[Any, ...]]()
        for who, one, places in zip(("bob", "cy"), numbers, said):
            author = VECTORS["authors"][who]["name"]
            heads += [(KINDS["claim"], one["site"], author, 0)]
            heads += [(KINDS["messages"], one["site"], author, each["first"]) for each in places]
        opened = self.asked("opened", key=note["key"], raws=found["raws"], bits=VECTORS["bits"])
        self.assertEqual([tuple(one[name] for name in names) for one in opened], heads)
        # Nobody else has them until all is kept; and without a number nothing is said.
        self.assertEqual((found["claimed"], found["locked"]), (2, [2, 0]))
        self.assertEqual(found["why"], f"This is said under {numbers[0]['site']}, and this tab has no number.")

    def test_edits_of_a_closed_tab_are_signed_by_their_own_authors(self) -> None:
        note, claims = VECTORS["sealed"], VECTORS["claims"]
        bob, cy = (VECTORS["authors"][who] for who in ("bob", "cy"))
        numbers = [{**claims[who], "secret": VECTORS["authors"][who]["secret"]} for who in ("bob", "cy")]
        numbers[0]["isClaimed"] = True
        # Under Cy's number something of Bob's was made anew; Cy's number isn't claimed yet.
        word = {"author": bob["name"], "site": numbers[0]["site"], "text": 1, "before": note["key"]}
        said = [{"site": numbers[1]["site"], "text": 1, "first": first, "count": 1, "before": before, "body": "0000", "words": words}
                for first, before, words in ((2, note["key"], [word]), (1, bytes(32).hex(), []))]
        found = self.asked("recovered", key=note["key"], numbers=numbers, said=said)
        opened = self.asked("opened", key=note["key"], raws=found["raws"], bits=VECTORS["bits"])
        by_cy, by_bob = (numbers[1]["site"], cy["name"]), (numbers[0]["site"], bob["name"])
        self.assertEqual([(one.get("why"), one["kind"], one["site"], one["author"]) for one in opened],
                         [(None, KINDS["claim"], *by_cy), (None, KINDS["messages"], *by_cy), (None, KINDS["messages"], *by_cy),
                          (None, KINDS["anew"], *by_bob)])
        self.assertEqual([one["first"] for one in opened if one["kind"] == KINDS["messages"]], [1, 2])
        # They are recovered once, and the number's claim is kept with them.
        self.assertEqual((found["found"], found["claimed"], found["aside"]), ([True, False], [one["site"] for one in numbers], []))

    def test_what_a_closed_tab_kept_and_cannot_be_read_is_set_aside(self) -> None:
        note, one = VECTORS["sealed"], {**VECTORS["claims"]["bob"], "secret": VECTORS["authors"]["bob"]["secret"], "isClaimed": True}
        said = [{"site": one["site"], "text": 1, "first": 1, "count": 1, "before": bytes(32).hex(), "body": "0000", "words": []}]
        found = self.asked("recovered", key=note["key"], numbers=[one], said=said, damaged=[f"{one['site']} 1 2"])
        opened = self.asked("opened", key=note["key"], raws=found["raws"], bits=VECTORS["bits"])
        self.assertEqual([each["first"] for each in opened if each["kind"] == KINDS["messages"]], [1])
        self.assertEqual((found["found"], found["aside"]), ([True, False], [f"vialshoal damaged note {one['site']} 1 2"]))
        self.assertRegex(" ".join(found["told"]), "can't be read. It is set aside")

    def test_a_number_that_could_not_be_taken_is_others_again(self) -> None:
        one = {**VECTORS["claims"]["bob"], "secret": VECTORS["authors"]["bob"]["secret"]}
        found = self.asked("takenTwice", key=VECTORS["sealed"]["key"], number=one)
        self.assertEqual(found, {"why": "There is no room.", "held": [], "site": one["site"]})

    def test_what_is_kept_as_a_page_closes_is_told_to_other_tabs(self) -> None:
        self.assertEqual(self.asked("keptAsItCloses", key=VECTORS["sealed"]["key"]), 1)

    def test_what_somebody_typed_is_put_together_where_it_stood(self) -> None:
        some = packed([
            *(inserting(9, at + 1, at + 1, cause, at, b"tea"[at:at + 1]) for at, cause in enumerate(((5, 2), (9, 0), (9, 1)))),
            inserting(9, 4, 4, (9, 0), 3, b"X"), about(DELETE, 9, 5, 5, [(9, 1, 1)]), inserting(9, 6, 6, None, 4, b"hi"),
            inserting(9, 7, 7, (5, 2), 6, b"!"), about(DELETE, 9, 8, 8, [(5, 0, 1), (9, 3, 1)]), about(RESTORE, 9, 9, 9, [(9, 3, 1)])])
        assert some
        for hides, word in (True, b"tXa"), (False, b"tXea"):
            self.assertEqual(self.asked("passages", chunk=some.chunk.hex(), hides=hides), [
                {"cause": cause, "bytes": data.hex(), "looks": [{"many": len(data), "look": PLAIN}]}
                for cause, data in (([5, 2], word), (None, b"hi"), ([5, 2], b"!"))])

    def test_presence(self) -> None:
        one = VECTORS["presence"]
        key, form = VECTORS["sealed"]["key"], SealedRecords(bytes.fromhex(VECTORS["sealed"]["key"]))
        self.assertEqual(self.asked("presence", key=key, data=one["data"]), one["raw"])
        raw = bytes.fromhex(one["raw"])
        damaged = [raw[:at] + bytes([raw[at] ^ 1]) + raw[at + 1:] for at in range(0, len(raw), 7)]
        others = [b"", raw[:27], raw[:-1], raw + b"x" * 100, SealedRecords(bytes(32)).presence(bytes.fromhex(one["data"]))]
        self.assertEqual(self.asked("present", key=key, raws=[each.hex() for each in [raw, *damaged, *others]]),
                         [one["data"]] + [None] * len(damaged + others))
        self.assertEqual(form.present(raw), bytes.fromhex(one["data"]))

    def test_a_clock_that_is_set_back(self) -> None:
        """A page goes on saying that it is on."""
        form = SealedRecords(bytes.fromhex(VECTORS["sealed"]["key"]))
        token = bytes(range(8))
        raws = [form.presence(heartbeat_of(Said(token, 1, 0, (), Hears.CHANNEL_FROM_NOW))),
                form.presence(with_count(presence_of(Present(token, bytes(16), 7, "#112233", None, None, "Ann")), 2))]
        found = self.asked("clockSetBack", key=VECTORS["sealed"]["key"], raws=[raw.hex() for raw in raws])
        self.assertEqual([(one["name"], one["colour"], one["site"]) for one in found], [("Ann", "#112233", 7)])

    def test_facts(self) -> None:
        note, authors, claims = VECTORS["sealed"], VECTORS["authors"], VECTORS["claims"]
        raws = [one["raw"] for one in note["entries"]]
        found = self.asked("facts", key=note["key"], raws=raws)
        numbers = {one["site"]: (one["author"], one["messages"], one["isFounder"]) for one in found["numbers"]}
        self.assertEqual(numbers[1], (authors["ada"]["name"], 4, True))
        self.assertEqual(numbers[claims["bob"]["site"]], (authors["bob"]["name"], 7, False))
        self.assertEqual(numbers[claims["cy"]["site"]][0], authors["cy"]["name"])
        self.assertEqual((len(numbers), found["entries"], found["isCopy"], found["renewedBy"]), (3, len(raws), True, ["Cy"]))
        # Names are cut between characters.
        form = SealedRecords(bytes.fromhex(note["key"]))
        raws = [form.renewed(name, 7, AUTHOR).raw.hex() for name in ("\U0001f44d" * 41, " \u202eAnn\0 ", "")]
        self.assertEqual(self.asked("facts", key=note["key"], raws=raws)["renewedBy"], ["\U0001f44d" * 40, "Ann", "somebody"])

    def test_what_a_value_has_no_memory_for_is_handed_on_once_more(self) -> None:
        note = VECTORS["sealed"]
        raws = [one["raw"] for one in note["entries"]]
        heads = [RECORD_HEAD.unpack_from(bytes.fromhex(one["raw"])) for one in note["entries"] if one["what"] == "messages"]
        said = [[author.hex(), first] for _, _, _, author, _, _, first, _, _ in heads]
        found = self.asked("handed", key=note["key"], raws=raws, refused=2)
        self.assertEqual(found, {"why": {"why": "There is no memory."}, "handed": said[:2] + said[1:], "said": said})


class BesidePython(Modules):
    """What Python makes and takes."""

    def setUp(self) -> None:
        self.chance = random.Random(11)
        self.founding = new_founding(AUTHOR.name, 7)
        self.form = SealedRecords(self.founding.key(), 0)

    def said(self, number: int, author: Author, body: bytes, *, site: int = 1, text: int = 0, first: int = 0, count: int = 0,
             before: bytes = NO_HASH) -> bytes:
        """The bytes of an entry that somebody with the link can make, whether it may be or not."""
        head = RECORD_HEAD.pack(4, number, self.form.note, author.name, site, text, first, count, before)
        unsigned = self.form._unsigned(head, body)
        return unsigned + self.form._signature(unsigned, author)

    def right_ones(self) -> list[bytes]:
        """Entries of each kind."""
        form, chance = self.form, self.chance
        some = chance.randbytes
        copied = Copied(AUTHOR.name, 3, some(32), 9, ((1, 2, 3), (2**31, 0, 5), (300, 2**32 - 9, 8)), some(32))
        made: list[Record] = [form.opening(self.founding), form.anew_up_to(some(32), AUTHOR, 4, 16), form.copies(copied, AUTHOR, 3, text=2),
                              form.renewed("Éva \U0001f44d", 4, AUTHOR)]
        made += [form.claim(number_of_rank(rank_of(form.note, AUTHOR.name, counter), 0) or 0, AUTHOR, counter)
                 for counter in (0, 1, 255, 2**32, 2**63, 2**64 - 1)]
        return [one.raw for one in made] + [self.said(99, AUTHOR, some(chance.randrange(50)), site=0, text=200, count=9) for _ in range(3)]

    def wrong_ones(self) -> list[bytes]:
        """Entries that say what can't be."""
        ours, form, zeros = self.form.itself, self.form, bytes(32)
        right, anew = self.founding.spelled(), self.chance.randbytes(32)
        pair = AUTHOR.name + b"\0\3" + bytes(32) + b"\0\1" + zeros
        yield_of = [
            (1, AUTHOR, right, {"site": 0}), (1, ours, right, {}), (1, ours, right + b"x", {"site": 0}),
            (1, ours, right[:-1] + b"x", {"site": 0}),
            (1, ours, right, {"site": 0, "before": anew}), (1, ours, right, {"site": 0, "count": 1}),
            (1, ours, right, {"site": 0, "text": 1}),
            (2, AUTHOR, b"x", {}), (2, AUTHOR, b"", {"before": anew}), (2, AUTHOR, b"", {"site": 1, "before": zeros}),
            (2, AUTHOR, b"", {"text": 1}), (2, AUTHOR, b"", {"first": 1}), (2, AUTHOR, b"", {"site": 0}),
            (2, AUTHOR, b"", {"site": 65_529}),
            (5, AUTHOR, b"", {"text": 1}), (5, AUTHOR, b"x", {"text": 1, "before": anew}), (5, AUTHOR, b"", {"text": 0, "before": anew}),
            (5, AUTHOR, b"", {"text": 17, "before": anew}), (5, AUTHOR, b"", {"text": 1, "count": 1, "before": anew}),
            (7, AUTHOR, b"x" * 201, {}), (7, AUTHOR, b"x", {"before": anew}), (7, AUTHOR, b"x", {"text": 1}),
            (4, AUTHOR, b"\0\0", {"text": 1}), (4, AUTHOR, b"\0\0", {"text": 1, "first": 1}),
            (4, AUTHOR, b"", {"text": 1, "first": 1, "count": 1}),
            (4, AUTHOR, b"\0\1" + bytes(33), {"text": 1, "first": 1, "count": 1}),
            (4, AUTHOR, b"\0\1\0\1" + bytes(32), {"text": 1, "first": 1, "count": 1}),
            (4, AUTHOR, b"\0\2" + (b"\0\0" + zeros) * 2, {"text": 1, "first": 1, "count": 5}),
            (4, AUTHOR, b"\0\0", {"text": 1, "first": 2, "count": 1}),
            (4, AUTHOR, b"\0\0", {"text": 1, "first": 1, "count": 1, "before": anew}),
            (3, AUTHOR, b"", {"text": 1, "first": 1, "count": 1}), (3, ours, b"", {"text": 1, "first": 0, "count": 1}),
            (6, AUTHOR, b"", {"text": 1}), (6, AUTHOR, pair, {"site": 3, "text": 1})]
        for numbers in (b"\1", b"\1\2", b"\1\2\0", b"\0\1\1", b"\1\2\3\4", b"\x81\0\1\1", b"\x80", b"\xff" * 7 + b"\1\1\1",
                        b"\xff\xff\xff\xff\x0f\1\2", b"\1\xff\xff\xff\xff\x0f\2"):
            yield_of.append((6, AUTHOR, pair + numbers, {"site": 3, "text": 1}))
        yield_of += [(6, AUTHOR, pair + b"\1\1\1", {"site": 4, "text": 1}), (6, ours, pair + b"\1\1\1", {"site": 3, "text": 1}),
                     (6, AUTHOR, AUTHOR.name + b"\0\0" + bytes(32) + b"\0\1" + zeros + b"\1\1\1", {"site": 3, "text": 1})]
        made = [self.said(kind, author, body, **where) for kind, author, body, where in yield_of]  # type: ignore[arg-type]
        # Signed by another, for another note, with another nonce, without a signature, and too long.
        one = form.anew_up_to(anew, AUTHOR, 4, 1).raw
        other = SealedRecords(bytes(32), 0)
        head, nonce = RECORD_HEAD.pack(4, 5, form.note, AUTHOR.name, 4, 1, 0, 0, anew), bytes(12)
        again = head + nonce + form._seal.encrypt(nonce, b"", head)
        return [*made, one[:-64] + signed(one[:-64], ours.secret), other.anew_up_to(anew, AUTHOR, 4, 1).raw,
                again + signed(again, AUTHOR.secret), one[:-64] + bytes(64), self.said(99, AUTHOR, bytes(16_384)), b"", one[:100]]

    def test_what_python_takes_they_take_and_nothing_else(self) -> None:
        right, wrong = self.right_ones(), self.wrong_ones()
        damaged = []
        for raw in right:
            for _ in range(12):
                at = self.chance.randrange(len(raw))
                damaged += [raw[:at] + bytes([raw[at] ^ 1 << self.chance.randrange(8)]) + raw[at + 1:], raw[:at], raw + raw[:at]]
        raws = [*right, *wrong, *damaged]
        found = self.asked("opened", key=self.form.keys.key.hex(), raws=[raw.hex() for raw in raws], bits=0)
        taken = 0
        for raw, one in zip(raws, found):
            try:
                python = self.form.open(raw)
            except Bad as why:
                # Of what has several faults each may name another one.
                self.assertIn("why", one, (why, raw.hex()))
                continue
            taken += 1
            self.assertEqual((one.get("why"), one.get("body"), one.get("author"), one.get("site"), one.get("before")),
                             (None, python.body.hex(), python.author.hex(), python.site, python.before.hex()))
        self.assertEqual((taken, {"why" in one for one in found[len(right):]}), (len(right), {True}))

    def test_what_they_seal_python_opens(self) -> None:
        for _ in range(20):
            body, before = self.chance.randbytes(self.chance.randrange(200)).decode("latin-1").encode()[:200], NO_HASH
            site = self.chance.randrange(1, 65_529)
            place = {"site": site, "text": 0, "first": 0, "count": 0, "before": before.hex()}
            raw = bytes.fromhex(self.asked("sealed", key=self.form.keys.key.hex(), kind=7, secret=AUTHOR.secret.hex(), place=place,
                                           body=body.hex()))
            self.assertEqual((raw, self.form.open(raw).body), (self.said(7, AUTHOR, body, site=site), body))
        counter = self.chance.randrange(2**64)
        site = number_of_rank(rank_of(self.form.note, AUTHOR.name, counter), 0) or 1
        raw = self.asked("claim", key=self.form.keys.key.hex(), secret=AUTHOR.secret.hex(), counter=str(counter), site=site)
        self.assertEqual(raw, self.form.claim(site, AUTHOR, counter).raw.hex())

    def test_signatures_that_libraries_check_otherwise(self) -> None:
        data, secret = b"signed", self.chance.randbytes(32)
        name, right = public_of(secret), signed(b"signed", secret)
        wrong = [(right, point) for point in sorted(REFUSED_POINTS)] + [(point + right[32:], name) for point in sorted(REFUSED_POINTS)]
        more = int.from_bytes(right[32:], "little") + ORDER
        wrong += [(right[:32] + more.to_bytes(32, "little"), name), (right[:-1], name), (right + b"x", name),
                  (bytes(64), bytes([1]) + bytes(31)),
                  (right, (FIELD + 5).to_bytes(32, "little")), (bytes(64), name)]
        for signature, of in [(right, name), *wrong]:
            found = self.asked("isSigned", data=data.hex(), signature=signature.hex(), name=of.hex())
            self.assertEqual(found, is_signed(data, signature, of))
        self.assertTrue(is_signed(data, right, name))

    def test_who_signed_much_is_imported_once_and_of_many_few_are_kept(self) -> None:
        secrets = [os.urandom(32) for _ in range(3)]
        some = [{"signature": signed(b"signed", one).hex(), "name": public_of(one).hex()} for one in secrets]
        wrong = {**some[0], "signature": some[1]["signature"]}
        found = self.asked("imported", data=b"signed".hex(), signed=[*some, *some, wrong])
        self.assertEqual(found, {"are": [True] * 6 + [False], "many": 3})
        # Whoever has the link may make up authors.
        points = [{**some[0], "name": (number + 10**6).to_bytes(32, "little").hex()} for number in range(2_000)]
        found = self.asked("imported", data=b"signed".hex(), signed=[*points, some[0]])
        self.assertEqual((found["are"].count(True), found["are"][-1], found["many"]), (1, True, 2_001))

    def test_what_is_said_of_who_is_on(self) -> None:
        names = ["", "Ann", "J\u00f6rg \u6f22\u5b57", "\U0001f44d" * 40, "x" * 40, "a\0b\u202ec ", "\u00e9" * 100]
        for name in names:
            engine, editor, site = self.chance.randbytes(8), self.chance.randbytes(16), self.chance.randrange(65_529)
            colour, count = f"#{self.chance.randrange(2**24):06x}", self.chance.randrange(1, 2**32)
            there = self.chance.randrange(1, 65_529), self.chance.randrange(2**24)
            cursor, anchor = self.chance.choices([None, AT_FRONT, there], k=2)
            said = presence_of(Present(token_of(engine), editor, site, colour, cursor, anchor, name))
            said = with_count(said, count)
            words = {"engine": engine.hex(), "editor": editor.hex(), "site": site, "colour": colour, "name": name, "count": count,
                     "cursor": cursor and [*cursor], "anchor": anchor and [*anchor]}
            for leaves, data in (False, said), (True, leaving(said)):
                self.assertEqual(self.asked("ofEditor", leaves=leaves, **words), data.hex())
                read = Present(*read_presence(said) or ())
                self.assertEqual(self.asked("readPresence", data=data.hex()), [{**words, "name": read.name, "leaves": leaves}, None])
            for hears in Hears:
                data = heartbeat_of(Said(token_of(engine), count, 0, (), hears))
                self.assertEqual(self.asked("ofEngine", engine=engine.hex(), count=count, hears=int(hears)), data.hex())
                self.assertEqual(self.asked("readPresence", data=data.hex()),
                                 [None, {"engine": engine.hex(), "count": count, "hears": int(hears)}])
        # One that asks for something is heard, too, and what is neither isn't.
        data = heartbeat_of(Said(token_of(engine), 7, 1, [Lack(Way.IT, bytes(range(32)))], Hears.CHANNEL))
        self.assertEqual(self.asked("readPresence", data=data.hex())[1], {"engine": engine.hex(), "count": 7, "hears": 1})
        for size in 0, 20, 49, 212, 215, 217, 256:
            self.assertEqual(self.asked("readPresence", data=self.chance.randbytes(size).hex()), [None, None])

    def test_links(self) -> None:
        for url in "https://notes.example", "https://notes.example:8443", "http://127.0.0.1:7007", "http://[::1]:7007":
            key = self.chance.randbytes(32)
            made = self.asked("link", key=key.hex(), url=url)
            self.assertEqual((made["link"], made["page"]), (KeyLink("sealed", key, url).spelled(), KeyLink("sealed", key, url).page()))
            for given in made.values():
                self.assertEqual(link_of(given), KeyLink("sealed", key, url))
                for at in range(len(given) - 40, len(given)):
                    changed = given[:at] + chr(ord(given[at]) ^ 1) + given[at + 1:]
                    with self.subTest(changed), self.assertRaises(Trouble):
                        link_of(changed)
                    self.assertIn("why", self.asked("readLink", given=changed, relay=url))
                self.assertIn("why", self.asked("readLink", given=given[:-1], relay="https://other.example"))
        # A page on another server, which the relay lets in.
        elsewhere = self.asked("link", key=key.hex(), url="https://relay.example", page="https://page.example")["page"]
        found = self.asked("readLink", given=elsewhere, relay="https://relay.example")
        self.assertEqual(found, {"key": key.hex(), "url": "https://relay.example"})

    def test_links_that_no_page_opens(self) -> None:
        old = "vialshoal:1.1:s:AAAAAAAAAAAAAAAAAAAAAAAAAAAAAAAAAAAAAAAAAAAA@redis://127.0.0.1:7000"
        for given, words in ((old, "first form.*renew"), (f"https://h/#{old}", "first form.*renew"),
                             (old.replace("1.1", "1"), "made by an unreleased version of vialshoal"),
                             (KeyLink("plain", bytes(32), "/srv/x.log").spelled(), "isn't sealed.*renew"),
                             (KeyLink("sealed", bytes(32), "redis://h:7").spelled(), "no browser reaches.*renew"),
                             ("vialshoal:3:s:x@https://h", "made by a later version of vialshoal"),
                             ("hello", "isn't a note's link"), ("", "isn't a note's link"),
                             ("https://notes.example/", "isn't a note's link"), ("vialshoal:2:s:abc", "cut short")):
            self.assertRegex(self.asked("readLink", given=given, relay="https://notes.example")["why"], words)


class Histories(Modules):
    """How a text came to be."""

    def test_a_history_has_the_steps_that_engines_tell(self) -> None:
        chance = random.Random(3)
        with closing(Site(300)) as one, closing(Site(7)) as other:
            said, parts, lengths = list[Operation](), list[Packed](), Counter[int]()
            for _ in range(TURNS):
                site, meets = chance.sample([one, other], 2)
                sent = self.edit(site, chance)
                meets.take(sent)
                said += sent
                for message in sent[:1]:
                    parts += packed_in_parts(sent, lengths[message.site])
                    lengths[message.site] = length_after(sent, lengths[message.site])
        self.assertEqual({one.kind for one in said}, {INSERT, DELETE, CHANGE_LOOKS, RESTORE})
        history, chunks = Messages(said), [part.chunk.hex() for part in parts]
        counting = [*Counter(one.site for one in said).items()]
        found = self.asked("history", chunks=chunks, counting=counting)
        self.assertEqual(found["length"], len(history))
        self.assertEqual(found["steps"], [as_line(one) for one in steps(history, 0, len(history))])
        # What comes before what it follows waits, and is there in the end; what comes twice is there once.
        mixed = chance.sample(chunks, len(chunks)) + chance.sample(chunks, 9)
        self.assertEqual(self.asked("history", chunks=mixed, counting=counting)["length"], len(history))

    def test_what_is_not_as_its_entry_says_has_no_messages(self) -> None:
        part = packed([inserting(7, 3, 3, None, 0, b"abc"), inserting(7, 4, 4, None, 3, b"d")])
        assert part
        body, right = bytes(2) + part.chunk, {"site": 7, "first": 3, "count": 2}
        for words, many in (right, 2), ({**right, "site": 8}, 0), ({**right, "first": 4}, 0), ({**right, "count": 1}, 0):
            self.assertEqual(self.asked("messages", body=body.hex(), **words), many)
        for data in *(body[:size] for size in range(len(body))), b"\xff" * 40, bytes(8) + b"\x07" + b"\xff" * 20:
            self.assertLess(self.asked("messages", body=data.hex(), **right), 2)

    def edit(self, site: Site, chance: random.Random) -> list[Operation]:
        """What an edit says."""
        length = len(site.text())
        begin, end = sorted(chance.choices(range(length + 1), k=2))
        what = chance.randrange(8)
        if what < 3 or not length:
            data = bytes(chance.choices(b"abc\1\x0e\r\xff", k=chance.choice([1, 1, 5])))
            return site.insert(chance.choice([begin, length]), data).messages
        if what < 5:
            return site.cut(begin, min(length, end + 1)).messages
        if what < 6:
            end = min(length, begin + 4)
            return [one for edited in site.replace([Rewrite(begin, end, b"xy z", int(end > begin + 1))]) for one in edited.messages]
        names = site.names(begin, min(length, end + 1))
        if not names:
            return []
        if what < 7:
            return site.look(Looks(colour=chance.randrange(1, 9)), names).messages
        gone = site.delete(names)[0].messages
        behind = site.insert_behind([names[-1]._replace(at=names[-1].at + names[-1].length - 1, length=1)], b"behind", range(length))[0]
        return gone + behind.messages + site.restore(names[:1])[0].messages


class Relaying(Modules, Case):
    """What goes over a relay's WebSocket."""

    def test_messages(self) -> None:
        page = RelayPage(9, True, 2**40, "12.-5", [InLog("1.1", b"abc"), InLog("2.1", None)])
        self.assertEqual(self.asked("message", name="pageOf", data=page.spelled().hex()), {
            "id": 9, "atEnd": True, "size": 2**40, "after": "12.-5",
            "entries": [{"place": "1.1", "raw": b"abc".hex()}, {"place": "2.1", "raw": None}]})
        refusal = Refusal(7, Why.FULL, "It is full.\x1b[2J\u202e")
        found = self.asked("message", name="refusalOf", data=refusal.spelled().hex())
        self.assertEqual(found, {"id": 7, "why": 1, "words": "It is full.[2J"})
        asked = ReadRequest(7, 1_000, "12.-5")
        self.assertEqual(self.asked("spelled", name="readMessage", words=[*asked]), asked.spelled().hex())
        raws = [b"", b"x" * 300]
        found = self.asked("spelled", name="appendMessage", words=[8, [raw.hex() for raw in raws]])
        self.assertEqual(found, AppendRequest(8, raws).spelled().hex())
        data = page.spelled()
        for wrong in (data[:5], data[:-1], data + b"\1", data + b"\1x\0\0\0\xff", data[:5] + b"\2" + data[6:], data + b"\x041\x2e1",
                      data[:14] + b"\1\xff"):
            self.assertIn("why", self.asked("message", name="pageOf", data=wrong.hex()), wrong)
        twice = page._replace(entries=[page.entries[0]] * 2)
        self.assertIn("why", self.asked("message", name="pageOf", data=twice.spelled().hex()))
        for name, wrong in (("refusalOf", b"\6\0\0\0\1\0no"), ("refusalOf", b"\6\0\0\0\1\x09no"), ("refusalOf", b"\6\0"),
                            ("keptOf", b"\4\0\0\0\1x"), ("keptOf", b"\4\0"), ("presenceOf", b"\5"), ("presenceOf", b"\5" + bytes(257)),
                            ("challengeOf", b"\1" + bytes(31)), ("challengeOf", b"\2" + bytes(32))):
            self.assertIn("why", self.asked("message", name=name, data=wrong.hex()), (name, wrong))

    def test_a_line_that_breaks_is_there_again(self) -> None:
        relay = RelayProcess(self.folder / "kept")
        self.addCleanup(relay.close)
        raws = [record(number) for number in range(1_000)]
        self.ask("line", key=form_of().keys.key.hex(), url=relay.url, appended=[raw.hex() for raw in raws])
        self.assertEqual(self.answer(), "appended")
        with closing(opener_of(relay.url, form_of())()) as log:
            self.assertEqual(raws_of(log), raws)
        relay.kill()
        relay.start()
        found = self.answer()
        self.assertEqual([one["raw"] for one in found["page"]["entries"]], [raw.hex() for raw in raws])
        self.assertGreaterEqual(found["downs"], 1)
        self.assertGreaterEqual(found["came"], 0)


if __name__ == "__main__":
    unittest.main()
