"""The second form of notes, as a plain program has it: vectors that a second program made, what counts, and attacks."""
import hashlib
import json
import os
import pathlib
import random
import subprocess
import unittest
from collections import Counter
from collections.abc import Iterable, Sequence
from itertools import pairwise
from typing import Any

from cryptography.hazmat.primitives.asymmetric.ed25519 import Ed25519PrivateKey, Ed25519PublicKey
from cryptography.hazmat.primitives.ciphers.aead import AESGCM
from hypothesis import HealthCheck, given, settings
from hypothesis import strategies as st

from share.tests import naive_second as second
from share.tests.naive_chunks import DELETE, Message, NoChunk, chunk_of, inserting, messages_of, spelled
from share.tests.naive_second import (FIELD, HEAD, LEAP, NONCE, PLAIN, SEALED, SIGNATURE, ZEROS, Answer, Author, Bad, Copied, Founding,
                                      Head, Kind, Note, Place, Saying, Why, closed, judged, opened, opening, rank, searched, written)
from share.tests.naive_told import incomplete, told
from share.tests.second_sets import COPIED, STEPS, ZERO_BITS, Branch, Set, authors, base_messages, counters, cut, made

VECTORS = pathlib.Path(__file__).parent / "data" / "second_form.json"
SEEDS = st.integers(0, 2**16 - 1)
TIMES = int(os.environ.get("VIALSHOAL_EXAMPLES", "0"))


def tries(count: int) -> settings:
    """That a test tries so many examples, the same ones each time unless more are asked for."""
    return settings(max_examples=count * max(TIMES, 1), derandomize=not TIMES, database=None, deadline=None,
                    suppress_health_check=list(HealthCheck))


def sets(form: int = PLAIN) -> st.SearchStrategy[Set]:
    """Sets of entries, some claims and some chains first."""
    first = st.tuples(*(st.tuples(st.just(what), SEEDS) for what in ["claim"] * 6 + ["begin"] * 3))
    others = st.lists(st.tuples(st.sampled_from(STEPS), SEEDS), min_size=5, max_size=30)
    return st.builds(lambda one, two, has_base: Set([*one, *two], has_base, form), first, others, st.booleans())


def judge(one: Set, raws: Iterable[bytes]) -> Answer:
    return judged(one.note, raws, ZERO_BITS)


def counted(answer: Answer) -> dict[Place, list[bytes]]:
    """What counts, by hashes."""
    return {place: [one.hash for one in said] for place, said in answer.through.items() if said}


def reasons(answer: Answer) -> dict[bytes, Why]:
    return {of: why for of, (_, why) in answer.left_out.items()}


def what_is_told(answer: Answer) -> tuple[list[bytes], int]:
    """What is told as left out, and how much waits."""
    return sorted(one.hash for one in told(answer)), incomplete(answer)


def some_of(raws: Sequence[bytes], chance: random.Random) -> list[bytes]:
    return [raw for raw in raws if chance.random() < 0.9]


def changed_bytes(raw: bytes, at: int, by: int = 1) -> bytes:
    """An entry of which a byte is another one."""
    return raw[:at] + bytes([raw[at] ^ by]) + raw[at + 1:]


class Vectors(unittest.TestCase):
    """What a program in JavaScript made from the page alone."""

    def setUp(self) -> None:
        self.all: dict[str, Any] = json.loads(VECTORS.read_text())
        self.bits = self.all["bits"]
        self.sealed = Note(bytes.fromhex(self.all["sealed"]["key"]))
        self.authors = {word: Author.of(bytes.fromhex(one["secret"])) for word, one in self.all["authors"].items()}

    def test_they_are_what_the_second_program_prints(self) -> None:
        made_now = subprocess.run(["node", "--no-warnings", VECTORS.parent.parent / "second_form.mjs"], capture_output=True, check=True)
        self.assertEqual(json.loads(made_now.stdout), self.all)

    def raws(self, form: str = "sealed") -> list[bytes]:
        return [bytes.fromhex(one["raw"]) for one in self.all[form]["entries"]]

    def test_keys(self) -> None:
        for word, form in ("sealed", SEALED), ("plain", PLAIN):
            said = {name: bytes.fromhex(of) for name, of in self.all[word].items() if name != "entries"}
            note = Note(hashlib.sha256(b"vialshoal 2 key" + said["founding"]).digest(), form)
            self.assertEqual((note.key, note.hashing, note.seal, note.nonces, note.on, note.append, note.public, note.identity), tuple(
                said[name] for name in ("key", "hash", "seal", "nonce", "presence", "append", "public", "identity")))
        for word, author in self.authors.items():
            self.assertEqual(author.name.hex(), self.all["authors"][word]["name"])

    def test_entries_are_opened_and_made_again_byte_for_byte(self) -> None:
        secrets = {author.name: author.secret for author in self.authors.values()} | {self.sealed.public: self.sealed.append}
        for note, word in (self.sealed, "sealed"), (Note(bytes.fromhex(self.all["plain"]["key"]), PLAIN), "plain"):
            for said, raw in zip(self.all[word]["entries"], self.raws(word)):
                entry = opened(note, raw, self.bits)
                self.assertEqual(Kind(entry.head.kind).name.lower(), said["what"])
                self.assertEqual(closed(note, entry.head, entry.body, secrets.get(entry.head.author, b"")), raw)
                if entry.head.kind == Kind.BASE:
                    founding = bytes.fromhex(self.all[word]["founding"])
                    hashes = second.base_hashes(founding[:32], entry.messages, entry.head.before)
                else:
                    hashes = [one.hash for one in entry.says]
                self.assertEqual([of.hex() for of in hashes], said["hashes"])

    def test_all_of_it_counts(self) -> None:
        answer = judged(self.sealed, self.raws(), self.bits)
        self.assertEqual((answer.left_out, answer.bad), ({}, set()))
        bob, cy = (self.all["claims"][word]["site"] for word in ("bob", "cy"))
        self.assertEqual({place: len(said) for place, said in counted(answer).items()}, {
            (7, 1): 2, (9, 1): 1, (9, 2): 1, (1, 1): 3, (1, 2): 1, (bob, 1): 5, (bob, 2): 1, (cy, 1): 1, (bob, 16): 1})
        self.assertEqual(len(judged(self.sealed, self.raws()).counted().get((bob, 1), [])), 0)
        plain = Note(bytes.fromhex(self.all["plain"]["key"]), PLAIN)
        answer = judged(plain, self.raws("plain"), self.bits)
        self.assertEqual((answer.left_out, answer.bad, sorted(len(said) for said in counted(answer).values())), ({}, set(), [1, 1, 2]))

    def test_claims_are_the_first_that_a_search_finds(self) -> None:
        for word, said in self.all["claims"].items():
            author = self.authors["cy" if word == "full" else word]
            of = rank(self.sealed.identity, author.name, said["counter"])
            self.assertEqual((of.hex(), second.number_of(of, 20 if word == "full" else self.bits)), (said["rank"], said["site"]))
            if word != "full":
                self.assertEqual(searched(self.sealed.identity, author.name, self.bits), (said["counter"], said["site"]))

    def test_presence_proof_links_and_names_of_claims(self) -> None:
        for said in self.all["presence"], self.all["lacking"]:
            self.assertEqual(second.presence(self.sealed, bytes.fromhex(said["data"])).hex(), said["raw"])
            self.assertEqual(second.present(self.sealed, bytes.fromhex(said["raw"])).hex(), said["data"])
        said = self.all["proof"]
        self.assertEqual(second.proof(self.sealed, bytes.fromhex(said["challenge"]), said["origin"]).hex(), said["signature"])
        said = self.all["asked"]
        self.assertEqual(self.sealed.claim_name(bytes.fromhex(said["author"]), said["site"]).hex(), said["name"])
        for one in self.all["links"]:
            self.assertEqual(second.read_link(one["link"]), (one["form"], bytes.fromhex(one["key"]), one["url"]))
            self.assertEqual(second.link_of(bytes.fromhex(one["key"]), one["url"], one["form"]), one["link"])

    def test_a_link_with_a_mistake_is_refused(self) -> None:
        for said in self.all["links"]:
            link = said["link"]
            for at in range(len("vialshoal:2:"), len(link)):
                for other in "A", "p", "s", "":
                    if link[at] != other:
                        with self.assertRaises(Bad):
                            second.read_link(link[:at] + other + link[at + 1:])

    def test_each_changed_bit_of_an_entry_makes_it_none(self) -> None:
        for word, note in ("plain", Note(bytes.fromhex(self.all["plain"]["key"]), PLAIN)), ("sealed", self.sealed):
            raw = self.raws(word)[-1]
            for at in range(len(raw)):
                for bit in range(8) if word == "plain" or at < HEAD + NONCE else range(at % 8, at % 8 + 1):
                    with self.assertRaises(Bad):
                        opened(note, changed_bytes(raw, at, 1 << bit), self.bits)
            for end in range(len(raw)):
                with self.assertRaises(Bad):
                    opened(note, raw[:end], self.bits)
            with self.assertRaises(Bad):
                opened(note, raw + b"\0", self.bits)


class Chunks(unittest.TestCase):
    """Chunks as the plain program reads them."""

    @tries(60)
    @given(sets())
    def test_messages_come_back(self, one: Set) -> None:
        for branch in judge(one, one.raws).through.values():
            messages = [said.message for said in branch]
            self.assertEqual([*messages_of(chunk_of(messages))] if messages else [], messages)

    def test_of_texts_alike_but_for_their_numbers(self) -> None:
        for text in 1, 2, 16:
            self.assertEqual(chunk_of([inserting(text, 3, 1, 1, None, 0, b"a")]).hex(), f"4f5443310{text:03x}0f03010100" + "61")

    def test_another_spelling_is_none(self) -> None:
        right = chunk_of([inserting(1, 3, 1, 1, None, 0, b"a"), Message(DELETE, 1, 3, 2, 2, ((3, 0, 1),))])
        self.assertEqual(len(messages_of(right)), 2)
        for other in right[:7], right + b"\x08", right[:7] + b"\x83\0" + right[8:], right[:-1] + b"\7\0\3\0\0", b"OTC2" + right[4:]:
            with self.assertRaises(NoChunk):
                messages_of(other)


class WhatCounts(unittest.TestCase):
    """Properties of sets at random."""

    @tries(100)
    @given(sets(), SEEDS)
    def test_order_and_repeats_change_nothing(self, one: Set, seed: int) -> None:
        chance = random.Random(seed)
        some = some_of(one.raws, chance)
        answer = judge(one, some)
        for _ in range(3):
            coming = some + chance.choices(some, k=len(some) // 3) if some else []
            chance.shuffle(coming)
            again = judge(one, coming)
            self.assertEqual((counted(again), reasons(again), again.bad, again.holders, what_is_told(again)),
                             (counted(answer), reasons(answer), answer.bad, answer.holders, what_is_told(answer)))

    @tries(100)
    @given(sets(), SEEDS)
    def test_a_set_and_the_set_folded_admit_the_same(self, one: Set, seed: int) -> None:
        chance = random.Random(seed)
        folded = {raw for branch in one.branches if branch.is_chain for raw in cut(one.note, branch, chance)}
        before, after = judge(one, one.raws), judge(one, [*one.raws, *folded])
        self.assertEqual((counted(after), reasons(after), what_is_told(after)), (counted(before), reasons(before), what_is_told(before)))
        # Without what the folds have.
        covered = {said.hash for raw in folded for said in opened(one.note, raw).says}
        others = [raw for raw in one.raws if not (says := opened(one.note, raw, ZERO_BITS).says)
                  or not covered.issuperset(said.hash for said in says)]
        after = judge(one, [*others, *folded])
        self.assertEqual((counted(after), reasons(after), what_is_told(after)), (counted(before), reasons(before), what_is_told(before)))

    @tries(100)
    @given(sets(), SEEDS)
    def test_more_entries_take_away_only_by_a_lesser_rank_or_hash(self, one: Set, seed: int) -> None:
        chance, came, before = random.Random(seed), list[bytes](), Answer(one.note)
        for raw in chance.sample(one.raws, len(one.raws)):
            came.append(raw)
            after = judge(one, came)
            for place, said in before.through.items():
                kept = after.through.get(place, [])
                if kept[:len(said)] != said:
                    self.assertTrue(self.has_lesser(before, after))
            before = after

    def has_lesser(self, before: Answer, after: Answer) -> bool:
        """Whether somebody else holds a number, or a lesser message a place in a chain, than before."""
        if any(after.holders.get(site) != author for site, author in before.holders.items()):
            return True
        return any(one.hash > two.hash for place, chain in before.chains.items()
                   for one, two in zip(chain, after.chains.get(place, [])) if one != two)

    @tries(60)
    @given(sets())
    def test_texts_and_what_entries_only_say_change_nothing_of_one_another(self, one: Set) -> None:
        answer, entries = judge(one, one.raws), {raw: opened(one.note, raw, ZERO_BITS) for raw in one.raws}
        for text in 1, 2:
            part = judge(one, [raw for raw, entry in entries.items() if entry.head.kind != Kind.MESSAGES or entry.head.text == text])
            self.assertEqual({place: said for place, said in counted(part).items() if place[1] == text},
                             {place: said for place, said in counted(answer).items() if place[1] == text})
        silent = judge(one, [raw for raw, entry in entries.items() if entry.head.kind <= Kind.MESSAGES and entry.head.kind])
        self.assertEqual((counted(silent), reasons(silent)), (counted(answer), reasons(answer)))
        # Words make it less, and never more, that is told.
        self.assertLessEqual({*what_is_told(answer)[0]}, {*what_is_told(silent)[0]})
        self.assertLessEqual(incomplete(answer), incomplete(silent))

    @tries(60)
    @given(sets(), SEEDS)
    def test_nothing_counts_before_the_opening_and_all_of_the_base_are_there(self, one: Set, seed: int) -> None:
        gone = random.Random(seed).choice(one.made.begin)
        answer = judge(one, [raw for raw in one.raws if raw != gone])
        self.assertEqual((counted(answer), {*reasons(answer).values()} <= {Why.NO_OPENING}), ({}, True))

    @tries(60)
    @given(sets())
    def test_what_counts_is_a_good_set(self, one: Set) -> None:
        answer = judge(one, one.raws)
        for (site, text), said in answer.through.items():
            messages = [each.message for each in said]
            self.assertEqual([each.seq for each in messages], [*range(1, len(messages) + 1)])
            self.assertTrue(all(each.stamp < other.stamp for each, other in pairwise(messages)))
            for each in said:
                self.assertEqual((each.message.site, each.message.text), (site, text))
                self.assertTrue(all(answer.stamps[text, name] < each.message.stamp for name in each.mentions()))

    @tries(8)
    @given(sets(SEALED), SEEDS)
    def test_sealed_ones_are_opened_in_any_order(self, one: Set, seed: int) -> None:
        answer, again = judge(one, one.raws), judge(one, random.Random(seed).sample(one.raws, len(one.raws)))
        self.assertEqual((counted(again), reasons(again)), (counted(answer), reasons(answer)))
        self.assertEqual(answer.bad, set())

    @tries(60)
    @given(sets(), SEEDS)
    def test_what_is_forged_or_damaged_changes_nothing(self, one: Set, seed: int) -> None:
        chance, answer = random.Random(seed), judge(one, one.raws)
        damaged = [changed_bytes(raw, chance.randrange(len(raw)), chance.randrange(1, 256)) for raw in one.raws]
        again = judge(one, [*one.raws, *damaged, *(raw[:chance.randrange(len(raw))] for raw in one.raws)])
        self.assertEqual((counted(again), reasons(again)), (counted(answer), reasons(answer)))
        self.assertLessEqual({*damaged}, again.bad)

    def test_the_sets_have_all_that_can_be(self) -> None:
        found, through, folded, copied = Counter[Why](), Counter[Place](), 0, 0
        for seed in range(200):
            chance = random.Random(seed)
            steps = ["claim"] * 6 + ["begin"] * 3 + chance.choices(STEPS, k=30)
            one = Set([(step, chance.randrange(2**16)) for step in steps], chance.random() < 0.5)
            answer = judge(one, some_of(one.raws, chance) if seed % 3 == 0 else one.raws)
            found.update(reasons(answer).values())
            through.update({place: len(said) for place, said in answer.through.items()})
            copied += len([why for why in reasons(answer).values() if why in (Why.HOLDER, Why.BRANCH)]) > len(told(answer))
            folded += sum(len({said.on for said in chain if said.on}) > 1 for chain in answer.through.values())
        self.assertEqual({why for why in Why if found[why] < 5}, set())
        self.assertGreater(sum(many for (site, _), many in through.items() if site not in COPIED), 500)
        self.assertGreater(folded, 5)
        self.assertGreater(copied, 5)


class Attacks(unittest.TestCase):
    """What somebody can do, and can't, as the page's table has it. Entries are sealed."""

    def setUp(self) -> None:
        self.made = made(SEALED)
        self.note = self.made.note
        self.ada, self.bob, self.eve, _ = authors(SEALED)
        self.first = self.typing(self.ada, 1, b"hello")

    def typing(self, author: Author, site: int, *data: bytes, text: int = 1, stamp: int = 10, cause: tuple[int, int] | None = None,
               on: bytes = b"") -> Branch:
        """Messages that type, one after the other."""
        branch, at = Branch(author, site, text), 0
        for seq, each in enumerate(data, 1):
            message = inserting(text, site, seq, stamp + seq, (site, at - 1) if at else cause, at, each)
            before, builds = (branch.said[-1].hash, b"") if branch.said else (ZEROS, on)
            of = self.note.message_hash(author.name, before, spelled(message), builds)
            branch, at = branch._replace(said=(*branch.said, Saying(message, builds, of, before, author.name))), at + len(each)
        return branch

    def raw(self, branch: Branch) -> bytes:
        return branch.raw(self.note, 0, len(branch.said))

    def claim(self, author: Author, site: int) -> bytes:
        return second.claim(self.note, author, counters(SEALED, True, author)[site], site)

    def judged(self, *raws: bytes) -> Answer:
        return judged(self.note, [*self.made.begin, *raws], ZERO_BITS)

    def shown(self, answer: Answer, *place: int) -> list[bytes]:
        return [one.message.data for one in answer.through.get((place[0], place[1]), [])]

    # Who runs the server.

    def test_an_entry_is_of_one_note_one_text_and_one_place(self) -> None:
        raw = self.raw(self.first)
        other = made(SEALED, False).note
        for at in (0, 1, 2, 18, 50, 51, 52, 56, 58, 59):
            with self.assertRaises(Bad):
                opened(self.note, changed_bytes(raw, at, 3))
        with self.assertRaises(Bad):
            opened(other, raw)
        with self.assertRaises(Bad):
            opened(other, raw[:2] + other.identity + raw[18:])

    def test_hashes_nonces_and_signatures_are_keyed(self) -> None:
        raw, key = self.raw(self.first), Note(b"k" * 32)
        one = self.first.said[0]
        data = b"\1" + self.ada.name + ZEROS + spelled(one.message)
        guesses = {hashlib.sha256(data).digest(), key.digest(data), hashlib.sha256(spelled(one.message)).digest()}
        self.assertNotIn(one.hash, guesses)
        self.assertNotIn(spelled(one.message)[-5:], raw)
        self.assertNotEqual(raw[HEAD:HEAD + NONCE], key.nonce(raw[:HEAD] + opened(self.note, raw).body))

    def test_nobody_puts_another_founding_in_place(self) -> None:
        own = Founding(b"T" * 32, ZEROS, self.eve.name, 1)
        with self.assertRaises(Bad):
            opened(self.note, opening(self.note, own))
        # An identity is squatted by a key alone of which it is a hash.
        squatting = Head(SEALED, Kind.OPENING, self.note.identity, self.eve.name)
        with self.assertRaises(Bad):
            opened(self.note, closed(self.note, squatting, self.made.founding.spelled(), self.eve.secret))

    # Somebody with the link.

    def test_nobody_signs_for_another(self) -> None:
        message = self.first.said[0].message
        with self.assertRaises(Bad):
            opened(self.note, written(self.note, Author(self.ada.name, self.eve.secret), ZEROS, [message]))

    def test_anothers_chain_is_gone_on_with_by_nobody_and_taken_up_by_nobody(self) -> None:
        more = inserting(1, 1, 2, 20, (1, 4), 5, b"!")
        forged = written(self.note, self.eve, self.first.said[-1].hash, [more])
        own = written(self.note, self.ada, self.first.said[-1].hash, [more])
        answer = self.judged(forged, self.raw(self.first), own)
        self.assertEqual(self.shown(answer, 1, 1), [b"hello", b"!"])
        self.assertEqual([*reasons(answer).values()], [Why.PLACE])

    def test_a_key_or_half_a_signature_of_small_order_is_none(self) -> None:
        # Of these some libraries take nearly any signature, and others none.
        for y in (0, 1, FIELD - 1, FIELD, FIELD + 1, *second.SMALL[3:]):
            for top in 0, 1 << 255:
                self.assertFalse(second.is_point((y | top).to_bytes(32, "little")))
        name = (1).to_bytes(32, "little")
        forged = closed(self.note, Head(SEALED, Kind.CLAIM, self.note.identity, name, 2), b"", self.eve.secret)
        loose = forged[:-SIGNATURE] + name + bytes(32)
        Ed25519PublicKey.from_public_bytes(name).verify(loose[-SIGNATURE:], loose[:-SIGNATURE])
        self.assertFalse(second.is_signed(loose[:-SIGNATURE], loose[-SIGNATURE:], name))
        raw = self.raw(self.first)
        much = int.from_bytes(raw[-32:], "little") + second.ORDER
        self.assertFalse(second.is_signed(raw[:-SIGNATURE], raw[-SIGNATURE:-32] + much.to_bytes(32, "little"), self.ada.name))

    def test_an_own_nonce_is_refused(self) -> None:
        head, body = self.note_head(), b"\0\0" + chunk_of([self.first.said[0].message])
        nonce = bytes(NONCE)
        data = head.spelled() + nonce + AESGCM(self.note.seal).encrypt(nonce, body, head.spelled())
        with self.assertRaisesRegex(Bad, "nonce"):
            opened(self.note, data + Ed25519PrivateKey.from_private_bytes(self.ada.secret).sign(data))

    def note_head(self) -> Head:
        return Head(SEALED, Kind.MESSAGES, self.note.identity, self.ada.name, 1, 1, 1, 1)

    def test_a_claim_for_less_is_none_and_each_bit_doubles_its_price(self) -> None:
        cheap = self.claim(self.eve, 2)
        opened(self.note, cheap, 0)
        with self.assertRaises(Bad):
            opened(self.note, cheap)
        for bits in 4, 6, 8:
            begin = total = 0
            for _ in range(150):
                counter, _ = searched(self.note.identity, self.eve.name, bits, begin=begin)
                total, begin = total + counter + 1 - begin, counter + 1
            self.assertTrue(0.75 < total / 150 / 2**bits < 1.3, (bits, total / 150))

    def test_one_number_costs_as_many_times_more_as_there_are_numbers(self) -> None:
        begin, times = 0, 12
        for _ in range(times):
            begin = searched(self.note.identity, self.eve.name, 0, [2], begin)[0] + 1
        self.assertTrue(0.5 < begin / times / 2**16 < 2, begin / times)

    def test_one_search_gives_one_claim_for_one_note_and_one_author(self) -> None:
        counter = counters(SEALED, True, self.eve)[2]
        ranks = {rank(made(SEALED, base).note.identity, who.name, counter) for base in (True, False) for who in (self.eve, self.bob)}
        self.assertEqual(len(ranks), 4)
        again = searched(self.note.identity, self.eve.name, 0, [2], counter + 1)[0]
        text = self.raw(self.typing(self.eve, 2, b"x"))
        both = self.judged(self.claim(self.eve, 2), second.claim(self.note, self.eve, again, 2), text)
        self.assertEqual((self.shown(both, 2, 1), both.left_out), ([b"x"], {}))

    def test_a_lesser_claim_takes_a_number_which_is_told(self) -> None:
        by_rank = sorted([self.bob, self.eve], key=lambda one: rank(self.note.identity, one.name, counters(SEALED, True, one)[2]))
        taker, holder = by_rank
        mine = self.typing(holder, 2, b"mine")
        on = self.note.built_on([mine.said[0].hash])
        reply = self.typing(self.ada, 1, b"yes", cause=(2, 3), stamp=20, on=on)
        before = self.judged(self.claim(holder, 2), self.raw(mine), self.raw(reply))
        self.assertEqual((self.shown(before, 2, 1), self.shown(before, 1, 1)), ([b"mine"], [b"yes"]))
        theirs = self.typing(taker, 2, b"them")
        raws = [self.claim(holder, 2), self.raw(mine), self.raw(reply), self.claim(taker, 2), self.raw(theirs)]
        after = self.judged(*raws)
        self.assertEqual((self.shown(after, 2, 1), self.shown(after, 1, 1)), ([b"them"], []))
        self.assertEqual({*reasons(after).values()}, {Why.HOLDER, Why.OTHERS})
        self.assertEqual({one.message.data for one in told(after)}, {b"mine", b"yes"})

    def test_no_claim_takes_the_founders_number_or_the_base(self) -> None:
        taken = self.typing(self.eve, 7, b"gone"), self.typing(self.eve, 1, b"gone")
        answer = self.judged(self.raw(self.first), *(self.claim(self.eve, site) for site in (1, 7)), *map(self.raw, taken))
        self.assertEqual((self.shown(answer, 1, 1), self.shown(answer, 7, 1)), ([b"hello"], [b"tea", b""]))
        self.assertEqual({*reasons(answer).values()}, {Why.HOLDER, Why.BASE})

    def test_a_base_of_ones_own_is_no_part(self) -> None:
        fake = second.based(self.note, ZEROS, [inserting(1, 7, 1, 1, None, 0, b"lie")])
        more = second.based(self.note, self.made.founding.root, [inserting(2, 7, 2, 2, (7, 0), 4, b"lie")])
        answer = self.judged(fake, more, self.raw(self.first))
        self.assertEqual((self.shown(answer, 7, 1), self.shown(answer, 7, 2)), ([b"tea", b""], [b"well"]))

    def test_a_message_says_just_what_it_has_to_of_what_it_builds_on(self) -> None:
        on = self.note.built_on([self.first.said[0].hash])
        claim = self.claim(self.bob, 2)
        for cause, said, why in (((1, 4), on, None), ((1, 4), b"", Why.WRONG), (None, on, Why.WRONG), ((7, 0), on, Why.WRONG),
                                 ((7, 0), b"", None), ((1, 4), ZEROS, Why.OTHERS)):
            answer = self.judged(claim, self.raw(self.first), self.raw(self.typing(self.bob, 2, b"?", cause=cause, on=said, stamp=30)))
            self.assertEqual([*reasons(answer).values()], [why] if why else [])

    def test_the_stamps_of_a_text_are_its_own(self) -> None:
        margin = self.typing(self.ada, 1, b"note", text=2, stamp=LEAP - 10)
        early, late = (self.typing(self.ada, 1, b"text", stamp=stamp) for stamp in (LEAP + 2, LEAP + 3))
        for branch, why in (early, []), (late, [Why.STAMP]):
            self.assertEqual([*reasons(self.judged(self.raw(margin), self.raw(branch))).values()], why)

    # Who copies a folder, or has two hashes.

    def test_two_copies_of_a_number_never_seal_two_things_under_one_nonce(self) -> None:
        raws = {self.raw(self.typing(self.ada, 1, bytes([letter]))) for letter in range(256)}
        self.assertEqual(len({raw[HEAD:HEAD + NONCE] for raw in raws}), 256)
        self.assertEqual(len({raw[:HEAD] for raw in raws}), 1)
        self.assertEqual(self.raw(self.first), self.raw(self.typing(self.ada, 1, b"hello")))

    def test_of_two_branches_the_lesser_holds_in_its_text_alone_and_what_is_lost_is_told(self) -> None:
        other, margin = self.typing(self.ada, 1, b"other"), self.typing(self.ada, 1, b"note", text=2)
        lesser, greater = sorted([self.first, other], key=lambda one: one.said[0].hash)
        on = self.note.built_on([greater.said[0].hash])
        reply = self.typing(self.bob, 2, b"!", cause=(1, 4), stamp=20, on=on)
        raws = [*map(self.raw, (lesser, greater, margin, reply)), self.claim(self.bob, 2)]
        answer = self.judged(*raws)
        self.assertEqual(self.shown(answer, 1, 1), [lesser.said[0].message.data])
        self.assertEqual(self.shown(answer, 1, 2), [b"note"])
        self.assertEqual({*reasons(answer).values()}, {Why.BRANCH, Why.OTHERS})
        self.assertEqual((len(told(answer)), incomplete(answer)), (2, 0))

    def test_what_a_copy_stands_for_is_told_no_more(self) -> None:
        lesser, greater = sorted([self.first, self.typing(self.ada, 1, b"other")], key=lambda one: one.said[0].hash)
        again = self.typing(self.bob, 2, greater.said[0].message.data, stamp=40)
        said = Copied(self.ada.name, 1, self.bob.name, 2, again.said[0].hash, ((1, 1, 1),))
        body = b"".join([said.author, b"\0\1", said.by, b"\0\2", said.last, bytes([1, 1, 1])])
        head = Head(SEALED, Kind.COPIES, self.note.identity, self.bob.name, 2, 1, before=greater.said[0].hash)
        raws = [*map(self.raw, (lesser, greater, again)), self.claim(self.bob, 2), closed(self.note, head, body, self.bob.secret)]
        self.assertEqual(len(told(self.judged(*raws[:-1]))), 1)
        self.assertEqual(told(self.judged(*raws)), [])
        foreign = closed(self.note, head._replace(author=self.eve.name), body, self.eve.secret)
        with self.assertRaises(Bad):
            opened(self.note, foreign)

    def test_a_fork_is_decided_where_branches_differ_however_they_are_cut(self) -> None:
        one, other = self.typing(self.ada, 1, b"a", b"b", b"c"), self.typing(self.ada, 1, b"a", b"b", b"d")
        least = min(one, other, key=lambda each: each.said[2].hash)
        for seed in range(20):
            chance = random.Random(seed)
            answer = self.judged(*cut(self.note, one, chance), *cut(self.note, other, chance))
            self.assertEqual(self.shown(answer, 1, 1), [each.message.data for each in least.said])

    # Who has no link; presence.

    def test_to_append_one_shows_to_have_the_link_to_one_server_once(self) -> None:
        challenge, origin = bytes(32), "https://notes.example"
        shown = second.proof(self.note, challenge, origin)
        asked = second.challenged(self.note.identity, challenge, origin)
        self.assertTrue(second.is_signed(asked, shown, self.note.public))
        self.assertEqual(hashlib.sha256(b"vialshoal 2 note" + self.note.public).digest()[:16], self.note.identity)
        for other in (second.challenged(self.note.identity, challenge, "https://evil.example"),
                      second.challenged(self.note.identity, bytes(31) + b"\1", origin)):
            self.assertFalse(second.is_signed(other, shown, self.note.public))
        foreign = Ed25519PrivateKey.from_private_bytes(self.eve.secret).sign(asked)
        self.assertFalse(second.is_signed(asked, foreign, self.note.public))

    def test_presence_is_no_entry_and_of_one_note(self) -> None:
        raw = second.presence(self.note, b"here")
        for at in range(len(raw)):
            with self.assertRaises(Bad):
                second.present(self.note, changed_bytes(raw, at))
        with self.assertRaises(Bad):
            second.present(made(SEALED, False).note, raw)
        with self.assertRaises(Bad):
            opened(self.note, raw)

    def test_a_base_out_of_order_is_none(self) -> None:
        messages = [*reversed(base_messages())]
        secret, begin = b"S" * 32, ZEROS
        hashes = second.base_hashes(secret, messages)
        founding = Founding(secret, hashes[-1], self.ada.name, 1)
        note, raws = Note(founding.key()), []
        for message, of in zip(messages, hashes):
            raws.append(second.based(note, begin, [message]))
            begin = of
        answer = judged(note, [opening(note, founding), *raws], ZERO_BITS)
        self.assertEqual((answer.base, counted(answer), answer.bad), (None, {}, set()))


if __name__ == "__main__":
    unittest.main()
