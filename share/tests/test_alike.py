"""What was left out and is one text with other messages, as entries of copies say, is typed again once, and not beside what counts."""
import contextlib
import itertools
import shutil
import unittest
from collections.abc import Sequence

from share.admission.chains import rank
from share.admission.judge import Judge
from share.format.entry import Author, Copied, Entry, Form, Plain
from share.format.operation import Operation
from share.program import retyping
from share.program.site import Site
from share.sync.recovered import Recovered
from share.tests.naive import Name, entry_of, inserting
from share.tests.support import Person, claim_against, claim_of, take, written
from share.tests.test_left_out import Three, shown
from share.tests.waiting import wait_for

FORM = Plain(bytes(16))


class Typed(Three):
    """What recover --lost brings back, by real notes."""

    def test_what_was_typed_again_and_left_out_in_its_turn_comes_back_once(self) -> None:
        take(self.anna, self.begun())
        before = self.anna
        for person in self.carol, self.person("dora"), self.person("emma"):
            person.reads(self.bob.link())
            shutil.rmtree(before.data)
            self.run_as(person, "recover", "--lost", "note")
            self.assertEqual(shown(person), ("Dear all of you, we meet at ten. Bob. ", []))
            for site in self.numbers_that_typed(person):
                take(person, site)
            before = person

    def test_what_another_copy_stands_for_that_counts_comes_back_at_no_place(self) -> None:
        self.begun()
        with contextlib.closing(self.carol.disk()) as disk:
            entries = Twice(disk.form).entries
        with contextlib.closing(self.carol.log()) as log:
            log.append([one.raw for one in entries])
        self.carol.reads()
        text, missing = shown(self.carol)
        self.assertEqual((text.count("word "), len(missing)), (1, 1))
        self.assertIn("Typed again: 5 characters", self.run_as(self.carol, "recover", "--lost", "note"))
        self.assertEqual(shown(self.carol), (text, []))

    def test_what_was_typed_again_and_made_anew_gives_way_to_what_its_author_makes_anew(self) -> None:
        take(self.anna, self.begun())
        self.run_as(self.bob, "recover", "--lost", "note")
        for site in self.numbers_that_typed(self.bob):
            take(self.bob, site)
        # What Bob typed for Anna is made anew with what he typed himself; then Anna comes.
        bob = self.opened(self.bob)
        wait_for(lambda: (bob.take_in(), b"we meet" in bob.text)[1], "it to be made anew")
        anna = self.opened(self.anna)
        written(anna, "back ")
        self.assertEqual(self.assert_meet(anna, bob).count(b"we meet"), 1)

    def test_letters_that_two_histories_have_at_one_place_are_not_one(self) -> None:
        self.begun()
        with contextlib.closing(self.carol.disk()) as disk:
            form = disk.form
        author = form.new_author()
        claim = claim_of(form, 65_001, author)
        # They stand in front of all that Anna typed, also where her number is greater.
        forks = [entry_of(form, claim, [inserting(65_001, 1, stamp, None, 0, b"Q")], author) for stamp in (1_001, 1_002, 1_003)]
        with contextlib.closing(self.carol.log()) as log:
            log.append([one.raw for one in [claim, *forks[:2]]])
        self.carol.reads()
        self.run_as(self.carol, "recover", "--lost", "note")
        self.assertEqual(shown(self.carol), ("QQDear all of you, we meet at ten. Bob. ", []))
        with contextlib.closing(self.carol.log()) as log:
            log.append([forks[2].raw])
        self.carol.reads()
        self.run_as(self.carol, "recover", "--lost", "note")
        self.assertEqual(shown(self.carol), ("QQQDear all of you, we meet at ten. Bob. ", []))

    def numbers_that_typed(self, person: Person) -> list[int]:
        """Those of somebody's numbers under which something was typed."""
        with contextlib.closing(person.disk()) as disk:
            own = {one.site for one in disk.own.clients()}
            return sorted({row.entry.site for row in disk.entries.rows() if row.made and row.entry.size and row.entry.site in own})


class Twice:
    """A word was left out and made anew twice, by two disks that have its key; then one of these copies was left out, too."""

    SITES = (65_001, 65_002, 65_003)

    def __init__(self, form: Form, after: Name | None = None):
        self.form = form
        # That of the least name has the greatest number.
        self.author, *_ = authors = sorted((form.new_author() for _ in self.SITES), reverse=True)
        claims = [claim_of(form, site, author) for site, author in zip(self.SITES, authors)]
        self.word, self.copy, self.other = (entry_of(form, claim, [inserting(claim.site, 1, 1, after, 0, b"word ")], author)
                                            for claim, author in zip(claims, authors))
        said = [self.said(self.word, copy) for copy in (self.copy, self.other)]
        self.entries = [*claims, self.word, self.copy, self.other, *said, *map(self.taken, claims[:2])]
        self.authors = authors

    def said(self, of: Entry, by: Entry) -> Entry:
        """The word of who wrote something that another one's message stands for it."""
        copied = Copied(of.author, of.site, by.author, by.site, ((1, 1, 1),), by.name)
        return self.form.copies(copied, self.author, of.site, of.name)

    def taken(self, claim: Entry) -> Entry:
        """Another one's claim of a number, which holds."""
        return claim_against(self.form, claim)


class Words(unittest.TestCase):
    """What is said of what is typed again."""

    def setUp(self) -> None:
        self.author = Author(bytes(16), b"")
        self.claim = FORM.claim(4, self.author)

    def typed_again(self, entries: Sequence[Entry]) -> tuple[list[Operation], list[Entry]]:
        """The messages that somebody types again, and the entries that are made of that."""
        judge = Judge(entries)
        with contextlib.closing(Site(4, judge.count().messages)) as site:
            again = retyping.type_again(FORM, retyping.lost(judge), entries, judge, site)
        made = entry_of(FORM, self.claim, again.edited.messages, self.author)
        return again.edited.messages, [self.claim, made, *retyping.words_of(again.copies, FORM, self.author, made)]

    def is_hidden(self, entries: Sequence[Entry], own: Sequence[Entry]) -> list[bool]:
        """Of each message that was typed again whether who typed it hides it."""
        judge, recovered = Judge([*entries, *own]), Recovered()
        self.assertEqual(judge.left_out(), [])
        for entry in entries:
            recovered.add(entry, False)
        for entry in own:
            recovered.add(entry, True)
        return [hidden for _, hidden in sorted(recovered.made_here(judge))]

    def test_a_copy_gives_way_to_another_one_of_what_it_was_a_copy_of(self) -> None:
        some = Twice(FORM)
        messages, made = self.typed_again(some.entries)
        self.assertEqual((len(messages), self.is_hidden(some.entries, made)), (1, [True]))

    def test_also_to_one_that_comes_later(self) -> None:
        some = Twice(FORM)
        before = [one for one in some.entries if one != some.other]
        messages, made = self.typed_again(before)
        self.assertEqual((len(messages), self.is_hidden(before, made), self.is_hidden(some.entries, made)), (1, [False], [True]))

    def test_not_to_another_text_under_the_number_of_that_copy(self) -> None:
        some = Twice(FORM)
        another = some.other
        while another.hash >= some.other.hash:
            message = inserting(65_003, 1, another.messages[0].stamp + 1, None, 0, b"else ")
            another = entry_of(FORM, some.entries[2], [message], some.authors[2])
        entries = [*some.entries, another]
        messages, made = self.typed_again(entries)
        self.assertEqual(([one for one in messages if one.kind == 1][1:], self.is_hidden(entries, made)), ([], [False]))

    def test_what_is_typed_at_the_end_is_typed_once_too(self) -> None:
        some = Twice(FORM, (60_000, 0))
        entries = [one for one in [*some.entries, some.taken(some.entries[2])] if one != some.copy]
        messages, _ = self.typed_again(entries)
        self.assertEqual(len(messages), 1)

    def test_of_two_histories_of_a_number_all_is_typed(self) -> None:
        author = FORM.new_author()
        claim = FORM.claim(7, author)
        forks = [entry_of(FORM, claim, [inserting(7, 1, stamp, None, 0, data)], author)
                 for stamp, data in enumerate((b"one ", b"two ", b"two ", b"three "), 1)]
        entries = [claim, *forks]
        messages, made = self.typed_again(entries)
        self.assertEqual(len(messages), 3)
        self.is_hidden(entries, made)
        # What was typed again stands for one of them each, also where that is left out, and what was copied isn't typed.
        judge = Judge([*entries, *made])
        with contextlib.closing(Site(5, judge.count().messages)) as site:
            self.assertEqual(sorted(site.text().decode().split()), ["one", "three", "two", "two"])
        some = Twice(FORM)
        other = entry_of(FORM, some.entries[0], [inserting(65_001, 1, 2, None, 0, b"else ")], some.author)
        messages, made = self.typed_again([*some.entries, other])
        self.assertEqual(sorted(one.data for one in messages), [b"else ", b"word "])

    def test_two_copies_that_were_left_out_are_typed_as_one(self) -> None:
        some = Twice(FORM)
        entries = [*some.entries, some.taken(some.entries[2])]
        messages, made = self.typed_again(entries)
        self.assertEqual((len(messages), self.is_hidden(entries, made)), (1, [False]))
        # And again where that is left out, by another one.
        other = next(one for one in (FORM.claim(4, FORM.new_author()) for _ in itertools.count()) if rank(one) < rank(self.claim))
        entries += [*made, other]
        self.author = FORM.new_author()
        self.claim = FORM.claim(5, self.author)
        judge = Judge(entries)
        with contextlib.closing(Site(5, judge.count().messages)) as site:
            again = retyping.type_again(FORM, retyping.lost(judge), entries, judge, site)
        self.assertEqual(len(again.edited.messages), 1)


if __name__ == "__main__":
    unittest.main()
