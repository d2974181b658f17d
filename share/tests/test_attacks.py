"""A key costs no more where somebody with the link has sent many entries that are right by themselves and don't count: what it takes is
counted beside that of a note with a third of them."""
from collections.abc import Callable, Iterable

from share.tests import attacks
from share.tests.attacks import Hostile
from share.tests.counting import instructions
from share.tests.note import Note
from share.tests.support import Case, type_at_the_end, wait_for

# Of three times as many entries a key may take this many times the instructions.
MOST_TIMES = 1.2


class Keys(Case):
    """What is typed as it is after an attack."""

    def attacked(self, name: str, made: Callable[[Hostile], Iterable[bytes]]) -> Note:
        """A note in whose log somebody has put what was made, all of which has come."""
        note = self.opened(self.person(name), url=str(self.folder / name / "log"))
        type_at_the_end(note, "words")
        wait_for(lambda: note.session._replicator.is_up_to_date(), "it to be sent")
        hostile = Hostile(note.session._form, note.session._about.url)
        hostile.send(made(hostile))
        there = [entry.hash for entry in hostile.entries()]

        def has_all() -> bool:
            note.take_in()
            return not note.session.has_more() and len(note.session._file.disk.entries.places_of(there)) == len(there)

        wait_for(has_all, "all to come")
        return note

    def of_a_key(self, note: Note) -> int:
        """How many instructions a key takes, where nothing comes beside it."""
        session = note.session

        def key() -> None:
            session.insert(0, b"x")
            session.arrived()
            session.status()
            session.notices()

        key()
        wait_for(lambda: session._replicator.is_up_to_date(), "it to be sent")
        session.arrived()
        return min(instructions(key) for _ in range(5))

    def assert_no_dearer(self, few: Callable[[Hostile], Iterable[bytes]], many: Callable[[Hostile], Iterable[bytes]]) -> None:
        """A key takes no more where there are more entries."""
        one, three = (self.of_a_key(self.attacked(name, made)) for name, made in (("few", few), ("many", many)))
        self.assertLess(three, MOST_TIMES * one)

    def test_entries_that_lost_a_fork(self) -> None:
        self.assert_no_dearer(lambda hostile: attacks.lost_forks(hostile, 4), lambda hostile: attacks.lost_forks(hostile, 12))

    def test_chains_that_wait_for_what_never_comes(self) -> None:
        self.assert_no_dearer(lambda hostile: attacks.blocked(hostile, 20), lambda hostile: attacks.blocked(hostile, 60))

    def test_entries_outside_all_chains(self) -> None:
        self.assert_no_dearer(lambda hostile: attacks.loose(hostile, 4, 100), lambda hostile: attacks.loose(hostile, 12, 100))

    def test_claims(self) -> None:
        def claims(hostile: Hostile, many: int) -> Iterable[bytes]:
            return [hostile.claim()[0].raw for _ in range(many)]

        self.assert_no_dearer(lambda hostile: claims(hostile, 500), lambda hostile: claims(hostile, 1_500))

    def test_entries_of_kinds_that_nobody_knows(self) -> None:
        self.assert_no_dearer(lambda hostile: attacks.unknown_kinds(hostile, 1_000, 1),
                              lambda hostile: attacks.unknown_kinds(hostile, 3_000, 3))
