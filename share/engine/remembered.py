"""The notes of a journal about each editor: the messages of its edits, the moments at which it showed the engine's text, and its steps
of undo."""
from collections.abc import Callable, Iterable, Iterator, Sequence
from dataclasses import dataclass, field
from typing import NamedTuple

from share.program.undo import Undoing
from share.text.line import Line
from share.text.names import Names

# The most editors that are remembered, and the most steps of each.
MOST_REMEMBERED, MOST_STEPS_OF_ONE = 100, 5_000
# The most remarks, suggestions and replies of an editor that are remembered.
MOST_ONCE = 100
# An editor's changes: a begin and an end, and the text that replaces the passage between them.
EditChanges = Sequence[tuple[int, int, str]]
SiteFront = dict[int, int]


class MadeMessages(NamedTuple):
    """Messages of a site, and the checksum of their bytes."""

    site: int
    first: int
    last: int
    checksum: int


class KeptEdit(NamedTuple):
    """An edit: its messages, the names of the characters that it inserted (in the order of the text), whether all of it was made, and the
    checksum of its changes as the editor sent them."""

    at: list[MadeMessages]
    new: list[Names]
    is_whole: bool
    changes: int

    def as_line(self, editor: str, number: int) -> Line:
        """Return its line in a journal."""
        return {"of": editor, "edit": number, "at": self.at, "new": self.new, "sum": self.changes,
                **({} if self.is_whole else {"partly": True})}


class InStep(NamedTuple):
    """When an editor showed a text that is known: which of the fronts that text was made of, after how many edits, and the changes of
    its edits since."""

    front: int
    edits: int
    made: Sequence[EditChanges] = ()


@dataclass
class Remembered:
    """The notes about one editor."""

    edits: dict[int, KeptEdit] = field(default_factory=dict)
    # By its version and the number of its edits.
    steps: dict[tuple[int, int], InStep] = field(default_factory=dict)
    # The lines of undo, each with the messages that it is about.
    undoing: list[tuple[list[MadeMessages], Line]] = field(default_factory=list)
    # The remarks, suggestions and replies that it asked for, by the number that it gave to each: the messages and the id.
    said: dict[int, tuple[list[MadeMessages], str]] = field(default_factory=dict)

    def is_of(self, edits: int, checksums: Iterable[int]) -> bool:
        """Whether all that is noted after an edit is what an editor says that it made since, given the checksums of these edits. It isn't
        if another editor took the same name for itself."""
        made = dict(enumerate(checksums, edits + 1))
        return all(made.get(number) == edit.changes for number, edit in self.edits.items() if number > edits)

    def has_up_to(self, edits: int) -> int:
        """The number of its edits that are there, of those after a number."""
        while edits + 1 in self.edits:
            edits += 1
        return edits

    def goes_on(self) -> Line:
        """Return the part of the last edit's line that lets the next key be undone with it; an empty line if no key can be."""
        line = self.undoing[-1][1] if self.undoing else {}
        return {name: line[name] for name in ("keys", "behind", "time") if name in line}

    def can_undo(self) -> Undoing:
        """Return its steps of undo."""
        undoing = Undoing()
        for _, line in self.undoing:
            undoing.does(line)
        return undoing


class Editors:
    """The notes of a whole journal."""

    def __init__(self, lines: Iterable[Line] = ()):
        self.of: dict[str, Remembered] = {}
        # The numbers of each front that differ from the front before it.
        self._fronts: list[SiteFront] = [{}]
        for line in lines:
            self._take(line)

    def _take(self, line: Line) -> None:
        if "front" in line:
            self._fronts.append({site: seq for site, seq in line["front"]})
        if "unkept" in line:
            site, first = map(int, line["unkept"])
            self._drop(lambda one: one.site == site and one.last >= first, counts="again" not in line)
        if "of" not in line:
            return
        if "gone" in line:
            self.of.pop(line["of"], None)
            return
        # The editors stand in the order in which something was noted of them last.
        one = self.of[line["of"]] = self.of.pop(line["of"], Remembered())
        at = [MadeMessages(*each) for each in line.get("at", ())]
        if "edit" in line:
            one.edits[line["edit"]] = KeptEdit(at, [Names(*each) for each in line["new"]], "partly" not in line, line["sum"])
        if "undo" in line:
            one.undoing.append((at, line["undo"]))
        if "is" in line:
            one.said[line["once"]] = at, line["is"]
        elif "once" in line:
            one.said.pop(line["once"], None)
        if "step" in line:
            self._step(one, line)

    def _step(self, one: Remembered, line: Line) -> None:
        version, edits = line["step"]
        made = [[(begin, end, text) for begin, end, text in changes] for changes in line.get("made", ())]
        of_before, edits_before = line.get("as", (-1, 0))
        if before := one.steps.get((of_before, edits_before)):
            one.steps[version, edits] = InStep(before.front, before.edits, [*before.made, *made])
        elif "as" not in line:
            one.steps[version, edits] = InStep(len(self._fronts) - 1, edits - len(made), made)

    def _drop(self, is_gone: Callable[[MadeMessages], bool], counts: bool) -> None:
        """Forget that there are messages. An edit of which some are gone isn't made, and perhaps counts all the same."""
        for one in self.of.values():
            for number, edit in [*one.edits.items()]:
                if any(map(is_gone, edit.at)):
                    del one.edits[number]
                    if counts:
                        one.edits[number] = KeptEdit([], [], False, edit.changes)
            one.undoing = [each for each in one.undoing if not any(map(is_gone, each[0]))]

    def settle(self, now: SiteFront, is_kept: Callable[[MadeMessages], bool], is_said: Callable[[MadeMessages], bool]) -> None:
        """Decide which of the edits, and of the messages of the margin, that an engine was making as it ended are kept: others are as if
        they had never come. `now` is the front of what the note's file has, which may be less than was noted, for example after an older
        file was put back."""
        for one in self.of.values():
            one.said = {number: said for number, said in one.said.items() if all(map(is_said, said[0]))}
        front = self.front(len(self._fronts) - 1)
        known = dict[MadeMessages, bool]()

        def is_gone(one: MadeMessages) -> bool:
            if one not in known:
                is_here = one.last <= now.get(one.site, 0)
                known[one] = not (is_here and (one.last <= front.get(one.site, 0) or is_kept(one)))
            return known[one]

        self._drop(is_gone, counts=False)

    def front(self, number: int) -> SiteFront:
        """Return the numbers of messages of each site in a front."""
        found: SiteFront = {}
        for one in self._fronts[:number + 1]:
            found |= one
        return {site: seq for site, seq in found.items() if seq}

    def lines(self, front: SiteFront) -> Iterator[Line]:
        """Return the lines of a new journal with all notes that are still needed, given the front of now."""
        self._forget_old()
        steps = sorted(((step.front, editor, at, step) for editor, one in self.of.items() for at, step in one.steps.items()),
                       key=lambda each: each[:3])
        for editor, one in self.of.items():
            first = min((step.edits for step in one.steps.values()), default=0)
            yield from (edit.as_line(editor, number) for number, edit in sorted(one.edits.items()) if number > first)
            yield {"of": editor, "undo": one.can_undo().as_line() | one.goes_on()}
            yield from ({"of": editor, "once": number, "is": of, "at": at} for number, (at, of) in [*one.said.items()][-MOST_ONCE:])
        told, now = dict[int, int](), dict[int, int]()
        read = 0
        for number, editor, at, step in steps:
            while read <= number:
                now |= self._fronts[read]
                read += 1
            if more := front_differing(told, now):
                yield {"front": [*more.items()]}
                told = dict(now)
            yield {"of": editor, "step": at, **({"made": step.made} if step.made else {})}
        yield {"front": [*front_differing(told, front).items()]}

    def _forget_old(self) -> None:
        for editor in [*self.of][:-MOST_REMEMBERED]:
            del self.of[editor]
        for one in self.of.values():
            for at in sorted(one.steps)[:-MOST_STEPS_OF_ONE]:
                del one.steps[at]


def front_differing(before: SiteFront, now: SiteFront) -> SiteFront:
    """Return the numbers of a front that differ from an earlier one; 0 for each site that it lacks."""
    return dict.fromkeys(before.keys() - now.keys(), 0) | {site: seq for site, seq in now.items() if before.get(site) != seq}
