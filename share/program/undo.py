"""What an editor can take back of its own, and do again, by the characters' names: nobody else's text is touched."""
from bisect import bisect_right
from collections.abc import Iterable, Iterator, Set
from dataclasses import dataclass, field
from itertools import accumulate, chain, count

from share.format.operation import RESTORE, Operation
from share.program.site import Edited, Site, Told, one_by_one
from share.text.line import Line
from share.text.looks import Looked, Looks
from share.text.names import Name, Names, united, without


_new_key = count().__next__


@dataclass
class Step:
    """The names that an edit brought, those that it took away, and those whose looks it changed; what tells it from others; and the
    suggestion that it accepts."""

    came: list[Names] = field(default_factory=list)
    went: list[Names] = field(default_factory=list)
    looked: list[Looked] = field(default_factory=list)
    key: int = field(default_factory=_new_key)
    accepts: Name | None = None

    def does_something(self) -> bool:
        """Whether there is anything in it."""
        return bool(self.came or self.went or self.looked)

    def and_then(self, other: "Step") -> "Step":
        """Both as one edit."""
        return Step(united(self.came + other.came), united(self.went + other.went), self.looked + other.looked, self.key, self.accepts)

    def as_line(self) -> Line:
        """What a journal has of it."""
        return {name: value for name, value in (("came", self.came), ("went", self.went), ("looked", self.looked),
                                                ("accepts", self.accepts)) if value}

    @classmethod
    def of_line(cls, line: Line) -> "Step":
        """The step that a journal has."""
        came, went = ([Names(*one) for one in line.get(name, ())] for name in ("came", "went"))
        looked = [Looked(Names(*names), Looks(*was), Looks(*became)) for names, was, became in line.get("looked", ())]
        site, at = line.get("accepts", (0, 0))
        return cls(came, went, looked, accepts=(site, at) if site else None)


def step_of(operations: Iterable[Operation]) -> Step:
    """The step of an edit that has made these."""
    came, went, meanwhile = list[Names](), list[Names](), list[Names]()
    for one in operations:
        (came if one.data else meanwhile if one.kind == RESTORE else went).extend(one.names)
    # What was shown while something was typed behind it was hidden before.
    return Step(united(came), without(united(went), united(meanwhile)) if went else [])


class Undoing:
    """The edits of one editor, since it opened the note first."""

    def __init__(self) -> None:
        self._done: list[Step] = []
        self._undone: list[Step] = []

    def made(self, step: Step, joins: bool) -> int:
        """Notes an edit, perhaps as one with the edit before it; the key of its step."""
        if joins and self._done:
            step = self._done.pop().and_then(step)
        self.add(step)
        return step.key

    def add(self, step: Step) -> None:
        """Notes an edit."""
        self._done.append(step)
        self._undone = []

    def forget(self) -> None:
        """Forgets all: the names are of a number that isn't this editor's any more, or weren't kept."""
        self._done, self._undone = [], []

    def next(self, redo: bool, among: Set[int] | None = None) -> Step | None:
        """What is to be taken back, or done again; perhaps only one of the steps of these keys."""
        stack = self._undone if redo else self._done
        return next((step for step in reversed(stack) if among is None or step.key in among), None)

    def place(self, redo: bool, step: Step) -> int:
        """Where a step stands among those that can be taken back, or done again."""
        stack = self._undone if redo else self._done
        return next(place for place, one in enumerate(stack) if one is step)

    def done(self, redo: bool, step: Step, changed: Step) -> None:
        """Says that this was done, and what that changed, as the edit which brings it about or is taken back so."""
        self._done_at(redo, self.place(redo, step), changed)

    def _done_at(self, redo: bool, place: int, changed: Step) -> None:
        del (self._undone if redo else self._done)[place]
        if changed.does_something():
            (self._done if redo else self._undone).append(changed)

    def as_line(self) -> Line:
        """What a journal has of all of it."""
        return {"all": [[one.as_line() for one in stack] for stack in (self._done, self._undone)]}

    def does(self, line: Line) -> None:
        """Does what a journal says that was done: something was made, added, taken back or done again, or forgotten, or this is all."""
        if "all" in line:
            self._done, self._undone = ([Step.of_line(one) for one in stack] for stack in line["all"])
        elif "forgets" in line:
            self.forget()
        elif "made" in line:
            self.made(Step.of_line(line["made"]), line["joins"])
        elif "adds" in line:
            self.add(Step.of_line(line["adds"]))
        else:
            self._done_at(line["redo"], line["place"], Step.of_line(line["changed"]))


def do(site: Site, step: Step, redo: bool, told: list[Told], changed: Step) -> Edited:
    """Takes an edit back at a site, or does it again, and tells what the text has become; and which names that has
    changed, as the edit which brings that about or is taken back so."""
    came = step.came if redo else without(step.went, step.came)
    went = step.went if redo else step.came
    goes, comes = (changed.went, changed.came) if redo else (changed.came, changed.went)
    messages: list[Operation] = []
    # Others may have deleted some meanwhile, or brought some back: the messages say what changes.
    for by_names, names, changes in (site.delete, went, goes), (site.restore, came, comes):
        edited, became = by_names(names)
        messages += edited.messages
        changes += chain.from_iterable(one.names for one in edited.messages)
        told.append(became)
        if edited.refused is not None:
            return Edited(messages, edited.refused)
    changed.looked = _to_look(site, step.looked, redo)
    edited = one_by_one(site.look(*one) for one in _names_by_looks(changed.looked, redo).items())
    return Edited(messages + edited.messages, edited.refused)


def looks_of(site: Site, names: list[Names]) -> Iterator[list[tuple[Names, Looks]]]:
    """The looks of those characters of each of these names that are shown."""
    if not names:
        return
    runs = site.runs()
    ends = [*accumulate(run.length for run in runs)]
    for one, stretches in zip(names, site.where(names)):
        found = []
        for stretch in stretches:
            at, end = stretch.position, stretch.position + len(stretch.data)
            while at < end:
                number = bisect_right(ends, at)
                size = min(end, ends[number]) - at
                found.append((Names(one.site, stretch.at + at - stretch.position, size), runs[number].looks))
                at += size
        yield found


def _to_look(site: Site, looked: list[Looked], redo: bool) -> list[Looked]:
    """What is still to be done of an edit's looks, or taken back: what another has changed since stays."""
    found = []
    for one, parts in zip(looked, looks_of(site, [one.names for one in looked])):
        of, to = (one.was, one.became) if redo else (one.became, one.was)
        for names, now in parts:
            then = Looks._make(wanted if wanted != was and is_now == was else is_now
                               for was, wanted, is_now in zip(of, to, now))
            if then != now:
                found.append(Looked(names, now, then) if redo else Looked(names, then, now))
    return found


def _names_by_looks(looked: list[Looked], redo: bool) -> dict[Looks, list[Names]]:
    """The names that are to be given looks, by these."""
    found: dict[Looks, list[Names]] = {}
    for names, was, became in looked:
        found.setdefault(became.differing(was) if redo else was.differing(became), []).append(names)
    return found
