"""What was left out of a note for good, since a smaller hash holds in its place: how much and whose it is, its text, and
typing it again.

What was left out is typed again with the same bytes, message by message, so that everybody can see that it is a copy. It
stands after the characters after which it was typed, as far as these are there, else at the end. What was deleted of it
before it was left out is deleted again, and its looks are given again; what its authors did to other text isn't done
again.
"""
from bisect import bisect_left, bisect_right
from collections.abc import Iterable, Mapping, Sequence, Set
from contextlib import closing
from typing import NamedTuple

from share.admission.judges import judge_of
from share.admission.judging import Judging
from share.admission.ledger import Who
from share.admission.left_out import LeftOut
from share.format.entry import Author, Copied, Copy, Entry, Form
from share.format.operation import Operation
from share.program.alike import Alike, One
from share.program.effects import Stretch
from share.program.site import Edited, Rewrite, Site, one_by_one
from share.text.errors import Refused, counted
from share.text.line import Line
from share.text.looks import DEFAULT, Dressed, Looks, dressed
from share.text.names import Name, Names, united, without
from share.text.rope import swapped
from share.text.rope import readable as as_text

# A number may have been claimed, or a place taken, by several that lost: how often what was left out is looked at anew.
MOST_VIEWS = 8
# The most operations that are typed at once.
MOST_AT_ONCE = 1_000
# The most stretches of which one entry says what they stand for, and the most operations of a stretch.
MOST_STRETCHES, MOST_COPIES = 1_000, 4_000
# The most stretches in looks that are looked at.
MOST_DRESSED = 20_000
# The most authors of whom it is told how much of their text was left out, and the most who are named.
MOST_TOLD, MOST_NAMED = 100, 3
# The number of a site by which is only looked.
LOOKING = 1
# How many characters before what was left out are looked at first.
LOOKED_AT = 64


class Lost(NamedTuple):
    """Messages of one author and site that were left out."""

    site: int
    author: bytes
    messages: list[Operation]
    # What names the last of them, or of their entries; the others are before it.
    last: bytes

    @property
    def text(self) -> bytes:
        """What they insert."""
        return b"".join(each.data for each in self.messages)


def left_out(judge: Judging, anew: Set[Copy] = frozenset()) -> list[LeftOut]:
    """Where text was left out, but for what its author knows to be made anew."""
    return [one for one in judge.left_out() if one.characters and not (
        anew and all(Copy(one.author, one.site, seq, one.text) in anew for seq in range(one.first, one.last + 1)))]


def lost(judge: Judging, anew: Set[Copy] = frozenset()) -> list[Lost]:
    """The same, with the messages, also those that insert nothing: branch by branch, where an author went on twice."""
    stretches: dict[tuple[int, bytes, int], list[tuple[int, int]]] = {}
    for one in left_out(judge, anew):
        stretches.setdefault((one.site, one.author, one.text), []).append((one.first, one.last))
    found: list[Lost] = []
    for (site, author, text), seqs in stretches.items():
        wanted, known, branches = _merged(seqs), set[Operation](), dict[bytes, list[Operation]]()
        entries = (entry for entry in judge.not_counting(site, author) if entry.text == text)
        for entry in sorted(entries, key=lambda entry: entry.first):
            messages = [message for message in judge.not_copied(entry) if _is_in(message.seq, wanted) and message not in known
                        and not judge.is_let_through(message)]
            if messages:
                known.update(messages)
                branches[entry.name] = branches.pop(entry.before, []) + messages
        found += [Lost(site, author, messages, last) for last, messages in sorted(branches.items(), key=lambda one: one[1][0].seq)]
    return found


def _merged(stretches: Iterable[tuple[int, int]]) -> list[tuple[int, int]]:
    """Stretches of numbers, those in one that meet."""
    out: list[tuple[int, int]] = []
    for first, last in sorted(stretches):
        if out and first <= out[-1][1] + 1:
            first, last = out[-1][0], max(out.pop()[1], last)
        out.append((first, last))
    return out


def _is_in(number: int, stretches: Sequence[tuple[int, int]]) -> bool:
    """Whether a number is in one of some stretches, which rise."""
    at = bisect_right(stretches, (number + 1,)) - 1
    return at >= 0 and number <= stretches[at][1]


class Totals:
    """How much is left out of each number's author, as editors are told it; looked at again where that changes."""

    def __init__(self) -> None:
        self._found: list[LeftOut] | None = None
        self._of = (0, 0)
        self._lines: list[Line] = []

    def lines(self, judge: Judging, anew: Set[Copy], own: Set[Who]) -> list[Line]:
        """The lines, the most first."""
        found, of = judge.left_out(), (len(anew), len(own))
        if found is not self._found or of != self._of:
            self._found, self._of = found, of
            self._lines = as_lines(left_out(judge, anew), own)
        return self._lines


def as_lines(found: Iterable[LeftOut], own: Set[Who]) -> list[Line]:
    """How much was left out of each number's author, the most first, and whether that is this person, as editors are told
    it."""
    lines: dict[Who, Line] = {}
    for one in found:
        who = one.site, one.author
        line = lines.setdefault(who, {"site": one.site, "own": who in own, "characters": 0, "messages": 0})
        line["characters"] += one.characters
        line["messages"] += one.messages
    return sorted(lines.values(), key=lambda line: -int(line["characters"]))[:MOST_TOLD]


def summed(lines: Iterable[Line]) -> list[Line]:
    """How much these are of each number's author."""
    found: dict[str, Line] = {}
    for line in lines:
        of = found.setdefault(called(line), line | {"characters": 0, "messages": 0})
        of["characters"] += line["characters"]
        of["messages"] += line["messages"]
    return [*found.values()]


def with_names(lines: Iterable[Line], names: Mapping[int, str]) -> list[Line]:
    """These lines, with what the sites are called where that is known."""
    return [line | {"name": names[line["site"]]} if line["site"] in names else line for line in lines]


def with_text(found: Iterable[Lost], own: Set[Who], names: Mapping[int, str]) -> list[Line]:
    """What was left out, stretch by stretch, as editors and scripts are told it."""
    return with_names(({"site": one.site, "own": (one.site, one.author) in own, "characters": len(one.text),
                        "messages": len(one.messages), "text": as_text(swapped(one.text))} for one in found), names)


def called(line: Line) -> str:
    """Whose a line is, in words."""
    name, site = line.get("name"), f"site {line['site']}"
    return f"{name} ({site})" if name else f"you ({site})" if line["own"] else site


def whose_in_words(lines: Sequence[Line]) -> str:
    """How much was left out and whose it is, in words."""
    parts = [f"{counted(line['characters'], 'character')} of {called(line)}" for line in lines[:MOST_NAMED]]
    if more := sum(line["characters"] for line in lines[MOST_NAMED:]):
        parts.append(f"{counted(more, 'character')} of others")
    return ", ".join(parts)


def telling(lines: Sequence[Line], name: str) -> str:
    """What a user is told of what was left out of a note of this name."""
    return (f"Left out, since others hold its place: {whose_in_words(lines)}. bin/note recover --lost {name} shows it and types it "
            "again.")


class Typed(NamedTuple):
    """What was typed again: the edit, and which of its messages stands for which other one."""

    edited: Edited
    copies: list[tuple[One, Operation]]


def type_again(form: Form, found: Iterable[Lost], entries: Sequence[Entry], judge: Judging, site: Site) -> Typed:
    """Types at a site, which has all that counts of these entries in a text, what was left out of that."""
    ones = [One(Copy(of.author, message.site, message.seq, message.text), message, of.last)
            for of in found for message in of.messages if message.new]
    left = {one.message: one.copy.author for one in ones}
    made, edits, alike = dict[Operation, Operation](), list[Edited](), Alike(ones, judge)
    for _ in range(MOST_VIEWS):
        view = _View(form, entries, judge, left, site.text_number)
        # Others may have the same names in each view.
        edits += _typed_as_seen(view, _Typist(site, made, alike.typed_for))
        left = {message: author for message, author in left.items() if message not in view.lost}
        if not (view.lost and left):
            break
    edits.append(_Typist(site, made, alike.typed_for).type_in_a_row(left, len(site.text()) if left else 0))
    return Typed(one_by_one(edits), [(old, made[part]) for old, parts in alike.stood_for() for part in parts if part in made])


def words_of(copies: Iterable[tuple[One, Operation]], form: Form, author: Author, last: Entry) -> list[Entry]:
    """The entries by which the author of copies, of which this is the last entry, says what they stand for."""
    found: dict[tuple[bytes, int, bytes], list[tuple[int, int, int]]] = {}
    for one, new in copies:
        stretches = found.setdefault((one.copy.author, one.copy.site, one.last), [])
        seq, by, size = stretches[-1] if stretches else (0, 0, MOST_COPIES)
        if size < MOST_COPIES and (seq + size, by + size) == (one.copy.seq, new.seq):
            stretches[-1] = seq, by, size + 1
        else:
            stretches.append((one.copy.seq, new.seq, 1))
    return [form.copies(Copied(of, site, author.name, last.site, tuple(stretches[at:at + MOST_STRETCHES]), last.name), author, last.site,
                        before, last.text)
            for (of, site, before), stretches in found.items() for at in range(0, len(stretches), MOST_STRETCHES)]


class _View:
    """The note as it was for those whose text was left out, as far as one view has it."""

    def __init__(self, form: Form, entries: Sequence[Entry], judge: Judging, left: Mapping[Operation, bytes], text: int):
        self.text = text
        wanted = {(message.site, author) for message, author in left.items()}
        before = _with_those_before(entries, {
            entry.hash for who in wanted for entry in judge.not_counting(*who)
            if any(left.get(message) == entry.author for message in entry.messages)})
        seen = judge_of(form, entries, prefers=lambda entry: bytes([entry.hash not in before]))
        self.all = seen.let_through_in_order(text)
        others = [message for message in self.all if not judge.is_let_through(message)]
        # Those that are left out, in the order of their stamps; and the characters that are here alone, by their sites.
        self.lost = {message: None for message in sorted(others, key=lambda one: (one.stamp, one.site)) if message in left}
        self._alone: dict[int, list[Names]] = {}
        for one in united(new for message in others if (new := message.new)):
            self._alone.setdefault(one.site, []).append(one)

    def common(self, names: Names) -> list[Names]:
        """Those of these characters that count now, too."""
        alone = self._alone.get(names.site, [])
        first = max(0, bisect_right(alone, Names(names.site, names.at, 0)) - 1)
        return without([names], alone[first:bisect_left(alone, Names(names.site, names.at + names.length, 0))])


def _with_those_before(entries: Iterable[Entry], of: Set[bytes]) -> set[bytes]:
    """These hashes, and those of the entries before them in their chains, and of their authors' claims."""
    known = [*entries]
    by_name, found, authors = {name: entry for entry in known for name in entry.names}, set[bytes](), set[Who]()
    for one in known:
        at: Entry | None = one if one.hash in of else None
        while at and at.hash not in found:
            found.add(at.hash)
            authors.add((at.site, at.author))
            at = by_name.get(at.before)
    return found | {one.hash for one in known if one.kind.is_claim and (one.site, one.author) in authors}


class _Root:
    """What was left out and hangs below one place of the text that is there: where it begins in the view, and how many
    characters of the text are before it."""

    def __init__(self, first: Operation):
        self.messages = [first]
        self.at = self.place = 0

    @property
    def name(self) -> Names:
        """Its first character."""
        return _new(self.messages[0])._replace(length=1)


class _Insertions:
    """Insertions, found by the characters that they have."""

    def __init__(self) -> None:
        self._begins: dict[int, list[int]] = {}
        self._messages: dict[int, list[Operation]] = {}

    def add(self, message: Operation) -> None:
        """Adds one."""
        site, begin, _ = _new(message)
        begins, messages = self._begins.setdefault(site, []), self._messages.setdefault(site, [])
        at = bisect_left(begins, begin)
        begins.insert(at, begin)
        messages.insert(at, message)

    def of(self, names: Names) -> Sequence[Operation]:
        """Those that have some of these characters, or are before the first of them."""
        begins = self._begins.get(names.site, [])
        first = max(0, bisect_right(begins, names.at) - 1)
        return self._messages.get(names.site, [])[first:bisect_left(begins, names.at + names.length)]

    def one(self, name: Name) -> Operation | None:
        """The one that has a character."""
        return next((one for one in self.of(Names(*name, 1)) if name[1] < _new(one).at + _new(one).length), None)


class _Typist:
    """Types messages again at a site, and knows which characters stand for which."""

    def __init__(self, site: Site, made: dict[Operation, Operation], parts: Mapping[Operation, Sequence[Operation]]):
        self.site, self._made, self._parts = site, made, parts
        self._done = _Insertions()
        # What is typed next, each at its place.
        self._waiting: dict[Operation, int] = {}

    def type_in_a_row(self, messages: Iterable[Operation], place: int) -> Edited:
        """Types messages one after the other from a place on."""
        edits = list[Edited]()
        for message in messages:
            for part in self._lacking(message, edits):
                edits.append(self._put(place, part))
                place += _new(part).length
        return one_by_one([*edits, self._type()])

    def type_below(self, root: _Root) -> Edited:
        """Types the messages that hang below a place, each after the character that stands for the one it was after."""
        edits, place = list[Edited](), root.place
        after: Name | None = None
        for message in root.messages:
            cause, new = _cause(message), _new(message)
            if cause is None or cause != after:
                edits.append(self._type())
                copy = self.copies([Names(*cause, 1)]) if cause else []
                place = self.site.where(copy)[0][0].position + 1 if copy else root.place
            for part in self._lacking(message, edits):
                edits.append(self._put(place, part))
                after, place = (new.site, new.at + new.length - 1), place + _new(part).length
        return one_by_one([*edits, self._type()])

    def _lacking(self, message: Operation, edits: list[Edited]) -> Sequence[Operation]:
        """What is to be typed for a message: itself, or what stands for it; nothing where that was typed."""
        parts = self._parts.get(message, [message])
        if parts != [message]:
            edits.append(self._type())
            self._done.add(message)
        return [] if any(part in self._made or part in self._waiting for part in parts) else parts

    def copies(self, names: Iterable[Names]) -> list[Names]:
        """The names of the characters that stand for these, as far as they were typed again."""
        found = []
        for one in names:
            for message in self._done.of(one):
                at = _new(message).at
                for part in self._parts.get(message, [message]):
                    old, new = _new(part)._replace(at=at), _new(self._made[part]) if part in self._made else None
                    begin, end = max(one.at, old.at), min(one.at + one.length, old.at + old.length)
                    if new and begin < end:
                        found.append(Names(new.site, new.at + begin - old.at, end - begin))
                    at += old.length
        return found

    def _put(self, place: int, message: Operation) -> Edited:
        self._waiting[message] = place
        return self._type() if len(self._waiting) >= MOST_AT_ONCE else Edited([])

    def _type(self) -> Edited:
        """Types what waits."""
        waiting, self._waiting = self._waiting, {}
        edits = self.site.replace([Rewrite(place, place, message.data) for message, place in waiting.items()]) if waiting else []
        for message, edited in zip(waiting, edits):
            if edited.refused is not None:
                raise Refused(edited.refused)
            (self._made[message],) = edited.messages
            self._done.add(message)
        return one_by_one(edits)


def _typed_as_seen(view: _View, typist: _Typist) -> list[Edited]:
    """Types what a view has, hides what was hidden of it there, and gives it its looks."""
    names = united(map(_new, view.lost))
    with closing(Site(LOOKING, view.all, text=view.text)) as old:
        shown = [(stretch, one.site) for one, found in zip(names, old.where(names)) for stretch in found]
        looks = dressed(old.runs(), MOST_DRESSED)
        # All of it is shown here for a moment, so that its places are known.
        old.restore(names)
        roots = _placed(_roots(view), view, old, typist.site)
    # What is typed moves no place before it.
    edits = [typist.type_below(root) for root in reversed(roots)]
    for of, parts in _by_looks(looks, sorted(shown, key=lambda one: one[0].position)).items():
        edits.append(typist.site.look(of.differing(DEFAULT), typist.copies(parts)))
    if hidden := without(names, united(Names(site, one.at, len(one.data)) for one, site in shown)):
        edits.append(typist.site.delete(typist.copies(hidden))[0])
    return edits


def _by_looks(looks: Iterable[Dressed], shown: Sequence[tuple[Stretch, int]]) -> dict[Looks, list[Names]]:
    """The names of what is shown in looks that aren't plain, by these. The stretches rise."""
    found: dict[Looks, list[Names]] = {}
    ends = [one.position + len(one.data) for one, _ in shown]
    for begin, end, of in looks:
        for number in range(bisect_right(ends, begin), len(shown)):
            one, site = shown[number]
            if one.position >= end:
                break
            first, last = max(begin, one.position), min(end, ends[number])
            found.setdefault(of, []).append(Names(site, one.at + first - one.position, last - first))
    return found


def _roots(view: _View) -> list[_Root]:
    """What a view has that was left out, by what it hangs below that wasn't."""
    roots, of, done = list[_Root](), dict[Operation, _Root](), _Insertions()
    for message in view.lost:
        cause = _cause(message)
        if cause and (above := done.one(cause)):
            of[message] = of[above]
            of[above].messages.append(message)
        else:
            of[message] = _Root(message)
            roots.append(of[message])
        done.add(message)
    return roots


def _placed(roots: Sequence[_Root], view: _View, old: Site, site: Site) -> list[_Root]:
    """The roots in their order in the view's text, each with its place in the text that is there: after the last
    character before it that is in both."""
    end = len(old.text())
    for root, found in zip(roots, old.where([root.name for root in roots])):
        root.at = found[0].position if found else end
    place = before = 0
    placed = sorted(roots, key=lambda root: root.at)
    for root in placed:
        place = root.place = _place_after(view, old, site, before, root.at, place)
        before = root.at
    return placed


def _place_after(view: _View, old: Site, site: Site, begin: int, end: int, place: int) -> int:
    """The place after the last character of a stretch of the view's text that is in the text that is there, too; without
    one the place that is given."""
    size = LOOKED_AT
    while begin < end:
        first = max(begin, end - size)
        names = [part for one in old.names(first, end) for part in view.common(one)]
        for stretches in reversed(site.where(names)):
            if stretches:
                last = max(stretches, key=lambda one: one.at)
                return last.position + len(last.data)
        end, size = first, 4 * size
    return place


def _cause(message: Operation) -> Name | None:
    """The character after which a message inserts; none at the begin of the text."""
    return next(((one.site, one.at) for one in message.mentions), None)


def _new(message: Operation) -> Names:
    """The characters that an insertion inserts."""
    names = message.new
    assert names
    return names
