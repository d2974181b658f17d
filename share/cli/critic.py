"""A text with remarks and suggestions as CriticMarkup, and back.

A suggestion is {++new++}, {--old--} or {~~old~>new~~}, a remark {==what it is about==}{>>NAME: words<<}, or without the first part where
it is about a place. What follows such a mark at once, {>>NAME: words<<}, is the mark's own, and then its replies. What can't be marked so,
since it overlaps another one or isn't open, is a remark that says of which characters it is: {>>NAME (4 characters before): words<<}.

What has such marks in itself gets a backslash inside each, as `{\\++`, and one more where there are backslashes already: so nobody who
knows these marks takes it for one, Markdown shows it as it was, and reading takes just one backslash out.
"""
import json
import re
from bisect import bisect_left
from collections.abc import Iterable, Iterator, Sequence
from typing import NamedTuple

from share.editors.threads import OPEN
from share.format.presence import MOST_NAME
from share.text.errors import Trouble

MARKED_STATES = "resolved", "rejected", "accepted"
_CLOSERS = {"++": "++}", "--": "--}", "~~": "~~}", ">>": "<<}", "==": "==}"}
_END_OF_MARKED = "==}"
# What begins a mark; and what does inside of a remark's, or ends that.
_OPENER, _OPENER_INSIDE = re.compile(r"\{(\+\+|--|~~|>>|==)"), re.compile(r"\{(\+\+|--|~~|>>|==)|==\}")
# Where a backslash is put into a text, and where one is taken out again; the first pair everywhere, the others inside marks.
_PUT = [(re.compile(r"\{(\\*(?:\+\+|--|~~|>>|==))"), r"{\\\1"), (re.compile(r"((?:\+\+|--|~~|<<|==)\\*)\}"), r"\1\\}"),
        (re.compile(r"(~\\*)>"), r"\1\\>")]
_TAKEN = [(re.compile(r"\{\\(\\*(?:\+\+|--|~~|>>|==))"), r"{\1"), (re.compile(r"((?:\+\+|--|~~|<<|==)\\*)\\\}"), r"\1}"),
          (re.compile(r"(~\\*)\\>"), r"\1>")]
# The same of what stands right before the end of a remark's mark.
_PUT_LAST, _TAKEN_LAST = (re.compile(r"\{(\\*=?)\Z"), r"{\\\1"), (re.compile(r"\{\\(\\*=?)\Z"), r"{\1")
# What a remark begins with: whose it is, and what else is said of it.
_OF_NAME = re.compile(r"[\\:()]")
_FLAG = r'(?:resolved|rejected|accepted|here|[0-9]{1,9} characters?(?: [0-9]{1,9})? before|suggests "(?:[^"\\]|\\.)*")'
_NAME = rf"(?:[^\\:()\0-\x1f\x7f-\x9f]|\\[\\:()]){{0,{MOST_NAME}}}?"
_HEAD = re.compile(rf"(?P<name>{_NAME})(?: \((?P<flags>{_FLAG}(?:, {_FLAG})*)\))?:(?: |\Z)")
_FLAGS = re.compile(_FLAG)
_BEFORE = re.compile(r"([0-9]+) characters?(?: ([0-9]+))? before")


class SaidBy(NamedTuple):
    """Somebody's words."""

    name: str
    body: str


class Reviewed(NamedTuple):
    """A remark on a stretch of a text, or a suggestion of what is to be there, with the replies. Positions count characters."""

    begin: int
    end: int
    new: str | None
    said: SaidBy
    state: str = OPEN
    replies: tuple[SaidBy, ...] = ()


class _Mark(NamedTuple):
    """Where a thread is written: as the mark of its stretch, or else as words at a place."""

    begin: int
    end: int
    is_words: bool
    thread: Reviewed

    @property
    def order(self) -> tuple[int, bool, int]:
        """What is at a place comes before what begins there, of which the longest is the first."""
        return self.begin, self.begin != self.end, -self.end


def escaped_marks(text: str, is_inside: bool) -> str:
    """A text in which nothing is a mark; or inside one."""
    for found, put in _PUT if is_inside else _PUT[:1]:
        text = found.sub(put, text)
    return text


def unescaped_marks(text: str, is_inside: bool) -> str:
    """The text that was escaped so."""
    for found, put in reversed(_TAKEN if is_inside else _TAKEN[:1]):
        text = found.sub(put, text)
    return text


def written(text: str, threads: Iterable[Reviewed]) -> str:
    """A text with what is said of it."""
    return "".join(_MarkWriter(text).pieces(sorted(_marks_of(threads), key=lambda mark: mark.order)))


def _marks_of(threads: Iterable[Reviewed]) -> Iterator[_Mark]:
    """Where each thread is written. Of what overlaps, suggestions are marked first, and then what was begun before."""
    ordered = sorted(threads, key=lambda one: (one.begin, one.end))
    marked, reach = list[Reviewed](), 0
    others = list[Reviewed]()
    for one in ordered:
        if one.new is not None and one.state == OPEN and one.begin >= reach and (one.new or one.begin < one.end):
            marked.append(one)
            reach = one.end
            yield _Mark(one.begin, one.end, False, one)
        else:
            others.append(one)
    stretches = [one for one in marked if one.begin < one.end]
    begins, reach = [one.begin for one in stretches], 0
    for one in others:
        around = [_stretch_at(stretches, begins, place) for place in (one.begin, one.end)]
        same = bisect_left(begins, one.begin)
        is_marked = same < len(begins) and stretches[same][:2] == one[:2]
        if one.new is None and one.begin < one.end and one.begin >= reach and not any(around) and not is_marked:
            reach = one.end
            yield _Mark(one.begin, one.end, False, one)
        else:
            place = around[1].end if around[1] else one.end
            yield _Mark(place, place, True, one)


def _stretch_at(stretches: Sequence[Reviewed], begins: Sequence[int], place: int) -> Reviewed | None:
    """The stretch inside of which a place is."""
    number = bisect_left(begins, place) - 1
    return stretches[number] if number >= 0 and place < stretches[number].end else None


class _MarkWriter:
    """Writes marks in the order of their places."""

    def __init__(self, text: str):
        self._text, self._at = text, 0
        # The remark's mark that is open, and whether words that come now would be those of what was written last.
        self._open: _Mark | None = None
        self._is_tied = False

    def pieces(self, marks: Iterable[_Mark]) -> Iterator[str]:
        """What is written."""
        for mark in marks:
            if self._open and mark.begin >= self._open.end:
                yield from self._closed(self._open)
            yield from self._to(mark.begin)
            if mark.is_words:
                yield from self._with_replies(mark.thread, self._where(mark))
            elif mark.thread.new is None:
                yield "{=="
                self._open, self._is_tied = mark, False
            else:
                yield self._suggestion(mark, mark.thread.new)
                yield from self._with_replies(mark.thread, [])
        if self._open:
            yield from self._closed(self._open)
        yield from self._to(len(self._text))

    def _closed(self, mark: _Mark) -> Iterator[str]:
        for piece in self._to(mark.end):
            yield _PUT_LAST[0].sub(_PUT_LAST[1], piece)
        yield _END_OF_MARKED
        self._open = None
        yield from self._with_replies(mark.thread, [] if mark.thread.state == OPEN else [mark.thread.state])

    def _to(self, place: int) -> Iterator[str]:
        if self._at < place:
            yield escaped_marks(self._text[self._at:place], self._open is not None)
            self._at, self._is_tied = place, False

    def _suggestion(self, mark: _Mark, new: str) -> str:
        old, new = escaped_marks(self._text[mark.begin:mark.end], True), escaped_marks(new, True)
        self._at = mark.end
        if not old:
            return f"{{++{new}++}}"
        return f"{{~~{old}~>{new}~~}}" if new else f"{{--{old}--}}"

    def _where(self, mark: _Mark) -> list[str]:
        """What is said of a thread that has no mark."""
        one, flags = mark.thread, list[str]()
        size, back = one.end - one.begin, mark.begin - one.begin
        if one.state != OPEN:
            flags.append(one.state)
        if back:
            flags.append(f"{size} character{'s' if size != 1 else ''}{'' if size == back else f' {back}'} before")
        elif self._is_tied or one.new is not None:
            flags.append("here")
        if one.new is not None:
            flags.append("suggests " + json.dumps(one.new, ensure_ascii=False))
        return flags

    def _with_replies(self, one: Reviewed, flags: Sequence[str]) -> Iterator[str]:
        self._is_tied = True
        yield _words_marked(one.said, flags)
        for reply in one.replies:
            yield _words_marked(reply, ())


def _words_marked(said: SaidBy, flags: Sequence[str]) -> str:
    name = _OF_NAME.sub(r"\\\g<0>", said.name) + (f" ({', '.join(flags)})" if flags else "")
    return f"{{>>{escaped_marks(name + ':' + (' ' + said.body if said.body else ''), True)}<<}}"


class _Found:
    """A thread that is being read; one that has no words yet gets those that follow at once."""

    def __init__(self, begin: int, end: int, new: str | None):
        self.begin, self.end, self.new, self.state = begin, end, new, OPEN
        self.said: SaidBy | None = None
        self.replies: list[SaidBy] = []

    def done(self) -> Reviewed:
        """The thread."""
        return Reviewed(self.begin, self.end, self.new, self.said or SaidBy("", ""), self.state, tuple(self.replies))


def read(data: str) -> tuple[str, list[Reviewed]]:
    """The text that a file has where nothing of what it suggests is done, and what it says of that, in its order."""
    reader = _MarkReader(data)
    reader.read_all()
    return "".join(reader.text), [one.done() for one in reader.found if one.said or one.new is not None]


class _MarkReader:
    """Reads marks."""

    def __init__(self, data: str):
        self._data, self._at = data, 0
        self.text, self._size = list[str](), 0
        self.found: list[_Found] = []
        # Where remarks' marks begin that aren't closed yet, in the file and in the text; and of what words that come now would be.
        self._open: list[tuple[int, int]] = []
        self._last: _Found | None = None

    def read_all(self) -> None:
        """Reads all."""
        while (mark := self._next()) is not None:
            begin, kind = mark
            raw = self._data[self._at:begin]
            self._take_text(_TAKEN_LAST[0].sub(_TAKEN_LAST[1], raw) if kind == _END_OF_MARKED else raw)
            if kind == _END_OF_MARKED:
                self._at = begin + len(kind)
                self._begins(_Found(self._open.pop()[1], self._size, None))
            elif kind == "==":
                self._open.append((begin, self._size))
                self._at, self._last = begin + 3, None
            else:
                end = self._data.find(_CLOSERS[kind], begin + 3)
                if end < 0:
                    raise self._wrong(begin, kind)
                self._at = end + 3
                self._marked(kind, self._data[begin + 3:end], begin)
        if self._open:
            raise self._wrong(self._open[-1][0], "==")
        self._take_text(self._data[self._at:])

    def _next(self) -> tuple[int, str] | None:
        """Where the next mark begins, or the last remark's ends, and of which kind it is."""
        found = (_OPENER_INSIDE if self._open else _OPENER).search(self._data, self._at)
        return (found.start(), found[1] or _END_OF_MARKED) if found else None

    def _take_text(self, raw: str) -> None:
        self._put(unescaped_marks(raw, bool(self._open)))

    def _put(self, text: str) -> None:
        if text:
            self.text.append(text)
            self._size += len(text)
            self._last = None

    def _begins(self, one: _Found) -> None:
        self.found.append(one)
        self._last = one

    def _marked(self, kind: str, raw: str, place: int) -> None:
        """Takes in what a mark has that has no others inside."""
        if kind == ">>":
            self._take_words(unescaped_marks(raw, True))
            return
        old, is_both, new = raw.partition("~>") if kind == "~~" else (raw, "", "") if kind == "--" else ("", "", raw)
        if kind == "~~" and not is_both:
            raise Trouble(f"{self._place(place)}: {{~~ has no ~> inside.")
        begin = self._size
        self._put(unescaped_marks(old, True))
        if old or new:
            self._begins(_Found(begin, self._size, unescaped_marks(new, True)))

    def _take_words(self, words: str) -> None:
        said, flags = _said_by(words)
        is_one = any(one == "here" or one.endswith(" before") for one in flags)
        if self._last is None or is_one:
            self._begins(_Found(self._size, self._size, None))
        elif self._last.said is not None:
            self._last.replies.append(said)
            return
        assert self._last
        self._last.said = said
        for flag in flags:
            self._take_flag(self._last, flag)

    def _take_flag(self, one: _Found, flag: str) -> None:
        if flag in MARKED_STATES:
            one.state = flag
        elif before := _BEFORE.fullmatch(flag):
            size = int(before[1])
            one.begin = max(0, self._size - int(before[2] or size))
            one.end = min(one.begin + size, self._size)
        elif flag.startswith("suggests "):
            try:
                one.new = json.loads(flag.removeprefix("suggests "), strict=False)
            except ValueError as why:
                raise Trouble(f"{self._place(self._at)}: {flag} isn't quoted as JSON is.") from why

    def _wrong(self, place: int, kind: str) -> Trouble:
        return Trouble(f"{self._place(place)}: {{{kind} isn't followed by {_CLOSERS[kind]}")

    def _place(self, at: int) -> str:
        return place_in_words(self._data, at)


def _said_by(words: str) -> tuple[SaidBy, list[str]]:
    """Whose words they are, as they say themselves, and what else they say so."""
    head = _HEAD.match(words)
    if not head:
        return SaidBy("", words), []
    return SaidBy(re.sub(r"\\(.)", r"\1", head["name"]), words[head.end():]), _FLAGS.findall(head["flags"] or "")


def line_and_column(text: str, at: int) -> tuple[int, int]:
    """A position as people count it: from 1, in characters of its line."""
    return text.count("\n", 0, at) + 1, at - (text.rfind("\n", 0, at) + 1) + 1


def place_in_words(text: str, at: int) -> str:
    """The same in words."""
    line, column = line_and_column(text, at)
    return f"Line {line}, column {column}"
