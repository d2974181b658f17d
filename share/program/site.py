"""A site: a process of the program, and the operations that it was handed.

Those that it takes in are those that count, in an order in which each is after its causes, so it takes in each at once. What came
in a chunk is handed to it as that chunk.
"""
import pathlib
import re
import subprocess
import time
from collections.abc import Callable, Iterable, Iterator, Sequence
from contextlib import ExitStack
from itertools import accumulate, chain, islice
from typing import NamedTuple

from share.format.history import Messages
from share.format.operation import MOST_INSERTED, MOST_RANGES, TEXT, Operation
from share.program.effects import Named, Stretch, stretches, changes_between
from share.program.intake import Coming
from share.program.process import MOST_LINES_READ, Ended, Program, escaped, text_in
from share.text.change import Change, boundary
from share.text.errors import Trouble
from share.text.looks import Looks, Run, in_words
from share.text.names import Names, halves, united

# What more messages together change isn't told.
SLICE = 2_000
# The chunks that are handed in at once, at most.
CHUNKS_AT_ONCE = 50
# How the packed file is called.
PACKED_NAME = "text"
# The most names of messages of which it is told what they change. In a note of 1 MB that takes 4 to 8 ms
# where the names stand in long stretches, shown or hidden, and 110 to 230 where each is by itself; to ask
# for the whole text takes 60 to 90, and up to 240 on a busy machine.
MOST_NAMES = 10_000
# The most messages of a note that is edited: the program has half a gigabyte for a million.
MOST_MESSAGES = 2_000_000
# A note is said to be nearly full where it has room for no more than one message in this number.
ONE_IN = 20
SCATTERED, NO_MEMORY, TOO_MANY = 12, 7, 21
# The answer to a chunk of which some are taken in, some were held already, and none waits.
UNPACKED = re.compile(rb"unpacked (\d+) (\d+) 0")

Progress = Callable[[int], None]
# What a text has become: change by change, or where that isn't told the whole of it.
Told = list[Change] | bytes


class Edited(NamedTuple):
    """The messages that an edit made, and the number by which the program refused the rest of it."""

    messages: list[Operation]
    refused: int | None = None


class Rewrite(NamedTuple):
    """What is between two positions gives way to some bytes, which stand behind the first ones of it, where some are named, and
    before the others: so what others put before or behind all of it at the same time doesn't come between."""

    begin: int
    end: int
    data: bytes
    inside: int = 0


class Lasting:
    """The program, of which a fresh run takes over where one ended, or has read all the lines that it reads. That one is given what
    the one before it was handed and made, which is a history."""

    def __init__(self, number: int, folder: pathlib.Path | None, history: Messages, stands: Callable[[bool], None], text: int):
        self._number, self._folder, self._history, self._stands, self._is_still = number, folder, history, stands, False
        self._is_closed, self._text = False, text
        self.run = Program(number, folder, self._stands_still, text)

    @property
    def process(self) -> "subprocess.Popen[bytes]":
        """The process of now."""
        return self.run.process

    def event(self, verb: str, *words: int | bytes) -> bytes:
        """An event of the site, of its text."""
        return self.run.event(verb, *words)

    def unpacking(self, chunks: Iterable[tuple[bytes, int]]) -> list[bytes]:
        """The events that hand chunks in."""
        return [self.run.event("unpack", chunk.hex().encode()) for chunk, _ in chunks]

    def see_that_it_knows_chunks(self) -> None:
        """Tells of a program that doesn't."""
        # These bytes are none.
        if self.ask(self.unpacking([(b"\0", 0)]))[0][-1] != b"refused 1":
            raise Trouble("The program is too old: it can't read chunks of messages. Build it anew, with "
                          "bin/site_cli < demo/two-sites.script, and open the note again.")

    def ask(self, events: list[bytes]) -> list[list[bytes]]:
        """The program's answers. Where it ended it is started again: none of these events was kept, so they
        are asked anew."""
        try:
            if self._is_closed or self.run.lines + len(events) > MOST_LINES_READ:
                self.start_again()
            try:
                return self.run.ask(events)
            except Ended:
                self.start_again()
            return self.run.ask(events)
        except Ended as why:
            raise Trouble("The program ended, was started again and ended again. All that was typed before "
                          "is kept.") from why
        finally:
            self._goes_on()

    def start_again(self) -> None:
        """Lets a fresh run do all that this one did."""
        if self._is_closed:
            raise Trouble("The program was ended, since the note is being closed or taken in anew. All that was typed before is kept.")
        self.run.close()
        self.run = Program(self._number, self._folder, self._stands_still, self._text)
        chunks = self._history.chunks()
        try:
            while some := [*islice(chunks, CHUNKS_AT_ONCE)]:
                self.run.ask(self.unpacking(some))
        except Ended as why:
            raise Trouble("The program ended and couldn't be started again. All that was typed before is "
                          "kept.") from why

    def close(self) -> None:
        """Ends the program, for good."""
        self._is_closed = True
        self.run.close()

    def _stands_still(self) -> None:
        if not self._is_still:
            self._is_still = True
            self._stands(True)

    def _goes_on(self) -> None:
        if self._is_still:
            self._is_still = False
            self._stands(False)


class Site:
    """One text at one site."""

    def __init__(self, number: int, messages: Iterable[Operation] = (), progress: Progress = lambda done: None,
                 folder: pathlib.Path | None = None, packed: Messages | None = None,
                 stands: Callable[[bool], None] = lambda stands: None, text: int = TEXT):
        """A site with these messages of a text, after those that its packed file has, which is in a folder. It is told at once that the
        program stands still, and that it answers again."""
        # What it was handed and made; and how many messages the note's other texts have.
        self.number, self.text_number, self.history = number, text, Messages()
        self.beside: Callable[[], int] = lambda: 0
        self._program = Lasting(number, folder, self.history, stands, text)
        with ExitStack() as failing:
            failing.callback(self.close)
            self._program.see_that_it_knows_chunks()
            before = len(packed) if packed else 0
            if packed:
                self._reopen(packed, progress)
            self.take(messages, progress=lambda done: progress(before + done))
            failing.pop_all()

    def _reopen(self, packed: Messages, progress: Progress) -> None:
        """Goes on from the packed file, or where that can't be has its messages handed in."""
        if not self._program.run.folder or self._ask([self._program.event("reopen", PACKED_NAME.encode())])[0] != [b"ok"]:
            self.take(packed, progress=progress)
            return
        self.history += packed
        progress(len(packed))

    @property
    def is_unproved(self) -> bool:
        """Whether the program is known to be one that isn't proved."""
        return self._program.run.is_unproved

    def keep(self) -> dict[int, int]:
        """Lets the program write the packed file; the number of each site's messages in it, nothing where it isn't written."""
        if not self._program.run.folder:
            return {}
        fronts, kept = self._ask([self._program.event("front"), self._program.event("keep", PACKED_NAME.encode(), b"packed")])
        if kept != [b"ok"]:
            return {}
        return {int(site): int(seq) for _, site, seq in (line.split() for line in fronts[:-1])}

    def take(self, messages: Iterable[Operation], looks: bool = False,
             progress: Progress = lambda done: None) -> Told:
        """Takes in messages. To one who looks at the text it tells what that has become."""
        coming = messages if isinstance(messages, Messages) else Messages(messages)
        if not looks or len(coming) > SLICE:
            self._hand_in(coming, progress)
            return self.text() if looks else []
        changes = self._take_few(coming)
        return self.text() if changes is None else changes

    def take_some(self, coming: Coming, seconds: float, looks: bool = True) -> Told:
        """Takes in messages from the front, at least some, until the time is over; tells one who looks what the text has become."""
        end = time.monotonic() + seconds
        changes: list[Change] | None = [] if looks and len(coming) <= SLICE else None
        while coming:
            changes = self._take_first(coming, changes)
            if time.monotonic() >= end:
                break
        return self.text() if looks and changes is None else changes or []

    def _take_first(self, coming: Coming, changes: list[Change] | None) -> list[Change] | None:
        """Takes in a few operations from the front; the changes so far with theirs, None where one isn't known."""
        some, before, worked = coming.first(), len(self.history), self._program.run.processor_seconds()
        found: list[Change] | None = None
        try:
            if changes is None:
                self._hand_in(some)
            else:
                found = self._take_few(some)
        finally:
            coming.drop(len(self.history) - before)
        coming.pace.took(self._program.run.processor_seconds() - worked)
        return None if changes is None or found is None else changes + found

    def _take_few(self, coming: Messages) -> list[Change] | None:
        """Takes in operations; what they changed, None where that isn't known."""
        named = Named.by(coming.runs())
        if is_full(len(self.history)) or named.many() > MOST_NAMES:
            self._hand_in(coming)
            return None
        chunks, before = [*coming.chunks(few=1)], self._asking_where(named.old)
        answers = self._ask([*before, *self._program.unpacking(chunks), *self._asking_where(named.old + named.new)])
        earlier, later = answers[:len(before)], answers[len(before) + len(chunks):]
        is_new = self._unpacked(answers[len(before):len(before) + len(chunks)], chunks, coming)
        return named.told([*map(stretches, earlier)], [*map(stretches, later)]) if is_new else None

    def insert(self, position: int, data: bytes) -> Edited:
        """Types bytes at a position of the text."""
        if 0 < len(data) <= MOST_INSERTED:
            return self._edit("type", position, escaped(data))
        parts = [*split(data)]
        places = accumulate(map(len, parts), initial=position)
        return one_by_one(self._edit("type", place, escaped(part)) for place, part in zip(places, parts))

    def cut(self, begin: int, end: int) -> Edited:
        """Deletes a stretch; where it is too scattered for one message, half by half."""
        return self._of_stretch("cut", begin, end)

    def replace(self, changes: Sequence[Rewrite]) -> list[Edited]:
        """Makes changes, from the last one to the first or each where nothing goes, and asks the program for all of them at once.
        It may do those after one that it refuses. No stretch that is cut is too scattered for a message."""
        if refused := self._full():
            return [Edited([], refused)]
        around = [self._program.event("names", one.begin, one.end) for one in changes if one.inside]
        names = iter(self._ask(around) if around else [])
        asked = [[*self._replacing(one, _names_in(next(names)) if one.inside else [])] for one in changes]
        answers = iter(self._ask([*chain.from_iterable(asked)]))
        return [self._sent([*islice(answers, len(events))]) for events in asked]

    def _replacing(self, change: Rewrite, around: list[Names]) -> Iterator[bytes]:
        """The events of a change. What goes around what comes is deleted by its names, as one."""
        if change.begin < change.end and not around:
            yield self._program.event("cut", change.begin, change.end)
        yield from self._typing(change.begin + change.inside, change.data)
        names = united(around)
        for first in range(0, len(names), MOST_RANGES):
            yield self._program.event("delete", *chain.from_iterable(names[first:first + MOST_RANGES]))

    def _typing(self, position: int, data: bytes) -> Iterator[bytes]:
        """The events that type bytes at a position. Each message has whole characters alone."""
        for part in split(data):
            yield self._program.event("type", position, escaped(part))
            position += len(part)

    def insert_behind(self, before: Sequence[Names], data: bytes, places: range) -> tuple[Edited, int]:
        """Types bytes directly behind characters that may be hidden, which are shown meanwhile, where that is at one of some places,
        and else at the first of these; and where that is."""
        if refused := self._full():
            return Edited([], refused), places.start
        restore = self._program.event("restore", *chain.from_iterable(before))
        shown, *found = self._ask([restore, *self._asking_where(before)])
        brought = self._sent([shown])
        came = [*chain.from_iterable(message.mentions for message in brought.messages)]
        size, ends = sum(one.length for one in came), [one.position + len(one.data) for part in map(stretches, found) for one in part]
        place = max(ends, default=0) - size
        if not ends or place not in places:
            place, size = places.start, size if places.start > place else 0
        hide = [self._program.event("delete", *chain.from_iterable(came))] if came else []
        typed = self._sent(self._ask([*self._typing(place + size, data), *hide]))
        return Edited(brought.messages + typed.messages, typed.refused), place

    def _sent(self, answers: list[list[bytes]]) -> Edited:
        """What an edit has made that was answered so."""
        messages = [Operation.read(bytes.fromhex(line.split()[2].decode()), self.text_number) for answer in answers for line in answer[:-1]]
        self.history += messages
        refused = [int(answer[-1].split()[-1]) for answer in answers if answer[-1] != b"ok"]
        return Edited(messages, refused[0] if refused else None)

    def delete(self, names: Iterable[Names]) -> tuple[Edited, Told]:
        """Deletes those of these characters that are shown, wherever that is, and tells what the text has become."""
        return self._by_names("delete", united(names))

    def restore(self, names: Iterable[Names]) -> tuple[Edited, Told]:
        """Shows those of these characters again that are hidden, and tells what the text has become."""
        return self._by_names("restore", united(names))

    def look(self, looks: Looks, names: Iterable[Names]) -> Edited:
        """Gives looks to those of these characters that are shown, wherever that is: no event gives them by names."""
        found = sorted((one.position, one.position + len(one.data)) for part in self.where(united(names)) for one in part)
        return one_by_one(self._of_stretch("looks", begin, end, in_words(looks)) for begin, end in _joined_places(found))

    def where(self, names: Sequence[Names]) -> list[list[Stretch]]:
        """Where characters are shown, of each of these names."""
        return [*map(stretches, self._ask(self._asking_where(names)))]

    def names(self, begin: int, end: int) -> list[Names]:
        """The names of what is shown from one position to a later one, in their order there."""
        return _names_in(self._ask([self._program.event("names", begin, end)])[0]) if begin < end else []

    def runs(self) -> list[Run]:
        """Each longest stretch of equal looks."""
        return [Run(font, int(colour), int(offset), int(length))
                for _, font, colour, offset, length in _answered(self._ask([self._program.event("runs")])[0], "runs")]

    def text(self) -> bytes:
        """What the program shows."""
        return text_in(self._ask([self._program.event("text")])[0])

    def go_back(self, length: int) -> None:
        """Goes on as if what was made here since the history had this length hadn't been, since it isn't kept."""
        self.history.cut(length)
        self._program.start_again()

    def close(self) -> None:
        """Ends the program."""
        self._program.close()

    def _hand_in(self, coming: Messages, progress: Progress = lambda done: None) -> None:
        """Hands operations to the program, and doesn't ask what they change."""
        chunks, done = coming.chunks(begun=len(self.history)), 0
        while some := [*islice(chunks, CHUNKS_AT_ONCE)]:
            end = done + sum(size for _, size in some)
            self._unpacked(self._ask(self._program.unpacking(some)), some, coming[done:end])
            done = end
            progress(done)

    def _unpacked(self, answers: Iterable[list[bytes]], chunks: Iterable[tuple[bytes, int]], coming: Messages) -> bool:
        """Adds to the history what the program took in, by its answers to chunks; whether none of that was held before."""
        done, is_new = 0, True
        try:
            for (answer,), (_, size) in zip(answers, chunks):
                found = UNPACKED.fullmatch(answer)
                if found is None or int(found[1]) + int(found[2]) != size:
                    raise _not_taken(answer, coming[done])
                done, is_new = done + size, is_new and found[2] == b"0"
        finally:
            self.history += coming[:done]
        return is_new

    def _asking_where(self, names: Iterable[Names]) -> list[bytes]:
        return [self._program.event("where", *one) for one in names]

    def _by_names(self, verb: str, names: list[Names]) -> tuple[Edited, Told]:
        tells = sum(one.length for one in names) <= MOST_NAMES
        earlier = self.where(names) if tells else []
        edited = one_by_one(self._of_names(verb, names[begin:begin + MOST_RANGES])
                            for begin in range(0, len(names), MOST_RANGES))
        if not edited.messages:
            return edited, []
        return edited, changes_between(names, earlier, self.where(names)) if tells else self.text()

    def _of_names(self, verb: str, names: Sequence[Names]) -> Edited:
        """An edit by names, which a line has room for; where those that change are too scattered for one message, half
        by half."""
        edited = self._edit(verb, *chain.from_iterable(names))
        if edited.refused != SCATTERED:
            return edited
        return one_by_one(self._of_names(verb, half) for half in halves(names))

    def _of_stretch(self, verb: str, begin: int, end: int, *words: bytes) -> Edited:
        """An edit of a stretch; where it is too scattered for one message, half by half from its end."""
        edited = self._edit(verb, begin, end, *words)
        if edited.refused != SCATTERED:
            return edited
        middle = (begin + end) // 2
        return one_by_one(self._of_stretch(verb, *half, *words) for half in ((middle, end), (begin, middle)))

    def _edit(self, verb: str, *words: int | bytes) -> Edited:
        if refused := self._full():
            return Edited([], refused)
        return self._sent(self._ask([self._program.event(verb, *words)]))

    def _full(self) -> int | None:
        return TOO_MANY if is_full(len(self.history) + self.beside()) else None

    def _ask(self, events: list[bytes]) -> list[list[bytes]]:
        return self._program.ask(events)


def is_full(many: int) -> bool:
    """Whether a note has as many messages as one may have."""
    return many >= MOST_MESSAGES


def is_nearly_full(many: int) -> bool:
    """Whether a note has room for few messages more."""
    return many * ONE_IN >= MOST_MESSAGES * (ONE_IN - 1)


def _answered(answer: list[bytes], verb: str) -> list[list[str]]:
    """The words of each line by which a question is answered."""
    *found, end = answer
    if end != b"ok":
        raise Trouble(f"The program was asked for {verb} and answered {end[:60].decode('ascii', 'replace')}.")
    return [line.decode("ascii").split(" ") for line in found]


def _names_in(answer: list[bytes]) -> list[Names]:
    """The names that an answer to `names` has."""
    return [Names(int(site), int(at), int(length)) for _, _, site, at, length in _answered(answer, "names")]


def _not_taken(answer: bytes, operation: Operation) -> Trouble:
    """What is told where the program doesn't take in what counts: a message, or one of those from it on."""
    if answer.split()[-1:] == [b"%d" % NO_MEMORY] and answer.split()[0] in (b"refused", b"partial"):
        return Trouble("There is no memory for what came in. End other programs and open the note again.")
    return Trouble(f"The program answered message {operation.seq} of site {operation.site} with "
                   f"{answer[:60].decode('ascii', 'replace')}. Save the note as a file.")


def one_by_one(edits: Iterable[Edited]) -> Edited:
    """Several edits as one, up to the first one that is refused."""
    messages: list[Operation] = []
    for edited in edits:
        messages += edited.messages
        if edited.refused is not None:
            return Edited(messages, edited.refused)
    return Edited(messages)


def split(data: bytes) -> Iterator[bytes]:
    """Bytes in parts that fit a message, parted between characters of UTF-8."""
    while len(data) > MOST_INSERTED:
        end = boundary(data, MOST_INSERTED)
        yield data[:end]
        data = data[end:]
    if data:
        yield data


def _joined_places(places: Iterable[tuple[int, int]]) -> list[tuple[int, int]]:
    """Stretches that rise, by where they begin and end; those that follow one another in one."""
    out: list[tuple[int, int]] = []
    for begin, end in places:
        if out and out[-1][1] == begin:
            begin, _ = out.pop()
        out.append((begin, end))
    return out
