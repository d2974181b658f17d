"""Scripts in which sites make edits of one character each and another takes them, with the text that they leave."""
from __future__ import annotations

import dataclasses
import itertools
import random
from collections.abc import Callable, Iterable, Iterator
from typing import Optional

LETTERS = "etaoin shrdlu"
BAR = "|"
TYPE, CUT = "type", "cut"
BACKSPACE = None
# What is done, after how many characters, and which one is typed; what is pressed.
Move = tuple[str, int, str]
Key = Optional[str]
# Of prose: how long words are, how many are in a sentence, and of how many keys one is a wrong one.
WORDS, SENTENCES, RIGHT = range(1, 10), range(4, 21), 60
# How many edits a site makes before each takes in what the other made meanwhile.
FEW = range(1, 9)
# Where site 2 types into what site 1 writes: one edit in how many is its, and how far before the caret it goes at most.
INTO = 20


def at_the_end(rng: random.Random, length: int) -> Iterator[Move]:
    """The edits of one who types after all characters."""
    for pos in itertools.count(length):
        yield TYPE, pos, rng.choice(LETTERS)


def at_random(rng: random.Random, length: int) -> Iterator[Move]:
    """The same, each anywhere in the text."""
    for length in itertools.count(length):
        yield TYPE, rng.randint(0, length), rng.choice(LETTERS)


def in_bursts(rng: random.Random, length: int) -> Iterator[Move]:
    """The same as a writer does: up to 60 at a place, of which one in five takes back the character before it, where the burst
    has one; then a jump to anywhere."""
    while True:
        begin = pos = rng.randint(0, length)
        for _ in range(rng.randint(1, 60)):
            if begin < pos and rng.randrange(5) == 0:
                pos -= 1
                length -= 1
                yield CUT, pos, ""
            else:
                yield TYPE, pos, rng.choice(LETTERS)
                pos += 1
                length += 1


def word(rng: random.Random) -> str:
    return "".join(rng.choices(LETTERS.replace(" ", ""), k=rng.choice(WORDS)))


def sentence(rng: random.Random) -> str:
    """Words, with a comma after one in ten, and a full stop and a blank at the end."""
    words = " ".join(word(rng) + "," * (rng.randrange(10) == 0) for _ in range(rng.choice(SENTENCES)))
    return f"{words.rstrip(',').capitalize()}. "


def keys(rng: random.Random, letters: str) -> Iterator[Key]:
    """What is pressed for letters: now and then a wrong one, with up to four after it before it is seen, all of which are taken
    back."""
    for at, letter in enumerate(letters):
        if rng.randrange(RIGHT) == 0:
            wrong = rng.choice(LETTERS) + letters[at + 1 : at + rng.randint(1, 5)]
            yield from [*wrong, *[BACKSPACE] * len(wrong)]
        yield letter


def pressed(text: list[str], pos: int, pressing: Iterable[Key]) -> Iterator[Move]:
    """The edits that keys make in a text, which they change, from a caret on."""
    for letter in pressing:
        if letter is BACKSPACE:
            pos -= 1
            del text[pos]
            yield CUT, pos, ""
        else:
            text.insert(pos, letter)
            yield TYPE, pos, letter
            pos += 1


def revised(rng: random.Random, text: list[str]) -> Iterator[Move]:
    """The edits that put a word in after another one, or take that out."""
    end = text.index(" ", rng.randrange(len(text)))
    if rng.randrange(2):
        return pressed(text, end, keys(rng, f" {word(rng)}"))
    begin = next((at for at in range(end - 1, 0, -1) if text[at] == " "), 0)
    return pressed(text, end, [BACKSPACE] * (end - begin))


def written(rng: random.Random) -> Iterator[Move]:
    """The edits of sentences one after the other; after one in three a word before is looked at again."""
    text: list[str] = []
    while True:
        yield from pressed(text, len(text), keys(rng, sentence(rng)))
        if rng.randrange(3) == 0:
            yield from revised(rng, text)


def in_prose(rng: random.Random, length: int) -> Iterator[Move]:
    """The same of one who writes prose after all characters, with corrections, and leaves these as they are."""
    return ((done, length + pos, letter) for done, pos, letter in written(rng))


TRACES: dict[str, Callable[[random.Random, int], Iterator[Move]]] = {
    "at the end": at_the_end,
    "at random": at_random,
    "in bursts": in_bursts,
    "in prose": in_prose,
}
AT_THE_END, AT_RANDOM, IN_BURSTS, IN_PROSE = TRACES


@dataclasses.dataclass(eq=False)
class Script:
    """Lines, how many messages they send, and how many of these are taken; and the text that they leave, a plain list of
    characters. A script that goes on with another one has its lines in front of its own. It equals itself alone."""

    lines: list[str] = dataclasses.field(default_factory=list)
    sent: int = 0
    taken: int = 0
    text: list[str] = dataclasses.field(default_factory=list)

    def bytes(self) -> bytes:
        return "".join(f"{line}\n" for line in [*self.lines, "1 text 1", "2 text 1"]).encode()

    def send(self, edit: str, site: int = 1) -> None:
        self.lines.append(f"{site} {edit}")
        self.sent += 1

    def share(self, edit: str, site: int = 1) -> None:
        """The site makes the edit, and the other one takes it."""
        self.send(edit, site)
        self.take(3 - site, self.sent)

    def take(self, site: int, message: int) -> None:
        self.lines.append(f"{site} take 1 m{message}")
        self.taken += 1


class Part:
    """A part of a text that a site writes by a trace. Of what another site types into it the trace knows nothing."""

    def __init__(self, text: Iterable[str] = ()) -> None:
        self.text = [*text]
        self.caret = len(self.text)
        # A 1 for each character of another site, and how many of these come before the caret, and are there.
        self.marks, self.before, self.others = bytearray(self.caret), 0, 0

    def others_before(self, place: int) -> int:
        """How many characters of another site, counted from the caret on."""
        return self.before + self.marks.count(1, self.caret, place) - self.marks.count(1, place, self.caret)

    def place(self, pos: int) -> int:
        """Where the character of the trace's own that has this position among its own is in the text."""
        place = pos
        while self.others and (found := pos + self.others_before(place)) > place:
            place = found
        self.before = place - pos
        return place

    def type(self, place: int, letter: str, earlier: int, of_another: bool = False) -> str:
        self.text.insert(place, letter)
        self.marks.insert(place, of_another)
        return f"type 1 {earlier + place} {letter}"

    def edit(self, move: Move, earlier: int = 0) -> str:
        """Makes an edit of a move of the trace, with this many more characters before the part."""
        done, pos, letter = move
        if done == TYPE:
            place = self.place(pos)
            self.caret = place + 1
            return self.type(place, letter, earlier)
        self.caret = place = self.place(pos + 1) - 1
        del self.text[place], self.marks[place]
        return f"cut 1 {earlier + place} {earlier + place + 1}"

    def typed_into(self, rng: random.Random) -> str:
        """What types a letter of another site among the last before the caret, which stays where it is."""
        self.before, self.others = self.before + 1, self.others + 1
        place = max(0, self.caret - rng.randrange(1, INTO))
        self.caret += 1
        return self.type(place, rng.choice(LETTERS), 0, of_another=True)


def typed_alone(name: str, edits: int, seed: str) -> Script:
    """A number of edits of site 1, of which no other site takes any."""
    script, part = Script(), Part()
    for move in itertools.islice(TRACES[name](random.Random(f"{name} {seed}"), 0), edits):
        script.send(part.edit(move))
    script.text = part.text
    return script


def merged(name: str, edits: int, seed: str) -> Script:
    """Both sites make this many edits apart, and merge: site 1 before a bar that they share, and site 2 after it. So no two
    of them type at one place, and whatever rule orders such characters, it gives this text."""
    rng = random.Random(f"{name} apart {seed}")
    script = Script()
    script.share(f"type 1 0 {BAR}")
    halves = Part(), Part()
    for site, half in enumerate(halves, 1):
        for move in itertools.islice(TRACES[name](rng, 0), edits):
            script.send(half.edit(move, earlier=site - 1), site)
    script.lines += ["1 merge 1 2", "2 merge 1 1"]
    script.text = [*halves[0].text, BAR, *halves[1].text]
    return script


def gone_on(name: str, edits: int, seed: str, before: Script, into: bool = False) -> Script:
    """The script before, and after it a number of edits of site 1, each taken by site 2 at once; or of both, where site 2 types into
    what site 1 writes."""
    rng, other = random.Random(f"{name} {seed}"), random.Random(f"{name} into {seed}")
    script = Script([*before.lines], before.sent, before.taken)
    part, moves = Part(before.text), TRACES[name](rng, len(before.text))
    for number in range(edits):
        if into and number % INTO == INTO - 1:
            script.share(part.typed_into(other), site=2)
        else:
            script.share(part.edit(next(moves)))
    script.text = part.text
    return script


def at_once(name: str, edits: int, seed: str, into: bool = False) -> Script:
    """A number of edits of both sites: each makes a few, and then takes those that the other one made meanwhile. Site 1 writes before a
    bar that they share, and site 2 after it; it may also type into what site 1 has written, which takes that directly."""
    rng, other = random.Random(f"{name} at once {seed}"), random.Random(f"{name} into {seed}")
    script = Script()
    script.share(f"type 1 0 {BAR}")
    halves = Part(), Part()
    moves = [TRACES[name](rng, 0) for _ in halves]
    while edits:
        earlier = 0, len(halves[0].text) + 1
        meanwhile = []
        for site, half in enumerate(halves):
            few = min(rng.choice(FEW), edits)
            edits -= few
            for move in itertools.islice(moves[site], few):
                script.send(half.edit(move, earlier[site]), 1 + site)
                meanwhile.append((2 - site, script.sent))
        for taker, message in meanwhile:
            script.take(taker, message)
        if into and edits and script.sent // INTO > halves[0].others:
            edits -= 1
            script.share(halves[0].typed_into(other), site=2)
    script.text = [*halves[0].text, BAR, *halves[1].text]
    return script
