"""Scripts of all events with operands drawn at random, of which most mean something and some nothing. A program plays them as they
are drawn, so that what is drawn next can rest on what it answered."""
from __future__ import annotations

import random
import subprocess
from collections import Counter
from collections.abc import Callable, Iterator, Sequence
from contextlib import contextmanager
from dataclasses import dataclass, field
from pathlib import Path

from tools.packed.events import spelled
from tools.running import Files

EVENTS = 1000
# After how many events it is seen what they were answered.
ROUND = 40
# Of how many texts a script speaks, as a rule, and how many of them are looked at after a round.
TEXTS, SEEN = 3, 5
# What one text shows that nothing else does, so that its line ends a round.
LAST_TEXT, LAST = 15, "the end of a round"
FILES = ("a", "b.Text", "c.kept", "harbour")
COMMANDS = (
    *(f"Edit.Open {n}\r" for n in (1, 2, 17)),
    "System.Open 2\r",
    "System.Close\r",
    "Edit.Recall\r",
    "Edit.Restore\r",
    "Share.Forget\r",
    *(f"Edit.{verb} {file}\r" for verb in ("Load", "Store") for file in ("a", '"b.Text"', "^", "7")),
    "Edit.ChangeFont Syntax10.Scn.Fnt\r",
    "Edit.ChangeColor 3\r",
    "Edit.ChangeColor ^\r",
    "Edit.ChangeOffset -5\r",
    "Edit.Search a\r",
    'Edit.Search "b c"\r',
    "Edit.Search ^\r",
    "Edit.Nothing\r",
)
LOOKS = (
    "font=A",
    "font=Mono.Fnt",
    "font=9",
    "colour=0",
    "colour=15",
    "colour=16",
    "offset=-128",
    "offset=128",
    "font=B.9 colour=3 offset=127",
)
# Lines that spell no event, or nearly none.
OTHERS = (
    "",
    "# a comment",
    "1",
    "1 typo",
    "1 text",
    "1 text 1 ",
    " 1 text 1",
    "1 text 01",
    "1 type 1 0 \\zz",
    "1 take 1 m",
    "1 take 1 0",
    "\t",
)
# A text that is longer isn't typed into any more, so that answers stay short.
LONG = 400


@dataclass
class Found:
    """What programs wrote before, which scripts are handed."""

    messages: list[bytes] = field(default_factory=list)
    chunks: list[bytes] = field(default_factory=list)
    files: Files = field(default_factory=dict)


class Player:
    """A program that is asked round by round."""

    def __init__(self, process: subprocess.Popen[str], first: int) -> None:
        self.process, self.first = process, first
        self.ask([f"{first} type {LAST_TEXT} 0 {LAST}"])

    def ask(self, lines: Sequence[str]) -> list[str]:
        """What it answers to these lines, in which no one looks at the last text."""
        assert self.process.stdin and self.process.stdout
        self.process.stdin.write("".join(f"{line}\n" for line in [*lines, f"{self.first} text {LAST_TEXT}"]))
        self.process.stdin.flush()
        answers: list[str] = []
        while not answers or answers[-1] != f"text {len(LAST)} {LAST}":
            line = self.process.stdout.readline()
            if not line:
                raise EOFError(f"the program ended in the midst of {lines}")
            answers.append(line.rstrip("\n"))
        return answers[:-1]


@contextmanager
def playing(command: str, words: Sequence[str], folder: Path, first: int) -> Iterator[Player]:
    pipes = {"stdin": subprocess.PIPE, "stdout": subprocess.PIPE}
    with subprocess.Popen([command, *words], cwd=folder, text=True, encoding="latin-1", **pipes) as process:  # type: ignore[call-overload]
        try:
            yield Player(process, first)
        finally:
            process.kill()


class Draw:
    """A script as it is drawn, with the program's words and files."""

    def __init__(self, seed: int, found: Found) -> None:
        self.rng, self.found = random.Random(f"all events {seed}"), found
        self.first, self.count = self.rng.choice([1, 1, 1, 7, 65528 - 8]), self.rng.choice([1, 2, 3, 4, 8])
        self.width, self.height = self.rng.choice([20, 40, 80, 200]), self.rng.choice([8, 10, 24, 100])
        self.lines: list[str] = []
        # How many characters are shown, by site and text, when it was seen last; and of which texts the messages are.
        self.shown: Counter[tuple[int, int]] = Counter()
        self.sent: list[int] = []
        self.site = self.first
        self.files = {name: self.changed(data) for name, data in found.files.items() if self.rng.random() < 0.7}

    def draw(self, command: str, folder: Path) -> None:
        """Draws the whole script, as this program plays it in this folder, where the files lie."""
        verbs = self.weighted()
        with playing(command, self.words, folder, self.first) as player:
            self.lines = [f"{self.first} type {LAST_TEXT} 0 {LAST}"]
            self.sent = [LAST_TEXT]
            while len(self.lines) < EVENTS:
                begin = len(self.lines)
                for _ in range(ROUND):
                    self.site = self.first + self.rng.randrange(self.count)
                    self.rng.choice(verbs)()
                seen = [(self.first + self.rng.randrange(self.count), self.rng.randint(1, TEXTS)) for _ in range(SEEN)]
                answers = player.ask(self.lines[begin:])
                self.see([*answers], seen, player.ask([f"{site} text {text}" for site, text in seen]))
                self.lines += [
                    f"{self.first} text {LAST_TEXT}",
                    *(f"{site} text {text}" for site, text in seen),
                    f"{self.first} text {LAST_TEXT}",
                ]

    def see(self, answers: Sequence[str], seen: Sequence[tuple[int, int]], shown: Sequence[str]) -> None:
        """Notes what was sent, and how long texts are."""
        for line in answers:
            if line.startswith("send "):
                self.sent.append(int(line.split(" ")[2][8:12], 16))
        for place, line in zip(seen, shown):
            self.shown[place] = int(line.split(" ")[1])

    @property
    def words(self) -> list[str]:
        options = ("first", self.first), ("count", self.count), ("width", self.width), ("height", self.height)
        return [word for name, number in options for word in (f"--{name}", str(number))]

    def script(self) -> bytes:
        return "".join(f"{line}\n" for line in self.lines).encode("latin-1")

    def weighted(self) -> list[Callable[[], None]]:
        """What may come next, as often as it is to."""
        return [
            *[self.types] * 6,
            *[self.cuts] * 4,
            *[self.takes] * 6,
            self.catches_up,
            *[self.asks] * 4,
            *[self.screen] * 6,
            *[self.clicks] * 2,
            self.looks,
            self.looks,
            self.again,
            self.again,
            self.names,
            self.names,
            self.copies,
            self.hands,
            self.hands,
            self.files_of,
            self.other,
        ]

    def add(self, verb: str, *words: object) -> None:
        site = self.site if self.rng.random() < 0.99 else self.rng.choice([0, 9, 65535, "x"])
        self.lines.append(" ".join(map(str, (site, verb, *words))))

    def text(self) -> int:
        return self.rng.randint(1, TEXTS) if self.rng.random() < 0.99 else self.rng.choice([0, 14, 17])

    def length(self, text: int) -> int:
        return self.shown[self.site, text]

    def grows(self, text: int, by: int) -> None:
        self.shown[self.site, text] = max(0, self.length(text) + by)

    def position(self, text: int) -> int:
        length = self.length(text)
        return (
            self.rng.randint(0, length * 3 // 4)
            if self.rng.random() < 0.97
            else length + self.rng.choice([0, 1, 1000, 2**32 - 1])
        )

    def stretch(self, text: int) -> tuple[int, int]:
        begin = self.position(text)
        longest = max(1, self.length(text) - begin)
        return begin, max(0, begin + min(longest, self.rng.choice([0, 1, 1, 2, 5, 40])) - (self.rng.random() < 0.03))

    def types(self) -> None:
        text = self.text()
        if self.length(text) > LONG:
            return self.cuts()
        rng = self.rng
        data = rng.choice(
            [bytes(rng.choice(b"abc \r") for _ in range(rng.choice([1, 1, 1, 2, 5, 9]))), rng.choice(COMMANDS).encode()]
            + [bytes(rng.randrange(256) for _ in range(3))] * (rng.random() < 0.2)
        )
        at = self.position(text)
        if rng.random() < 0.01:
            data = bytes([rng.randrange(256)]) * rng.choice([4095, 4096, 4097])
        else:
            self.grows(text, len(data))
        self.add("type", text, at, spelled(data))

    def cuts(self) -> None:
        text = self.text()
        begin, end = self.stretch(text)
        if self.rng.random() < 0.1:
            begin, end = 0, self.length(text) // 2
        self.add("cut", text, begin, end)
        self.grows(text, begin - end)

    def looks(self) -> None:
        text = self.text()
        self.add("looks", text, *self.stretch(text), self.rng.choice(LOOKS))

    def again(self) -> None:
        text = self.text()
        if self.rng.random() < 0.6:
            self.add("restore", text)
        else:
            self.add("recall", text, self.position(text))

    def ranges(self) -> list[int]:
        rng = self.rng
        names = [
            (self.first + rng.randrange(self.count + 1), rng.randint(0, 60), rng.randint(1, 6))
            for _ in range(rng.randint(1, 3))
        ]
        return [number for name in names for number in name]

    def names(self) -> None:
        self.add(self.rng.choice(["delete", "restore", "where"]), self.text(), *self.ranges())

    def copies(self) -> None:
        text, to = self.text(), self.text()
        if self.length(to) <= LONG:
            self.add("save", text, *self.stretch(text), to, self.position(to))

    def takes(self) -> None:
        """A message of the run, mostly a late one; or what waits, or all that another site has."""
        rng = self.rng
        if rng.random() < 0.9:
            number = max(1, len(self.sent) - rng.randrange(rng.choice([2, 5, 20, 60, 1000]))) - rng.choice(
                [-1, *[0] * 40, 1]
            )
            text = self.sent[number - 1] if 0 < number <= len(self.sent) and rng.random() < 0.98 else self.text()
            self.add("take", text, f"m{number}")
        elif rng.random() < 0.7:
            self.add("merge", self.text(), self.first + rng.randrange(self.count + (rng.random() < 0.05)))
        else:
            self.add("settle", self.text())

    def catches_up(self) -> None:
        """The late messages of a text, in the order of their sending or nearly so."""
        text = self.rng.randint(1, TEXTS)
        late = [number for number, of in enumerate(self.sent, 1) if of == text][-self.rng.choice([3, 10, 40]) :]
        if self.rng.random() < 0.2:
            self.rng.shuffle(late)
        for number in late:
            self.add("take", text, f"m{number}")

    def hands(self) -> None:
        """Bytes of another run, some of them changed."""
        verb, given = self.rng.choice([("take", self.found.messages), ("unpack", self.found.chunks)])
        data = self.rng.choice(given) if given else b"\1"
        self.add(verb, self.text(), self.changed(data, 0.4).hex() or "00")

    def changed(self, data: bytes, chance: float = 0.3) -> bytes:
        if not data or self.rng.random() > chance:
            return data
        at = self.rng.randrange(len(data))
        return self.rng.choice(
            [data[:at], data[:at] + bytes([self.rng.randrange(256)]) + data[at + 1 :], data[:at] + data[at + 1 :]]
        )

    def asks(self) -> None:
        rng, text = self.rng, self.text()
        verb = rng.choice(["text", "runs", "front", "names", "since", "pack", "past"])
        fronts = [
            number
            for site in rng.sample(range(self.first, self.first + 9), rng.randint(0, 3))
            for number in (site, rng.randint(0, 80))
        ]
        words = {"names": [*self.stretch(text)], "since": fronts, "pack": fronts, "past": fronts}.get(verb, [])
        self.add(verb, text, *words)

    def cell(self) -> tuple[int, int]:
        return self.rng.randrange(self.width + (self.rng.random() < 0.02)), self.rng.randrange(
            self.height + (self.rng.random() < 0.02)
        )

    def screen(self) -> None:
        rng = self.rng
        track, viewer = rng.choice(["user", "system"]), rng.choice([1, 1, 2, 2, 3, 4, 5])
        rows = [rng.randrange(self.height)] * (rng.random() < 0.7)
        verb, *words = rng.choice(
            [
                ("open", track, self.text(), *rows),
                ("open", track, self.text(), *rows),
                ("close", viewer),
                ("move", viewer, rng.randrange(self.height)),
                ("scroll", viewer, rng.choice([0, 1, 2, 9])),
                ("point", *self.cell()),
                ("point", *self.cell()),
                ("select", *self.cell(), *self.cell()),
                ("key", spelled(bytes([rng.choice(b"abc \r")]))),
                ("key", "ne"),
                ("views",),
                ("marks",),
                ("marks",),
                ("show",),
            ]
        )
        self.add(str(verb), *words)

    def clicks(self) -> None:
        """A cell in the first columns of a track, where commands are."""
        user = self.rng.random() < 0.6
        left = 0 if user else self.width // 8 * 5
        self.add("click", left + self.rng.randrange(8), self.rng.randrange(min(self.height, 14)))

    def files_of(self) -> None:
        file = self.rng.choice([*FILES, *FILES, ".", "x/y", "n" * 32])
        packed = ["packed"] * (self.rng.random() < 0.5)
        if self.rng.random() < 0.5:
            self.add("keep", self.text(), file, *packed)
        else:
            self.add("reopen", self.rng.choice([self.text(), self.rng.randint(4, 14)]), file)

    def other(self) -> None:
        self.lines.append(self.rng.choice(OTHERS))


def written_in(lines: Sequence[bytes]) -> tuple[list[bytes], list[bytes]]:
    """The messages and the chunks that a program wrote."""
    found: dict[bytes, list[bytes]] = {b"message": [], b"chunk": []}
    for line in lines:
        words = line.split(b" ")
        if words[0] == b"send":
            found[b"message"].append(bytes.fromhex(words[2].decode()))
        elif words[0] in found and len(words) == 2:
            found[words[0]].append(bytes.fromhex(words[1].decode()))
    return found[b"message"], found[b"chunk"]
