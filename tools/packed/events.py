"""Scripts drawn at random: up to three sites write, delete, restore and copy in one text, and take messages in any order."""
from __future__ import annotations

import random

from tools.packed.packed import CODES

MOST_STEPS = 25
TEXTS = 16
LETTERS = b"abcdefghijklmnopqrstuvwxyz \r"
# Bytes that no code is, among those that are.
NO_CODES = b"\0\t\n\r\x0f"
LOOKS = ("font=A", "font=Mono.Fnt", "colour=0", "colour=15", "offset=-128", "colour=2 offset=-1", "font=B.9 colour=3 offset=127")
PASTES, PASTE = 300, 4096
# How many bytes are typed at once, where they are more than a few.
LONG = (127, 128, 129, 130, 131) * 4 + (4095, 4096, 4097)


def spelled(data: bytes) -> str:
    """Bytes as an event has them."""
    return "".join(chr(byte) if 0x20 <= byte <= 0x7E and byte != 0x5C else f"\\{byte:02x}" for byte in data)


class Script:
    """Events of some sites in a text; and up to which operations of which sites each of them is asked for less than all."""

    sites: range
    text: int
    lines: list[str]
    fronts: dict[int, dict[int, int]]


class Pasted(Script):
    """A site pastes more than many chunks have room for."""

    def __init__(self) -> None:
        self.sites, self.text = range(1, 2), 1
        self.lines = [f"1 type 1 0 {LETTERS[at % 26 : at % 26 + 1].decode() * PASTE}" for at in range(PASTES)]
        self.fronts = {1: {1: PASTES - 4}}


class Draw(Script):
    """A script as it is drawn. What a site shows, and which messages were sent, is guessed: an event may be refused."""

    def __init__(self, seed: int) -> None:
        self.rng = random.Random(f"agreement {seed}")
        self.sites = range(1, 1 + self.rng.choice([1, 2, 2, 3, 3, 3]))
        self.text = self.rng.randint(1, TEXTS)
        self.lines: list[str] = []
        self.shown = dict.fromkeys(self.sites, 0)
        self.typed = dict.fromkeys(self.sites, 0)
        self.sent = 0
        for _ in range(self.rng.randint(0, MOST_STEPS)):
            self.step(self.rng.choice(self.sites))
        self.fronts = {site: self.some_fronts() for site in self.sites}

    def some_fronts(self) -> dict[int, int]:
        """Up to which operations of some sites a site may hold; it may be less."""
        return {site: self.rng.choice([0, 1, 2, 5, 9, 20]) for site in self.sites if self.rng.random() < 0.7}

    def add(self, site: int, verb: str, *words: object) -> None:
        self.lines.append(" ".join(map(str, (site, verb, self.text, *words))))

    def edit(self, site: int, verb: str, *words: object, adds: int = 0) -> None:
        self.add(site, verb, *words)
        self.sent += 1
        self.shown[site] = max(0, self.shown[site] + adds)
        self.typed[site] += max(0, adds)

    def step(self, site: int) -> None:
        often = [self.letters, self.cut, self.looks, self.again, self.by_names, self.meet]
        self.rng.choice([*often, *often, self.letters, self.word, self.backspaces, self.copy])(site)

    def stretch(self, site: int) -> tuple[int, int]:
        """Two positions, close to each other as a rule."""
        begin = self.rng.randint(0, max(0, self.shown[site] - 1))
        return begin, min(self.shown[site], begin + self.rng.choice([1, 1, 2, 3, 9, self.shown[site]]))

    def byte(self) -> int:
        byte: int = self.rng.choice([*LETTERS, *CODES, *LETTERS, *CODES, *NO_CODES, *range(256)])
        return byte

    def letters(self, site: int) -> None:
        """One after the other, as they are typed; at the end as a rule."""
        at = self.rng.choice([self.shown[site], self.shown[site], self.rng.randint(0, self.shown[site])])
        for more in range(self.rng.randint(1, 8)):
            self.edit(site, "type", at + more, spelled(bytes([self.byte()])), adds=1)

    def word(self, site: int) -> None:
        length = self.rng.choice(LONG) if self.rng.random() < 0.1 else self.rng.randint(2, 6)
        data = bytes(self.byte() for _ in range(length))
        self.edit(site, "type", self.rng.randint(0, self.shown[site]), spelled(data), adds=length)

    def backspaces(self, site: int) -> None:
        at = self.rng.randint(0, self.shown[site])
        for end in range(at, max(0, at - self.rng.randint(1, 4)), -1):
            self.edit(site, "cut", end - 1, end, adds=-1)

    def cut(self, site: int) -> None:
        begin, end = self.stretch(site)
        self.edit(site, "cut", begin, end, adds=begin - end)

    def looks(self, site: int) -> None:
        self.edit(site, "looks", *self.stretch(site), self.rng.choice(LOOKS))

    def copy(self, site: int) -> None:
        """In what looks the characters have."""
        begin, end = self.stretch(site)
        self.edit(site, "save", begin, end, self.text, self.rng.randint(0, self.shown[site]), adds=end - begin)

    def again(self, site: int) -> None:
        """What was cut last, under its old names or under new ones."""
        if self.rng.random() < 0.6:
            self.edit(site, "restore")
        else:
            self.edit(site, "recall", self.rng.randint(0, self.shown[site]))

    def by_names(self, site: int) -> None:
        names = []
        for _ in range(self.rng.randint(1, 3)):
            of = self.rng.choice(self.sites)
            at = self.rng.randint(0, max(0, self.typed[of] - 1))
            names += [of, at, self.rng.randint(1, max(1, min(4, self.typed[of] - at)))]
        self.edit(site, self.rng.choice(["delete", "restore", "restore"]), *names)

    def meet(self, site: int) -> None:
        """A site takes all that was sent in any order, or some of it, or what another one has."""
        numbers = list(range(1, self.sent + 1))
        way = self.rng.randrange(3)
        if way == 0:
            self.rng.shuffle(numbers)
        elif way == 1:
            numbers = numbers[: self.rng.randint(0, self.sent)]
        else:
            self.add(site, "merge", self.rng.choice(self.sites))
            numbers = []
        for number in numbers:
            self.add(site, "take", f"m{number}")
        self.shown[site] = max(self.shown.values())
