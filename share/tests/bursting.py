"""Somebody types bursts of keys into a page, with looks and remarks, while another person types: what each typed stands there, once and in
its order."""
import random
from collections import Counter
from collections.abc import Callable, Sequence
from typing import TYPE_CHECKING, NamedTuple

from share.tests.waiting import wait_for

if TYPE_CHECKING:
    from share.tests.browser import Window
    from share.tests.editors import Editor

# Types characters one by one in one task, behind so many characters of the line that begins so. The page has taken over each of them before
# the next one comes.
BURST = """(async (begin, ch, keys) => {
  const cm = document.querySelector('#text .CodeMirror').CodeMirror;
  cm.setCursor({ line: cm.getValue().split('\\n').findIndex((one) => one.startsWith(begin)), ch });
  for (const key of keys) await cm.replaceSelection(key, 'end', '+input');
})(...arguments)"""
# Has a part of the line that begins so be bold, or no more.
BOLD = """((begin, from, to) => {
  const cm = document.querySelector('#text .CodeMirror').CodeMirror;
  const line = cm.getValue().split('\\n').findIndex((one) => one.startsWith(begin));
  cm.setSelection({ line, ch: from }, { line, ch: to });
  cm.execCommand('bold');
})(...arguments)"""
LETTERS = "abcdefghijklmnopqrstuvwxyz \u00e9\u00df"
MOST_KEYS, LINES = 60, 3
# What is planted to see that it is found: some of what was typed is taken away, is there twice, or stands in another order.
PLANTS = "drop", "double", "swap"


class Faults(NamedTuple):
    """How many parts of what was typed are lost, doubled, and at another place."""

    lost: int
    doubled: int
    swapped: int

    def __str__(self) -> str:
        return f"{self.lost} lost, {self.doubled} doubled, {self.swapped} swapped"


def faults_of(wanted: Sequence[str], found: Sequence[str]) -> Faults:
    """Compare the parts that were typed with those that are there."""
    lost, doubled = Counter(wanted) - Counter(found), Counter(found) - Counter(wanted)
    old, new = ([one for one in some if one not in lost and one not in doubled] for some in (wanted, found))
    return Faults(lost.total(), doubled.total(), sum(one != other for one, other in zip(old, new)))


class Bursts:
    """A page's window, another person's editor, and the lines that each of them typed."""

    def __init__(self, window: "Window", other: "Editor", chance: random.Random, held: Callable[[bool], None] = lambda is_held: None):
        self.window, self.other, self.chance, self._held = window, other, chance, held
        self.lines = [f"p{number}:" for number in range(LINES)]
        self.others: list[str] = []
        self.typed = 0
        other.edit((0, 0, "".join(f"{line}\n" for line in self.lines)))
        self.meet()

    def round(self, plant: str = "") -> None:
        """Some bursts, of which the other person knows nothing yet as he types; then both have the same, and all of it."""
        is_held = self.chance.random() < 0.5
        self._held(is_held)
        for _ in range(self.chance.randint(1, 4)):
            self._burst()
            self._another()
            if self.chance.random() < 0.5:
                self._bold()
        if is_held:
            self._held(False)
        self.meet()
        if plant:
            self._plant(plant)
            self.meet()
        self.see()

    def meet(self) -> None:
        """Waits until all is kept, and both show the same."""
        self.window.wait_for("!/not kept|to be sent|sending|offline/.test(document.getElementById('state').textContent)")

        def is_same() -> bool:
            self.other.read()
            return self.other.mirror.made == self.other.mirror.answered and self.window.text() == self.other.text
        wait_for(is_same, "both to show the same")

    def see(self) -> None:
        """Raises AssertionError where something that was typed isn't there once and as it was typed."""
        wanted, found = sorted([*self.lines, *self.others]), sorted(self.other.text.split("\n")[:-1])
        words = self.window.run("document.getElementById('words').textContent")
        assert wanted == found and not words, (f"lacks {[one for one in wanted if one not in found]}, has "
                                               f"{[one for one in found if one not in wanted]}; the page says {words!r}")

    def faults(self) -> Faults:
        """What is wrong of the signs that were typed, line by line."""
        wanted, found = sorted([*self.lines, *self.others]), sorted(self.other.text.split("\n")[:-1])
        return Faults(*map(sum, zip(*(faults_of(one, other) for one, other in zip(wanted, found)))))

    def begin_again(self) -> None:
        """Takes what is shown for what was typed."""
        lines = self.other.text.split("\n")[:-1]
        self.lines, self.others = (sorted(one for one in lines if one.startswith(begin)) for begin in "po")

    def _burst(self) -> None:
        number = self.chance.randrange(LINES)
        line = self.lines[number]
        at = self.chance.randint(len("p0:"), len(line))
        keys = "".join(self.chance.choices(LETTERS, k=self.chance.randint(1, MOST_KEYS)))
        self.window.run(BURST, f"p{number}:", at, keys)
        self.lines[number] = line[:at] + keys + line[at:]
        self.typed += len(keys)

    def _bold(self) -> None:
        number = self.chance.randrange(LINES)
        ends = sorted(self.chance.choices(range(len(self.lines[number]) + 1), k=2))
        if ends[0] < ends[1]:
            self.window.run(f"void {BOLD}", f"p{number}:", *ends)

    def _another(self) -> None:
        """The other person types a line above another one, and remarks on it at times."""
        self.other.read()
        text, words = self.other.text, f"o{len(self.others)}:{'x' * self.chance.randint(0, 9)}"
        at = self.chance.choice([0, *(place + 1 for place, sign in enumerate(text) if sign == "\n")])
        self.other.edit((at, at, f"{words}\n"))
        self.others.append(words)
        if self.chance.random() < 0.3:
            self.other.ask("remark", version=self.other.mirror.version, begin=at, end=at + len(words), body="why?")

    def _plant(self, plant: str) -> None:
        """Does to what was typed what may not come of anything."""
        text = self.other.text
        line = max(self.lines, key=len)
        begin = text.index(line) + len("p0:")
        half = (len(line) - len("p0:")) // 2
        middle = begin + half
        first, second = text[begin:middle], text[middle:middle + half]
        assert first != second, line
        self.other.edit({"drop": (begin, middle, ""), "double": (begin, begin, first),
                         "swap": (begin, middle + half, second + first)}[plant])
