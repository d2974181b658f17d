"""Somebody types into an editor while its engine is killed at random moments: each key stands in the note once, and in its order."""
import contextlib
import os
import random
import signal
from collections.abc import Iterator

from share.tests.bursting import PLANTS, Faults, faults_of
from share.tests.editors import Editor
from share.tests.waiting import wait_for
from share.tests.writers import State, Writer, engine_here

LETTERS = "abcdefghijklmnopqrstuvwxyz0123456789"
MOST_KEYS = 30
# So many keys are typed at once at most.
MOST_AT_ONCE = 4


class Kills:
    """An editor, and what was typed in it."""

    def __init__(self, writer: Writer, chance: random.Random):
        self.writer, self.chance = writer, chance
        self.text, self.lines, self.kills = "", 0, 0
        writer.go_to(1)

    @property
    def keys(self) -> int:
        """How many keys were typed."""
        return len(self.text)

    def round(self, plant: str = "") -> None:
        """Type a line while the engine is killed, and wait until all is kept."""
        self.lines += 1
        line = f"{self.lines}:" + "".join(self.chance.choices(LETTERS, k=self.chance.randint(8, MOST_KEYS)))
        kill_at = self.chance.randrange(len(line))
        # At other times a new engine may be killed before it has the note open.
        is_open = self.chance.random() < 0.7
        if is_open:
            self.writer.wait_for(lambda state: state.types, "the note open")
            self.writer.grows_old()
        for at, part in self._parts(f"{line}\n"):
            if at <= kill_at < at + len(part):
                self._kill()
            self.writer.type(part)
        self.text += f"{line}\n"
        if plant:
            self._quiet()
            self._plant(plant)
        self.see()

    def _parts(self, words: str) -> Iterator[tuple[int, str]]:
        at = 0
        while at < len(words):
            part = words[at:at + self.chance.randint(1, MOST_AT_ONCE)]
            yield at, part
            at += len(part)

    def _kill(self) -> None:
        """Kill the process that has the note open, as soon as there is one."""
        with contextlib.suppress(ProcessLookupError):
            os.kill(wait_for(lambda: engine_here(self.writer.data), "an engine"), signal.SIGKILL)
        self.kills += 1

    def _quiet(self) -> State:
        return self.writer.wait_for(lambda state: state.quiet and state.types, "all kept")

    def see(self) -> None:
        """Raise AssertionError unless each key is there once, and in its order."""
        found = self._quiet().text
        assert found == self.text, f"lacks or has too much: {found!r} is there, {self.text!r} was typed"

    def faults(self) -> Faults:
        """What is wrong of the keys, as the editor shows them now."""
        return faults_of(self.text, self.writer.seen().text)

    def take_back(self) -> None:
        """Take all back, step by step: each step leaves a beginning of what was typed."""
        steps = 0
        while self.text:
            before = self.text
            self.writer.undo()
            self.text = self.writer.wait_for(lambda state: state.quiet and state.text != before, "an edit taken back").text
            steps += 1
            assert before.startswith(self.text) and len(self.text) < len(before), f"{self.text!r} is no beginning of {before!r}"
        print(f"{self.writer.tag}: taken back in {steps} steps")

    def begin_again(self) -> None:
        """Take what is shown for what was typed."""
        self.text = self._quiet().text

    def _plant(self, plant: str) -> None:
        """Do to what was typed what may not come of anything, by another editor of the same person."""
        other = Editor(self.writer.data)
        begin = self.text.rindex(":") + 1
        first, second = self.text[begin:begin + 3], self.text[begin + 3:begin + 6]
        assert first != second, self.text
        other.edit({"drop": (begin, begin + 3, ""), "double": (begin, begin, first), "swap": (begin, begin + 6, second + first)}[plant])
        other.settle()
        planted = other.text
        other.close()
        self.writer.wait_for(lambda state: state.text == planted, "what was planted")


def rounds_and_plants(kills: Kills, rounds: int) -> None:
    """Some rounds in which nothing is wrong, all taken back, and some rounds in which something is planted."""
    for _ in range(rounds):
        kills.round()
    kills.take_back()
    kills.writer.go_to(1)
    for plant in PLANTS:
        try:
            kills.round(plant)
        except AssertionError as why:
            assert "lacks or has too much" in str(why), why
        else:
            raise AssertionError(f"what was planted isn't seen: {plant}")
        kills.begin_again()
