"""Questions on the status line."""
from collections.abc import Callable
from dataclasses import dataclass

from share.editors.terminal.keys import Event, Key, Pasted
from share.editors.terminal.layout import clusters


# Keys that leave a selected answer as it is, with the cursor behind it.
LEAVING_KEYS = (Key.END, Key.RIGHT)


def is_yes(answer: str) -> bool:
    """Whether an answer agrees."""
    return answer.strip().lower() in ("y", "yes")


@dataclass
class Prompt:
    """A question, the answer as it is typed, and what is done with the answer; whether that needs no note; and whether the answer is
    selected, so that the next character takes its place."""

    question: str
    answer: str
    then: Callable[[str], object]
    needs_no_note: bool
    is_selected: bool

    def words(self) -> str:
        """The question, with the answer as it is."""
        return f"{self.question}: {f'[{self.answer}]' if self.is_selected else self.answer}"

    def take(self, key: Event) -> None:
        """Changes the answer. A line end that is pasted becomes a blank."""
        typed = key.text.strip("\r").replace("\r", " ") if isinstance(key, Pasted) else key if isinstance(key, str) else ""
        if key is Key.BACKSPACE:
            self.answer = "" if self.is_selected else "".join(clusters(self.answer)[:-1])
        elif typed:
            self.answer = typed if self.is_selected else self.answer + typed
        elif key not in LEAVING_KEYS:
            return
        self.is_selected = False


class Prompts:
    """The question that is being asked, if there is one. A file can be named in the midst of another question, which is asked again after
    that, so that keys which wait for it don't come to the text."""

    def __init__(self) -> None:
        # The last one is being asked; perhaps again, since another one came between.
        self._prompts: list[Prompt] = []
        self.is_again = False

    def ask(self, question: str, then: Callable[[str], object], answer: str = "", needs_no_note: bool = False,
            is_selected: bool = False) -> None:
        """Asks a question, in place of another, but before one that needs the note where this one doesn't; an answer may be given that is
        then changed, or that is selected, so that what is typed takes its place."""
        if self._prompts and not (needs_no_note and not self.needs_no_note):
            self._prompts.pop()
        self._prompts.append(Prompt(question, answer, then, needs_no_note, is_selected))
        self.is_again = False

    @property
    def asks(self) -> bool:
        """Whether there is a question."""
        return bool(self._prompts)

    @property
    def needs_no_note(self) -> bool:
        """Whether there is one whose answer needs no note."""
        return self.asks and self._prompts[-1].needs_no_note

    def words(self) -> str:
        """The question, with the answer as it is."""
        return self._prompts[-1].words() if self.asks else ""

    def press(self, key: Event) -> None:
        """Goes on with an answer. A line end that is pasted doesn't end it."""
        if not self.asks:
            return
        prompt = self._prompts[-1]
        if key is Key.ENTER:
            self._end()
            prompt.then(prompt.answer)
        elif key is Key.ESCAPE:
            self._end()
        else:
            prompt.take(key)

    def _end(self) -> None:
        self._prompts.pop()
        self.is_again = self.asks
