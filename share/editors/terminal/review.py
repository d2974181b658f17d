"""Remarks and suggestions in the terminal: made by a key, listed, and shown below their lines, with keys of their own meanwhile. What
people say is drawn as text, whatever it is."""
from collections.abc import Callable, Sequence

from share.editors.terminal.keys import Event, Key, Pasted, safe_for_terminal
from share.editors.terminal.layout import ScreenRow, asides
from share.editors.terminal.prompts import Prompts, is_yes
from share.editors.terminal.requests import Requests
from share.editors.terminal.screen import Screen
from share.editors.terminal.status_line import StatusLine
from share.editors.terminal.view import View
from share.editors.threads import PlacedThread, own_records, said_in_lines, speaker, state_in_words
from share.engine.thread_lines import TAKEN
from share.text.change import boundary
from share.text.line import Line
from share.text.rope import readable, swapped

HELP_LIST = "Up and Down choose, Enter goes there, o {}, b {}, Esc leaves."
HELP_THREAD = "r reply  d done, or open again  a accept  x reject  s suggest  e edit, w take back yours  n, p next, last  Esc leaves"
NONE_OPEN = "None of them is open."
NONE = "Nothing is remarked on here: ^T remarks on what is selected, or on this place."
GONE = "What you looked at isn't there any more."
# The keys that would change the text, besides characters.
OF_THE_TEXT = Key.ENTER, Key.BACKSPACE, Key.DELETE
# How many characters of the words are in a line of the list, and in a question.
MOST_IN_A_LINE, MOST_ASKED = 200, 20


class Review:
    """The threads of a note, and the one that is looked at."""

    def __init__(self, view: View, line: StatusLine, prompts: Prompts, screen: Screen, requests: Requests):
        self._view, self._line, self._prompts, self._screen, self._ask = view, line, prompts, screen, requests.ask
        # The thread that is shown below its line, or that is chosen in the list.
        self._of, self._lists = "", False
        # What the list leaves out: those that aren't open, and those of others than this one.
        self._only_open, self._author = False, ""
        self._keys: dict[str, Callable[[PlacedThread], None]] = {
            "r": self._ask_for_reply, "d": self._settle, "a": self._accept, "x": self._reject, "s": self._ask_for_suggestion_there,
            "e": lambda one: self._ask_for_own(one, self._ask_for_other_words),
            "w": lambda one: self._ask_for_own(one, self._ask_to_withdraw),
            "n": lambda one: self._go_by(1), "p": lambda one: self._go_by(-1)}

    @property
    def is_on(self) -> bool:
        """Whether keys are those of a list or a thread."""
        return self._lists or bool(self._of)

    # What is said of the text.

    def ask_for_remark(self) -> None:
        """Asks for a remark on what is selected, or on the cursor's place."""
        self._prompts.ask("Remark", lambda body: self._say("remark", body=body) if body else None)

    def ask_for_suggestion(self) -> None:
        """Asks what is to be in the place of what is selected, or at the cursor's."""
        begin, end = self._stretch()
        now = readable(swapped(self._view.text[begin:end]))
        question = "Suggest instead" if now else "Suggest here"
        self._prompts.ask(question, lambda new: self._say("suggest", new=new), now, is_selected=bool(now))

    def _stretch(self) -> tuple[int, int]:
        return self._view.selected() or (self._view.cursor, self._view.cursor)

    def _say(self, what: str, **more: object) -> None:
        """Says something of what is selected, wherever that is by now, or of the cursor's place."""
        begin, end = self._stretch()
        if self._ask(what, begin=begin, end=end, **more):
            self._view.unmark()
            self._line.say("Remarked." if what == "remark" else "Suggested. The text is as it was until somebody accepts.")

    # The list.

    def open_list(self) -> None:
        """Shows the list of all threads."""
        near = self._nearest()
        if near is None:
            self._line.say(NONE)
        else:
            self._lists, self._of, self._view.below = True, near.of, None
            self._only_open, self._author = False, ""

    def open_next(self) -> None:
        """Goes to the first open thread at the cursor or after it, and shows it."""
        near = next((one for one in self._here() if one.is_open and (one.end or 0) >= self._view.cursor), None)
        one = near or next((one for one in self._here() if one.is_open), None)
        if one is None:
            self._line.say(NONE)
        else:
            self._go_to(one)

    def _all(self) -> list[PlacedThread]:
        return [one for one in self._view.threads if one.line["state"] != TAKEN or one.line.get("replies")]

    def _here(self) -> list[PlacedThread]:
        return [one for one in self._all() if one.begin is not None]

    def _in_list(self) -> list[PlacedThread]:
        """Those that the list has."""
        return [one for one in self._open_ones() if self._author in ("", speaker(one.line))]

    def _open_ones(self) -> list[PlacedThread]:
        return [one for one in self._all() if one.is_open or not self._only_open]

    def _leave_out(self, key: str) -> None:
        """Has the list leave out others than before: those that aren't open, or those of others than the next author."""
        if key == "o":
            self._only_open, self._author = not self._only_open, ""
            if not self._open_ones():
                self._line.say(NONE_OPEN)
        elif key == "b":
            self._author = self._next_author()

    def _choose_in_list(self) -> None:
        """Has one be chosen that the list has. Where it would have none it leaves out nothing."""
        if not self._in_list():
            self._only_open, self._author = False, ""
        if self._of not in (found := [one.of for one in self._in_list()]):
            self._of = found[0] if found else ""

    def _next_author(self) -> str:
        """Whose threads the list has after those that it has now; nobody's alone after the last one's."""
        return next((one for one in sorted({speaker(one.line) for one in self._open_ones()}) if one > self._author), "")

    def _nearest(self) -> PlacedThread | None:
        """The thread at the cursor, or the first one after it, or else the last one."""
        every = self._all()
        return next((one for one in every if one.end is not None and one.end >= self._view.cursor), every[-1] if every else None)

    def _chosen(self) -> PlacedThread | None:
        return next((one for one in self._all() if one.of == self._of), None)

    def _go_by(self, step: int) -> None:
        """Goes to another thread, in the list or in the text."""
        every = self._in_list() if self._lists else self._here()
        number = next((number for number, one in enumerate(every) if one.of == self._of), 0) + step
        if 0 <= number < len(every):
            self._of = every[number].of
            if not self._lists:
                self._go_to(every[number])

    def _go_to(self, one: PlacedThread) -> None:
        self._lists, self._of = False, one.of
        if one.begin is not None:
            self._view.go_to(boundary(self._view.text, min(one.begin, len(self._view.text))))

    # Keys.

    def press(self, key: Event) -> bool:
        """Does what a key says of the list or the thread; whether it was one of theirs."""
        one = self._chosen()
        if one is None:
            self._screen.keys.appendleft(key)
            self._lose()
        elif key is Key.ESCAPE or key is Key.THREADS and self._lists:
            self._leave()
        elif key in (Key.UP, Key.DOWN) and self._lists:
            self._go_by(-1 if key is Key.UP else 1)
        elif key is Key.ENTER and self._lists:
            self._go_to(one)
        elif isinstance(key, str):
            # What was typed after a key is for what that has begun.
            if rest := key[1:]:
                self._screen.keys.appendleft(rest)
            if self._lists:
                self._leave_out(key[0])
            elif does := self._keys.get(key[0]):
                does(one)
        elif isinstance(key, Key) and key not in OF_THE_TEXT:
            self._leave()
            return False
        return True

    def _leave(self) -> None:
        self._lists, self._of, self._view.below, self._view.covered = False, "", None, 0

    def _lose(self) -> None:
        """Leaves what isn't there any more. Keys that were pressed before that is seen were for it, and are none of the text."""
        self._leave()
        self._line.say(GONE)
        keys = self._screen.keys
        while keys and (isinstance(keys[0], str | Pasted) or keys[0] in OF_THE_TEXT):
            keys.popleft()

    def _ask_for_reply(self, one: PlacedThread) -> None:
        self._prompts.ask(f"Reply to {speaker(one.line)}",
                          lambda body: self._ask("reply", to=one.of, body=body) if body else None)

    def _ask_for_own(self, one: PlacedThread, does: Callable[[Line], None]) -> None:
        """Does something with what the user wrote of a thread, once it is known which that is."""
        own = own_records(one.line)

        def chosen(answer: str) -> None:
            if answer.isdecimal() and 0 < int(answer) <= len(own):
                does(own[int(answer) - 1])

        if not own:
            self._line.say("Nothing of that is yours.")
        elif len(own) == 1:
            does(own[0])
        else:
            which = ", ".join(f"{number} {_begin_of(record)}" for number, record in enumerate(own, 1))
            self._prompts.ask(f"Which of yours ({which})", chosen, str(len(own)))

    def _ask_for_other_words(self, record: Line) -> None:
        self._prompts.ask("Say instead", lambda body: self._ask("revise", to=record["id"], body=body) if body else None,
                          str(record.get("body", "")))

    def _ask_to_withdraw(self, record: Line) -> None:
        self._prompts.ask(f"Take back {_begin_of(record)} (yes or no)",
                          lambda answer: self._ask("withdraw", to=record["id"]) if is_yes(answer) else None)

    def _ask_for_suggestion_there(self, one: PlacedThread) -> None:
        """Suggests something else for the same passage."""
        if one.begin is None or one.end is None:
            self._line.say("Its text isn't here.")
            return
        self._view.go_to(one.begin)
        self._view.select_from(one.end)
        self.ask_for_suggestion()

    def _settle(self, one: PlacedThread) -> None:
        self._ask("resolve" if one.is_open else "reopen", to=one.of)

    def _reject(self, one: PlacedThread) -> None:
        self._ask("reject", to=one.of)

    def _accept(self, one: PlacedThread, **shown: str) -> None:
        """Accepts a suggestion. Where the passage would become another text than was shown, that is shown, and asked about."""
        answer = self._ask("accept", to=one.of, **shown)
        if answer and "error" in answer:
            becomes = str(answer["becomes"])
            self._prompts.ask(f"The passage has changed, and would be {_quoted(becomes)}. Accept this (yes or no)",
                              lambda said: self._accept(one, becomes=becomes) if is_yes(said) else None)

    # What is drawn.

    def rows(self) -> list[ScreenRow] | None:
        """The list, where that is shown; None where the text is, with the thread that is looked at."""
        if self._lists:
            self._choose_in_list()
        one = self._chosen()
        if one is None:
            if self.is_on:
                self._lose()
        elif self._lists:
            return self._listed()
        else:
            place = self._view.cursor if one.end is None else min(one.end, len(self._view.text))
            self._view.below = place, [f"  | {_safe(line)}" for line in self._lines(one)]
            self._view.covered = len(asides([HELP_THREAD], self._screen.width)) - 1
        return None

    def _listed(self) -> list[ScreenRow]:
        every, height = self._in_list(), self._screen.height
        number = next((number for number, one in enumerate(every) if one.of == self._of), 0)
        first = max(0, min(number - height // 2, len(every) - height))
        lines = (self._in_a_line(one) for one in every[first:first + height])
        return [row for line in lines for row in asides([line], self._screen.width)[:1]]

    def _in_a_line(self, one: PlacedThread) -> str:
        where = "" if one.begin is None else f"line {self._view.text.count(b'%c' % 13, 0, one.begin) + 1}"
        suggests = ["suggests", *(f"{mark} {words}" for mark, what in (("-", "text"), ("+", "new")) if (words := one.line.get(what)))]
        parts = [where, state_in_words(one.line), speaker(one.line), *(suggests if one.is_suggestion else ()), one.line.get("body", "")]
        return ("> " if one.of == self._of else "  ") + _safe("  ".join(part[:MOST_IN_A_LINE] for part in parts if part))

    def _lines(self, one: PlacedThread) -> Sequence[str]:
        passage = "" if one.begin is None else readable(swapped(self._view.text[one.begin:one.end]))
        head = f"{speaker(one.line)} {'suggests' if one.is_suggestion else 'remarks'}: {state_in_words(one.line)}"
        return [head, *said_in_lines(one.line, passage or one.line.get("text", ""))]

    def help(self) -> str:
        """Which keys there are meanwhile."""
        if self._lists:
            return HELP_LIST.format("all" if self._only_open else "open ones", _safe(self._next_author()) or "everybody's")
        return HELP_THREAD if self._of else ""


def _begin_of(record: Line) -> str:
    """The first of what somebody wrote, in a question."""
    words = str(record.get("body") or record.get("new") or "")
    return words if len(words) <= MOST_ASKED else f"{words[:MOST_ASKED]}.."


def _quoted(text: str) -> str:
    """A text in a question, in quotes."""
    return repr(text if len(text) <= MOST_IN_A_LINE else f"{text[:MOST_IN_A_LINE]}..")


def _safe(words: str) -> str:
    return safe_for_terminal(words)
