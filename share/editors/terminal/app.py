"""The editor: a screen of curses over a note.

The note works in a thread of its own. So keys are answered, the text can be saved and the editor can be left
also while the note's program, its log or its disk hangs."""
import curses
import time
from collections.abc import Callable
from concurrent.futures import wait
from contextlib import suppress

from share.editors.note import EngineNote
from share.editors.terminal.clipboard import Clipboard
from share.editors.terminal.edits import Edits
from share.editors.terminal.keys import Event, Key, Mouse, Pasted
from share.editors.terminal.layout import ScreenRow, cluster_after, cluster_before, word_after, word_before
from share.editors.terminal.moves import Moves
from share.editors.terminal.prompts import Prompts
from share.editors.terminal.requests import Requests
from share.editors.terminal.review import Review
from share.editors.terminal.saving import Saving
from share.editors.terminal.screen import Screen
from share.editors.terminal.since import ChangesSince
from share.editors.terminal.status_line import HELP, StatusLine, bar, sentence, state
from share.editors.terminal.suggesting import Suggesting
from share.editors.terminal.view import View
from share.editors.terminal.waiting import LOOK_AGAIN_SECONDS, WORK_SECONDS, UserLeft, Waiting
from share.editors.terminal.work import Work
from share.editors.terminal.worker import Worker
from share.sync.session import Bar, Status
from share.text.errors import NOT_BEGUN, Trouble

# How long quitting waits for the note to close.
LEAVE_SECONDS = 3.5
# How long what is typed into a note that has just been opened waits for its number.
EARLY_SECONDS = 1.0
NOT_CLOSED = "The note was left before it was closed, since it didn't answer."
BY_ROWS = (Key.UP, Key.DOWN, Key.PAGE_UP, Key.PAGE_DOWN)
# The keys that edit, besides characters.
EDITING = (Key.ENTER, Key.BACKSPACE, Key.DELETE, Key.UNDO, Key.REDO, Key.CUT, Key.KILL, Key.PUT)

OpenNote = Callable[[Bar, Callable[[], None]], EngineNote]


class Editor:
    """Keys change the note, and the screen shows it."""

    def __init__(self, screen: Screen, name: str, note: EngineNote, status: Status, thread: Worker):
        self._screen, self._note, self._prompts = screen, note, Prompts()
        self._line, self._view, self._waiting = StatusLine(name, screen), View(note, screen), Waiting(screen, self)
        clipboard = Clipboard()
        self.work = Work(note, status, thread, screen, self._waiting, self._view, self._line, clipboard)
        requests = Requests(note, self.work, self._line, clipboard)
        self._suggesting = Suggesting(note, self.work, self._view, self._line, requests)
        self._edits = Edits(note, self.work, self._view, self._line, self._prompts, clipboard, self._suggesting)
        self._moves = Moves(self._view, screen)
        self._saving = Saving(self._view, self._line, self._prompts, self._waiting)
        self._review = Review(self._view, self._line, self._prompts, screen, requests)
        self._clipboard, self._since = clipboard, ChangesSince(note, self._view, self._line)
        self.quits, self._opened, self._searched = False, time.monotonic(), ""
        self._commands = self._commands_of_keys()

    def _commands_of_keys(self) -> dict[Key, Callable[[], None]]:
        edits, moves, view, ask, review = self._edits, self._moves, self._view, self._prompts.ask, self._review
        return {
            Key.LEFT: lambda: moves.by(cluster_before), Key.RIGHT: lambda: moves.by(cluster_after),
            Key.WORD_LEFT: lambda: moves.by(word_before), Key.WORD_RIGHT: lambda: moves.by(word_after),
            Key.UP: lambda: moves.rows(-1), Key.DOWN: lambda: moves.rows(1),
            Key.PAGE_UP: lambda: moves.pages(-1), Key.PAGE_DOWN: lambda: moves.pages(1),
            Key.HOME: moves.home, Key.END: moves.end, Key.LINE: lambda: ask("Go to line", moves.to_line),
            Key.ENTER: lambda: edits.type("\r"), Key.BACKSPACE: edits.backspace, Key.DELETE: edits.delete,
            Key.UNDO: edits.undo, Key.REDO: edits.redo, Key.REPLACE: lambda: ask("Replace", edits.ask_for_replacement),
            Key.MARK: view.mark, Key.ESCAPE: self._escape, Key.NEXT_CHANGE: lambda: self._since.step(1),
            Key.PREVIOUS_CHANGE: lambda: self._since.step(-1), Key.CUT: edits.cut, Key.COPY: edits.copy, Key.PUT: edits.put,
            Key.KILL: edits.kill, Key.REMARK: review.ask_for_remark, Key.SUGGEST: review.ask_for_suggestion,
            Key.THREADS: review.open_list, Key.NEXT_THREAD: review.open_next, Key.SUGGESTING: self._suggesting.toggle,
            Key.FIND: lambda: ask("Find", self._find), Key.SAVE: self._saving.ask, Key.QUIT: self._quit,
            Key.OTHER: lambda: self._line.say(HELP),
        }

    def run(self) -> None:
        """Answers keys and shows what comes, until the user quits, and closes the note."""
        try:
            with suppress(UserLeft):
                while not (self.quits or self._screen.gone):
                    self._turn()
        finally:
            self._leave()

    @property
    def names_a_file(self) -> bool:
        """Whether keys are the name of a file, for which the note isn't needed."""
        return self._prompts.needs_no_note

    def _turn(self) -> None:
        # What a key did is shown before anything else is looked at.
        steps: list[Callable[[], None]] = [self._press, self.draw, self._suggesting.look, self.work.take_in, self._since.look, self.draw,
                                           lambda: self._waiting.for_a_key(self._is_early)]
        for step in steps:
            try:
                step()
            except UserLeft:
                raise
            except Exception as why:
                # Whatever it is, the text is here and can be saved.
                self.work.stop(why)

    def _press(self) -> None:
        """Does what keys say. Characters that came at once are typed at once."""
        keys, typed = self._screen.keys, ""
        while keys and not self.quits and not self._is_early(keys[0]):
            key = keys.popleft()
            self._line.forget_notice()
            if self._prompts.asks:
                self._answer(key)
            elif self._review.is_on and self._review.press(key):
                continue
            elif isinstance(key, str) or key is Key.ENTER:
                typed += "\r" if isinstance(key, Key) else key
            else:
                self._type(typed)
                typed = ""
                self._command(key)
        self._type(typed)

    def press_without_note(self, key: Event) -> bool:
        """Does what a key says, where that needs no note; whether it was such a key."""
        if key is Key.QUIT or key is Key.SAVE or self._prompts.needs_no_note:
            self._answer(key)
            return True
        return False

    def _answer(self, key: Event) -> None:
        """Goes on with the answer to a question, or with what can be done in place of it."""
        if key is Key.QUIT or key is Key.SAVE:
            self._command(key)
        else:
            self._prompts.press(self._clipboard.pasted() if key is Key.PUT else key)

    def _is_early(self, key: Event) -> bool:
        """Whether a key waits for the number of a note that has just been opened."""
        edits = not isinstance(key, Mouse) and (key not in self._commands or key in EDITING)
        status = self.work.status
        can_wait = not (self._prompts.asks or self.work.failure or status.can_type or status.trouble == NOT_BEGUN)
        return edits and can_wait and time.monotonic() < self._opened + EARLY_SECONDS

    def _command(self, key: Event) -> None:
        if key not in BY_ROWS:
            self._moves.forget_column()
        if key is not Key.KILL:
            self._edits.end_kill()
        if isinstance(key, Mouse):
            self._moves.mouse(key)
        elif isinstance(key, Pasted):
            self._edits.paste(key)
        elif isinstance(key, Key) and (command := self._commands.get(key)):
            command()

    def _type(self, characters: str) -> None:
        if characters:
            self._moves.forget_column()
            self._edits.end_kill()
            self._edits.type(characters)

    def _find(self, words: str) -> None:
        self._searched = words or self._searched
        if self._searched and not self._note.find(self._searched):
            self._line.say(f"{self._searched!r} isn't in the note.")
        self._view.look()

    def _escape(self) -> None:
        """Selects nothing; where nothing is selected, shows no changes."""
        if self._view.selected() or not self._since.is_on:
            self._view.unmark()
        else:
            self._since.close()

    def _quit(self) -> None:
        # Who suggested something that isn't taken is told so first.
        self.quits = self._suggesting.end()

    def _leave(self) -> None:
        """Closes the note, and waits some time for that; no longer, where the user quits once more."""
        with suppress(UserLeft):
            self._suggesting.end()
        keys = self._screen.keys
        keys.clear()
        closing = self.work.close()
        now = time.monotonic()
        end = max((self._waiting.silent_since or now) + LEAVE_SECONDS, now + 1)
        wait([closing], WORK_SECONDS)
        while not closing.done() and time.monotonic() < end and Key.QUIT not in keys:
            keys.clear()
            self.draw(f"{self._line.name}  closing, {state(self.work.status)}")
            self._screen.wait(min(LOOK_AGAIN_SECONDS, end - time.monotonic()))
            if self._screen.gone:
                wait([closing], max(0, end - time.monotonic()))
        why = closing.exception() if closing.done() else Trouble(NOT_CLOSED)
        if why:
            self.work.stop(why)

    def draw(self, words: str = "") -> None:
        """Draws all, with these words or those that the moment has."""
        rows = self._rows()
        asks, question = self._prompts.asks and not words, self._prompts.words()
        # What became of the question that came between is still to be read.
        question = self._line.before(question) if self._prompts.is_again else question
        said = (words or question, "") if words or asks else self._line.words(
            self.work.status, self._waiting.silent, self.work.failure, self._review.help(), self._view.many_open)
        self._screen.draw(rows, self._view.cursor, said, asks, self._view.others, self._view.selected(), self._view.marked())

    def _rows(self) -> list[ScreenRow]:
        try:
            rows = self._review.rows()
            if not self._review.is_on:
                self._view.below = self._suggesting.shown() or self._since.shown()
            return rows or self._view.visible(note_is_idle=not self._waiting.silent)
        except Exception as why:
            # Where the text can't be drawn, the status line says so.
            self.work.stop(why)
            return []


def opened_with_bar(screen: Screen, name: str, open_note: OpenNote, thread: Worker) -> tuple[EngineNote, Status]:
    """A note that is opened in a thread, with a bar. What is typed meanwhile is for the note."""

    def work() -> tuple[EngineNote, Status]:
        note = open_note(screen.progressed, screen.wake)
        return note, note.session.status()

    opening = thread.do(work)
    opening.add_done_callback(lambda _: screen.wake())
    wait([opening], WORK_SECONDS)
    while not opening.done():
        doing = f"catching up  {bar(*screen.progress)}" if screen.progress else "opening"
        screen.draw([], 0, (f"{name}  {doing}", "^Q quit"))
        screen.wait(LOOK_AGAIN_SECONDS)
        if Key.QUIT in screen.keys or screen.gone:
            raise Trouble("The editor was left before the note was open.")
    screen.progress = None
    return opening.result()


def edit(window: "curses.window", name: str, open_note: OpenNote) -> EngineNote:
    """Opens a note with a bar, and edits it on a window. All that the note does is done in one thread, which
    isn't this one. Raises Trouble at the end where the note ended the editing."""
    screen, thread = Screen(window), Worker()
    with screen.tells():
        note, status = opened_with_bar(screen, name, open_note, thread)
        editor = Editor(screen, name, note, status, thread)
        editor.run()
    if why := editor.work.failure:
        raise Trouble(sentence(why)) from why
    return note
