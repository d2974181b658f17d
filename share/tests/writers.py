"""Editors that somebody writes in, each with the note open that is called `note`: a terminal's, Emacs, Neovim, and a page
in Chromium. All are driven by keys, and can be killed at any moment."""
import contextlib
import functools
import json
import os
import pathlib
import re
import shlex
import shutil
import signal
import subprocess
import threading
import time
from abc import ABC, abstractmethod
from collections.abc import Callable, Iterable, Iterator
from typing import Any, NamedTuple

from selenium.common.exceptions import WebDriverException
from selenium.webdriver.common.keys import Keys
from urllib3.exceptions import HTTPError

from share.tests.browser import MIRROR, Browser
from share.tests.pages import Server
from share.tests.processes import children
from share.tests.support import NOTE, TOP, Case, alive, engine_of, wait_for
from share.tests.terminals import EMACS, Terminal
from share.tests.waiting import PATIENCE as PATIENCE

EDITORS = TOP / "editors"
CALL_SECONDS = PATIENCE
# What an Emacs tells of a note in its buffer, and how a person starts it.
SERVING = """(progn
  (setq server-socket-dir "%s" vialshoal-command (list "%s"))
  (server-start)
  (defun save-state (path) (with-current-buffer "*note note*" (save-restriction (widen)
    (write-region (json-serialize (list
      :text (buffer-substring-no-properties (point-min) (point-max))
      :quiet (if (and (null vialshoal--changes) (= vialshoal--made vialshoal--answered)) t :false)
      :types (if (and vialshoal--is-open (not buffer-read-only)) t :false)
      :session (format "%%s" (process-id vialshoal--process)))) nil path nil 0))))
  (defun grow-old () (with-current-buffer "*note note*" (setq vialshoal--begun 0)))
  (vialshoal-open "note"))"""
SHOWS_IN_EMACS = """(with-current-buffer "*note note*" (and (seq-some
  (lambda (mark) (equal (plist-get (overlay-get mark 'vialshoal-thread) :text) "%s")) vialshoal-review--marks) t))"""
NEOVIM = """
  vim.opt.runtimepath:prepend('%s')
  vim.o.cmdheight, vim.o.laststatus = 3, 2
  vim.cmd('runtime plugin/vialshoal.lua | Vialshoal! note')
  function save_state(path)
    local note = require('vialshoal').note()
    local lines = vim.api.nvim_buf_get_lines(note.buffer, 0, -1, false)
    local state = {
      text = require('vialshoal.text').join(lines, note.has_end),
      quiet = #note.changes == 0 and not note.is_unsure and note.made == note.answered,
      types = note.is_open and vim.bo[note.buffer].modifiable, session = tostring(note.job and vim.fn.jobpid(note.job)) }
    return vim.fn.writefile({ vim.json.encode(state) }, path)
  end
  local meant
  vim.ui.select = function(threads, _, chooses)
    for _, each in ipairs(threads) do
      if each.text == meant then return chooses(each) end
    end
  end
  function shows_thread(word)
    meant = word
    for _, each in ipairs(require('vialshoal.review').shown(require('vialshoal').note())) do
      if each.thread.text == word then return 1 end
    end
    return 0
  end
  function grow_old()
    require('vialshoal').note().begun = -60
    return 0
  end"""
# Has an Emacs have Evil as Debian has it, and a key that has it take commands: Esc with a key right after it would be Alt with that key.
EVIL = """(progn
  (dolist (folder (file-expand-wildcards "/usr/share/emacs/site-lisp/elpa/*")) (add-to-list 'load-path folder))
  (require 'evil)
  (evil-mode 1)
  (dolist (map (list evil-insert-state-map evil-normal-state-map evil-visual-state-map evil-replace-state-map))
    (define-key map (kbd "C-]") #'evil-normal-state)))"""
# Has Neovim take commands. Esc with a key right after it would be Alt with that key.
NORMAL = "C-\\", "C-n"
# The page asks whoever leaves it where an edit is unanswered. While no engine is there its state says "Type on".
PAGE = """{ text: MIRROR.getValue(), session: document.title,
  types: !MIRROR.getOption("readOnly") && !document.getElementById("state").textContent.includes("Type on"),
  quiet: window.dispatchEvent(new Event("beforeunload", { cancelable: true })) }""".replace("MIRROR", MIRROR)
SELECTING = """((word) => {
  const at = MIRROR.getValue().indexOf(word);
  MIRROR.setSelection(MIRROR.posFromIndex(at), MIRROR.posFromIndex(at + word.length));
  DOES
})(arguments[0])""".replace("MIRROR", MIRROR)
DELETING = SELECTING.replace("DOES", f'{MIRROR}.execCommand("delCharAfter");')

# What the terminal's editor says while its engine is away, and of a request whose engine has ended.
IS_AWAY, DROPPED = "The note's engine ended.", "may not have been done"
# With what lines of a thread that is looked at begin in the terminal, and its keys.
OF_A_THREAD = "  | "
THREAD_KEYS = {"reply": "r", "resolve": "d", "accept": "a", "reject": "x"}
# Goes to a card, once it is there, and clicks on a button of it.
GOES_TO_CARD = """((card) => (card?.focus(), document.querySelector('.card.active')?.textContent.includes(words[0])))(
  [...document.querySelectorAll('.card')].find((one) => one.textContent.includes(words[0])))"""
CLICKS_BUTTON = """((button) => (button?.click(), button))([...document.querySelectorAll('.card.active button')]
  .find((one) => one.checkVisibility() && one.textContent === words[0]))"""


class Cut(Exception):
    """The editor, or its engine, was killed."""


class Silent(Exception):
    """The editor doesn't say what it has."""


class State(NamedTuple):
    """What an editor has: its text; whether all that was typed is answered, and whether one can type; and what tells this
    opening of the note from others."""

    text: str
    quiet: bool
    types: bool
    session: str


class Writer(ABC):
    """An editor, at the data folder of a person, who joins by a link."""

    tag = ""

    def __init__(self, case: Case, data: str, link: str):
        self.case, self.data, self.link = case, case.folder / data, link
        self.person = data
        # Who holds this lets no key through.
        self.keys = threading.Lock()
        # Whether it, or its engine, was killed, and nobody has looked after it yet.
        self.is_cut = False
        self._session = ""
        self.start()
        self._wait_until_it_types()

    @abstractmethod
    def start(self) -> None:
        """Opens the note."""

    @abstractmethod
    def state(self) -> State:
        """What it has."""

    @abstractmethod
    def go_to(self, line: int) -> None:
        """Goes to the begin of a line, which count from 1."""

    @abstractmethod
    def type(self, words: str) -> None:
        """Types characters, and line ends."""

    @abstractmethod
    def delete(self, word: str) -> None:
        """Deletes a word, which stands once in the text."""

    @abstractmethod
    def rewrite(self, old: str, new: str, waits: Callable[[], None]) -> None:
        """Writes a word in the place of another one, which stands once in the text; waits where a command asks, or types on."""

    @abstractmethod
    def undo(self) -> None:
        """Takes back the last edit that was made here."""

    @abstractmethod
    def begin(self, what: str, word: str, words: str) -> None:
        """Remarks on a word, or suggests another one for it."""

    @abstractmethod
    def answer(self, what: str, word: str, words: str, said: str) -> None:
        """Replies to what was said of a word, which has these words, or does something else about that. There may be more at that place, of
        what gave way to the word."""

    @abstractmethod
    def processes(self) -> list[int]:
        """What is to be killed of it."""

    @abstractmethod
    def goes_on(self) -> bool:
        """Whether it runs still, and opens a note anew whose engine has ended. Puts away what was begun."""

    def marked(self, session: str) -> str:
        """Tells this opening from others; by what."""
        return session

    def grows_old(self) -> None:
        """Has it take its engine for one that has run for a while, which is started anew where it ends."""

    def close(self) -> None:
        """Ends what is left of it."""

    @contextlib.contextmanager
    def pressing(self) -> Iterator[None]:
        """Presses keys, as long as the editor and its engine live."""
        with self.keys:
            if self.is_cut:
                raise Cut
            yield

    def wait_for(self, condition: Callable[[State], bool], what: str) -> State:
        """Waits until its state is so. Cut where it is killed meanwhile."""
        def is_so() -> State | None:
            if self.is_cut:
                raise Cut
            with contextlib.suppress(Silent):
                state = self.state()
                return state if condition(state) else None
            return None
        return self._waits(is_so, what)

    def seen(self) -> State:
        """What it has, as soon as it says so."""
        return self.wait_for(lambda state: True, "a state")

    def _waits(self, is_so: Callable[[], State | None], what: str) -> State:
        try:
            found: State = wait_for(is_so, f"{self.tag} to have {what}", PATIENCE)
            return found
        except AssertionError as why:
            raise AssertionError(f"{why}: {self.looks()}") from why

    def looks(self) -> str:
        """What is to be told where something is wrong."""
        try:
            return str(self.state())
        except (Cut, Silent) as why:
            return repr(why)

    def recover(self) -> None:
        """Has the note open again, after this or its engine was killed."""
        with self.keys:
            # What is to be killed has been. From now on keys are pressed again.
            goes_on, self.is_cut = self.goes_on(), False
        if not goes_on:
            self.close()
            self.start()
        self._wait_until_it_types()

    def opens_again(self) -> None:
        """Wait until it has the note open again, whose engine was killed."""
        state = self.wait_for(lambda one: one.types and one.session != self._session, "the note open again")
        self._session = self.marked(state.session)

    def _wait_until_it_types(self) -> None:
        """Waits until the note is open anew."""
        def types() -> State | None:
            with contextlib.suppress(Cut, Silent):
                state = self.state()
                return state if state.types and state.session != self._session else None
            return None
        self._session = self.marked(self._waits(types, "the note open").session)

    def called(self, *words: str) -> str:
        """What a command says that talks to this editor."""
        done = subprocess.run(words, stdin=subprocess.DEVNULL, stdout=subprocess.PIPE, stderr=subprocess.STDOUT, text=True,
                              timeout=CALL_SECONDS, check=False)
        # One that is killed while it answers says nothing, and the command takes that for an answer.
        if done.returncode or not done.stdout.strip():
            if self.is_cut:
                raise Cut
            raise Silent(f"{words}: {done.stdout}")
        return done.stdout


def kill(writers: Iterable[Writer], processes: Callable[[], Iterable[int]]) -> None:
    """Kills processes, by which these editors are cut. No key is pressed meanwhile, and none until they have recovered.
    """
    with contextlib.ExitStack() as stack:
        for writer in writers:
            stack.enter_context(writer.keys)
            writer.is_cut = True
        for process in processes():
            with contextlib.suppress(ProcessLookupError):
                os.kill(process, signal.SIGKILL)
            wait_for(functools.partial(lambda one: not alive(one), process), "a process to end", PATIENCE)


def kill_editor(writer: Writer) -> None:
    """Kills an editor; its engine lives on, or ends as after the last one."""
    kill([writer], writer.processes)


def kill_engine(data: pathlib.Path, writers: Iterable[Writer]) -> None:
    """Kill the engine that these editors of a data folder share. Their users type on."""
    for writer in writers:
        writer.grows_old()
    process = wait_for(functools.partial(engine_here, data), "an engine", PATIENCE)
    with contextlib.suppress(ProcessLookupError):
        os.kill(process, signal.SIGKILL)
    wait_for(lambda: not alive(process), "an engine to end", PATIENCE)


def engine_here(data: pathlib.Path) -> int:
    """Return the process that has the note of a data folder open, 0 if there is none."""
    with contextlib.suppress(IndexError, FileNotFoundError):
        return engine_of(data)
    return 0


class InTerminal(Writer):
    """An editor at a terminal of its own."""

    terminal: Terminal
    command, begins = NOTE, ""
    words: tuple[str, ...] = ()

    def start(self) -> None:
        self.terminal = Terminal(self.case, self.person, *self.words, command=self.command, begins=self.begins,
                                 link=self.link)
        self._process = self.terminal.commands()[0]

    def press(self, *keys: str) -> None:
        """Presses keys by their names."""
        with self.pressing():
            self.terminal.press(*keys)

    def type(self, words: str) -> None:
        for part in words.splitlines(keepends=True):
            with self.pressing():
                if part.strip("\n"):
                    self.terminal.type(part.strip("\n"))
                if part.endswith("\n"):
                    self.terminal.press("Enter")

    def processes(self) -> list[int]:
        return [self._process]

    def told(self, *words: str) -> None:
        """Tells it something by a command, which says something."""
        def is_told() -> str:
            with contextlib.suppress(Silent):
                return self.called(*words)
            return ""
        wait_for(is_told, f"{self.tag} to take {words}", PATIENCE)

    def waits_until(self, is_so: Callable[[], bool], what: str) -> None:
        """Waits until something is shown, as its user does. Cut where it is killed meanwhile."""
        def is_shown() -> bool:
            if self.is_cut:
                raise Cut
            with contextlib.suppress(Silent):
                return is_so()
            return False
        try:
            wait_for(is_shown, f"{self.tag} to show {what}", PATIENCE)
        except AssertionError as why:
            raise AssertionError(f"{why}: {self.looks()}") from why

    def saved(self, path: pathlib.Path, *words: str) -> State:
        """What it has, which a command has it write into a file: of a long answer Neovim shows only both ends, and of one of
        an Emacs that is killed meanwhile a part is printed."""
        self.called(*words)
        return State(**json.loads(path.read_text(encoding="utf-8")))

    def looks(self) -> str:
        return f"{self.terminal.lines()}, {super().looks()}"

    def close(self) -> None:
        self.terminal.close()


class OwnEditor(InTerminal):
    """The editor that bin/note has itself. It says what it has by saving it."""

    tag, begins, words = "t", "site ", ("note",)
    _saved = 0

    def state(self) -> State:
        self._saved += 1
        path = self.case.folder / f"{self.tag}{self._saved}"
        self.press("C-s", *["BSpace"] * len("note.txt"))
        self.type(f"{path}\n")
        end = time.monotonic() + CALL_SECONDS
        while not path.exists():
            if self.is_cut:
                raise Cut
            if time.monotonic() > end or any(DROPPED in line for line in self.terminal.lines()):
                raise Silent(f"{path} isn't saved")
            time.sleep(0.01)
        try:
            is_away = any(IS_AWAY in line for line in self.terminal.lines())
            return State(path.read_text(encoding="utf-8"), not is_away, not is_away, f"{self._process} at {engine_here(self.data)}")
        finally:
            path.unlink()

    def go_to(self, line: int) -> None:
        self.press("C-l")
        self.type(f"{line}\n")

    def delete(self, word: str) -> None:
        self.press("C-r")
        self.type(f"{word}\n\n")

    def rewrite(self, old: str, new: str, waits: Callable[[], None]) -> None:
        self.press("C-r")
        self.type(f"{old}\n")
        waits()
        self.type(f"{new}\n")

    def begin(self, what: str, word: str, words: str) -> None:
        self._find(word)
        self.press("C-Space", *["Right"] * len(word), {"remark": "C-t", "suggest": "C-u"}[what])
        # What is suggested is made of what is there.
        self.press(*["BSpace"] * len(word) * (what == "suggest"))
        self.type(f"{words}\n")
        self.press("Escape")

    def answer(self, what: str, word: str, words: str, said: str) -> None:
        self._find(word)
        self.waits_until(lambda: any(word in line and line.endswith("*") for line in self.terminal.lines()), f"a mark beside {word}")
        self.press("Right", "C-n")
        shown = self._thread([], word)
        while not any(said in line for line in shown):
            self.press("n")
            shown = self._thread(shown, word)
        self.type(f"{THREAD_KEYS[what]}{words}")
        if words:
            self.press("Enter")
        self.press("Escape")

    def _thread(self, before: list[str], word: str) -> list[str]:
        """The lines of the thread that is looked at, once that is another one than before."""
        def lines() -> list[str]:
            return [line for line in self.terminal.lines() if line.startswith(OF_A_THREAD)]
        self.waits_until(lambda: lines() not in ([], before), f"what is said of {word}")
        return lines()

    def _find(self, word: str) -> None:
        self.press("C-f")
        self.type(f"{word}\n")

    def undo(self) -> None:
        self.press("C-z")

    def goes_on(self) -> bool:
        self.terminal.press("Escape", "Escape", "Escape")
        return alive(self._process)


class Emacs(InTerminal):
    """Emacs with its package."""

    tag, begins = "e", "*note note*"
    # What it evaluates before the note is opened.
    prepares = "nil"

    def start(self) -> None:
        # A name in a folder of its own, since a socket's path may not be long.
        self._socket = pathlib.Path(self.case.folder) / f"{self.tag}-{self.person}"
        shutil.rmtree(self._socket, ignore_errors=True)
        self._socket.mkdir(mode=0o700)
        self.command = shlex.join([*EMACS, "-L", str(EDITORS / "emacs"), "-l", "vialshoal", "-l", "server",
                                   "--eval", self.prepares, "--eval", SERVING % (self._socket, NOTE)])
        super().start()
        wait_for((self._socket / "server").exists, "Emacs to listen", PATIENCE)

    def state(self) -> State:
        path = self._socket.with_suffix(".json")
        return self.saved(path, "emacsclient", "-s", str(self._socket / "server"), "--eval", f'(progn (save-state "{path}") t)')

    def grows_old(self) -> None:
        self.told("emacsclient", "-s", str(self._socket / "server"), "--eval", "(grow-old)")

    def go_to(self, line: int) -> None:
        self.press("M-g", "g")
        self.type(f"{line}\n")

    def delete(self, word: str) -> None:
        self.press("M-<", "M-x")
        self.type(f"replace-string\n{word}\n\n")

    def rewrite(self, old: str, new: str, waits: Callable[[], None]) -> None:
        self.press("M-<", "M-%")
        self.type(f"{old}\n{new}\n")
        waits()
        self.type("y")

    def begin(self, what: str, word: str, words: str) -> None:
        self._evaluates(word, f'(vialshoal-{what} (match-beginning 0) (match-end 0) "{words}")')

    def answer(self, what: str, word: str, words: str, said: str) -> None:
        self.waits_until(lambda: self.called(
            "emacsclient", "-s", str(self._socket / "server"), "--eval", SHOWS_IN_EMACS % word).strip() == "t", f"what is said of {word}")
        thread = f'(vialshoal-review--thread "none" (lambda (one) (equal (plist-get one :text) "{word}")))'
        body = f' "{words}"' if words else ""
        self._evaluates(word, f"(backward-char 3) (vialshoal-{what} {thread}{body})")

    def _evaluates(self, word: str, does: str) -> None:
        self.press("M-:")
        self.type(f'(progn (goto-char 1) (search-forward "{word}") {does})\n')

    def undo(self) -> None:
        self.press("C-_")

    def goes_on(self) -> bool:
        self.terminal.press("Escape", "Escape", "Escape")
        return alive(self._process)


class EvilEmacs(Emacs):
    """Emacs with its package, and Evil."""

    tag, prepares = "v", EVIL

    def go_to(self, line: int) -> None:
        self.press("C-]")
        self.type(f"{line}GI")

    def delete(self, word: str) -> None:
        self.press("C-]")
        self.type(f":%s/{re.escape(word)}//\n")

    def rewrite(self, old: str, new: str, waits: Callable[[], None]) -> None:
        self.press("C-]")
        self.type(f":%s/{re.escape(old)}/{new}/c\n")
        waits()
        self.type("y")

    def write_in_block(self, line: int, more: int, word: str, waits: Callable[[], None]) -> int:
        """Types a word at the begin of a line, and of so many more; in how many lines that is."""
        self.press("C-]")
        with self.pressing():
            self.terminal.send(f"{line}G0\x16{more}j".encode())
        # Where there are fewer lines Emacs drops the keys that it has yet to read.
        self.wait_for(lambda _: self._says("(and (not (input-pending-p)) evil-state)") == "visual", "a block that is selected")
        self.press("I")
        self.wait_for(lambda _: self._says("evil-state") == "insert", "a block")
        lines = int(self._says("(or (nth 2 evil-insert-vcount) 1)"))
        self.type(word)
        waits()
        self.press("C-]")
        return lines

    def begin(self, what: str, word: str, words: str) -> None:
        self.press("C-]")
        super().begin(what, word, words)

    def undo(self) -> None:
        self.press("C-]")
        self.type("u")

    def goes_on(self) -> bool:
        self.terminal.press("C-g", "C-g", "C-]")
        return alive(self._process)

    def _says(self, expression: str) -> str:
        return self.called("emacsclient", "-s", str(self._socket / "server"), "--eval",
                           f'(with-current-buffer "*note note*" {expression})').strip()


class Neovim(InTerminal):
    """Neovim with its plug-in."""

    tag, begins = "n", "vialshoal://note"

    def start(self) -> None:
        self._socket = pathlib.Path(self.case.folder) / f"{self.tag}-{self.person}"
        self._socket.unlink(missing_ok=True)
        script = self._socket.with_suffix(".lua")
        script.write_text(NEOVIM % (EDITORS / "neovim"), encoding="utf-8")
        self.command = shlex.join(["nvim", "-u", "NONE", "-i", "NONE", "-n", "--listen", str(self._socket), "-c",
                                   f"luafile {script}"])
        super().start()

    def state(self) -> State:
        path = self._socket.with_suffix(".json")
        return self.saved(path, "nvim", "--server", str(self._socket), "--remote-expr", f"luaeval('save_state(_A)', '{path}')")

    def grows_old(self) -> None:
        self.told("nvim", "--server", str(self._socket), "--remote-expr", "luaeval('grow_old()')")

    def go_to(self, line: int) -> None:
        self.press(*NORMAL)
        self.type(f"{line}GI")

    def delete(self, word: str) -> None:
        self.press(*NORMAL)
        self.type(f":%s/\\V{word}//\n")

    def rewrite(self, old: str, new: str, waits: Callable[[], None]) -> None:
        self.press(*NORMAL)
        self.type(f":%s/\\V{old}/{new}/c\n")
        waits()
        self.type("y")

    def write_in_block(self, line: int, more: int, word: str, waits: Callable[[], None]) -> int:
        """Types a word at the begin of a line, and of so many more; in how many lines that is."""
        self.press(*NORMAL)
        with self.pressing():
            self.terminal.send(f"{line}G0\x16{more}jI".encode())
        self.wait_for(lambda _: self._says("mode()") == "i", "a block")
        lines = int(self._says("line(\"'>\") - line(\"'<\") + 1"))
        self.type(word)
        waits()
        self.press("Escape")
        return lines

    def begin(self, what: str, word: str, words: str) -> None:
        self.press(*NORMAL)
        self.type(f"/\\V{word}\n")
        self.type(f"gn:Vialshoal{what.capitalize()} {words}\n")

    def answer(self, what: str, word: str, words: str, said: str) -> None:
        self.waits_until(lambda: self._says(f"luaeval('shows_thread(_A)', '{word}')") == "1", f"what is said of {word}")
        self.press(*NORMAL)
        self.type(f"/\\V{word}\n")
        self.type(f"l:Vialshoal{what.capitalize()} {words}".rstrip() + "\n")

    def _says(self, expression: str) -> str:
        return self.called("nvim", "--server", str(self._socket), "--remote-expr", expression).strip()

    def undo(self) -> None:
        self.press(*NORMAL)
        self.type("u")

    def goes_on(self) -> bool:
        self.terminal.press(*NORMAL)
        return alive(self._process)


class PageInChromium(Writer):
    """The page in a Chromium of its own."""

    tag = "p"
    _profiles = 0
    _server: Server | None = None
    _browser: Browser | None = None
    # A tab of Firefox is one, too.
    _window: Any

    def start(self) -> None:
        if self._server is None:
            self._server = Server(self.data, "--no-browser", VIALSHOAL_LINK=self.link)
            self.case.addCleanup(self._server.close)
        if self._browser is None:
            self._profiles += 1
            self._browser = Browser(1100, 700, self.case.folder / f"profile-{self._profiles}")
            self.case.addCleanup(self.close)
        self._window = self._browser.open(self._server.path)

    def state(self) -> State:
        return State(**self._run(PAGE))

    def go_to(self, line: int) -> None:
        self._run(f"{MIRROR}.setCursor(arguments[0], 0)", line - 1)

    def type(self, words: str) -> None:
        with self.pressing(), self._driven():
            self._window.type(words)

    def marked(self, session: str) -> str:
        # The page has the note's name again when that is opened anew.
        return str(self._run("(document.title = arguments[0])", f"{session} known"))

    def delete(self, word: str) -> None:
        with self.pressing():
            self._run(DELETING, word)

    def rewrite(self, old: str, new: str, waits: Callable[[], None]) -> None:
        with self.pressing():
            self._run(SELECTING.replace("DOES", ""), old)
        for words in new[0], new[1:]:
            with self.pressing(), self._driven():
                self._window.type_over(words)
            waits()

    def begin(self, what: str, word: str, words: str) -> None:
        with self.pressing(), self._driven():
            self._window.run(f"{MIRROR}.focus()")
            self._window.run(SELECTING.replace("DOES", ""), word)
            self._window.chord(Keys.CONTROL, Keys.ALT, {"remark": "m", "suggest": "s"}[what])
            self._window.wait_for("document.activeElement.tagName === 'TEXTAREA' && document.activeElement.closest('form')")
            self._window.type(Keys.CONTROL, "a")
            self._window.type(words)
            self._window.type(Keys.CONTROL, Keys.ENTER)
            self._window.wait_for("!document.querySelector('.draft')")
            self._window.run(f"{MIRROR}.focus()")

    def answer(self, what: str, word: str, words: str, said: str) -> None:
        with self.pressing(), self._driven():
            # Only cards of what is in sight are there.
            self._window.run(SELECTING.replace("DOES", f"{MIRROR}.scrollIntoView(null, 50);"), word)
            self._window.wait_for(GOES_TO_CARD, word)
            self._window.wait_for(CLICKS_BUTTON, what.capitalize())
            if words:
                self._window.wait_for("document.activeElement.tagName === 'TEXTAREA'")
                self._window.type(words, Keys.CONTROL, Keys.ENTER)
                self._window.wait_for("!document.querySelector('.card form')")
            self._window.run(f"{MIRROR}.focus()")

    def undo(self) -> None:
        with self.pressing(), self._driven():
            self._window.type(Keys.CONTROL, "z")

    def processes(self) -> list[int]:
        assert self._browser
        driver = self._browser.driver.service.process.pid
        return [*children(driver), driver]

    def goes_on(self) -> bool:
        assert self._browser
        return alive(self._browser.driver.service.process.pid)

    def close(self) -> None:
        if browser := self._browser:
            self._browser = None
            with contextlib.suppress(WebDriverException, HTTPError, OSError):
                browser.close()

    def _run(self, script: str, *words: object) -> Any:
        with self._driven():
            return self._window.run(script, *words)

    @contextlib.contextmanager
    def _driven(self) -> Iterator[None]:
        try:
            yield
        except (WebDriverException, HTTPError, OSError) as why:
            if self.is_cut:
                raise Cut from why
            raise Silent(str(why)) from why
