"""A terminal is closed with a note open in it: what was typed is kept, and the editor ends."""
import contextlib
import os
import pathlib
import pty
import signal
from collections.abc import Callable

from share.tests.support import NOTE, TOP, Case, wait_for, written
from share.tests.terminals import EMACS
from share.tests.waiting import PATIENCE

# No editor shows this of its own. How often it is typed at most.
TYPED, TIMES = "\u00e9", 60
IN_EMACS = (*EMACS, "-L", str(TOP / "editors" / "emacs"), "-l", "vialshoal", "--eval",
            f'(progn (setq vialshoal-command (list "{NOTE}")) (vialshoal-open "note"))')
NEOVIM = ("nvim", "-u", "NONE", "-i", "NONE", "-n", "--cmd", f"set runtimepath^={TOP / 'editors' / 'neovim'}", "-c",
          "runtime plugin/vialshoal.lua", "-c", "Vialshoal note", "-c", "startinsert")
# A command of an engine that stays when it has read all.
STAYING = """#!/bin/sh
"{note}" "$@"
: > "{ended}"
while [ -e "{stays}" ]; do sleep 0.1; done
"""


class Closed(Case):
    """An editor that leads the session of a terminal that is closed."""

    def closed(self, *words: str, last: Callable[[int], None] = lambda end: None) -> None:
        first = self.person("ada").open()
        written(first, "begin.\r")
        first.session.close()
        data = str(self.folder / "ada")
        process, end = pty.fork()
        if not process:
            os.environ.update(VIALSHOAL_DATA=data, TERM="xterm", LC_ALL="C.UTF-8", LINES="24", COLUMNS="80")
            os.execvp(words[0], words)
        try:
            self.assertTrue(self.shown(end, b"begin."))
            self.typed(end)
            last(end)
            os.close(end)
            wait_for(lambda: os.waitpid(process, os.WNOHANG)[0], "the editor to end")
        except BaseException:
            with contextlib.suppress(OSError):
                os.close(end)
            with contextlib.suppress(ProcessLookupError, ChildProcessError):
                os.kill(process, signal.SIGKILL)
                os.waitpid(process, 0)
            raise
        self.assertIn(TYPED, self.note("cat", "note", VIALSHOAL_DATA=data).stdout)

    def typed(self, end: int) -> None:
        """Types until that is shown: where the text is shown it may not be let be edited yet."""
        for _ in range(TIMES):
            os.write(end, TYPED.encode())
            if self.shown(end, TYPED.encode(), PATIENCE / TIMES):
                return
        self.fail("what is typed isn't shown")

    def shown(self, end: int, what: bytes, patience: float = PATIENCE) -> bool:
        """Whether a terminal shows this in time."""
        told = bytearray()
        os.set_blocking(end, False)

        def is_shown() -> bool:
            with contextlib.suppress(BlockingIOError):
                told.extend(os.read(end, 1 << 16))
            return what in told

        with contextlib.suppress(AssertionError):
            return bool(wait_for(is_shown, "it to be shown", patience))
        return False

    def test_of_the_own_editor(self) -> None:
        self.closed(NOTE, "note")

    def test_of_emacs(self) -> None:
        self.closed(*IN_EMACS)

    def test_of_neovim(self) -> None:
        self.closed(*NEOVIM)

    def test_of_a_neovim_that_waits_for_its_engine(self) -> None:
        ended, stays = self.folder / "ended", self.folder / "stays"
        stays.touch()
        self.addCleanup(stays.unlink)
        command = self.folder / "note"
        command.write_text(STAYING.format(note=NOTE, ended=ended, stays=stays), encoding="utf-8")
        command.chmod(0o700)
        sets = f"lua require('vialshoal').setup({{ command = {{ '{command}' }} }})"
        self.closed(*NEOVIM[:-4], "-c", sets, *NEOVIM[-4:], last=lambda end: self.quits(end, ended))

    @staticmethod
    def quits(end: int, ended: pathlib.Path) -> None:
        """Has Neovim end, which waits for the command of its engine then."""
        os.write(end, b"\x1c\x0e:qa!\r")
        wait_for(ended.exists, "the engine's command to have read all")
