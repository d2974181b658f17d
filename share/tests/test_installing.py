"""What is installed works with nothing of the repository there, and is taken away as it came."""
import contextlib
import errno
import math
import os
import pathlib
import re
import shlex
import shutil
import signal
import subprocess
from collections.abc import Callable, Iterator
from typing import Any
from unittest import mock

from share.cli import installing
from share.cli.installing import COPIES, PLACES
from share.cli.relaying import relay_parser
from share.cli.script_words import script_parser
from share.program.process import command, file_of
from share.tests.pages import Server
from share.tests.support import TOP, Case
from share.tests.terminals import EMACS, Terminal
from share.tests.waiting import PATIENCE
from share.text.errors import Trouble

OPENS = '(progn (add-to-list (quote load-path) \\"SITE\\") (require (quote vialshoal)) (vialshoal-open \\"note\\"))'
# What names another program than the installed one.
PROGRAMS = ("VIALSHOAL_PROGRAM", "VIALSHOAL_BUILD")
# What changes files, call by call.
CHANGES: list[tuple[Any, str]] = [*((pathlib.Path, name) for name in ("write_bytes", "mkdir", "unlink")), (os, "symlink"), (os, "replace")]


def files(folder: pathlib.Path) -> dict[str, str]:
    """All that is in a folder: links by where they lead, files by what they have."""
    found = {}
    for path in sorted(folder.rglob("*")):
        what = os.readlink(path) if path.is_symlink() else "" if path.is_dir() else path.read_bytes().hex()
        found[str(path.relative_to(folder))] = what
    return found


class Installed(Case):
    """A copy of the repository with a program in it, which is installed from and goes away then."""

    def setUp(self) -> None:
        super().setUp()
        self.copy, self.prefix = self.folder / "copy", self.folder / "prefix"
        for name in "bin", "share", "editors", "docs":
            shutil.copytree(TOP / name, self.copy / name, ignore=shutil.ignore_patterns("tests", "test", "__pycache__", "site_cli"))
        self.program = self.copy / "crates" / "site_cli" / "out" / "site_cli"
        self.program.parent.mkdir(parents=True)
        shutil.copy(file_of(command()), self.program)

    def run_note(self, *words: str, top: pathlib.Path | None = None, status: int = 0, **more: str) -> str:
        """What the installed command prints, or another's, which ends with this status."""
        environment = {key: value for key, value in os.environ.items() if key not in PROGRAMS}
        done = subprocess.run([str((top or self.prefix) / "bin" / "note"), *words], capture_output=True, timeout=PATIENCE,
                              check=False, text=True, env={**environment, **more})
        self.assertEqual(done.returncode, status, (words, done.stdout, done.stderr))
        self.said = done.stderr
        return done.stdout

    said = ""

    def install(self, **more: str) -> None:
        """Installs from the copy."""
        self.run_note("install", "--prefix", str(self.prefix), top=self.copy, status=0, **more)

    def here(self, verb: str) -> None:
        """Does a verb in this process, which takes less time."""
        with contextlib.redirect_stdout(None), contextlib.redirect_stderr(None):
            installing.run([verb, "--prefix", str(self.prefix)])

    def test_it_works_with_the_repository_gone(self) -> None:
        self.install()
        shutil.rmtree(self.copy)
        with mock.patch.dict(os.environ):
            for name in PROGRAMS:
                os.environ.pop(name, None)
            note = str(self.prefix / "bin" / "note")
            self.run_note("append", "note", "one", "--new")
            terminal = Terminal(self, "data", "note", command=note)
            terminal.press("End", "Enter")
            terminal.type("two")
            terminal.sees("two")
            opens = OPENS.replace("SITE", str(self.prefix / "share/emacs/site-lisp"))
            emacs = Terminal(self, "data", "--eval", f'"{opens}"', command=shlex.join(EMACS), begins="two")
            emacs.press("Escape", ">")
            emacs.type("from Emacs ")
            terminal.sees("from Emacs")
            with mock.patch.dict(os.environ, {"XDG_DATA_DIRS": str(self.prefix / "share"), "XDG_CONFIG_HOME": str(self.folder)}):
                nvim = Terminal(self, "data", "-i", "NONE", "-n", "'+Vialshoal note'", command="nvim", begins="from Emacs")
            nvim.type("Gofrom Neovim")
            nvim.press("Escape")
            terminal.sees("from Neovim")
            nvim.type(":help vialshoal")
            nvim.press("Enter")
            nvim.sees("[Help]")
            server = Server(self.folder / "data", "--no-browser", command=note)
            self.addCleanup(server.close)
            self.assertEqual(server.get()[0], 200)
            self.assertIn(b"class Client", server.get("/client.js")[2])
        self.assertEqual(sorted(self.run_note("cat", "note").split()), sorted("one two from Emacs from Neovim".split()))
        self.assertIn("text 0", self.site_cli("1 text 1\n"))
        for page in "note", "site_cli":
            self.assertIn(page.upper(), (self.prefix / f"share/man/man1/{page}.1").read_text("utf-8"))
        # A link to the command leads there, too.
        (self.folder / "bin").mkdir()
        (self.folder / "bin" / "note").symlink_to(self.prefix / "bin" / "note")
        self.assertIn("one", self.run_note("cat", "note", top=self.folder))

    def site_cli(self, script: str) -> str:
        """What the installed program answers."""
        return subprocess.run([str(self.prefix / "bin" / "site_cli")], input=script, capture_output=True, text=True, check=True,
                              timeout=PATIENCE, env={key: value for key, value in os.environ.items() if key not in PROGRAMS}).stdout

    def test_what_is_taken_away(self) -> None:
        others = {"bin/other": "x", "share/man/man1/other.1": "y", "share/emacs/site-lisp/vialshoal.elc": "z"}
        for path, text in others.items():
            (self.prefix / path).parent.mkdir(parents=True, exist_ok=True)
            (self.prefix / path).write_text(text, encoding="utf-8")
        before = files(self.prefix)
        self.install()
        first = os.readlink(self.prefix / "lib/vialshoal")
        self.assertEqual({path: text for path, text in files(self.prefix).items() if path in before}, before)
        # Another version takes the place of this one.
        (self.copy / "share" / "new.py").write_bytes(b"")
        self.install()
        self.assertNotEqual(os.readlink(self.prefix / "lib/vialshoal"), first)
        self.assertFalse((self.prefix / "lib" / first).exists())
        self.assertTrue((self.prefix / "lib/vialshoal/share/new.py").exists())
        # The installed one takes itself away.
        self.run_note("uninstall")
        self.assertEqual(files(self.prefix), before)
        self.run_note("uninstall", "--prefix", str(self.prefix), top=self.copy, status=2)
        self.assertIn("Nothing is installed", self.said)
        shutil.rmtree(self.prefix)
        self.install()
        self.run_note("uninstall")
        self.assertFalse(self.prefix.exists())

    def test_what_others_have_put_there_stays(self) -> None:
        for path in (*PLACES, "lib/vialshoal"):
            (self.prefix / path).parent.mkdir(parents=True, exist_ok=True)
            ways: tuple[Callable[[pathlib.Path], object], ...] = (
                lambda one: one.write_bytes(b"mine"), lambda one: one.symlink_to("/nowhere"), pathlib.Path.mkdir)
            for puts in ways:
                puts(self.prefix / path)
                before = files(self.prefix)
                with self.assertRaisesRegex(Trouble, f"{self.prefix / path} is there"):
                    self.here("install")
                self.assertEqual(files(self.prefix), before)
                if (self.prefix / path).is_dir() and not (self.prefix / path).is_symlink():
                    (self.prefix / path).rmdir()
                else:
                    (self.prefix / path).unlink()
        self.install()
        (self.prefix / "bin/note").unlink()
        (self.prefix / "bin/note").write_bytes(b"mine")
        (self.prefix / "lib/vialshoal/share/mine.py").write_bytes(b"mine")
        self.run_note("uninstall", "--prefix", str(self.prefix), top=self.copy)
        self.assertIn("bin/note stays", self.said)
        left = {path: text for path, text in files(self.prefix).items() if text}
        self.assertEqual({pathlib.Path(path).name for path in left}, {"note", "mine.py"})

    def test_where_nothing_is_built(self) -> None:
        self.program.unlink()
        self.run_note("install", "--prefix", str(self.prefix), top=self.copy, status=2)
        self.assertIn("Nothing is built", self.said)
        self.assertFalse(self.prefix.exists())
        for words in ["--prefix", "here"], ["there"]:
            self.run_note("install", *words, top=self.copy, status=2)

    def test_below_a_packagers_folder(self) -> None:
        self.run_note("install", "--prefix", "/usr", top=self.copy, DESTDIR=str(self.folder / "package"))
        self.prefix = self.folder / "package" / "usr"
        shutil.copytree(self.folder / "package", self.folder / "unpacked", symlinks=True)
        for top in self.folder / "package", self.folder / "unpacked":
            self.assertEqual(self.run_note("cat", "note", top=top / "usr", status=2), "")
        self.assertFalse([path for path, text in files(self.prefix).items() if str(self.folder).encode().hex() in text])
        for path in PLACES:
            self.assertTrue((self.folder / "unpacked" / "usr" / path).exists(), path)
        for path in COPIES:
            # By a link systemd would go on with what the next version takes away.
            self.assertFalse((self.prefix / path).is_symlink())
            begins = re.search("^ExecStart=note (.*)$", (self.prefix / path).read_text("utf-8"), re.MULTILINE)
            assert begins
            if "relay" in path:
                words = begins[1].replace("$RELAY_OPTIONS", "--url https://h").split()
                self.assertEqual(relay_parser().parse_args(words[1:]).log, "${STATE_DIRECTORY}")
            else:
                self.assertEqual(script_parser().parse_args(begins[1].split()).every, 300)
        self.assertEqual((self.prefix / "lib/vialshoal/bin/note").stat().st_mode & 0o777, 0o755)
        self.run_note("uninstall", "--prefix", "/usr", top=self.copy, DESTDIR=str(self.folder / "package"))
        self.assertEqual(files(self.prefix), {})

    def test_a_full_disk_and_kills(self) -> None:
        self.install()
        before = files(self.prefix)
        for number in 0, 1, 7, 40:
            calls = iter([None] * number)
            real = pathlib.Path.write_bytes
            with mock.patch.object(pathlib.Path, "write_bytes", lambda path, data: (
                    real(path, data) if next(calls, 1) is None else self.full(path, data, real))):
                self.assertRaises(Trouble, self.here, "install")
            self.assertEqual(files(self.prefix), before)
        shutil.rmtree(self.prefix)
        for verb in "install", "uninstall":
            many = self.calls(verb)
            for number in (0, 3, 8, 60, many // 2, many - 45, many - 20, many - 10, many - 1):
                self.killed(number, verb)

    @staticmethod
    def full(path: pathlib.Path, data: bytes, real: Callable[[pathlib.Path, bytes], object]) -> None:
        """Writes a part of a file, as on a full disk."""
        real(path, data[:len(data) // 2])
        raise OSError(errno.ENOSPC, "No space left on device")

    def calls(self, verb: str) -> int:
        """How many calls change files as a verb is done, after which nothing is installed."""
        if verb == "uninstall":
            self.here("install")
        with self.counting() as called:
            self.here(verb)
        if verb == "install":
            self.here("uninstall")
        return len(called)

    @contextlib.contextmanager
    def counting(self, last: float = math.inf) -> Iterator[list[str]]:
        """Keeps the calls that change files meanwhile; the one behind so many kills this process."""
        called = list[str]()

        def counted(name: str, does: Callable[..., object]) -> Callable[..., object]:
            def calls(*words: object, **more: object) -> object:
                if len(called) >= last:
                    os.kill(os.getpid(), signal.SIGKILL)
                called.append(name)
                return does(*words, **more)
            return calls

        with contextlib.ExitStack() as patches:
            for where, name in CHANGES:
                patches.enter_context(mock.patch.object(where, name, counted(name, getattr(where, name))))
            yield called

    def killed(self, number: int, verb: str) -> None:
        """Kills a process at some call of a verb: what was there before works, or what is new; the next one mends it."""
        if verb == "uninstall":
            self.here("install")
        process = os.fork()
        if not process:
            with contextlib.suppress(BaseException), self.counting(number):
                self.here(verb)
            os._exit(1)
        self.assertEqual(os.waitstatus_to_exitcode(os.waitpid(process, 0)[1]), -signal.SIGKILL)
        if (self.prefix / "bin/note").exists():
            self.assertIn("usage", self.run_note("cat", "--help"))
        if verb == "install":
            self.here("install")
            self.assertTrue((self.prefix / "bin/note").exists())
            self.assertEqual(len([*(self.prefix / "lib").glob("vialshoal-*")]), 1)
        if (self.prefix / "lib").exists():
            self.here("uninstall")
        # Folders that were made before the list of them stay.
        self.assertIn(files(self.prefix) if self.prefix.exists() else {}, ({}, {"lib": ""}) if number < 6 else ({},),
                      (number, verb))
        shutil.rmtree(self.prefix, ignore_errors=True)
