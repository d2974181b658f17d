"""Where no program is built, the first start builds one; that it isn't proved is said wherever a note is open."""
import contextlib
import json
import os
import pathlib
import shutil
import subprocess
import sys
from collections.abc import Iterator
from unittest import mock

from share.editors.terminal.status_line import state_of_others
from share.program import process
from share.program.process import command, file_of, is_unproved
from share.sync.session import Status
from share.tests.support import TOP, Case
from share.tests.terminals import Terminal
from share.tests.waiting import PATIENCE

COMMANDS = ("env", "sh", "python3", "dirname", "readlink", "head", "tail", "sha256sum", "mkdir", "cp", "git")
# It stands for cargo, and gives the program of these tests for the one that is built.
CARGO = """\
#!/bin/sh
[ ! -e "{fails}" ] || {{ echo "this source is wrong"; exit 1; }}
mkdir -p "{top}/rust/target/release" && cp "{program}" "{top}/rust/target/release/site_cli"
"""
UNPROVED = "Vialshoal, commit 1\nnot proved: ordinary Rust, by rustc 1\n"


class FirstStart(Case):
    """A copy of the repository in which nothing is built, and a PATH with little but a cargo."""

    def setUp(self) -> None:
        super().setUp()
        self.copy, self.commands = self.folder / "copy", self.folder / "commands"
        ignored = shutil.ignore_patterns("tests", "test", "__pycache__", "target")
        for name in "bin", "share", "tools", "editors", "docs":
            shutil.copytree(TOP / name, self.copy / name, ignore=ignored)
        for name in "Cargo.toml", "Cargo.lock":
            (self.copy / "rust").mkdir(exist_ok=True)
            shutil.copy(TOP / "rust" / name, self.copy / "rust")
        self.commands.mkdir()
        for name in COMMANDS:
            (self.commands / name).symlink_to(sys.executable if name == "python3" else shutil.which(name) or "/nowhere")
        self.fails = self.folder / "fails"

    def lay_cargo(self) -> None:
        for name, script in ("rustc", "#!/bin/sh\necho rustc 1\n"), ("cargo", CARGO.format(
                top=self.copy, program=file_of(command()), fails=self.fails)):
            (self.commands / name).write_text(script, encoding="utf-8")
            (self.commands / name).chmod(0o755)

    @contextlib.contextmanager
    def here(self) -> Iterator[None]:
        """Has what is started meanwhile know the few commands alone, and no other program."""
        with mock.patch.dict(os.environ, PATH=str(self.commands), VIALSHOAL_PROGRAM="", VIALSHOAL_BUILD=""):
            yield

    def run_note(self, *words: str, top: pathlib.Path | None = None, status: int = 0) -> subprocess.CompletedProcess[str]:
        """A run of bin/note in the copy."""
        with self.here():
            done = subprocess.run([str((top or self.copy) / "bin" / "note"), *words], capture_output=True, text=True, timeout=PATIENCE,
                                  check=False, stdin=subprocess.DEVNULL)
        self.assertEqual(done.returncode, status, done.stderr)
        return done

    def test_the_first_start_builds(self) -> None:
        self.lay_cargo()
        first = self.run_note("append", "note", "one", "--new")
        self.assertIn("not proved: ordinary Rust", first.stderr)
        again = self.run_note("cat", "note")
        self.assertEqual((again.stdout.strip(), again.stderr), ("one", ""))
        with self.here():
            engine = subprocess.run([str(self.copy / "bin" / "note"), "engine", "note"], capture_output=True, text=True, timeout=PATIENCE,
                                    check=True, input='{"id":1,"do":"open","protocol":1,"units":["utf-8"]}\n{"id":2,"do":"close"}\n')
        states = [line for line in map(json.loads, engine.stdout.splitlines()) if line.get("notice") == "state"]
        self.assertTrue(states and all(state["unproved"] is True for state in states), engine.stdout)

    def test_an_installed_one_says_so_too(self) -> None:
        self.lay_cargo()
        prefix = self.folder / "prefix"
        self.assertIn("with a program that isn't proved", self.run_note("install", "--prefix", str(prefix)).stdout)
        shutil.rmtree(self.copy)
        with self.here():
            told = subprocess.run([prefix / "bin" / "site_cli", "--version"], capture_output=True, text=True, timeout=PATIENCE, check=True)
        self.assertEqual(told.stdout.splitlines()[1], "not proved: ordinary Rust, by rustc 1")
        with mock.patch.dict(os.environ, VIALSHOAL_PROGRAM="", VIALSHOAL_BUILD=""):
            terminal = Terminal(self, "data", "note", command=str(prefix / "bin" / "note"))
            terminal.sees("not proved")
        self.run_note("uninstall", top=prefix)
        self.assertFalse(prefix.exists())

    def test_what_needs_no_program_builds_none(self) -> None:
        self.lay_cargo()
        self.assertEqual(self.run_note("list").stderr, "")
        self.run_note("link", "note", status=2)
        self.run_note("--help")
        self.assertFalse((self.copy / "out").exists())

    def test_where_none_can_be_built(self) -> None:
        said = self.run_note("cat", "note", status=2).stderr
        self.assertIn("neither Rust's cargo is here nor the toolchain's rt", said)
        self.assertIn("The program couldn't be built", said)
        self.lay_cargo()
        self.fails.touch()
        said = self.run_note("cat", "note", status=2).stderr
        self.assertIn("this source is wrong", said)
        self.fails.unlink()
        self.run_note("append", "note", "one", "--new")

    def test_who_is_said_to_be_unproved(self) -> None:
        record = self.folder / "built-from"
        other = self.folder / "site_cli"
        other.write_text("#!/bin/sh\n", encoding="utf-8")
        other.chmod(0o755)
        for text, unproved in (None, False), ("", False), ("x", False), (UNPROVED, True), (UNPROVED.replace("not ", ""), False):
            if text is not None:
                record.write_text(text, encoding="utf-8")
            self.assertEqual(is_unproved([str(other), "more"]), unproved, text)
        record.write_text(UNPROVED, encoding="utf-8")
        proved = "crates/site_cli/out"
        (self.folder / "out").mkdir()
        for name, last, folder in (
                ("", None, proved), ("", "rust", "out/rust"), ("tried", "rust", "out/tried"), ("proved", "rust", proved),
                ("", "proved", proved)):
            if last:
                (self.folder / "out" / "last").write_text(f"{last}\n", encoding="utf-8")
            with mock.patch.dict(os.environ, VIALSHOAL_BUILD=name), mock.patch.object(process, "TOP", self.folder), \
                    mock.patch.object(process, "BUILT", self.folder / proved / "site_cli"):
                self.assertEqual(process.built(), self.folder / folder / "site_cli")
        self.assertIn("not proved", state_of_others(Status(1, 1, 0, None, 0, unproved=True)))
        self.assertNotIn("proved", state_of_others(Status(1, 1, 0, None, 0)))
