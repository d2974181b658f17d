"""Tests of bin/test: the costs of proofs, missing packages, and steps that fail."""
import contextlib
import io
import subprocess
import sys
import tempfile
import unittest
from unittest import mock

from tools import TOP
from tools.gate import main, packages, running
from tools.gate.packages import Group
from tools.gate.proofs import Kind, kind_of, longest, run, summary, table
from tools.gate.running import Ran, Step

LINES = {"a": "a:", "b": "b: a kit", "c": "c: a b", "d": "d: a"}
# It fails as often as its file has bytes, each time taking one away; then it passes.
FAILS = """
n=$(cat {0})
if [ -n "$n" ]; then printf %s "${{n#?}}" >{0}; echo "3 passed, 1 failed"; exit 1; fi
echo "4 passed, 0 failed"
"""


def costs(**proofs: float) -> dict[tuple[str, Kind], float]:
    """Return costs of proofs, by crates."""
    return {(crate, Kind.PROOF): seconds for crate, seconds in proofs.items()}


class Proofs(unittest.TestCase):
    """The costs of proofs."""

    def test_the_longest_chain_is_by_what_it_took(self) -> None:
        self.assertEqual(longest(costs(a=1, b=2, c=3, d=4), LINES), ["a", "b", "c"])
        self.assertEqual(longest(costs(a=1, b=2, c=3, d=6), LINES), ["a", "d"])

    def test_edits_hold_no_chain_up(self) -> None:
        self.assertEqual(longest({**costs(a=1, b=2, c=3, d=4), ("d", Kind.EDITS): 9}, LINES), ["a", "b", "c"])

    def test_what_is_said(self) -> None:
        found = {**costs(a=1.4, b=2.2), ("b", Kind.EDITS): 5.0}
        self.assertEqual(summary(found, {name: LINES[name] for name in "ab"}),
                         "proofs: 9 processor seconds (proof and build 4, edits 5); the longest chain of proofs 4: a b")
        self.assertEqual([line.split()[1:] for line in table(found)][1:], [["b", "2", "5"], ["a", "1", "0"]])
        self.assertEqual([*table({})], [])

    def test_the_last_line_stays_the_last(self) -> None:
        with contextlib.redirect_stdout(io.StringIO()) as said:
            status = run(["sh", "-c", "echo one; echo two; exit 3"])
        first, costs_line, last = said.getvalue().splitlines()
        self.assertEqual((first, costs_line[:7], last, status), ("one", "proofs:", "two", 3))

    def test_what_a_process_does(self) -> None:
        self.assertIs(kind_of("rattle build --crate-name a src/lib.rt", "/top/crates/a"), Kind.PROOF)
        self.assertIs(kind_of("rattle check --crate-name a src/lib.rt", "/tmp/rt-edit-12-ab"), Kind.EDITS)
        self.assertIs(kind_of("rattle check --crate-name a --incremental /tmp/rt-edits-12-ab/seed", "/top/crates/a"), Kind.EDITS)


class Packages(unittest.TestCase):
    """Missing packages, and the question to install them."""

    GROUP = Group({"sh": "dash", "no-such-command": "one"}, {"json": "two", "no_such_module": "three"},
                  {"/etc/pass*": "four", "/no/such/file": "five"})

    def ready(self, installs: bool, answer: bool, is_root: bool) -> tuple[str, list[list[str]], int]:
        """Return the output, the packages that were installed, and the status."""
        said, called, status = io.StringIO(), list[list[str]](), 0
        with mock.patch.multiple(packages, can_install=lambda: is_root, install=called.append), contextlib.redirect_stderr(said):
            try:
                packages.be_ready("test", [self.GROUP], installs, lambda _: answer)
            except SystemExit as ended:
                status = int(str(ended.code))
        return said.getvalue(), called, status

    def test_what_is_missing(self) -> None:
        self.assertEqual(packages.missing([self.GROUP, self.GROUP]), ["one", "five", "three"])

    def test_root_is_asked_or_says_yes_before(self) -> None:
        said, called, status = self.ready(installs=False, answer=False, is_root=True)
        self.assertIn("one five three\n", said)
        self.assertEqual((called, status), ([], 2))
        for installs in True, False:
            self.assertEqual(self.ready(installs, answer=not installs, is_root=True)[1:], ([["one", "five", "three"]], 2))

    def test_others_get_the_list(self) -> None:
        said, called, status = self.ready(installs=True, answer=True, is_root=False)
        self.assertIn("as root, install them with: apt-get install one five three\n", said)
        self.assertEqual((called, status), ([], 2))

    def test_nothing_is_said_if_all_are_here(self) -> None:
        with contextlib.redirect_stderr(io.StringIO()) as said:
            packages.be_ready("test", [Group({"sh": "dash"})], False, self.fail)
        self.assertEqual(said.getvalue(), "")


class Steps(unittest.TestCase):
    """Steps that pass, fail, or pass at the second time."""

    def ran(self, times: int, again: bool = True) -> tuple[Ran, str]:
        """Run a step that fails some times."""
        with tempfile.NamedTemporaryFile("w") as file, contextlib.redirect_stdout(io.StringIO()) as said:
            file.write("x" * times)
            file.flush()
            return running.run(Step(["sh", "-c", FAILS.format(file.name)], again=again)), said.getvalue()

    def test_a_step_that_passes_is_run_once(self) -> None:
        ran, said = self.ran(0)
        self.assertEqual((ran, said.count(" took ")), (Ran(0, 4, 0), 1))

    def test_what_passes_at_the_second_time_is_unsteady(self) -> None:
        ran, said = self.ran(1)
        self.assertEqual((ran.status, ran.passed, ran.failed, said.count(" took ")), (0, 4, 0, 2))
        self.assertRegex(ran.named[0], r"(?s)^UNSTEADY sh -c .* seed 1 load \d+\.\d$")

    def test_what_fails_twice_fails(self) -> None:
        ran, said = self.ran(2)
        self.assertEqual((ran, said.count(" took ")), (Ran(1, 3, 1), 2))

    def test_a_step_that_looks_again_itself_is_run_once(self) -> None:
        self.assertEqual(self.ran(1, again=False)[0], Ran(1, 3, 1))

    def test_a_status_is_a_failure_and_so_is_no_count(self) -> None:
        with contextlib.redirect_stdout(io.StringIO()):
            self.assertEqual(running.once(Step(["sh", "-c", "echo 3 passed, 0 failed; exit 3"])), Ran(3, 3, 1))
            self.assertEqual(running.once(Step(["echo", "nothing"])), Ran(0, 0, 1))
            self.assertEqual(running.once(Step(["echo", "0 passed, 0 failed"])), Ran(0, 0, 1))
            self.assertEqual(running.once(Step(["echo", "0 passed, 0 failed"], may_be_empty=True)), Ran(0, 0, 0))
            self.assertEqual(running.once(Step(["/no/such/command"])), Ran(2, 0, 1))

    def test_what_steps_name_is_named_last(self) -> None:
        with contextlib.redirect_stdout(io.StringIO()):
            words = "echo UNSTEADY test_x seed 1 load 2.0; echo FAIL: y is wrong; echo 3 passed, 1 failed"
            ran = running.once(Step(["sh", "-c", words]))
        lines = main.last_lines([(Step(["a"], apart=True), Ran(0, 2, 0)), (Step(["b", "c"]), ran)])
        self.assertEqual(lines, ["UNSTEADY test_x seed 1 load 2.0", "FAIL: y is wrong", "FAILED: b c",
                                 "of these, by a: 2 passed, 0 failed", "5 passed, 1 failed"])

    def test_a_step_that_the_others_need_ends_the_run(self) -> None:
        with contextlib.redirect_stdout(io.StringIO()):
            results = main.run_all([Step(["false"], again=False), Step(["false"], again=False, needed=True), Step(["true"])])
        self.assertEqual([step.words for step, _ in results], [["false"], ["false"]])


class Passed(unittest.TestCase):
    """The commit that passed as a whole."""

    def test_it_is_written_down_if_nothing_changed(self) -> None:
        with tempfile.TemporaryDirectory() as room, mock.patch.dict("os.environ", XDG_CACHE_HOME=room), \
                contextlib.redirect_stdout(io.StringIO()):
            for begun, now in ("", ""), ("12ab", ""), ("12ab", "34cd"):
                with mock.patch.object(main, "commit", lambda now=now: now):
                    main.note_passed(begun, [])
                self.assertFalse(main.passed_file().exists())
            with mock.patch.object(main, "commit", lambda: "12ab"):
                for unsteady in list[str](), ["UNSTEADY test_x seed 1 load 2.0"]:
                    main.note_passed("12ab", unsteady)
                    self.assertEqual(main.passed_file().read_text().splitlines(), ["12ab", *unsteady])

    def test_the_command_says_what_it_does(self) -> None:
        command = [sys.executable, "-B", str(TOP / "bin" / "test"), "--help"]
        said = subprocess.run(command, stdout=subprocess.PIPE, text=True, check=True).stdout
        for word in "--install", "--long", "--library":
            self.assertIn(word, said)
