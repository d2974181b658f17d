"""How modules of tests are run: what passed and failed is counted, and one that is killed, hangs, or doesn't end is told by its name."""
import contextlib
import io
import os
import pathlib
import signal
import subprocess
import threading
import unittest
from unittest import mock

from share.tests.forms import is_second_form, of_first_form
from share.tests.processes import descendants
from share.tests.runner import counting, modules, repeating, side_by_side
from share.tests.runner.main import MODULE_SECONDS
from share.tests.servers import held_port, port_of
from share.tests.support import Case, alive, wait_for

HERE = "test_running"


def of(work: "type[unittest.TestCase]") -> unittest.TestSuite:
    """The tests of a class that isn't found by its module's name."""
    return unittest.defaultTestLoader.loadTestsFromTestCase(work)


def some_that_pass_and_fail() -> unittest.TestSuite:
    """Two tests that pass, and two that don't."""

    class Some(unittest.TestCase):
        """They are run by another run of the tests."""

        def test_one(self) -> None:
            pass

        def test_two(self) -> None:
            pass

        def test_three(self) -> None:
            self.assertEqual("what", "else")

        def test_four(self) -> None:
            self.skipTest("nothing is skipped")

    return of(Some)


def some_of_either_form() -> unittest.TestSuite:
    """A test over notes of either form, and one of the first form."""

    class Either(unittest.TestCase):
        """The same."""

        def test_it(self) -> None:
            self.assertIn(os.environ.get("VIALSHOAL_FORM", "1"), "12")

        @of_first_form("nothing else has it")
        def test_of_the_first(self) -> None:
            self.assertFalse(is_second_form())

    return of(Either)


def one_that_is_gone() -> unittest.TestSuite:
    """A test that fails, and isn't there when it is to be run again."""

    class Gone(unittest.TestCase):
        """The same."""

        def test_it(self) -> None:
            marker.touch()
            self.fail("it is there")

    marker = pathlib.Path(os.environ["SHARE_TEST_TIMES"]) / "gone"
    return unittest.TestSuite() if marker.exists() else of(Gone)


def one_that_is_killed() -> unittest.TestSuite:
    """A test in which the process ends."""

    class Killed(unittest.TestCase):
        """The same."""

        def test_it(self) -> None:
            os.kill(os.getpid(), signal.SIGKILL)

    return of(Killed)


def one_that_hangs() -> unittest.TestSuite:
    """A test that waits without end for a thread and a process."""

    class Hangs(unittest.TestCase):
        """The same."""

        def test_it(self) -> None:
            with subprocess.Popen(["sleep", "1000000"]) as process:
                pathlib.Path(os.environ["SHARE_TEST_PROCESS"]).write_text(str(process.pid), "ascii")

    return of(Hangs)


def one_that_stands_still() -> unittest.TestSuite:
    """A test in which the process stands still."""

    class Still(unittest.TestCase):
        """The same."""

        def test_it(self) -> None:
            os.kill(os.getpid(), signal.SIGSTOP)

    return of(Still)


def one_that_does_not_end() -> unittest.TestSuite:
    """A test that passes, and leaves a thread without end."""

    class Left(unittest.TestCase):
        """The same."""

        def test_it(self) -> None:
            threading.Thread(target=threading.Event().wait).start()

    return of(Left)


def some_that_fail_at_times() -> unittest.TestSuite:
    """A test that fails once, one that fails the first and the last time, one of which a part fails once, and a class that begins the
    second time."""

    def fails(name: str, *times: int) -> bool:
        """Whether this is one of the times at which it fails."""
        with open(pathlib.Path(os.environ["SHARE_TEST_TIMES"]) / name, "a+", encoding="ascii") as file:
            file.write("x")
            return file.tell() in times

    class Some(unittest.TestCase):
        """The same."""

        def test_once(self) -> None:
            self.assertFalse(fails("once", 1), "it was the first time")

        def test_again(self) -> None:
            self.assertFalse(fails("again", 1, 2), "it was such a time")

        def test_in_part(self) -> None:
            with self.subTest("a part"):
                self.assertFalse(fails("part", 1), "a part was")

        def test_that_passes(self) -> None:
            self.assertFalse(fails("passes"))

    class Begins(unittest.TestCase):
        """The same."""

        @classmethod
        def setUpClass(cls) -> None:
            assert not fails("begins", 1), "it didn't begin"

        def test_it(self) -> None:
            pass

    return unittest.TestSuite([of(Some), of(Begins)])


def one_that_fails_once_and_leaves_a_thread() -> unittest.TestSuite:
    """A test that ends nothing of what it began, the first time."""

    class Left(unittest.TestCase):
        """The same."""

        def test_it(self) -> None:
            file = pathlib.Path(os.environ["SHARE_TEST_TIMES"]) / "begun"
            if not file.exists():
                file.touch()
                threading.Thread(target=threading.Event().wait, daemon=True).start()
                self.fail("it was the first time")

    return of(Left)


class Ports(unittest.TestCase):
    """The ports of a module's servers."""

    def test_none_is_given_twice(self) -> None:
        ports = list[int]()
        for _ in range(1_000):
            with held_port() as held:
                ports.append(port_of(held))
        self.assertEqual(len({*ports}), len(ports))


class Modules(Case):
    """Modules that are run as share/tests/run does it."""

    def run_all(self, *names: str, seconds: float = MODULE_SECONDS) -> tuple[int, list[str]]:
        """The status of a run, and the lines that it prints."""
        said = io.StringIO()
        with contextlib.redirect_stdout(said), mock.patch.dict(os.environ, XDG_CACHE_HOME=str(self.folder)):
            status = counting.count([f"{HERE}.{name}" for name in names], self.folder, seconds)
        return status, said.getvalue().splitlines()

    def test_what_passes_and_fails_is_counted(self) -> None:
        status, said = self.run_all("some_that_pass_and_fail", "some_that_pass_and_fail")
        self.assertEqual((status, said[-1]), (1, "4 passed, 4 failed"))
        faults = ["FAIL: test_three .*: AssertionError: 'what' != 'else'", "FAIL: test_four .*: nothing is skipped", "FAIL: test_three "]
        for line, wanted in zip(said[-5:], faults):
            self.assertRegex(line, wanted)
        # What was compared is told once.
        self.assertEqual([line for line in said if "compared with the proved note: " in line], [said[-6]])

    def test_what_failed_is_run_again(self) -> None:
        with mock.patch.dict(os.environ, SHARE_TEST_TIMES=str(self.folder)):
            status, said = self.run_all("some_that_fail_at_times", "some_of_either_form:2")
        self.assertEqual((status, said[-1]), (1, "5 passed, 1 failed"))
        place = f"UNSTEADY {HERE}.some_that_fail_at_times.<locals>"
        unsteady = [rf"{place}.{test} seed 1 load \d+\.\d$" for test in ("Begins.test_it", "Some.test_in_part", "Some.test_once")]
        for line, wanted in zip(said[-5:], [*unsteady, "FAIL: test_again .*: AssertionError: .* it was such a time"]):
            self.assertRegex(line, wanted)
        # What it said at first is told in full, and what passed isn't run again.
        self.assertTrue(any(line.startswith("Traceback") for line in said))
        times = {"once": 2, "again": 2, "part": 2, "begins": 2, "passes": 1}
        self.assertEqual({name: len((self.folder / name).read_text("ascii")) for name in times}, times)

    def test_what_isnt_run_again_failed(self) -> None:
        with mock.patch.dict(os.environ, SHARE_TEST_TIMES=str(self.folder)):
            status, said = self.run_all("one_that_is_gone")
        self.assertEqual((status, said[-1]), (1, "0 passed, 1 failed"))

    def test_what_is_left_by_what_failed_is_looked_at_again_with_it(self) -> None:
        with mock.patch.dict(os.environ, SHARE_TEST_TIMES=str(self.folder)), mock.patch("share.tests.left_open.ENDING_SECONDS", 0):
            status, said = self.run_all("one_that_fails_once_and_leaves_a_thread")
        self.assertEqual((status, said[-1]), (0, "1 passed, 0 failed"))
        self.assertRegex(said[-2], "^UNSTEADY .*Left.test_it seed 1 load ")
        self.assertEqual(sum(line.startswith("UNSTEADY") for line in said), 1)

    def test_what_is_of_the_first_form_is_left_out_over_the_second(self) -> None:
        status, said = self.run_all("some_of_either_form:2", "some_of_either_form:2")
        self.assertEqual((status, said[-1]), (0, "2 passed, 0 failed"))
        self.assertEqual(sum("skipped 'of the first form: nothing else has it'" in line for line in said), 2)

    def test_one_that_is_killed(self) -> None:
        status, said = self.run_all("one_that_is_killed", "some_that_pass_and_fail")
        self.assertEqual((status, said[-1]), (1, "2 passed, 3 failed"))
        self.assertIn(f"FAIL: {HERE}.one_that_is_killed ended its process, with status -9", said[-4:])
        # What it was at is told.
        self.assertTrue(any(line.startswith("test_it ") for line in said))

    def test_those_that_take_too_long(self) -> None:
        file = self.folder / "process"
        with mock.patch.dict(os.environ, SHARE_TEST_PROCESS=str(file)), mock.patch.object(side_by_side, "ENDING_SECONDS", 5):
            status, said = self.run_all("one_that_hangs", "some_that_pass_and_fail", "one_that_stands_still", seconds=30)
        self.assertEqual((status, said[-1]), (1, "2 passed, 4 failed"))
        for name in "one_that_hangs", "one_that_stands_still":
            self.assertIn(f"FAIL: {HERE}.{name} was ended, since it took more than 30 seconds", said[-5:])
        # Where it hung is told, and nothing that it started is left.
        self.assertTrue(any(f'"{__file__}"' in line and "test_it" in line for line in said), said)
        wait_for(lambda: not alive(int(file.read_text("ascii"))), "what it started to end")
        self.assertEqual([*descendants(os.getpid())], [])

    def test_one_whose_process_does_not_end(self) -> None:
        with mock.patch.object(side_by_side, "ENDING_SECONDS", 1), mock.patch("share.tests.left_open.ENDING_SECONDS", 0):
            status, said = self.run_all("one_that_does_not_end")
        self.assertEqual((status, said[-1]), (1, "1 passed, 2 failed"))
        self.assertRegex(said[-3], "left 1 threads open")
        self.assertEqual(said[-2], f"FAIL: {HERE}.one_that_does_not_end has run, and its process didn't end")

    def test_what_took_longest_comes_first_the_next_time(self) -> None:
        with mock.patch.dict(os.environ, XDG_CACHE_HOME=str(self.folder)):
            self.assertEqual(modules.longest_first(["test_rooms", "test_running"]), ["test_running", "test_rooms"])
            modules.keep_times({"test_rooms": 3.0, "test_running": 2.0})
            in_order = ["test_links", "test_rooms", "test_running"]
            self.assertEqual(modules.longest_first(in_order[::-1]), in_order)
            (self.folder / "vialshoal" / "test-times.json").write_text("[", "utf-8")
            self.assertEqual(modules.last_times(), {})

    def test_each_module_is_in_one_set(self) -> None:
        gate, long = ({modules.plain(one) for one in modules.in_set(is_long)} for is_long in (False, True))
        self.assertEqual(gate & long, set())
        for listed in modules.OVER_THE_CORE, modules.OVER_THE_LIBRARY, modules.OVER_BOTH:
            self.assertLessEqual(listed, gate | long)
        self.assertEqual(modules.found("test_rooms:2"), "test_rooms:2")
        for name in long:
            self.assertEqual(modules.found(f"{name}:2"), f"long.{name}:2")

    def test_many_times(self) -> None:
        names = [f"{HERE}.some_that_fail_at_times", f"{HERE}.some_of_either_form:2"]
        with mock.patch.dict(os.environ, SHARE_TEST_TIMES=str(self.folder)), mock.patch.object(repeating, "OUT", self.folder / "out"):
            for beside, counted in (0, "passed"), (1, "passed beside other work"):
                with contextlib.redirect_stdout(io.StringIO()) as said:
                    status = repeating.repeat(names, 3, beside, self.folder, MODULE_SECONDS)
                    last = said.getvalue().splitlines()[-1]
                self.assertEqual(repeating.read_counts()[names[1]][counted], 3)
                self.assertEqual((status, last), (0, "6 passed, 0 failed") if beside else (1, last))
        kept = [*(self.folder / "out").glob("*.txt")]
        self.assertTrue(kept and all("Traceback" in path.read_text("utf-8") for path in kept))
        self.assertEqual([*descendants(os.getpid())], [])


if __name__ == "__main__":
    unittest.main()
