"""Running modules of tests side by side, each in a process of its own. A module that takes too long is ended; its output shows where it
was."""
import contextlib
import multiprocessing
import os
import pathlib
import signal
import time
from collections.abc import Iterator, Sequence
from multiprocessing import connection
from typing import NamedTuple

from share.tests.processes import descendants, handles
from share.tests.runner.one_module import Fault, Result, all_tests, at_a_time, run

# Seconds for an ended module to write where it was, or to end by itself after it has sent its result.
ENDING_SECONDS = 120.0


class Running(NamedTuple):
    """A module that runs: its process, the file of its output, and when it must have ended."""

    module: str
    process: multiprocessing.context.ForkProcess
    output: pathlib.Path
    end: float

    def ends(self) -> bool:
        """Wait for its process, and say whether it ended. Its number stays its own until it is joined."""
        return bool(connection.wait([self.process.sentinel], ENDING_SECONDS))

    def kill(self) -> None:
        """End its process, and all that this one started and that still runs."""
        for process in [*descendants(self.process.pid or 0), self.process.pid or 0]:
            with contextlib.suppress(ProcessLookupError):
                os.kill(process, signal.SIGKILL)
        self.process.join()

    def fault(self, what: str) -> Result:
        """Return the result of a module that sent none."""
        words = f"{self.module} {what}"
        output = f"{self.output.read_text('utf-8', 'replace')}\nFAIL: {words}\n"
        return Result(self.module, 0, output, [Fault(self.module, words)])


def run_and_send(module: str, output: pathlib.Path, only: frozenset[str], end: "connection.Connection") -> None:
    """Run a module in this process, and send its result."""
    end.send(run(module, output, only))


def start(module: str, output: pathlib.Path, seconds: float, only: frozenset[str]) -> tuple["connection.Connection", Running]:
    """Start a module. Return the end at which its result is received."""
    forking = multiprocessing.get_context("fork")
    ours, theirs = forking.Pipe(duplex=False)
    output.touch()
    process = forking.Process(target=run_and_send, args=(module, output, only, theirs))
    process.start()
    theirs.close()
    return ours, Running(module, process, output, time.monotonic() + seconds)


def results(modules: Sequence[str], folder: pathlib.Path, seconds: float, only: frozenset[str] = frozenset()) -> Iterator[Result]:
    """Yield the result of each module, or of some of its tests, as soon as it is known or has taken too long."""
    waiting, running = [*enumerate(modules)], dict[connection.Connection, Running]()
    try:
        while waiting or running:
            while waiting and len(running) < at_a_time():
                number, module = waiting.pop(0)
                line, one = start(module, folder / f"{number}-{module}", seconds, only)
                running[line] = one
            patience = max(0.0, min(one.end for one in running.values()) - time.monotonic())
            for ready in connection.wait([*running], patience):
                assert isinstance(ready, connection.Connection)
                yield received(ready, running.pop(ready))
            for late in [line for line, one in running.items() if time.monotonic() >= one.end and not line.poll()]:
                yield given_up(late, running.pop(late), seconds)
    finally:
        for one in running.values():
            one.kill()


def received(line: "connection.Connection", one: Running) -> Result:
    """Return what a module has sent. Its process then ends."""
    with line:
        try:
            result: Result | None = line.recv()
        except (EOFError, OSError):
            result = None
    has_ended = one.ends()
    if has_ended:
        one.process.join()
    else:
        one.kill()
    if result is None:
        return one.fault(f"ended its process, with status {one.process.exitcode}")
    if not has_ended:
        fault = Fault(one.module, f"{one.module} has run, and its process didn't end", all_tests(result.faults))
        return result._replace(output=f"{result.output}FAIL: {fault.words}\n", faults=[*result.faults, fault])
    return result


def given_up(line: "connection.Connection", one: Running, seconds: float) -> Result:
    """End a module that takes too long, and return its output as a failure."""
    process = one.process.pid or 0
    # (what it started is nobody's child once it has ended)
    with line, handles(descendants(process)) as started:
        with contextlib.suppress(ProcessLookupError):
            # If it can, it writes where each of its threads is.
            os.kill(process, signal.SIGABRT)
        one.ends()
        one.kill()
        for each in started:
            with contextlib.suppress(ProcessLookupError):
                signal.pidfd_send_signal(each, signal.SIGKILL)
    return one.fault(f"was ended, since it took more than {seconds:.0f} seconds")
