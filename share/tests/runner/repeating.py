"""Running modules many times, perhaps beside other work. The number of passes and failures of each is kept in out/tests."""
import contextlib
import json
import os
import pathlib
import subprocess
import sys
from collections.abc import Iterator, Sequence

from share.tests.runner.one_module import Result
from share.tests.runner.side_by_side import results
from tools.gate.running import load

OUT = pathlib.Path(__file__).resolve().parents[3] / "out" / "tests"
COUNTS = "counts.json"
# It works until the process that began it has ended.
BUSY = "import os, sys\nwhile os.getppid() == int(sys.argv[1]):\n    for _ in range(1_000_000):\n        pass\n"
# By module: passes and failures, without and with other work beside.
Counts = dict[str, dict[str, int]]


@contextlib.contextmanager
def busy(processes: int) -> Iterator[None]:
    """Run this number of busy processes meanwhile."""
    begun = [subprocess.Popen([sys.executable, "-c", BUSY, str(os.getpid())]) for _ in range(processes)]
    try:
        yield
    finally:
        for one in begun:
            one.kill()
        for one in begun:
            one.wait()


def read_counts() -> Counts:
    """Return the counts of earlier runs."""
    try:
        found: Counts = json.loads((OUT / COUNTS).read_text("utf-8"))
        return found
    except FileNotFoundError:
        return {}


def add(counts: Counts, result: Result, processes: int) -> None:
    """Count a result, and keep the counts; the output of a failure is kept, too."""
    of_module = counts.setdefault(result.module, {})
    kind = f"{'failed' if result.faults else 'passed'}{' beside other work' if processes else ''}"
    of_module[kind] = of_module.get(kind, 0) + 1
    OUT.mkdir(parents=True, exist_ok=True)
    if result.faults:
        (OUT / f"{result.module}-{sum(of_module.values())}.txt").write_text(result.output, "utf-8", "backslashreplace")
    (OUT / COUNTS).write_text(json.dumps(counts, indent=1), "utf-8")


def repeat(modules: Sequence[str], times: int, processes: int, folder: pathlib.Path, seconds: float) -> int:
    """Run modules many times, beside a number of busy processes. Print the counts of this run, and return the status."""
    counts, here = read_counts(), dict[str, list[int]]()
    with busy(processes):
        for result in results([module for _ in range(times) for module in modules], folder, seconds):
            add(counts, result, processes)
            passes = here.setdefault(result.module, [0, 0])
            passes[bool(result.faults)] += 1
            for fault in result.faults:
                print(f"{result.module}: {fault.words}", flush=True)
            print(f"{result.module}: {passes[0]} passes, {passes[1]} failures, load {load()}", flush=True)
    for module, (passed, failed) in sorted(here.items()):
        print(f"{module:40} {passed} passes, {failed} failures")
    passed, failed = (sum(each[kind] for each in here.values()) for kind in (0, 1))
    print(f"{passed} passed, {failed} failed", flush=True)
    return 1 if failed or not passed else 0
