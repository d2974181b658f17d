"""A thread that works beside the screen."""
import threading
from collections.abc import Callable
from concurrent.futures import Future
from queue import SimpleQueue
from typing import TypeVar

Returned = TypeVar("Returned")


class Worker:
    """A thread that does one thing after another. The end of the process doesn't wait for it."""

    def __init__(self) -> None:
        self._jobs: SimpleQueue[Callable[[], None]] = SimpleQueue()
        threading.Thread(target=self._run, daemon=True).start()

    def do(self, work: Callable[[], Returned]) -> "Future[Returned]":
        """Queues a piece of work; what it gives or raises comes in the future."""
        future: Future[Returned] = Future()

        def job() -> None:
            try:
                future.set_result(work())
            except BaseException as why:
                # Whatever it is, the one who waits hears of it, and the thread goes on.
                future.set_exception(why)

        self._jobs.put(job)
        return future

    def _run(self) -> None:
        while True:
            self._jobs.get()()
