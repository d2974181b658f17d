"""What this process has open: its descriptors, and its threads."""
import contextlib
import os
import re
import threading
from collections import Counter
from typing import NamedTuple

from share.tests.waiting import wait_for

# How long is waited for what ends by itself: a connection that is being made, and a thread that waits for it.
ENDING_SECONDS = 120
# What tells one of a kind from another.
NUMBERS = re.compile(r"\d+|(?<=share-)\w+")


class Open(NamedTuple):
    """Descriptors with what they are of, and threads with what they do."""

    descriptors: Counter[str]
    threads: Counter[str]

    def beyond(self, before: "Open") -> "Open":
        """What is open that wasn't before."""
        return Open(self.descriptors - before.descriptors, self.threads - before.threads)

    def words(self) -> str:
        """What it is, in words; nothing where it is nothing."""
        kinds = {"descriptors": self.descriptors, "threads": self.threads}
        return " and ".join(f"{found.total()} {kind} open: {_listed(found)}" for kind, found in kinds.items() if found)


def open_now() -> Open:
    """What is open now."""
    descriptors = Counter[str]()
    for one in os.listdir("/proc/self/fd"):
        with contextlib.suppress(FileNotFoundError):
            descriptors[NUMBERS.sub("N", os.readlink(f"/proc/self/fd/{one}"))] += 1
    threads = [NUMBERS.sub("N", one.name) for one in threading.enumerate() if one is not threading.main_thread()]
    # The folder itself is open meanwhile.
    return Open(descriptors - Counter(["/proc/N/fd"]), Counter(threads))


def left_open(before: Open) -> str:
    """What is open beyond what was before, in words, once what ends by itself has ended; nothing where it is nothing."""
    with contextlib.suppress(AssertionError):
        wait_for(lambda: not open_now().beyond(before).words(), "what is open to end", ENDING_SECONDS)
    return open_now().beyond(before).words()


def _listed(found: Counter[str]) -> str:
    return ", ".join(f"{what} ({many})" if many > 1 else what for what, many in sorted(found.items()))
