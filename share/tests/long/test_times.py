"""Figures of time: how long one thing takes beside another one."""
import contextlib
import hashlib
import sqlite3
import time
import unittest
from collections.abc import Callable

from share.store.unchanged import Ahead
from share.tests.support import Case, wait_for
from share.tests.test_damage import log_of


def quickest(work: Callable[[], object]) -> float:
    """The least of the processor seconds that some work takes."""
    found = list[float]()
    for _ in range(9):
        begin = time.thread_time()
        work()
        found.append(time.thread_time() - begin)
    return min(found)


class Compared(Case):
    """What is compared for each key."""

    def test_a_log_is_compared_much_quicker_than_hashed(self) -> None:
        with contextlib.closing(sqlite3.connect(self.folder / "file", isolation_level=None)) as file:
            for statement in ("PRAGMA journal_mode = WAL", "PRAGMA wal_autocheckpoint = 0", "CREATE TABLE one (bytes BLOB)",
                              "INSERT INTO one VALUES (randomblob(2000000))"):
                file.execute(statement)
            ahead, log = Ahead(self.folder / "file"), log_of(self.folder / "file").read_bytes()
            self.addCleanup(ahead.close)
            self.assertEqual(bytes(ahead._seen), log)
            # Byte by byte it takes six times as long as to hash it, as a whole a fifth, unless others take the memory's time.
            wait_for(lambda: 3 * quickest(ahead._is_as_seen) < quickest(lambda: hashlib.blake2b(log)), "a log to be compared quickly")


if __name__ == "__main__":
    unittest.main()
