"""A log that is reached by a slow line: who has a number types at once, and who is new sees the text as it comes."""
import contextlib
import math
import threading
import time
from unittest import mock

from share.format import link as links
from share.log.opening import open_log
from share.store.founding import begun
from share.tests.naive import entry_of, inserting
from share.tests.support import Case, raws_of, wait_for, written
from share.tests.test_joining import history, in_entries
from share.tests.throttle import Throttle
from share.tests.waiting import PATIENCE

LONG = 1_000
# What is typed by somebody else meanwhile.
MORE = b"more" * 1_000


class SlowLine(Case):
    """A note of some 200 KB on a server, which is reached by a slow line."""

    def setUp(self) -> None:
        super().setUp()
        self.server = self.redis()
        about = begun(self.server.url).about
        self.form = about.form()
        self.link = links.Link("sealed", about.secret, self.server.url)
        rounds, self.text = history(LONG)
        self.raws = in_entries(self.form, rounds)
        self.size = sum(map(len, self.raws))

    def fill(self) -> None:
        """Puts the history into the log."""
        with contextlib.closing(open_log(self.server.url, self.form.note)) as log:
            log.append(self.raws)

    def slow(self, most: float) -> Throttle:
        """A line on which no more than this comes, until the test lets more through."""
        line = Throttle(self.server.port, most)
        self.addCleanup(line.close)
        return line

    def test_who_has_a_number_types_at_once(self) -> None:
        ann = self.person("ann")
        note = self.opened(ann, link=self.link.spelled())
        written(note, "mine ")
        note.session.close()
        self.fill()
        # A line that passes nothing on is no server that is away.
        patient = mock.patch("share.log.resp.REPLY_SECONDS", 10 * PATIENCE)
        patient.start()
        self.addCleanup(patient.stop)
        line, begin = self.slow(2_048), time.monotonic()
        with mock.patch("share.sync.session.OPEN_SECONDS", PATIENCE), mock.patch("share.log.page_size.LEAST_ROOM", 2**12):
            note = self.opened(ann, url=line.url)
        self.assertLess(time.monotonic() - begin, PATIENCE)
        self.assertTrue(note.session.status().can_type)
        note.type("at once ")
        self.assertEqual(note.text, b"at once mine ")
        done, total = wait_for(lambda: (note.take_in(), note.session.status().reading)[1], "the log to be read")
        self.assertGreater(total, len(self.raws))
        self.assertEqual(done, 0)
        line.lets_through(self.size / 4)
        wait_for(lambda: (note.take_in(), len(note.text) > 20)[1], "text to come")
        reading = note.session.status().reading
        self.assertLess(reading and reading[0], total / 2)
        line.lets_through(math.inf)
        wait_for(lambda: (note.take_in(), note.session.status())[1].reading is None, "all to be read")
        self.assertEqual(len(self.assert_meet(note)), len(self.text) + len(b"at once mine "))

    def test_who_is_new_waits_for_no_log_that_grows(self) -> None:
        self.fill()
        line, ends = self.slow(self.size / 2), threading.Event()
        writer = threading.Thread(target=self.grow, args=(ends, line))
        writer.start()
        try:
            note = self.opened(self.person("new"), link=self.link._replace(url=line.url).spelled())
            self.assertFalse(note.session.status().can_type)
            claim = self.form.claim(note.session.number, note.session._numbers.own.author).raw
            with contextlib.closing(open_log(self.server.url, self.form.note)) as log:
                wait_for(lambda: claim in raws_of(log), "the claim to be in the log")
            # It is there before all was read that the log had.
            self.assertFalse(note.session._replicator.has_read())
            lengths = set[int]()

            def can_type() -> bool:
                note.take_in()
                lengths.add(len(note.text))
                return note.session.status().can_type

            wait_for(can_type, "a number")
            with contextlib.closing(open_log(self.server.url, self.form.note)) as log:
                self.assertGreater(log.size(), note.session._replicator._fetcher.size)
        finally:
            ends.set()
            writer.join()
        self.assertGreater(len(lengths), 3)
        self.assertGreaterEqual(len(note.text), len(self.text))
        note.type("at last ")
        line.lets_through(math.inf)
        self.assertIn(b"at last ", self.assert_meet(note))

    def grow(self, ends: threading.Event, line: Throttle) -> None:
        """Has the log grow by two bytes for each one that comes on a line, on which never all comes."""
        author = self.form.new_author()
        last, seq, size = self.form.claim(7, author), 0, 0
        with contextlib.closing(open_log(self.server.url, self.form.note)) as log:
            log.append([last.raw])
            while not ends.wait(0.001):
                if size > 2 * line.received:
                    continue
                line.lets_through((self.size + size) / 2)
                last = entry_of(self.form, last, [inserting(7, seq + 1, seq + 1, None, seq * len(MORE), MORE)], author)
                seq, size = seq + 1, size + len(last.raw)
                log.append([last.raw])


if __name__ == "__main__":
    import unittest
    unittest.main()
