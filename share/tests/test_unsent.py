"""Folders that are copied, and disks that are put back, while edits wait to be sent: each word is there once, and all show
the same."""
import contextlib
import shutil
import subprocess
from collections.abc import Sequence
from unittest import mock

from share.log.base import Unreachable
from share.log.sqlite import SqliteLog
from share.tests.servers import FileLog
from share.tests.support import Case, Person, type_at_the_end, wait_for, written


class OnAServer(Case):
    """The real program and a server that is away for a while."""

    def run_by(self, person: Person, *words: str) -> str:
        """What bin/note prints to a person."""
        run: subprocess.CompletedProcess[str] = self.note(*words, VIALSHOAL_DATA=str(person.data))
        self.assertEqual(run.returncode, 0, run.stderr)
        return run.stdout

    def assert_each_once(self, brought_back: bool) -> None:
        """That each word is there once at everybody, where a copy of a folder with unsent edits is opened."""
        server, anna = self.redis(), self.person("anna")
        first = anna.open(url=server.url)
        written(first, "begun\n")
        first.session.close()
        berta = self.opened(self.person("berta"), link=anna.link())
        server.kill()
        for word in "TRAIN-1", "TRAIN-2":
            self.run_by(anna, "append", "note", word)
        shutil.copytree(anna.data, self.folder / "copy")
        server.start()
        self.run_by(anna, "append", "note", "ON")
        self.assert_comes_to(berta, b"begun\rTRAIN-1\rTRAIN-2\rON\r")
        berta.moved_to(len(b"begun\rTRAIN-1\r"))
        berta.type("between\n")
        written(berta, "")
        copy = self.person("copy")
        if brought_back:
            shutil.rmtree(anna.data)
            shutil.copytree(copy.data, anna.data)
            copy = anna
        notes = [self.opened(copy), berta, self.opened(anna)]
        self.assert_comes_to(notes[0], b"begun\rTRAIN-1\rbetween\rTRAIN-2\rON\r")
        type_at_the_end(notes[0], "copy\n")
        text = self.assert_meet(*notes)
        self.assertEqual(text, b"begun\rTRAIN-1\rbetween\rTRAIN-2\rON\rcopy\r")
        self.assertEqual(self.run_by(copy, "cat", "note").encode(), text.replace(b"\r", b"\n"))

    def test_a_copy_that_is_opened_later(self) -> None:
        self.assert_each_once(brought_back=False)

    def test_a_disk_that_is_put_back(self) -> None:
        self.assert_each_once(brought_back=True)


class InAFile(Case):
    """Two copies of a folder with a thousand edits that weren't sent."""

    EDITS = 1_000

    def stopped_between_batches(self, person: Person, after: int) -> None:
        """Stops an editor that has sent this many batches."""
        append, sent = SqliteLog.append, list[int]()

        def appended(log: SqliteLog, raws: Sequence[bytes]) -> None:
            if len(sent) == after:
                raise Unreachable("it is stopped")
            sent.append(len(raws))
            append(log, raws)

        with mock.patch.object(SqliteLog, "append", appended), mock.patch("share.sync.session.SEND_SECONDS", 0):
            note = person.open()
            wait_for(lambda: (note.take_in(), len(sent) == after and note.session.status().offline)[1], "it to be stopped")
            note.session.close()

    def test_the_original_is_stopped_between_two_batches(self) -> None:
        url, anna, copy = self.file_log(), self.person("anna"), self.person("copy")
        first = anna.open(url=url)
        written(first, "begun ")
        berta = self.opened(self.person("berta"), link=anna.link())
        log = FileLog(self.folder)
        log.kill()
        wait_for(lambda: first.session.status().offline, "the log to be away")
        words = [f"w{number} " for number in range(self.EDITS)]
        first.moved_to(len(first.text))
        for number, word in enumerate(words):
            first.type(word)
            first.moved_to(len(first.text))
            if number == self.EDITS // 2:
                first.session.close()
                shutil.copytree(anna.data, copy.data)
                first = anna.open()
        first.session.close()
        # The copy has half of them, and another word after these.
        other = copy.open()
        type_at_the_end(other, "other ")
        other.session.close()
        log.start()
        self.stopped_between_batches(anna, 2)
        other = self.opened(copy)
        written(berta, "berta ")
        self.assertEqual(sorted(self.assert_meet(other, berta).split()),
                         sorted([b"begun", b"berta", b"other", *(b"w%d" % number for number in range(501))]))
        text = self.assert_meet(self.opened(anna), other, berta)
        self.assertEqual(sorted(text.split()), sorted(f"begun berta other {''.join(words)}".encode().split()))
        with contextlib.closing(anna.disk()) as disk:
            self.assertGreater(len(disk.entries.rows()), self.EDITS)
