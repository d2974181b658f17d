"""`--print` takes no number, makes and changes nothing but that it keeps what came from the log, and says what is missing on standard error
with a status of its own."""
import os
import pathlib
import shutil
import subprocess
import unittest
from contextlib import closing

from share.format.operation import DELETE
from share.tests.naive import about, entry_of
from share.tests.support import NOTE, Case, Person, change, claim_of, type_at_the_end, written
from share.tests.waiting import PATIENCE

INCOMPLETE = 3
SOMEBODY = 65_534


def files_of(folder: pathlib.Path) -> dict[str, tuple[bytes, int]]:
    """All files of a folder, with their modes. What SQLite has in its shared memory is no file of a note."""
    return {str(path.relative_to(folder)): (path.read_bytes() if path.is_file() else b"", path.stat().st_mode)
            for path in folder.rglob("*") if path.suffix != ".note-shm"}


class Printing(Case):
    """Each test has a note of somebody with a log in a file."""

    def setUp(self) -> None:
        super().setUp()
        self.ann = self.person("ann")
        note = self.ann.open(url=self.file_log())
        for words in "one ", "two ", "three ":
            written(note, words)
        note.session.close()

    def printed(self, person: Person, *more: str, name: str = "note", **environment: str) -> subprocess.CompletedProcess[str]:
        """A run that prints somebody's note."""
        return self.note(name, "--print", *more, VIALSHOAL_DATA=str(person.data), **environment)

    def assert_prints(self, run: subprocess.CompletedProcess[str], text: str, *missing: str) -> None:
        """That a run printed a text, and said that these are missing, each in a line."""
        self.assertEqual((run.stdout, run.returncode), (text, INCOMPLETE if missing else 0), run.stderr)
        self.assertEqual(len(run.stderr.splitlines()), len(missing), run.stderr)
        for words in missing:
            self.assertRegex(run.stderr, words)

    def test_it_takes_no_number_and_changes_nothing(self) -> None:
        before = files_of(self.folder)
        self.assert_prints(self.printed(self.ann), "one two three ")
        self.assertEqual(files_of(self.folder), before)

    def test_by_the_link_alone_nothing_is_made(self) -> None:
        link, before = self.ann.link(), files_of(self.folder)
        run = self.printed(self.person("nobody"), VIALSHOAL_LINK=link)
        self.assert_prints(run, "one two three ")
        self.assertEqual(files_of(self.folder), before)

    def test_a_mistyped_name_makes_nothing(self) -> None:
        before = files_of(self.folder)
        self.assert_says(self.printed(self.ann, name="nose"), "There is no note nose here", "give its link")
        self.assert_says(self.printed(self.person("nobody")), "There is no note note here")
        self.assertEqual(files_of(self.folder), before)

    def test_the_log_may_have_more(self) -> None:
        bob = self.opened(self.person("bob"), link=self.ann.link())
        written(bob, "four ")
        names = files_of(self.ann.data).keys()
        self.assert_prints(self.printed(self.ann), "one two three four ")
        # It is kept, and nothing else is made.
        self.assertEqual(files_of(self.ann.data).keys(), names)
        bob.session.close()
        shutil.rmtree(self.folder / "shared")
        self.assert_prints(self.printed(self.ann), "one two three four ", "The log can't be read .*what is here")

    def test_beside_an_editor(self) -> None:
        note = self.opened(self.ann)
        written(note, "four ")
        self.assert_prints(self.printed(self.ann), "one two three four ")
        self.assertEqual(note.session.status().on, 1)

    def test_a_log_that_is_away(self) -> None:
        shutil.rmtree(self.folder / "shared")
        self.assert_prints(self.printed(self.ann), "one two three ", "The log can't be read .*isn't there.*what is here")
        self.assertFalse((self.folder / "shared").exists())
        other = self.printed(self.ann, "--log", "redis://127.0.0.1:1")
        self.assert_says(other, "isn't sealed, and nothing goes to a server unsealed")

    def test_a_log_that_was_tampered_with(self) -> None:
        link = self.ann.link()
        log = pathlib.Path(self.file_log())
        with closing(self.ann.disk()) as disk:
            _, second, _ = [row.entry.raw for row in disk.entries.rows() if row.entry.size]
        change(log, "UPDATE entry SET raw = CAST(substr(raw, 1, length(raw) - 1) || x'07' AS BLOB) WHERE raw = ?", second)
        run = self.printed(self.person("nobody"), VIALSHOAL_LINK=link)
        self.assert_prints(run, "one ", "An entry of the log is damaged", "1 message lacks")
        self.assert_prints(self.printed(self.ann), "one two three ", "An entry of the log is damaged")

    def test_a_log_that_was_truncated(self) -> None:
        link = self.ann.link()
        change(pathlib.Path(self.file_log()), "DELETE FROM entry WHERE place <= 2")
        run = self.printed(self.person("nobody"), VIALSHOAL_LINK=link)
        self.assert_prints(run, "", "2 messages lack")
        self.assert_prints(self.printed(self.ann), "one two three ")

    def test_rubbish_in_the_log(self) -> None:
        link = self.ann.link()
        change(pathlib.Path(self.file_log()), "INSERT INTO entry (hash, raw) VALUES (x'00', 'words')")
        run = self.printed(self.person("nobody"), VIALSHOAL_LINK=link)
        self.assert_prints(run, "one two three ", "1 entry of the log can't be read")

    def test_a_file_that_was_damaged(self) -> None:
        path = self.ann.path()
        data = path.read_bytes()
        at = data.index(b"three ")
        path.write_bytes(data[:at] + b"T" + data[at + 1:])
        shutil.rmtree(self.folder / "shared")
        run = self.printed(self.ann)
        self.assert_prints(run, "one two ", "An entry of the file is damaged", "The log can't be read")
        path.write_bytes(data[:200])
        self.assert_says(self.printed(self.ann), "is damaged, or isn't a note's file")

    def test_a_message_that_is_wrong(self) -> None:
        with closing(self.ann.disk()) as disk:
            author = disk.form.new_author()
            claim = claim_of(disk.form, 9, author)
            bad = entry_of(disk.form, claim, [about(DELETE, 9, 1, 1, [(9, 0, 1)])], author)
        with closing(self.ann.log()) as log:
            log.append([claim.raw, bad.raw])
        self.assert_prints(self.printed(self.ann), "one two three ", "Message 1 of site 9 is wrong")

    def test_an_empty_note(self) -> None:
        self.person("new").open().session.close()
        self.assert_prints(self.printed(self.person("new")), "")

    def test_nobody_reads_what_is_printed(self) -> None:
        environment = {**os.environ, "VIALSHOAL_DATA": str(self.ann.data)}
        with subprocess.Popen([NOTE, "note", "--print"], stdout=subprocess.PIPE, stderr=subprocess.PIPE,
                              env=environment) as run:
            assert run.stdout and run.stderr
            run.stdout.close()
            self.assertEqual(run.stderr.read(), b"")


@unittest.skipUnless(os.geteuid() == 0 and shutil.which("setpriv"), "root alone can be another account")
class ReadOnly(Case):
    """A note in a folder in which nothing can be written."""

    def setUp(self) -> None:
        super().setUp()
        note = self.opened(self.person(), url=self.file_log())
        for words in "one ", "two ":
            written(note, words)
        note.session.close()

    def as_somebody(self) -> subprocess.CompletedProcess[str]:
        """A run that prints the note by an account that can read it alone."""
        for path in [self.folder, *self.folder.rglob("*")]:
            path.chmod(0o555 if path.is_dir() else 0o444)
        words = ["setpriv", f"--reuid={SOMEBODY}", f"--regid={SOMEBODY}", "--clear-groups", NOTE, "note", "--print"]
        return subprocess.run(words, capture_output=True, text=True, check=False, timeout=PATIENCE,
                              env={**os.environ, "TMPDIR": "/tmp"})

    def test_a_note_that_is_closed(self) -> None:
        before = files_of(self.folder).keys()
        run = self.as_somebody()
        self.assertEqual(run.stdout, "one two ", run.stderr)
        self.assertEqual(files_of(self.folder).keys(), before)

    def test_a_note_whose_editor_was_killed(self) -> None:
        note = self.opened(self.person())
        type_at_the_end(note, "three ")
        copy = self.folder / "copy"
        shutil.copytree(self.folder / "data", copy)
        note.session.close()
        (copy / "notes" / "note.note-shm").unlink(missing_ok=True)
        shutil.rmtree(self.folder / "data")
        copy.rename(self.folder / "data")
        self.assertEqual(self.as_somebody().stdout, "one two three ")


if __name__ == "__main__":
    unittest.main()
