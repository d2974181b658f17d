"""Clients and servers are killed at random points, servers rolled back, logs joined, folders copied and put back:
nothing that was shown or said to be sent is lost, nothing is there twice, and all show the same.

    SHARE_ROUNDS=200 share/tests/run test_killed
"""
import contextlib
import os
import pathlib
import random
import shutil
import subprocess
import threading
import time


from share.tests.note import Note
from share.tests.servers import RedisServer
from share.tests.support import TOP, Case, Person, are_alike, python, type_at_the_end, wait_for, written
from share.tests.waiting import PATIENCE

ROUNDS = int(os.environ.get("SHARE_ROUNDS", "6"))
SEED = int(os.environ.get("VIALSHOAL_SEED", "1"))
# The most words after which a life ends.
LONGEST_LIFE = 30


class Life:
    """A client that types in a process of its own, and is killed at a random moment."""

    def __init__(self, person: Person, link: str, tag: str, chance: random.Random):
        self.person, self.tag, self.typed, self.sent = person, tag, -1, -1
        self.fault = ""
        words = [python(), "-B", "-m", "share.tests.long.typist", tag, link, str(chance.random())]
        # It is killed a moment after this word; some die while they open the note.
        self._last, self._moment = chance.randrange(LONGEST_LIFE), chance.random() * 0.05
        self._dies_early = chance.random() < 0.15
        # On a busy machine words are sent much later than they are typed.
        self._waits_until_sent = chance.random() < 0.3
        self._process = subprocess.Popen(words, cwd=TOP, stdout=subprocess.PIPE, stderr=subprocess.PIPE, text=True,
                                         env={**os.environ, "VIALSHOAL_DATA": str(person.data)})
        self._thread = threading.Thread(target=self._live)
        self._thread.start()

    def _live(self) -> None:
        killer = threading.Timer(0.3 if self._dies_early else self._moment, self._process.kill)
        hung = threading.Timer(PATIENCE, self._process.kill)
        hung.start()
        if self._dies_early:
            killer.start()
        assert self._process.stdout and self._process.stderr
        for line in self._process.stdout:
            word, number = line.split()
            if word == "typed":
                self.typed = int(number)
            elif word == "sent":
                self.sent = int(number)
            if (self.sent > 0 or not self._waits_until_sent) and self.typed >= self._last and not killer.ident:
                killer.start()
        killer.cancel()
        hung.cancel()
        if self._process.wait() != -9:
            self.fault = self._process.stderr.read()
        self._process.stdout.close()
        self._process.stderr.close()

    def end(self) -> None:
        """Waits until it was killed."""
        self._thread.join()


class Killed(Case):
    """Three people and a server, for some rounds."""

    def setUp(self) -> None:
        super().setUp()
        self.chance = random.Random(SEED)
        self.server = self.redis()
        self.others: list[RedisServer] = []
        first = self.person("p0").open(url=self.server.url)
        written(first, "begin ")
        first.session.close()
        self.link = self.person("p0").link()
        self.people = [self.person("p0"), self.person("p1"), self.person("p2")]
        # The words that each life has typed, and may have typed.
        self.lives: list[Life] = []
        self.backups: list[tuple[Person, pathlib.Path]] = []
        self.put_together: list[tuple[Person, list[pathlib.Path]]] = []
        self.was_put_back_together = False

    def round(self, number: int) -> None:
        """Some type and are killed, and perhaps the server with them."""
        lives = [Life(person, self.link, f"{person.data.name}-{number}-{turn}", self.chance)
                 for person in self.people for turn in range(1 + (self.chance.random() < 0.3))]
        if self.chance.random() < 0.5:
            time.sleep(0.2 + self.chance.random())
            self.server.kill()
            time.sleep(self.chance.random() / 3)
            self.server.start()
        for life in lives:
            life.end()
            self.assertEqual(life.fault, "")
        self.lives += lives
        self.copy(number)

    def copy(self, number: int) -> None:
        """Copies a folder of which edits perhaps wait to be sent, to go on with both or to be put back later."""
        what = self.chance.randrange(4)
        if what == 0 and len(self.people) < 6:
            shutil.copytree(self.chance.choice(self.people).data, self.folder / f"u{number}")
            self.people.append(self.person(f"u{number}"))
        elif what == 1:
            self.backups.append((person := self.chance.choice(self.people), self.folder / f"unsent{number}"))
            shutil.copytree(person.data, self.folder / f"unsent{number}")

    def meet(self) -> bytes:
        """Has all people show the same; what they show."""
        notes = [person.open() if person.path().exists() else person.open(link=self.link)
                 for person in self.people]
        try:
            for note in notes:
                type_at_the_end(note, "")
            try:
                # What only others had of a history that was put back is made anew some seconds later.
                wait_for(lambda: are_alike(notes) and self.is_whole(notes), "all to show the same, with all sent")
                if self.without_a_key(notes):
                    # Nobody can make it anew; but it is told, and somebody types it again.
                    note = self.chance.choice(notes)
                    note.session.recover()
                    note.text[:] = note.session.text()
                    wait_for(lambda: are_alike(notes) and not self.without_a_key(notes) and self.is_whole(notes),
                             "what was left out to be there")
            except AssertionError as why:
                self.assert_whole(bytes(notes[0].text), self.without_a_key(notes))
                raise AssertionError("\n".join([str(why), *map(self.told_of, self.people, notes)])) from None
            return bytes(notes[0].text)
        finally:
            for note in notes:
                note.session.close()

    @staticmethod
    def told_of(person: Person, note: Note) -> str:
        """How a note is that doesn't come to be as the others."""
        return f"{person.data.name}: {note.session.status()}, {len(note.text)} bytes, hash {hash(bytes(note.text))}"

    def is_whole(self, notes: list[Note]) -> bool:
        """Whether each word that was typed is there once, and no other."""
        with contextlib.suppress(AssertionError):
            self.assert_whole(bytes(notes[0].text), self.without_a_key(notes))
            return True
        return False

    def without_a_key(self, notes: list[Note]) -> set[str]:
        """The words that were left out with what they build on, and that nobody can make anew: the only disk that had their
        number's key was put back, together with the server, to before that was made."""
        holdings = notes[0].session._holdings
        keys = {who for note in notes for who in note.session._holdings.clients} if self.was_put_back_together else None
        gone = {(one.site, one.author) for one in holdings.judge.left_out()} - keys if keys else set()
        return {word for row in holdings.rows.values() if (row.entry.site, row.entry.author) in gone
                for message in row.entry.messages for word in message.data.decode().split()}

    def assert_whole(self, text: bytes, gone: set[str]) -> None:
        """That each word that was typed is there once, and no other."""
        found: dict[str, int] = {}
        for word in text.decode().split():
            found[word] = found.get(word, 0) + 1
        self.assertEqual([word for word, count in found.items() if count > 1], [])
        numbers: dict[str, list[int]] = {life.tag: [] for life in self.lives}
        for word in found.keys() - {"begin"}:
            tag, _, number = word.rpartition(".")
            numbers[tag].append(int(number))
        for tag, _, number in (word.rpartition(".") for word in gone - found.keys() - {"begin"}):
            numbers[tag].append(int(number))
        for life in self.lives:
            # The last word of a life may be on the disk, and not have been told any more.
            self.assertIn(sorted(numbers[life.tag]), [list(range(life.typed + 1)), list(range(life.typed + 2))], life.tag)

    def disturb(self, number: int) -> None:
        """Does to a server or a disk what people do. All have all at this moment."""
        what = self.chance.randrange(7)
        if what == 6:
            self.put_back_together(number)
        elif what == 0:
            self.server.lose_all()
            self.server.start()
        elif what == 1:
            self.server.kill()
            if (older := self.folder / "older").exists():
                shutil.rmtree(self.server.folder)
                shutil.copytree(older, self.server.folder)
            else:
                shutil.copytree(self.server.folder, older)
            self.server.start()
        elif what == 2 and len(self.people) < 6:
            # Somebody copies a folder, and goes on with both.
            person = self.chance.choice(self.people)
            shutil.copytree(person.data, self.folder / f"c{number}")
            self.people.append(self.person(f"c{number}"))
        elif what == 3 and self.backups:
            person, copy = self.backups.pop()
            shutil.rmtree(person.data)
            shutil.copytree(copy, person.data)
        elif what == 4:
            person = self.chance.choice(self.people[1:])
            shutil.rmtree(person.data)
        else:
            person = self.chance.choice(self.people)
            copy = self.folder / f"backup{number}"
            shutil.copytree(person.data, copy)
            self.backups.append((person, copy))

    def put_back_together(self, number: int) -> None:
        """Puts a folder and the server back, together, to how they were at one moment; or copies both for that."""
        self.server.kill()
        if self.put_together:
            self.was_put_back_together = True
            person, copies = self.put_together.pop()
            for folder, copy in zip((person.data, self.server.folder), copies):
                shutil.rmtree(folder)
                shutil.copytree(copy, folder)
        else:
            person = self.chance.choice(self.people)
            copies = [self.folder / f"{kind}{number}" for kind in ("person", "server")]
            for folder, copy in zip((person.data, self.server.folder), copies):
                shutil.copytree(folder, copy)
            self.put_together.append((person, copies))
        self.server.start()

    def test_rounds(self) -> None:
        for number in range(ROUNDS):
            self.round(number)
            if number % 2:
                self.meet()
                self.disturb(number)
        text = self.meet()
        for person in self.people:
            self.assertEqual(person.text(), text)
            with person.here():
                run = self.note("note", "--print")
            self.assertEqual((run.returncode, run.stderr), (0, ""))
            self.assertEqual(run.stdout, text.decode())
        print(f"{ROUNDS} rounds, {len(self.lives)} kills, {len(text.split())} words")
        self.assertGreater(max(life.sent for life in self.lives), 0)
        with contextlib.suppress(OSError):
            print(f"{sum(path.stat().st_size for path in self.folder.rglob('*.note')):,} bytes of notes")
