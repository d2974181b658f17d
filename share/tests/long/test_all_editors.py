"""A terminal, Emacs with and without Evil, Neovim and a page of Chromium are at one note. In each somebody types, deletes, rewrites and
takes back at random, by commands that ask, too, and in Neovim and Evil in blocks, while the log is stopped and started, and editors and
engines are killed: each word that nobody deleted or rewrote stands in one text, which all have, as often as it was typed and where it was.
In each round an engine is killed, and its editors' users type on. What is planted is found in its round.
In a note of the second form words are remarked on, others suggested for them, and these answered, accepted and rejected, by the same
editors and by scripts: then all have the same threads at the same places, those that the plain program finds.

    SHARE_SECONDS=300 VIALSHOAL_SEED=7 share/tests/run test_all_editors
    SHARE_ROUNDS=100 VIALSHOAL_SEED=7 python3 -B -m share.tests.long.test_all_editors --plant drop
"""
import contextlib
import os
import random
import re
import subprocess
import sys
import threading
import time
import unittest
from collections import Counter
from collections.abc import Callable, Iterator
from concurrent.futures import ThreadPoolExecutor
from dataclasses import dataclass
from functools import partial

from share.tests.bursting import Faults, faults_of
from share.tests.editors import Editor
from share.tests.forms import is_second_form
from share.tests.long.ending import print_end, take_plant
from share.tests.relays import RelayProcess
from share.tests.said import STATES, Said, Sayings, Told, alike, as_plain, plainly
from share.tests.servers import FileLog, RedisServer
from share.tests.support import NOTE, Case, wait_for, written
from share.tests.writers import PATIENCE, Cut, Emacs, EvilEmacs, Neovim, OwnEditor, PageInChromium, State, Writer, kill_editor, kill_engine
from share.text.line import Line

SECONDS, ROUNDS = float(os.environ.get("SHARE_SECONDS", "0")), int(os.environ.get("SHARE_ROUNDS", "0"))
SEED = int(os.environ.get("VIALSHOAL_SEED", "1"))
PLANT = ""
# The fewest and the most things that each does before all meet.
ROUND = (5, 25) if SECONDS else (3, 12) if ROUNDS else (3, 4)
EDITORS: list[type[Writer]] = [OwnEditor, Emacs, EvilEmacs, Neovim, PageInChromium]
# Of so many things that each does one is said of the text.
ONE_SAID_OF = 3 if SECONDS or ROUNDS else 5
WORD = re.compile(r"[tevnpqf]\d{4}[abc]*\.|begin\.")


@dataclass
class Word:
    """A word of the text, and what is known of it."""

    text: str
    # Who alone may delete it, or take it back, as long as not all have met.
    holder: "Author"
    # None where somebody was killed meanwhile: then the text says it when all have met.
    is_there: bool | None = None
    # Whether nothing has happened to it since all have met, but that it was typed.
    is_fresh: bool = True
    # In how many lines it stands, and whether it ends each of them.
    times: int = 1
    ends_line: bool = True


@dataclass
class Step:
    """An edit that can be taken back: a word that was typed, one that was deleted, or both."""

    typed: Word | None
    deleted: Word | None = None

    def words(self) -> list[tuple[Word, bool]]:
        """Its words, and whether they are there after it."""
        return [(word, word is self.typed) for word in (self.typed, self.deleted) if word]


class Author:
    """Who writes in an editor. What an author does with a word is known before it is done, so that what is to come of
    all is known, too."""

    def __init__(self, writer: Writer, words: list[Word], deciding: threading.Lock, chance: random.Random,
                 sayings: Sayings | None = None, told: Told | None = None):
        self.writer, self.words, self._deciding, self._chance = writer, words, deciding, chance
        # What is said of words, where the note has a margin.
        self._sayings, self._told = sayings, told
        # What can be taken back, the last edit last.
        self.steps: list[Step] = []
        self._typed = self._acts = 0
        self.did = Counter[str]()
        # Whoever holds this lets no engine be killed, because a request that is under way then is dropped.
        self.asking = threading.RLock()
        # Whether the engine was killed since the editor was known to have the note open.
        self.has_lost_engine = False

    def write(self, many: int, done: "Done") -> None:
        """Does some things, one after the other."""
        with done.or_failed():
            for _ in range(many):
                try:
                    self._act()
                except Cut:
                    self.recover()
                done.more()
                time.sleep(self._chance.random() * 0.1)

    def recover(self) -> None:
        """Opens the note again. Nothing can be taken back then that was done before."""
        self.did["killed"] += 1
        self.steps.clear()
        with self.asking:
            self.has_lost_engine = False
            self.writer.recover()

    @contextlib.contextmanager
    def _with_engine(self) -> Iterator[None]:
        """Ask an engine meanwhile, which nobody kills."""
        with self.asking:
            self.has_engine()
            yield

    def has_engine(self) -> None:
        """Wait until the editor has the note open, if its engine was killed."""
        if self.has_lost_engine:
            self.writer.opens_again()
            self.has_lost_engine = False

    def _act(self) -> None:
        self._acts += 1
        if self._sayings and self._told and self._acts % ONE_SAID_OF == 0:
            with self._with_engine():
                self.say(self._sayings, self._told)
            return
        what = self._chance.random()
        if what < 0.15 and self.steps:
            with self._with_engine():
                self.undo()
        elif what < 0.3 and (word := self._chosen()):
            self.delete(word)
        elif what < 0.5 and (word := self._chosen()):
            self.rewrite(word)
        elif what < 0.65 and isinstance(self.writer, Neovim | EvilEmacs):
            self.write_in_block(self.writer)
        else:
            self.type()

    def _new_word(self) -> Word:
        self._typed += 1
        tail = "".join(self._chance.choices("abc", k=self._chance.randrange(4)))
        word = Word(f"{self.writer.tag}{self._typed:04}{tail}.", self)
        with self._deciding:
            self.words.append(word)
        return word

    def _some_line(self) -> int:
        return self._chance.randint(1, self.writer.seen().text.count("\n") + 1)

    def _pause(self) -> None:
        """Waits a moment in the midst of a command, while others type."""
        time.sleep(self._chance.random() * 0.2)

    def type(self) -> None:
        """Types a word at the begin of some line, which is a place where no word is cut in two."""
        word = self._new_word()
        self.writer.go_to(self._some_line())
        rest = f"{word.text}\n"
        while rest:
            many = self._chance.choice((1, 1, 2, len(rest)))
            self.writer.type(rest[:many])
            rest = rest[many:]
            time.sleep(self._chance.random() * 0.03)
        self._did("typed", Step(word))

    def write_in_block(self, writer: Neovim | EvilEmacs) -> None:
        """Types a word at the begins of some lines at once."""
        word = self._new_word()
        word.ends_line = False
        word.times = writer.write_in_block(self._some_line(), self._chance.randint(1, 3), word.text, self._pause)
        self._did("in blocks", Step(word))

    def say(self, sayings: Sayings, told: Told) -> None:
        """Says something of a word, by the editor or by a script."""
        with self._deciding:
            free = {word for word, said in sayings.all.items() if said.is_free and said.states == {"open"}}
        is_answer = free and self._chance.random() < 0.7
        word = self._chosen(lambda one: one in free if is_answer else one not in sayings.all and one not in sayings.new)
        if not word:
            return
        is_scripts = self._chance.random() < 0.3
        if not is_answer:
            self._begin(sayings, told, word, is_scripts)
        elif (said := sayings.all[word.text]).new and self._chance.random() < 0.5:
            self._accept(said, told, word, is_scripts)
        else:
            self._answer(said, told, word, is_scripts)

    def _begin(self, sayings: Sayings, told: Told, word: Word, is_scripts: bool) -> None:
        """Remarks on a word, or suggests another one for it."""
        what = self._chance.choice(["remark", "suggest"])
        new = self._new_word() if what == "suggest" else None
        if new:
            new.is_there, new.ends_line = False, word.ends_line
        said = sayings.begins(Said(word.text, new.text if new else "", "" if new else f"on {word.text}"))
        self._says(told, what, word, said.new or said.body, is_scripts, said)
        self._is_told(told, word, lambda one: True)
        said.is_sure = True

    def _answer(self, said: Said, told: Told, word: Word, is_scripts: bool) -> None:
        """Replies, or says what is to become of it."""
        said.is_free = False
        what = self._chance.choice(["reply", "reply", "reject" if said.new else "resolve"])
        if what == "reply":
            reply = f"re {word.text} {len(said.replies)}"
            said.replies[reply] = False
            self._says(told, what, word, reply, is_scripts, said)
            self._is_told(told, word, lambda one: any(it["body"] == reply for it in one["replies"]))
            said.replies[reply] = True
        else:
            said.states.add(STATES[what])
            self._says(told, what, word, "", is_scripts, said)
            self._is_told(told, word, lambda one: one["state"] == STATES[what])
            said.states = {STATES[what]}

    def _accept(self, said: Said, told: Told, word: Word, is_scripts: bool) -> None:
        """Accepts what is suggested for a word."""
        said.is_free = False
        # So it is where what is suggested is deleted later.
        said.states.add("resolved")
        new = next(one for one in self.words if one.text == said.new)
        self._changes(word, new)
        self._says(told, "accept", word, "", is_scripts, said)
        step = Step(new, word)
        self._waits_for("accepted", step.words())
        if not is_scripts:
            self.steps.append(step)

    def _says(self, told: Told, what: str, word: Word, words: str, is_scripts: bool, said: Said) -> None:
        """Has the editor or a script say something."""
        if not is_scripts and what in ("remark", "suggest"):
            self.writer.begin(what, word.text, words)
        elif not is_scripts:
            self.writer.answer(what, word.text, words, said.new or said.body)
        elif not told.does(what, word.text, words):
            # Its engine may have been killed; nothing else stops it.
            self.writer.wait_for(lambda state: False, f"{what} {word.text} {words} by a script")
        else:
            self.did["by scripts"] += 1

    def _is_told(self, told: Told, word: Word, is_so: Callable[[Line], bool]) -> None:
        """Waits until this person's engine says something of the thread about a word."""
        def is_told() -> bool:
            if self.writer.is_cut:
                raise Cut
            return any(is_so(one) for one in told.threads() if one["text"] == word.text)

        try:
            wait_for(is_told, f"what is said of {word.text}", PATIENCE)
        except AssertionError as why:
            raise AssertionError(f"{why}: {self.writer.looks()}") from why
        self.did["said"] += 1

    def _chosen(self, is_such: Callable[[str], bool] = lambda word: True) -> Word | None:
        """An own word, or one of somebody else's, that this one alone may change from now on."""
        shown = self.writer.seen().text
        with self._deciding:
            may = [word for word in self.words if word.is_there and word.times == 1 and word.text in shown
                   and (word.holder is self or word.is_fresh) and is_such(word.text)]
            own = [word for word in may if word.holder is self]
            found = self._chance.choice(own if own and self._chance.random() < 0.6 else may) if may else None
            if found:
                found.holder, found.is_fresh = self, False
        return found

    def delete(self, word: Word) -> None:
        """Deletes a word."""
        self._changes(word)
        self.writer.delete(word.text)
        self._did("deleted", Step(None, word))

    def rewrite(self, word: Word) -> None:
        """Has a new word stand in the place of another one."""
        new = self._new_word()
        new.ends_line = word.ends_line
        self._changes(word)
        self.writer.rewrite(word.text, new.text, self._pause)
        self._did("rewritten", Step(new, word))

    def undo(self) -> None:
        """Takes back the last edit, unless that is another one's to change."""
        words = self.steps[-1].words()
        with self._deciding:
            if any(word.holder is not self or word.is_there is not is_there for word, is_there in words):
                return
        self._changes(*(word for word, _ in words))
        self.steps.pop()
        self.writer.undo()
        self._waits_for("taken back", [(word, not is_there) for word, is_there in words])

    def _changes(self, *words: Word) -> None:
        """Says that what becomes of words isn't known until this author has seen it."""
        with self._deciding:
            for word in words:
                word.holder, word.is_fresh, word.is_there = self, False, None

    def undo_what_is_gone(self) -> None:
        """Takes back the typing of a word that another one has deleted, while nobody else writes: its line end goes."""
        lines, word = self.writer.seen().text.count("\n"), self.steps.pop().typed
        assert word
        word.ends_line = False
        self.writer.undo()
        self.writer.wait_for(lambda state: state.text.count("\n") == lines - 1, "a line end less")

    def _did(self, what: str, step: Step) -> None:
        """Waits until an edit is shown, which can be taken back then."""
        self._waits_for(what, step.words())
        self.steps.append(step)

    def _waits_for(self, what: str, words: list[tuple[Word, bool]]) -> None:
        """Waits until the editor shows words, or doesn't, and all is answered."""
        def is_shown(state: State) -> bool:
            return state.quiet and all(state.text.count(word.text) == is_there * word.times for word, is_there in words)

        self.writer.wait_for(is_shown, f"{what} {[word.text for word, _ in words]}")
        for word, is_there in words:
            word.is_there = is_there
        self.did[what] += 1


class Done:
    """How many things all have done in a round."""

    def __init__(self) -> None:
        self._many, self._changed = 0, threading.Condition()
        self._has_failed = False

    @contextlib.contextmanager
    def or_failed(self) -> Iterator[None]:
        """Have nobody wait any more if something goes wrong meanwhile."""
        try:
            yield
        except BaseException:
            with self._changed:
                self._has_failed = True
                self._changed.notify_all()
            raise

    def more(self) -> None:
        """One more is done."""
        with self._changed:
            self._many += 1
            self._changed.notify_all()

    def wait_for(self, many: int, moment: float) -> None:
        """Waits until so many are done, and a moment more, in which others are amid theirs."""
        with self._changed:
            while (before := self._many) < many:
                self._changed.wait(PATIENCE)
                assert self._many > before and not self._has_failed, f"{before} of {many} things are done"
        time.sleep(moment)


def begun(case: Case, url: str, text: str) -> str:
    """Begins a note of ada's with a text; its link."""
    first = case.person("ada").open(url=url)
    written(first, text.replace("\n", "\r"))
    first.session.close()
    return case.person("ada").link()


class AllEditors(Case):
    """Two people, with all editors."""

    def setUp(self) -> None:
        super().setUp()
        self.chance = random.Random(SEED)
        self.log = self.log_of_all()
        link = begun(self, self.log.url, "begin.\n")
        self.words: list[Word] = []
        # The words that were being typed as something was killed: parts of them may be there.
        self.broken: set[str] = set()
        # The words of the text in their order, as all met the last time.
        self.order: list[str] = []
        self.rounds = self.kills = 0
        self.faults = Faults(0, 0, 0)
        self.deciding = threading.Lock()

        def opened(kind: type[Writer], person: str) -> Writer:
            return kind(self, person, link)

        with ThreadPoolExecutor() as threads:
            writers = [*threads.map(opened, *zip(*self.people()))]
        self.told = {person: Told(self.folder / person) for person in ("ada", "bo")}
        for told in self.told.values():
            self.addCleanup(told.close)
        self.sayings = Sayings() if is_second_form() else None
        self.authors = [self.author(writer) for writer in writers]

    def log_of_all(self) -> RedisServer | FileLog | RelayProcess:
        """The log by which all have the note."""
        return self.redis() if SEED % 3 else FileLog(self.folder)

    def people(self) -> list[tuple[type[Writer], str]]:
        """Which editors there are, and whose each is."""
        people = ["ada", "ada", "bo", "bo", self.chance.choice(["ada", "bo"])]
        self.chance.shuffle(people)
        return [*zip(EDITORS, people)]

    def author(self, writer: Writer) -> Author:
        """Who writes in an editor."""
        return Author(writer, self.words, self.deciding, random.Random(self.chance.random()), self.sayings, self.told[writer.person])

    def test_what_nobody_deleted_stands_once(self) -> None:
        began, turns = time.monotonic(), self.turns()
        kinds: list[Author | None] = []
        try:
            while self.rounds < max(ROUNDS, len(turns)) or time.monotonic() < began + SECONDS:
                if not kinds:
                    kinds = self.chance.sample(turns, len(turns))
                self.rounds += 1
                text = self.round_and_meet(kinds.pop())
        finally:
            for author in self.authors:
                print(author.writer.tag, author.writer.person, dict(author.did))
            print_end(type(self).__name__, SEED, self.rounds, self.kills, len(self.words), self.faults)
        threads = self.told["ada"].threads() if self.sayings else []
        for told in self.told.values():
            told.close()
        for author in self.authors:
            author.writer.close()
        for person in "ada", "bo":
            self.assertEqual(self.cat(person), text)
            if self.sayings:
                plain = plainly(self.opened(self.person(person)).session)
                self.assertEqual(as_plain(threads, plain), plain)

    def round_and_meet(self, killed: Author | None) -> str:
        """Do a round, after which all show the same; return that."""
        self.round(killed)
        self.meet()
        self.take_back_what_another_deleted()
        text = self.meet()
        if PLANT:
            self.plant(text)
            text = self.meet()
        return text

    def plant(self, text: str) -> None:
        """Do to words of a text what may not come of anything, by another editor of ada's."""
        one, two = sorted(text.index(word.text) for word in self.words if word.is_there and word.times == 1)[:2]
        first, second = (WORD.findall(text[at:])[0] for at in (one, two))
        other = Editor(self.folder / "ada")
        changes = {"drop": [(one, one + len(first), "")], "double": [(one, one, f"{first}\n")],
                   "swap": [(two, two + len(second), first), (one, one + len(first), second)]}
        other.edit(*changes[PLANT])
        other.settle()
        other.close()

    def turns(self) -> list[Author | None]:
        """Whose editor is killed in a round, and in the next ones; in one of them nobody's."""
        return [*self.authors, None]

    def round(self, killed: Author | None) -> None:
        """Has all write, while somebody's engine is killed, and an author's editor, perhaps; and the log is away, perhaps."""
        many, done = self.chance.randint(*ROUND), Done()
        first, last, when, then = (partial(done.wait_for, number, self.chance.random() * 0.2)
                                   for _ in range(2) for number in sorted(self.chance.choices(range(many * len(self.authors)), k=2)))
        works: list[Callable[[], None]] = [*(partial(author.write, many, done) for author in self.authors),
                                           partial(self.kill, killed, when, then)]
        if self.chance.random() < 0.6:
            works.append(partial(self.away, first, last))
        with ThreadPoolExecutor(len(works)) as threads:
            for ended in [threads.submit(work) for work in works]:
                ended.result()
        for author in self.authors:
            if author.writer.is_cut:
                author.recover()
            author.has_engine()

    def kill(self, killed: Author | None, when: Callable[[], None], then: Callable[[], None]) -> None:
        """Kills an author's editor, if one is named, at a moment of a round, and somebody's engine at a later one."""
        when()
        if killed:
            kill_editor(killed.writer)
            self.kills += 1
        then()
        person = self.chance.choice(["ada", "bo"])
        some = [author for author in self.authors if author.writer.person == person]
        with contextlib.ExitStack() as stack:
            for author in some:
                stack.enter_context(author.asking)
            kill_engine(self.folder / person, [author.writer for author in some if not author.writer.is_cut])
            self.kills += 1
            for author in some:
                author.has_lost_engine = not author.writer.is_cut

    def away(self, begin: Callable[[], None], end: Callable[[], None]) -> None:
        """Takes the log away from a moment of a round to another one, and a while longer, so that it is missed."""
        begin()
        self.log.kill()
        end()
        time.sleep(0.5)
        self.log.start()

    def take_back_what_another_deleted(self) -> None:
        """One deletes a word of another's, who takes its typing back: it stays gone. It comes back where the deletion is
        taken back."""
        author, other = self.chance.sample(self.authors, 2)
        step = author.steps[-1] if author.steps else Step(None)
        if not step.typed or step.deleted or not step.typed.ends_line or not step.typed.is_there:
            return
        other.delete(step.typed)
        self.meet()
        author.undo_what_is_gone()
        self.meet()
        if self.chance.random() < 0.5:
            other.undo()

    def meet(self) -> str:
        """Waits until all show the same; that, which has what it has to have."""
        def are_alike() -> bool:
            states = [author.writer.seen() for author in self.authors]
            return all(state.quiet for state in states) and len({state.text for state in states}) == 1
        try:
            wait_for(are_alike, "all to show the same", PATIENCE)
        except AssertionError as why:
            raise AssertionError(f"{why}: {[author.writer.looks() for author in self.authors]}") from why
        text = self.authors[0].writer.seen().text
        self.check(text)
        self.assertEqual(self.cat(self.chance.choice(["ada", "bo"])), text)
        if self.sayings:
            self.check_sayings(self.sayings, text)
        return text

    def check_sayings(self, sayings: Sayings, text: str) -> None:
        """Waits until all have the same threads, which are those that were said."""
        def found() -> tuple[bool, list[str], list[Line]]:
            every = [told.threads() for told in self.told.values()]
            return alike(every), sayings.faults(every[0], text), every[0]
        with contextlib.suppress(AssertionError):
            wait_for(lambda: found()[:2] == (True, []), "all to say the same", PATIENCE)
        is_alike, faults, threads = found()
        self.assertEqual((is_alike, faults), (True, []))
        sayings.settled(threads)

    def check(self, text: str) -> None:
        """That a text has each word that nobody deleted, as often as it was typed, in its order and at its line's end, and what was broken
        off; and that each editor may change again what is its."""
        found = Counter(WORD.findall(text))
        for word in self.words:
            if word.is_there is None:
                self.broken.add(word.text)
                # Its line end may not have been typed.
                word.is_there, word.times, word.ends_line = word.text in found, found[word.text] or 1, False
        wanted = Counter({word.text: word.times for word in self.words if word.is_there}) + Counter(["begin."])
        self.faults = self.faults_of(found, wanted, WORD.findall(text))
        self.assertEqual((wanted - found, found - wanted), (Counter(), Counter()), f"what is missing, and what is too much, of {text}")
        self.assertEqual(self.faults, Faults(0, 0, 0), f"words stand in another order in {text}")
        glued = [word.text for word in self.words if word.is_there and word.ends_line and f"{word.text}\n" not in text]
        self.assertEqual(glued, [], f"words that don't end their lines of {text}")
        for part in WORD.sub(" ", text).split():
            self.assertTrue(self.is_broken(part), f"{part!r} in {text}")
        for word in self.words:
            author = next(one for one in self.authors if one.writer.tag == word.text[0])
            if word.is_there and not any(word is one for step in word.holder.steps for one, _ in step.words()):
                word.holder = author
            word.is_fresh = True

    def faults_of(self, found: Counter[str], wanted: Counter[str], now: list[str]) -> Faults:
        """Count the words that are missing or too many. Of the words that are there once, and were there once when all met the last time,
        count those that stand at another place among each other."""
        before, self.order = self.order, now
        old, new = ([word for word in order if found[word] == before.count(word) == 1] for order in (before, now))
        return Faults((wanted - found).total(), (found - wanted).total(), faults_of(old, new).swapped)

    def is_broken(self, part: str) -> bool:
        """Whether something is the begin of words that were being typed as something was killed."""
        return not part or any(part.startswith(word[:size]) and self.is_broken(part[size:])
                               for word in self.broken for size in range(1, len(word)))

    def cat(self, person: str) -> str:
        """What bin/note cat says."""
        done = subprocess.run([NOTE, "cat", "note"], capture_output=True, timeout=PATIENCE, check=False,
                              env={**os.environ, "VIALSHOAL_DATA": str(self.folder / person)})
        self.assertEqual((done.returncode, done.stderr), (0, b""))
        return done.stdout.decode()


if __name__ == "__main__":
    PLANT = take_plant(sys.argv)
    unittest.main()
