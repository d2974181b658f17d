"""People with real engines at one note, what befalls them, and what of their words has to be there in the end.

Each word is typed once and stands nowhere else, so that it can be counted. Of each it is known who has it on their disk, as far
as that was seen: a word that some disk has must be there once, at everybody; one of which no disk is known any more may be gone,
and is there once at most.
"""
import contextlib
import functools
import json
import os
import pathlib
import random
import re
import shutil
import signal
import subprocess
import time
from collections.abc import Callable, Iterator

from share.editors.mirror import Mirror
from share.tests.editors import Editor
from share.tests.processes import children
from share.tests.servers import FileLog
from share.tests.support import NOTE, Case, Person, alive, engine_of, written
from share.tests.waiting import PATIENCE, wait_for
from share.text.line import Line

# A disk of a person's own has so many bytes.
DISK_BYTES = 48 << 20
# An editor types no more while so many of its words are unanswered.
MOST_UNANSWERED = 4
# What has a process's clock go wrong by seconds, and by how many.
WRONG_CLOCK = """
import os, time
right = time.time
time.time = lambda: right() + float(os.environ["SHARE_CLOCK"])
"""
CLOCKS = (400 * 86_400, -400 * 86_400, 10_000, -10_000, 0)
MEET_PATIENCE = 2.0 * PATIENCE
# Who has a note open is told of damage within so many seconds, in these words.
TOLD_PATIENCE, DAMAGE_TOLD = 30.0, re.compile("written anew|has damaged")
CRASH_TOLD = re.compile("has lost .* that it had|written anew")
# Who has the key of what was left out has so many seconds to make it anew.
ANEW_PATIENCE = 15.0
Words = set[str]


class Writer:
    """Somebody who types words of their own, has a data folder, and perhaps a disk that can be filled."""

    def __init__(self, case: Case, name: str, link: str, chance: random.Random):
        self.case, self.name, self.link, self.chance = case, name, link, chance
        self.person: Person = case.person(name)
        self.editor: Editor | None = None
        # The words that this person's disk was seen to have, and those that were typed and not answered.
        self.has: Words = set()
        self.typing: dict[int, str] = {}
        self.unsure: Words = set()
        self.typed, self._read, self.clock = 0, 0, 0
        # What the user was told, and how many seconds after the begin.
        self.said: list[tuple[float, str]] = []
        self._began = time.monotonic()

    def open(self) -> None:
        """Opens the note, where it isn't open."""
        if self.editor:
            return
        more = {"link": self.link} if not self.person.path().exists() else {}
        wrong = {"PYTHONPATH": str(self.case.folder / "clock"), "SHARE_CLOCK": str(self.clock)} if self.clock else {}
        with patched({**wrong, "VIALSHOAL_TRACE": str(self.case.folder / f"trace-{self.name}")}):
            editor = Editor(self.person.data, opens=False, **more)
        self.case.addCleanup(editor.close)
        answer = editor.ask("open", protocol=1, units=["utf-16"])
        if "error" in answer:
            raise AssertionError(f"{self.name} can't open: {answer}")
        editor.mirror, self.editor, self._read = Mirror(answer, editor.send), editor, 0
        for line in editor.lines[editor.lines.index(answer) + 1:]:
            editor.mirror.take(line)
        self.look()

    def type(self) -> None:
        """Types a word between two others, if that can be."""
        editor = self.editor
        most = 1 if (self.person.data / "ballast").exists() else MOST_UNANSWERED
        if not editor or not editor.mirror or not editor.mirror.state.get("types") or len(self.typing) >= most:
            return
        text = editor.text
        places = [0, *(place + 1 for place, one in enumerate(text) if one == " ")]
        self.typed += 1
        word, place = f"{self.name}-{self.typed}", self.chance.choice(places[-20:] + places[:2])
        with contextlib.suppress(OSError):
            editor.edit((place, place, f"{word} "))
        self.typing[editor.mirror.made] = word

    def look(self) -> None:
        """Takes in what the engine says; where it has ended, the editor has, too."""
        editor = self.editor
        if not editor:
            return
        try:
            while editor.read():
                pass
            ended = editor.process.poll() is not None
        except (OSError, json.JSONDecodeError):
            ended = True
        for line in editor.lines[self._read:]:
            self._took(line)
        self._read = len(editor.lines)
        # What is shown is on the disk, but for what isn't answered.
        self.has |= set(editor.text.split()) - {*self.typing.values()} - self.unsure if editor.mirror else set()
        if ended:
            self.left()

    def _took(self, line: Line) -> None:
        if line.get("notice") == "says":
            self.said.append((round(time.monotonic() - self._began, 1), line["words"]))
        if line.get("answer") != "edit":
            return
        for number in [one for one in self.typing if one <= line.get("edits", 0)]:
            word = self.typing.pop(number)
            # What an error is told of isn't kept; a full disk may have it all the same.
            (self.unsure if "error" in line else self.has).add(word)

    def left(self) -> None:
        """Kills the editor: what wasn't answered may be there."""
        if self.editor:
            self.unsure |= {*self.typing.values()}
            self.typing.clear()
            with contextlib.suppress(OSError, ValueError, subprocess.TimeoutExpired):
                self.editor.kill()
            self.editor = None

    def engine(self) -> int | None:
        """The process that has the note open."""
        with contextlib.suppress(OSError, IndexError):
            return engine_of(self.person.data)
        return None

    def kill(self) -> None:
        """Kills the engine, and has nothing of it left."""
        self.look()
        engine = self.engine()
        programs = children(engine) if engine else []
        for process in [*([engine] if engine else []), *programs]:
            with contextlib.suppress(ProcessLookupError):
                os.kill(process, signal.SIGKILL)
        self.left()
        if engine:
            wait_for(functools.partial(is_gone, engine), "an engine to end")

    def close(self) -> None:
        """Closes the note, and waits for its engine's end."""
        self.look()
        if self.editor:
            engine = self.engine()
            self.editor.close()
            for line in self.editor.lines[self._read:]:
                self._took(line)
            self.left()
            if engine:
                wait_for(functools.partial(is_gone, engine), "an engine to end")

    def state(self) -> Line:
        """What was said of how things are."""
        return self.editor.mirror.state if self.editor and self.editor.mirror else {}

    def copy_to(self, folder: pathlib.Path) -> Words:
        """Copies the data folder as it is at this moment, and gives the words that it has."""
        engine = self.engine()
        self.look()
        if engine:
            os.kill(engine, signal.SIGSTOP)
        try:
            # What came between has been answered, or hasn't.
            shutil.copytree(self.person.data, folder, dirs_exist_ok=True,
                            ignore=shutil.ignore_patterns("run", "ballast"))
        finally:
            if engine:
                os.kill(engine, signal.SIGCONT)
        return set(self.has)

    def put_back(self, folder: pathlib.Path, has: Words) -> None:
        """Puts a copy of the data folder back."""
        self.kill()
        self.clear()
        shutil.copytree(folder, self.person.data, dirs_exist_ok=True)
        self.unsure |= self.has - has
        self.has = set(has)

    def note(self, *words: str) -> subprocess.CompletedProcess[str]:
        """A run of bin/note with this person's notes."""
        return subprocess.run([NOTE, *words], capture_output=True, text=True, timeout=MEET_PATIENCE, check=False,
                              env={**os.environ, "VIALSHOAL_DATA": str(self.person.data)})

    def clear(self) -> None:
        """Takes all out of the data folder, which may be a disk of its own."""
        for one in self.person.data.iterdir() if self.person.data.exists() else ():
            if one.name != "ballast":
                shutil.rmtree(one) if one.is_dir() else one.unlink()


def is_gone(process: int) -> bool:
    """Whether a process has ended."""
    return not alive(process)


@contextlib.contextmanager
def patched(variables: dict[str, str]) -> Iterator[None]:
    """Has the environment have these meanwhile."""
    before = {name: os.environ.get(name) for name in variables}
    os.environ.update(variables)
    try:
        yield
    finally:
        for name, value in before.items():
            os.environ.pop(name) if value is None else os.environ.update({name: value})


class Redis:
    """A log on a server."""

    kind = "redis"

    def __init__(self, case: Case):
        self.server = case.redis()
        self.url, self._folder = self.server.url, self.server.folder

    def stop(self) -> None:
        """Has it answer nobody."""
        self.server.process.send_signal(signal.SIGSTOP)

    def go_on(self) -> None:
        """Has it answer again."""
        self.server.process.send_signal(signal.SIGCONT)

    def kill(self) -> None:
        """Kills it."""
        self.server.kill()

    def start(self) -> None:
        """Starts it with what it has."""
        if self.server.process.poll() is not None:
            self.server.start()

    def flush(self) -> None:
        """Has it forget all."""
        self.server.cli("FLUSHALL")

    def copy_to(self, folder: pathlib.Path) -> None:
        """Copies what it has, while it is stopped."""
        shutil.copytree(self._folder, folder, dirs_exist_ok=True)

    def put_back(self, folder: pathlib.Path | None) -> None:
        """Has it have what it had once, or nothing."""
        self.server.kill()
        shutil.rmtree(self._folder)
        shutil.copytree(folder, self._folder) if folder else self._folder.mkdir()
        self.server.start()


def copied(of: str, to: str) -> None:
    """Copies a file. Who has the log open may remove what is beside it, and its copy, meanwhile."""
    with contextlib.suppress(FileNotFoundError):
        shutil.copyfile(of, to)


class File:
    """A log in a file."""

    kind = "file"

    def __init__(self, case: Case):
        self.url = case.file_log()
        self._folder, self._away, self._log = pathlib.Path(self.url).parent, case.folder / "away", FileLog(case.folder)

    def stop(self) -> None:
        """Has nobody reach it."""
        if self._folder.is_dir() and not self._away.exists():
            self._log.kill()

    kill = stop

    def go_on(self) -> None:
        """Has all reach it."""
        if self._away.exists():
            self._log.start()

    start = go_on

    def flush(self) -> None:
        """Removes it."""
        for path in self._folder.iterdir() if self._folder.is_dir() else ():
            # Who had it open may have removed what is beside it.
            path.unlink(missing_ok=True)

    def copy_to(self, folder: pathlib.Path) -> None:
        """Copies it."""
        shutil.copytree(self._folder, folder, dirs_exist_ok=True, copy_function=copied)

    def put_back(self, folder: pathlib.Path | None) -> None:
        """Puts back what it was once, or nothing."""
        self.go_on()
        self.flush()
        if folder:
            shutil.copytree(folder, self._folder, dirs_exist_ok=True, copy_function=copied)


class Storm:
    """Some people at a note, and what befalls them, for some rounds."""

    def __init__(self, case: Case, seed: int, kinds: list[str]):
        self.case, self.seed, self.chance = case, seed, random.Random(seed)
        self.kinds = kinds
        self.log: Redis | File = Redis(case) if seed % 2 else File(case)
        self.people: list[Writer] = []
        # What happened, in order; what is to be undone, and after how many steps; what was copied.
        self.told: list[str] = []
        self.due: list[tuple[int, Callable[[], object]]] = []
        self.step, self.text, self._began = 0, "", time.monotonic()
        # How often something that was left out was typed again.
        self.recovered = 0
        self.backups: list[tuple[Writer, pathlib.Path, Words]] = []
        self.dumps: list[pathlib.Path] = []
        self.other: pathlib.Path | None = None
        self.both: list[tuple[Writer, pathlib.Path, Words, pathlib.Path]] = []
        first = case.person("p0").open(url=self.log.url)
        written(first, "begin ")
        first.session.close()
        self.link = case.person("p0").link()
        for number in range(3):
            self.join(f"p{number}")

    def join(self, name: str) -> Writer:
        """Somebody more."""
        one = Writer(self.case, name, self.link, random.Random(self.chance.random()))
        self.people.append(one)
        return one

    def say(self, words: str) -> None:
        """Notes what happened."""
        self.told.append(f"{self.step} ({time.monotonic() - self._began:.1f} s): {words}")

    def round(self, steps: int) -> None:
        """Has people type, and things happen."""
        for _ in range(steps):
            self.step += 1
            for due, undo in [*self.due]:
                if due <= self.step:
                    self.due.remove((due, undo))
                    undo()
            if self.kinds and self.chance.random() < 0.12:
                getattr(self, self.chance.choice(self.kinds))()
            for one in self.people:
                if not one.editor and self.chance.random() < 0.3 and not self.due:
                    one.open()
                if self.chance.random() < 0.6:
                    one.type()
                one.look()
            time.sleep(self.chance.random() * 0.03)

    def undo_all(self) -> None:
        """Has all that was stopped go on."""
        for _, undo in self.due:
            undo()
        self.due.clear()
        self.log.go_on()
        self.log.start()

    def after(self, least: int, most: int, undo: Callable[[], object]) -> None:
        """Undoes something after some steps."""
        self.due.append((self.step + self.chance.randint(least, most), undo))

    def someone(self) -> Writer:
        """One of the people."""
        return self.chance.choice(self.people)

    # What can happen.

    def kill(self) -> None:
        """An engine is killed."""
        one = self.someone()
        self.say(f"kill {one.name}")
        one.kill()

    def stop(self) -> None:
        """An engine stands still for a while."""
        one = self.someone()
        if engine := one.engine():
            self.say(f"stop {one.name}")
            os.kill(engine, signal.SIGSTOP)
            process = engine

            def go_on() -> None:
                with contextlib.suppress(ProcessLookupError):
                    os.kill(process, signal.SIGCONT)
            self.after(5, 30, go_on)

    def stop_program(self) -> None:
        """A program stands still for good."""
        one = self.someone()
        for program in children(engine) if (engine := one.engine()) else ():
            self.say(f"stop the program of {one.name}")
            with contextlib.suppress(ProcessLookupError):
                os.kill(program, signal.SIGSTOP)

    def stop_log(self) -> None:
        """The log stands still for a while."""
        self.say("stop the log")
        self.log.stop()
        self.after(5, 40, self.log.go_on)

    def kill_log(self) -> None:
        """The server is killed, and started again."""
        if not self.due:
            self.say("kill the log")
            self.log.kill()
            self.after(1, 30, self.log.start)

    def lose_log(self) -> None:
        """All that the log has is gone."""
        if not self.due:
            self.say("lose the log")
            losses: list[Callable[[], None]] = [self.log.flush, lambda: self.log.put_back(None)]
            self.chance.choice(losses)()

    def dump(self) -> None:
        """What the log has is copied, or is again what was copied once."""
        if self.due:
            return
        if self.dumps and self.chance.random() < 0.5:
            self.say("put back a dump")
            self.log.put_back(self.chance.choice(self.dumps))
        else:
            self.say("dump")
            self.dumps.append(self.case.folder / f"dump-{len(self.dumps)}-{self.step}")
            self.log.copy_to(self.dumps[-1])

    def exchange(self) -> None:
        """Another server takes the place of this one, which takes its place later."""
        if not self.due:
            self.say("exchange the server")
            folder = self.case.folder / f"other-{self.step}"
            self.log.copy_to(folder)
            self.log.put_back(self.other)
            self.other = folder

    def backup(self) -> None:
        """A folder is copied, or is again what was copied once."""
        if self.due:
            return
        if self.backups and self.chance.random() < 0.5:
            one, folder, has = self.chance.choice(self.backups)
            self.say(f"put back {one.name}")
            one.put_back(folder, has)
        else:
            one = self.someone()
            self.say(f"back up {one.name}")
            folder = self.case.folder / f"backup-{self.step}"
            self.backups.append((one, folder, one.copy_to(folder)))

    def twin(self) -> None:
        """A folder is copied, and both go on."""
        if len(self.people) < 6 and not self.due:
            one = self.someone()
            other = Writer(self.case, f"c{self.step}", self.link, random.Random(self.chance.random()))
            self.say(f"copy {one.name} as {other.name}")
            other.has = one.copy_to(other.person.data)
            self.people.append(other)

    def snapshot(self) -> None:
        """The server and a folder are copied together, or are both again what was copied once."""
        if self.due:
            return
        if self.both and self.chance.random() < 0.5:
            one, folder, has, dump = self.chance.choice(self.both)
            is_alone = self.chance.random() < 0.5
            self.say(f"put back the log and {one.name}" + (", who types alone" if is_alone else ""))
            for each in self.people if is_alone else [one]:
                each.kill()
            self.log.put_back(dump)
            one.put_back(folder, has)
            if is_alone:
                # Nobody else brings what was written under the number since.
                self.types_alone(one)
        else:
            one = self.someone()
            self.say(f"copy the log and {one.name}")
            folder, dump = self.case.folder / f"both-{self.step}", self.case.folder / f"both-log-{self.step}"
            has = one.copy_to(folder)
            self.log.copy_to(dump)
            self.both.append((one, folder, has, dump))

    def types_alone(self, one: Writer) -> None:
        """Somebody opens the note while nobody else has it open, and types."""
        one.open()
        before = len(one.has)
        with contextlib.suppress(AssertionError):
            wait_for(lambda: (one.type(), one.look(), not one.editor or len(one.has) > before + 2)[2], "some words", 10)

    def rejoin(self) -> None:
        """Somebody loses all files, and joins again by the link."""
        one = self.chance.choice(self.people[1:])
        if self.due or not one.person.path().exists():
            return
        self.say(f"all files of {one.name} are lost")
        one.kill()
        one.clear()
        one.unsure |= one.has
        one.has = set()

    def damage(self) -> None:
        """A note's file is damaged while it is open."""
        from share.tests.test_losses import DAMAGES
        one, what = self.someone(), self.chance.choice([*DAMAGES])
        if one.engine() and not self.due:
            self.say(f"damage {one.name}: {what}")
            with contextlib.suppress(FileNotFoundError):
                DAMAGES[what](one.person.path())
            # A kill before anything is answered would find nothing but the damage.
            self.settle(one)

    def crash(self) -> None:
        """An engine is killed, and SQLite's log beside the file is damaged then. What that disk alone had may be gone, and is told."""
        from share.tests.test_damage import AFTER_A_CRASH
        one, what = self.someone(), self.chance.choice([*AFTER_A_CRASH])
        if one.engine() and not self.due:
            self.say(f"crash of {one.name}, whose log has {what}")
            shown = {*one.editor.text.split()} - {*one.typing.values()} if one.editor else set()
            one.kill()
            with contextlib.suppress(FileNotFoundError):
                AFTER_A_CRASH[what](one.person.path())
            many, one.unsure, one.has = len(one.said), one.unsure | one.has, set()
            lacks = shown - {*one.note("cat", "note").stdout.split()}
            one.open()
            if lacks:
                wait_for(lambda: (one.look(), CRASH_TOLD.search(str(one.said[many:])))[1], f"the loss of {sorted(lacks)} to be told")

    def settle(self, one: Writer) -> None:
        """Waits until a file that was damaged is whole again, and it is told. Where that isn't told, nothing that was written was hit:
        what a crash would leave has all."""
        many = len(one.said)

        def is_told(patience: float) -> bool:
            with contextlib.suppress(AssertionError):
                wait_for(lambda: (one.look(), not one.editor or DAMAGE_TOLD.search(str(one.said[many:])))[1], "", patience)
                return True
            return False

        if is_told(TOLD_PATIENCE):
            return
        folder = self.case.folder / f"untold-{self.step}"
        one.copy_to(folder)
        for index in folder.glob("notes/*-shm"):
            index.unlink()
        shown = {*one.editor.text.split()} - {*one.typing.values()} if one.editor else set()
        lacks = shown - {*Person(folder).text().decode().split()}
        # On a busy machine it takes longer.
        if lacks and not is_told(PATIENCE):
            self.fault(f"damage to the file of {one.name} wasn't told in {TOLD_PATIENCE + PATIENCE} s, and its disk lacks {sorted(lacks)}")
        self.say("it was told late" if lacks else "it hit nothing")

    def fill(self) -> None:
        """A disk is full for a while."""
        one = self.someone()
        ballast = one.person.data / "ballast"
        if os.path.ismount(one.person.data) and not ballast.exists():
            self.say(f"fill the disk of {one.name}")
            with contextlib.suppress(OSError), open(ballast, "wb", buffering=0) as file:
                while True:
                    file.write(bytes(4_096))

            def empty() -> None:
                ballast.unlink(missing_ok=True)
            self.after(5, 40, empty)

    def clock(self) -> None:
        """Somebody's clock goes wrong, or right, from the next opening on."""
        one = self.someone()
        one.clock = self.chance.choice(CLOCKS)
        self.say(f"the clock of {one.name} is wrong by {one.clock} s")
        (self.case.folder / "clock").mkdir(exist_ok=True)
        (self.case.folder / "clock" / "sitecustomize.py").write_text(WRONG_CLOCK)
        one.kill()

    # What has to be then.

    def meet(self) -> str:
        """Waits until all show the same with all sent, and that has what it has to have; that. What was left out for good is typed
        again."""
        self.undo_all()
        for one in self.people:
            one.open()
        self.comes(lambda: self.are_alike() and not self.wrong(), MEET_PATIENCE)
        if self.left_out() or self.lacks():
            # Who has the key makes it anew, if anybody has it.
            with contextlib.suppress(AssertionError):
                wait_for(lambda: self.are_alike() and not (self.wrong() or self.left_out() or self.lacks()), "", ANEW_PATIENCE)
        if self.lacks():
            # On a busy machine it takes longer, or is told later that it was left out.
            self.comes(lambda: self.are_alike() and not self.wrong() and (self.left_out() or not self.lacks()), MEET_PATIENCE)
        if self.left_out():
            self.recover()
            self.comes(lambda: self.are_alike() and not (self.wrong() or self.left_out()), MEET_PATIENCE)
        if lacks := self.lacks():
            self.fault(f"lacks: {lacks}")
        words = {*self.text.split()}
        for one in self.people:
            one.unsure -= words
            one.has |= words
        return self.text

    def comes(self, condition: Callable[[], object], patience: float) -> None:
        """Waits for what has to come."""
        try:
            wait_for(condition, "all to show the same", patience)
        except AssertionError as why:
            found = {one.name: (one.state(), len(one.editor.text.split()) if one.editor else None) for one in self.people}
            self.fault(f"{why}: {self.wrong()}; lacks: {self.lacks()}; {found}")

    def are_alike(self) -> bool:
        """Whether all show the same, with all sent."""
        for one in self.people:
            one.look()
            one.open()
        states = [one.state() for one in self.people]
        shown = {one.editor.text if one.editor else "" for one in self.people}
        self.text = shown.pop()
        return (not shown and all(state.get("log") == "sent" and state["types"] and not state["unsent"] for state in states)
                and not any(one.typing for one in self.people))

    def lacks(self) -> list[str]:
        """The words that somebody has and that aren't there."""
        return sorted(set[str]().union({"begin"}, *(one.has for one in self.people)) - {*self.text.split()})

    def left_out(self) -> bool:
        """Whether somebody is told that something was left out."""
        return any(one.state().get("left_out") for one in self.people)

    def wrong(self) -> str:
        """Which words are there twice or nobody typed; and which lack, where not all are told that something was left out."""
        words = self.text.split()
        twice = sorted({word for word in words if words.count(word) > 1})
        strange = sorted({*words} - {"begin"}.union(*(one.has | one.unsure for one in self.people)))
        lacks = [] if all(one.state().get("left_out") for one in self.people) else self.lacks()
        return f"twice: {twice}, strange: {strange}, lacks: {lacks}" if twice or strange or lacks else ""

    def recover(self) -> None:
        """Has somebody type again what was left out; that has all that lacks."""
        one, lacks = self.someone(), self.lacks()
        self.say(f"{one.name} types again what was left out")
        done = one.note("recover", "--lost", "note")
        if done.returncode:
            self.fault(f"lacks: {lacks}; recover --lost ended with {done.returncode}: {done.stdout}{done.stderr}")
        # What isn't among what was typed again somebody has made anew meanwhile.
        if missing := {*lacks} - {*done.stdout.split()}:
            self.comes(lambda: self.are_alike() and missing.isdisjoint(self.lacks()), MEET_PATIENCE)
        self.say(f"it was {done.stdout.split()}")
        self.recovered += 1

    def fault(self, words: str) -> None:
        """Says what is wrong, and what happened before it."""
        said = {one.name: one.said[-6:] for one in self.people if one.said}
        raise AssertionError(f"seed {self.seed} ({self.log.kind}): {words}\nsaid: {said}\nhappened: {self.told[-40:]}")

    def keep(self, folder: pathlib.Path, why: str) -> None:
        """Keeps what everybody has in a folder, so that the fault can be traced."""
        folder.mkdir(parents=True)
        for one in self.people:
            one.copy_to(folder / one.name)
        with contextlib.suppress(OSError, shutil.Error):
            self.log.copy_to(folder / "log")
        for trace in self.case.folder.glob("trace-*"):
            shutil.copy(trace, folder)
        lines = [why, *self.told]
        for one in self.people:
            lines += [f"{one.name}: {one.state()}", f"has {sorted(one.has)}", f"unsure {sorted(one.unsure)}",
                      f"typing {one.typing}", *(f"{when} {words}" for when, words in one.said), one.editor.text if one.editor else ""]
        (folder / "fault").write_text("\n".join(lines))

    def printed(self) -> None:
        """That all folders alone print the same."""
        for one in self.people:
            one.close()
        texts = {one.note("cat", "note").stdout for one in self.people}
        if len(texts) != 1:
            self.fault(f"the folders print {len(texts)} texts")
