"""People who have a note open by real engines, and what these take: seconds of a key, processor time, memory."""
from __future__ import annotations

import contextlib
import json
import os
import pathlib
import re
import sqlite3
import statistics
import subprocess
import sys
import threading
import time
from collections.abc import Callable, Iterator
from concurrent.futures import ProcessPoolExecutor
from functools import partial
from typing import Any, NamedTuple

from nacl import bindings

from share.admission.ledger import Row
from share.editors.client import InPlace
from share.editors.mirror import Mirror
from share.engine.protocol import serialize
from share.format import link as links
from share.format.chunk import packed
from share.format.entry import Author, digest
from share.log.sqlite import SqliteLog
from share.store import notes
from share.store.note_file import About, make_note
from share.store.own import Client
from share.sync.session import Session
from share.tests.attacks import Attack, Hostile, typed
from share.tests.editors import Editor
from share.tests.support import engine_of

LINE = "Line {} of a note as people write them, with some words and a full stop.\n"
LINES = 30
# So long keys are typed while something arrives, and then, at most; so long a newcomer is waited for.
ARRIVING_SECONDS, AFTER_SECONDS, JOIN_SECONDS, COUNT_SECONDS = 150.0, 45.0, 120.0, 120.0
KEYS, PAUSE = 30, 0.1
# What arrives is taken in where the engine and its program had so small a part of a processor for so long.
QUIET, QUIET_SECONDS, LEAST_SECONDS = 0.3, 2.0, 6.0
# What goes on as long as others type does so for so long.
DOES_SECONDS = 45.0
COUNTED_KEYS = 3
# What was typed by hand: how many people typed it, and how many letters each typed in a turn.
PEOPLE, AT_A_TIME = 4, 30
KEY = bytes(range(32))


class Figures(NamedTuple):
    """What an attack costs."""

    sent: int
    entries: int
    # The greatest key while it arrives, and processor seconds until it is taken in.
    arriving: float
    processor: float
    # The bytes that the engine read of files meanwhile.
    read: int
    # The median and the greatest of keys after it, and the processor time of one, all in seconds.
    median: float
    greatest: float
    of_a_key: float
    # What a key has Python call; None where it wasn't found in time.
    calls: int | None
    # When a newcomer could type; None where that wasn't so in time.
    joined: float | None
    told: str
    # Why keys are refused, where they are.
    refused: str
    # When the note was open again, and what the engine has in memory then, and before that.
    opened: float | None
    memory: int
    memory_opened: int
    load: float


def processor(process: int) -> float:
    """The processor seconds of a process and of those that it started."""
    seconds = 0.0
    for task in _tasks(process):
        with contextlib.suppress(OSError):
            seconds += int((task / "schedstat").read_text().split()[0]) / 1e9
            seconds += sum(map(processor, map(int, (task / "children").read_text().split())))
    return seconds


def bytes_read(process: int) -> int:
    """The bytes that a process has read."""
    return int(pathlib.Path(f"/proc/{process}/io").read_text().split()[1])


def _tasks(process: int) -> list[pathlib.Path]:
    with contextlib.suppress(OSError):
        return [*pathlib.Path(f"/proc/{process}/task").iterdir()]
    return []


def memory(process: int) -> int:
    """The bytes that a process has for itself, of what is resident."""
    found = re.search(r"^Pss:\s+(\d+) kB", pathlib.Path(f"/proc/{process}/smaps_rollup").read_text(), re.MULTILINE)
    return int(found[1]) * 1024 if found else 0


def typed_by(key: bytes, site: int, keys: int, people: int) -> list[tuple[bytes, bytes]]:
    """The entries of one of some people who type letters in turn, some at a time, each at the end of what they typed before, and what
    is sealed in them: the same ones each time."""
    form = About(True, key, "").form()
    author = Author(*bindings.crypto_sign_seed_keypair(digest(key + bytes([site]))))
    claim = last = form.claim(site, author)
    made = [(claim.raw, claim.body)]
    for seq in range(1, keys + 1):
        turn, within = divmod(seq - 1, AT_A_TIME)
        part = packed([typed(site, seq, 1 + (turn * people + site - 1) * AT_A_TIME + within, 1)])
        assert part
        last = form.entry(last, part, author)
        made.append((last.raw, last.body))
    return made


def typed_in_turn(key: bytes, keys: int) -> Iterator[tuple[bytes, bytes]]:
    """The entries of some people who typed this many letters by hand, in the order of their typing."""
    with ProcessPoolExecutor() as processes:
        made = [*processes.map(partial(typed_by, key, keys=keys // PEOPLE, people=PEOPLE), range(1, PEOPLE + 1))]
    yield from (of_one[0] for of_one in made)
    for begin in range(1, keys // PEOPLE + 1, AT_A_TIME):
        for of_one in made:
            yield from of_one[begin:begin + AT_A_TIME]


class Memory(NamedTuple):
    """The bytes that an engine has for itself now, that it had at most, and that its program has."""

    now: int
    most: int
    program: int


def memory_of(engine: int) -> Memory:
    """What an engine and its program have in memory."""
    status = pathlib.Path(f"/proc/{engine}/status").read_text()
    most = re.search(r"^VmHWM:\s+(\d+) kB", status, re.MULTILINE)
    children = [int(one) for task in _tasks(engine) for one in (task / "children").read_text().split()]
    return Memory(memory(engine), int(most[1]) * 1024 if most else 0, sum(map(memory, children)))


class Room:
    """A note of somebody, in whose log others write; and a folder for a newcomer."""

    def __init__(self, folder: pathlib.Path, keys: int = 0):
        self.folder, self.log = folder, str(folder / "log" / "note.log")
        self.about = About(True, KEY, self.log)
        self.form = self.about.form()
        self.ann = folder / "ann"
        SqliteLog(pathlib.Path(self.log), self.form.note).close()
        client = Client(4_711, self.form.new_author(), stood=True)
        claim = self.form.claim(client.site, client.author)
        made = [(claim.raw, claim.body), *(typed_in_turn(KEY, keys) if keys else ())]
        rows = (Row(0, self.form.reopened(raw, body, digest(raw)), raw == claim.raw) for raw, body in made)
        make_note(self.ann / "notes" / "note.note", self.about, rows, [client], offered=True)
        Hostile(self.form, self.log).send(raw for raw, _ in made)
        self.link = links.Link("sealed", self.about.secret, self.log).spelled()

    def hostile(self) -> Hostile:
        """Somebody with the link who has read all that the log has."""
        return Hostile(self.form, self.log)

    def kept(self) -> int:
        """How many entries the note's file has."""
        with contextlib.closing(sqlite3.connect(self.ann / "notes" / "note.note", timeout=60)) as file:
            found: int = file.execute("SELECT count(*) FROM entry").fetchone()[0]
        return found

    def editor(self, name: str = "ann", **more: Any) -> Editor:
        """An editor of somebody."""
        return Editor(self.folder / name, **more)

    def engine(self, name: str = "ann") -> int:
        """The process of an engine."""
        return engine_of(self.folder / name)


class Keys:
    """Keys that are typed at the end, one after the other."""

    def __init__(self, editor: Editor):
        self._editor = editor
        self.seconds: list[float] = []

    def press(self, most: float) -> bool:
        """Presses a key and waits for its answer; whether it came in time."""
        editor, mirror = self._editor, self._editor.mirror
        assert mirror
        end = mirror.units.count(mirror.units.encode(editor.text))
        begin = time.monotonic()
        editor.edit((end, end, "x"))
        while mirror.answered < mirror.made and time.monotonic() < begin + most:
            editor.read(0.02)
        self.seconds.append(time.monotonic() - begin)
        return bool(mirror.answered == mirror.made)

    def refused(self) -> str:
        """Why the last key was refused, where it was."""
        answer = next(line for line in reversed(self._editor.lines) if line.get("answer") == "edit")
        return str(answer.get("words", ""))


def types(editor: Editor) -> bool:
    """Whether something can be typed."""
    states = editor.notices("state")
    return bool(states and states[-1]["types"])


def waited(editor: Editor, is_so: Callable[[], object], most: float) -> bool:
    """Whether something was so in time."""
    end = time.monotonic() + most
    while not is_so() and time.monotonic() < end:
        editor.read(0.02)
    return bool(is_so())


def as_it_arrives(room: Room, editor: Editor, many: int, most: float = ARRIVING_SECONDS,
                  least: float = LEAST_SECONDS) -> tuple[float, float, int]:
    """Types until all that has come is in the file, which has this many entries then, and taken in: the seconds of the slowest key, the
    processor time in all, and the bytes read."""
    engine, keys, begin = room.engine(), Keys(editor), time.monotonic()
    before, read = processor(engine), bytes_read(engine)
    quiet, since = before, begin
    while time.monotonic() < begin + most:
        if not keys.press(begin + most - time.monotonic()):
            break
        time.sleep(2.5 * PAUSE)
        now, used = time.monotonic(), processor(engine)
        if now > since + QUIET_SECONDS:
            if used - quiet < QUIET * (now - since) and now > begin + least and room.kept() >= many:
                break
            quiet, since = used, now
    return max(keys.seconds), processor(engine) - before, bytes_read(engine) - read


def afterwards(room: Room, editor: Editor) -> tuple[float, float, float, str]:
    """The median and the greatest of keys, the processor time of each, and why they are refused."""
    engine, keys, begin = room.engine(), Keys(editor), time.monotonic()
    before = processor(engine)
    while len(keys.seconds) < KEYS and time.monotonic() < begin + AFTER_SECONDS:
        if not keys.press(AFTER_SECONDS):
            break
        time.sleep(PAUSE)
    used = (processor(engine) - before) / len(keys.seconds)
    return statistics.median(keys.seconds), max(keys.seconds), used, keys.refused()


def newcomer(room: Room, name: str = "newcomer", most: float = JOIN_SECONDS) -> tuple[float | None, str]:
    """When somebody who joins can type, and what is told until then."""
    begin = time.monotonic()
    editor = room.editor(name, link=room.link, opens=False)
    try:
        editor.send({"do": "open", "id": 1, "protocol": 1, "units": ["utf-16"]})
        could = waited(editor, lambda: types(editor) or any("error" in line for line in editor.lines), most) and types(editor)
        seconds = time.monotonic() - begin
        told = [line["words"] for line in editor.lines if "words" in line]
        state = (editor.notices("state") or [{}])[-1]
        return seconds if could else None, "; ".join([*told, *(state[one] for one in ("why", "trouble") if one in state)])
    finally:
        gone(room, editor, name)


def gone(room: Room, editor: Editor, name: str = "ann", most: float = 30) -> None:
    """Has an editor leave, and its engine end."""
    with contextlib.suppress(OSError, ValueError, IndexError):
        engine = room.engine(name)
        editor.kill()
        end = time.monotonic() + most
        while os.path.exists(f"/proc/{engine}") and time.monotonic() < end:
            time.sleep(0.05)
        os.kill(engine, 9)


def opened_again(room: Room, most: float = JOIN_SECONDS) -> tuple[float | None, int]:
    """How long the note takes to be opened, and the engine's memory then."""
    begin = time.monotonic()
    editor = room.editor(opens=False)
    try:
        editor.send({"do": "open", "id": 1, "protocol": 1, "units": ["utf-16"]})
        waited(editor, lambda: any(line.get("answer") == "open" for line in editor.lines), most)
        seconds, is_open = time.monotonic() - begin, any("version" in line for line in editor.lines)
        return (seconds if is_open else None), memory(room.engine())
    finally:
        gone(room, editor)


def calls_of_a_key(room: Room) -> int | None:
    """How often a key has Python call something."""
    words = [sys.executable, "-B", str(pathlib.Path(__file__).with_name("notes")), "--count-calls", str(room.ann)]
    with contextlib.suppress(subprocess.TimeoutExpired):
        done = subprocess.run(words, stdout=subprocess.PIPE, stderr=subprocess.DEVNULL, timeout=COUNT_SECONDS, check=False)
        return int(done.stdout) if done.returncode == 0 else None
    return None


def count_calls(data: str) -> int:
    """How often a key has Python call something in an engine that is in this process: the least of some keys."""
    os.environ["VIALSHOAL_DATA"] = data
    way = InPlace("note", lambda wake: Session(notes.open_note("note", None, None), None, lambda done, total: None, wake))
    way.send(serialize({"do": "open", "id": 1, "protocol": 1, "units": ["utf-16"]}))
    lines = [json.loads(line) for line in way.receive(0.02).splitlines()]
    opened = next(line for line in lines if line.get("answer") == "open")
    if "error" in opened:
        sys.exit(f"the note can't be opened: {opened['words']}")
    mirror = Mirror(opened, lambda line: way.send(serialize(line)))
    counts, calls = [], 0

    def called(*_: object) -> None:
        nonlocal calls
        calls += 1

    for _ in range(COUNTED_KEYS):
        for _ in range(50):
            for line in way.receive(0.02).splitlines():
                mirror.take(json.loads(line))
            if mirror.state.get("types") and mirror.answered == mirror.made:
                break
        end, calls = len(mirror.text), 0
        sys.setprofile(called)
        mirror.edit([(end, end, "x")])
        data_of = way.receive(0.0)
        sys.setprofile(None)
        counts.append(calls)
        for line in data_of.splitlines():
            mirror.take(json.loads(line))
    way.close()
    return min(counts)


@contextlib.contextmanager
def doing(attack: Attack, hostile: Hostile) -> Iterator[None]:
    """Has somebody go on with what he does."""
    stopped = threading.Event()
    threads = [threading.Thread(target=attack.does, args=(hostile, stopped))] if attack.does else []
    for thread in threads:
        thread.start()
    try:
        yield
    finally:
        stopped.set()
        for thread in threads:
            thread.join()


def _raws(log: str) -> list[bytes]:
    """The entries of a log."""
    with contextlib.closing(sqlite3.connect(log)) as file:
        return [raw for raw, in file.execute("SELECT raw FROM entry ORDER BY place")]


def measured(folder: pathlib.Path, attack: Attack) -> Figures:
    """What an attack costs somebody who has the note open, and a newcomer."""
    room = Room(folder, attack.keys)
    editor = room.editor()
    waited(editor, lambda: types(editor), JOIN_SECONDS)
    editor.type("".join(LINE.format(number) for number in range(LINES)))
    editor.settle()
    waited(editor, lambda: editor.notices("state")[-1]["log"] == "sent", JOIN_SECONDS)
    hostile = room.hostile()
    raws = [*attack.sends(hostile)] if attack.sends else []
    before = _raws(room.log)
    many = room.kept() + len(raws)
    hostile.send(raws)
    with doing(attack, hostile):
        arriving, used, read = as_it_arrives(room, editor, many, *([DOES_SECONDS, DOES_SECONDS] if attack.does else []))
        median, greatest, of_a_key, refused = afterwards(room, editor)
        joined, told = newcomer(room)
    resident = memory(room.engine())
    gone(room, editor)
    more = _raws(room.log)[len(before):] if attack.does else raws
    again, resident_again = opened_again(room)
    return Figures(sum(map(len, more)), len(more), arriving, used, read, median, greatest, of_a_key, calls_of_a_key(room), joined, told,
                   refused, again, resident, resident_again, os.getloadavg()[0])
