"""Compares the program that Rust builds from rust/ with the proved one: rows, scripts, sites that meet,
packed lists, and random events have to be answered by the same bytes, with the same status, and leave the same files; and the library that
Rust builds has to pass the library's tests."""
from __future__ import annotations

import itertools
import os
import random
import re
import shlex
import shutil
import subprocess
import sys
from collections.abc import Iterator, Sequence
from pathlib import Path

from tools import TOP, rows
from tools.packed.packed import spelled_number
from tools.play_rows import NOTHING_PROVED, proved_program
from tools.running import Ended, Files, Stream, Word, folder_in_memory, lay, run
from tools.rust.drawing import Draw, Found, written_in
from tools.rust.workspace import RUST

BUILT = RUST / "target" / "release" / "site_cli"
LIBRARY = BUILT.with_name("libvialshoal_c")
CARGO = ["cargo", "build", "--release", "--offline", "--quiet", "--manifest-path", str(RUST / "Cargo.toml")]
# What stands in a script of script_rows for a text many times over.
REPEATED = re.compile(r"<(\d+)\*([^>]*)>")
# Words of which command lines are drawn, and how many of these.
WORDS = (
    "--first",
    "--count",
    "--width",
    "--height",
    "--help",
    "-h",
    "--",
    "-",
    "--first=3",
    "--count=0",
    "--width=",
    "--height=x",
    "--help=1",
    "--hel",
    "--fir",
    "--Width",
    "-f",
    "-hx",
    "-x5",
    "-5",
    "5",
    "1",
    "80",
    "24",
    "+5",
    "",
    "abc",
    "--first=--",
    "--=",
    "---",
    "--first =3",
    "-h=1",
    "--count=-1",
    "65528",
    "-\xe9",
    "\xe9",
    "--\xe9",
    "--first=3=4",
    "--help=",
    "--no-help",
    "-V",
    "--version",
    "help",
    "--firstx=2",
    "0008",
    "9" * 21,
)
LINES = 300
# How many events are drawn where none are said.
FEW = 20_000
# How much of what was written is handed on to later scripts.
KEPT = 40
# The tools that play a program by themselves.
PLAYERS = ("meetings", "agreement")


class Comparison:
    """Two programs, and how often they did the same."""

    def __init__(self, proved: str, other: str, room: Path) -> None:
        self.programs, self.room = (proved, other), room
        self.passed, self.failed = 0, 0

    def count(self, what: str, faults: Sequence[str]) -> None:
        if faults:
            print(f"{what}: {'; '.join(faults)}")
        self.passed += not faults
        self.failed += bool(faults)

    def play(
        self, what: str, words: Sequence[Word], script: bytes, files: Files, output: Stream, errors: Stream
    ) -> Ended:
        """Plays a script through both, and answers what the proved one did."""
        ended = []
        for each in self.programs:
            folder = self.room / "folder"
            lay(files, folder)
            ended.append(run([each, *words], script, folder, output=output, errors=errors))
            for path in sorted(folder.rglob("*"), reverse=True):
                path.unlink() if path.is_file() else path.rmdir()
        one, other = ended
        faults = rows.difference("the output", other.wrote, one.wrote) + rows.difference(
            "standard error", other.complained, one.complained
        )
        faults += [] if one.status == other.status else [f"it ended with {other.status}, and not with {one.status}"]
        faults += [] if one.files == other.files else ["other files are left"]
        self.count(what, faults)
        return one

    def plain(self, what: str, words: Sequence[Word], script: bytes, files: Files) -> Ended:
        return self.play(what, words, script, files, Stream.READ, Stream.READ)


def script_rows() -> Iterator[tuple[str, list[Word], bytes]]:
    """The scripts of script_rows, as the program takes them."""
    for row in (TOP / "crates" / "script_rows" / "stdin").read_text().split("\n= ")[1:]:
        head, _, script = row.partition("\n")
        *numbers, name = head.split(" ", 4)
        words: list[Word] = [
            it
            for option, number in zip(("first", "count", "width", "height"), numbers)
            for it in (f"--{option}", number)
        ]
        yield name, words, REPEATED.sub(lambda m: m[2] * int(m[1]), script).encode()


def compare_scripts(both: Comparison) -> None:
    for name in rows.names():
        row = rows.load(name)
        both.play(f"row {name}", row.words, row.script, row.files, row.output, row.errors)
    for name, words, script in script_rows():
        both.plain(f"script {name}", words, script, {})
    demo = {path.name: path.read_bytes() for path in (TOP / "demo").iterdir() if path.is_file()}
    for name in [*demo]:
        both.plain(f"demo/{name}", [], demo[name], demo)
    both.plain("the script of site_cli", [], (TOP / "crates" / "site_cli" / "stdin").read_bytes(), {})


def compare_words(both: Comparison) -> None:
    rng = random.Random("command lines")
    for at in range(LINES):
        both.plain(f"command line {at}", rng.choices(WORDS, k=rng.randint(1, 4)), b"", {})


def edges() -> Iterator[str]:
    """Chunks that begin where numbers end, as events."""
    for numbers in itertools.product(
        (1, 65535), (1, 2**32 - 2, 2**32 - 1), (1, 2**48 - 2, 2**48 - 1), (0, 2**24 - 1, 2**24)
    ):
        head = b"OTC1\0\1\x0f" + b"".join(map(spelled_number, numbers))
        for body in (b"a", b"abc", b"\x06\0ab", b"\x02\x05a", b"a\x04\3\x08", b"\x05\0a" * 2):
            yield f"1 unpack 1 {(head + body).hex()}"


def compare_edges(both: Comparison) -> None:
    both.plain("chunks at the ends of numbers", [], "".join(f"{line}\n" for line in edges()).encode(), {})


def compare_players(both: Comparison) -> None:
    """bin/meetings and bin/agreement over a program that is both."""
    twin, rooms, empty = both.room / "both", both.room / "rooms", both.room / "empty"
    rooms.mkdir()
    empty.mkdir()
    command = shlex.join([sys.executable, "-B", "-m", "tools.rust.both", str(rooms), *both.programs])
    twin.write_text(f'#!/bin/sh\nPYTHONPATH={shlex.quote(str(TOP))} exec {command} "$@"\n')
    twin.chmod(0o755)
    for player in PLAYERS:
        ran = subprocess.run(
            [TOP / "bin" / player],
            cwd=empty,
            env={**os.environ, "VIALSHOAL_PROGRAM": str(twin)},
            stdout=subprocess.PIPE,
            text=True,
        )
        both.count(f"bin/{player}", [] if ran.returncode == 0 else [ran.stdout[-2000:]])


def compare_faults(both: Comparison) -> None:
    """bin/faults over Rust's program: its system calls fail as the proved one's may."""
    env = {**os.environ, "VIALSHOAL_PROGRAM": both.programs[1]}
    ran = subprocess.run([TOP / "bin" / "faults", "--few"], env=env, stdout=subprocess.PIPE, text=True)
    both.count("bin/faults --few", [ran.stdout[-2000:]] if ran.returncode else [])


def compare_library(both: Comparison) -> None:
    """The library's tests for C and its scripts, over the library that Rust builds."""
    tests, border = TOP / "library" / "test", both.room / "border"
    wraps = "-Wl,--wrap=malloc,--wrap=realloc"
    words = [
        "cc",
        "-std=c11",
        "-O2",
        wraps,
        str(tests / "border.c"),
        str(LIBRARY.with_suffix(".a")),
        "-lm",
        "-o",
        str(border),
    ]
    ran = subprocess.run(words).returncode or subprocess.run([border], stdout=subprocess.DEVNULL).returncode
    both.count("the library's test for C", [f"it ended with {ran}"] if ran else [])
    env = {"VIALSHOAL_LIBRARY": str(LIBRARY.with_suffix(".so")), "VIALSHOAL_PROGRAM": both.programs[0]}
    env["PYTHONPATH"] = str(TOP / "library" / "python")
    played = subprocess.run(
        ["/usr/bin/python3", "-B", tests / "scripts.py"], env={**os.environ, **env}, stdout=subprocess.PIPE, text=True
    )
    both.count("the library's scripts", [played.stdout[-2000:]] if played.returncode else [])


def compare_events(both: Comparison, events: int, seed: int) -> None:
    """Random events, each script handed what those before it wrote."""
    found, left = Found(), events
    while left > 0:
        draw = Draw(seed, found)
        drawn = both.room / "drawn"
        lay(draw.files, drawn)
        draw.draw(both.programs[0], drawn)
        shutil.rmtree(drawn)
        ended = both.plain(f"random events {seed}", [*draw.words], draw.script(), draw.files)
        messages, chunks = written_in(ended.wrote.split(b"\n"))
        found = Found(
            [*messages[-KEPT:], *found.messages[:KEPT]],
            [*chunks[-KEPT:], *found.chunks[:KEPT]],
            {**found.files, **ended.files},
        )
        left -= len(draw.lines)
        seed += 1


def compare(events: int, seed: int) -> int:
    proved = proved_program()
    if proved is None:
        print(f"rust: {NOTHING_PROVED}", file=sys.stderr)
        return 2
    if subprocess.run([*CARGO, "-p", "site_cli", "-p", "vialshoal_c"]).returncode:
        return 2
    with folder_in_memory("compare-") as room:
        both = Comparison(proved, str(BUILT), Path(room))
        compare_scripts(both)
        compare_words(both)
        compare_edges(both)
        compare_players(both)
        compare_faults(both)
        compare_library(both)
        compare_events(both, events or FEW, seed)
    print(f"{both.passed} passed, {both.failed} failed")
    return 1 if both.failed else 0
