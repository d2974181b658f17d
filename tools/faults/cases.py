"""Cases of their own: files that killed writes have left, names of what is no plain file, modes, long files, the help."""
from __future__ import annotations

import os
import resource
import stat
import tempfile
from collections.abc import Callable
from pathlib import Path

from tools import TOP
from tools.faults.faults import failures
from tools.faults.judging import BESIDE, hold, sizes
from tools.faults.playing import Mode, Plain, Player, text_of
from tools.faults.scripts import SCREEN, left, long_lines, packed_file, site_file
from tools.refusals.scripts import Script, events
from tools.refusals.tally import Difference
from tools.running import Ended, Files, Stream, files_below, run

# The number of files that aren't whole with which no further one is made.
MOST_BESIDE = 1000
OUTSIDE = b"another's"
# The most bytes of a file that are read.
MOST_READ = 1 << 30

KEEPS = events("keeps", "1 type 1 0 abc; 1 keep 1 s; 1 text 1; 1 reopen 2 s; 2 reopen 1 t; 1 front 1")
STORES = events("stores", "1 type 1 0 Edit.Store s; 1 open user 1; 1 click 0 1; 1 text 1", *SCREEN)
# Reads a name by both ways, writes it, and reads what it wrote.
USES = events(
    "uses",
    "1 reopen 1 s; 1 type 1 0 Edit.Load s; 1 open user 1; 1 point 0 1; 1 click 0 1; 1 keep 1 s; 2 reopen 1 s; 1 keep 1 s",
    *SCREEN,
)
# The scripts that write the name, each with the line that does.
WRITES = ((KEEPS, 1), (STORES, 2))
TWO_SITES = events("two-sites", "1 type 1 0 abc; 2 take 1 m1; 1 keep 1 s; 2 keep 1 s")
GOES_ON = events("goes-on", "1 reopen 1 s; 1 front 1; 1 keep 1 t")
GOES_ON_PACKED = events("goes-on-packed", "1 reopen 1 s; 1 front 1; 1 keep 1 t packed")


def ended(player: Player, script: Script, files: Files) -> Ended:
    return player.ended(script, script.lines, files)


def refused(player: Player, script: Script, at: int, answer: str) -> bytes:
    """What a script writes where a line is answered so, and the others as without it."""
    others = [line for number, line in enumerate(script.lines) if number != at]
    answers = player.answers(Script(script.name, others, script.words), player.ended(script, others, {}))
    return b"".join([*answers[:at], f"{answer}\n".encode(), *answers[at:]])


def leftovers(player: Player) -> None:
    """Where a thousand files are left nothing is written, and all else is done; with one of them fewer everything is."""
    full = left(MOST_BESIDE)
    for script, write in WRITES:
        hold(ended(player, script, full), 0, refused(player, script, write, "refused 22"), [full])
        clean = ended(player, script, {})
        for number in (0, 500, MOST_BESIDE - 1):
            lie = {name: content for name, content in full.items() if name != f"{BESIDE}{number}"}
            hold(ended(player, script, lie), 0, clean.wrote, [{**lie, **clean.files}])


def link(path: Path) -> None:
    (path.parent / "outside").write_bytes(OUTSIDE)
    path.symlink_to("outside")


def link_to_nothing(path: Path) -> None:
    path.symlink_to("nowhere")


def named_socket(path: Path) -> None:
    os.mknod(path, stat.S_IFSOCK | stat.S_IRUSR | stat.S_IWUSR)


def no_plain_file(make: Callable[[Path], None]) -> Callable[[Player], None]:
    """Something else of a file's name is read as a file that is absent, at once, and isn't written: it stays. Where it has the
    name of a file that isn't whole, another such name is taken."""

    def holds(player: Player) -> None:
        for script, write in WRITES:
            wrote = refused(player, script, write, "refused 22")
            with player.folder({}) as folder:
                make(folder / "s")
                lie, there = files_below(folder), (folder / "s").lstat()
                with player.begun(script, Mode.AT_HAND, folder) as begun:
                    hold(begun.ended(), 0, wrote, [lie])
                if not os.path.samestat((folder / "s").lstat(), there):
                    raise Difference(f"{script.name} puts something else in its place")
        clean = ended(player, USES, {})
        with player.folder({}) as folder:
            make(folder / f"{BESIDE}0")
            lie = files_below(folder)
            with player.begun(USES, Mode.AT_HAND, folder) as begun:
                hold(begun.ended(), 0, clean.wrote, [{**lie, **clean.files}])

    return holds


def mode_of(path: Path) -> int:
    return stat.S_IMODE(path.stat().st_mode)


def usual_mode(room: Path) -> int:
    """The mode of a new file."""
    with tempfile.TemporaryDirectory(dir=room) as made:
        path = Path(made) / "new"
        path.touch()
        return mode_of(path)


def mode(before: int | None) -> Callable[[Player], None]:
    """A file that is replaced keeps its mode, and at none of the calls may others do more with the new file than with the old
    one. If there was no file, the new one has the usual mode."""

    def holds(player: Player) -> None:
        wanted = usual_mode(player.room) if before is None else before
        for script, _ in WRITES:
            with player.folder({}) as folder:
                if before is not None:
                    (folder / "s").touch()
                    (folder / "s").chmod(before)
                with player.begun(script, Mode.AT_HAND, folder) as begun:
                    while begun.traced.next():
                        for path in folder.iterdir():
                            if mode_of(path) & ~wanted:
                                raise Difference(f"{script.name}: {path.name} has mode {mode_of(path):o}")
                if mode_of(folder / "s") != wanted:
                    raise Difference(f"{script.name} leaves mode {mode_of(folder / 's'):o} in place of {wanted:o}")

    return holds


def equal_lengths(player: Player) -> None:
    """Site 2's file takes the place of site 1's, which has as many bytes."""
    one, two = (state["s"] for state in player.plain(TWO_SITES).states[-2:])
    if len(one) != len(two) or one[:6] != two[:6] or one[8:] != two[8:] or (one[7], two[7]) != (1, 2):
        raise Difference(f"the files of two sites are {one.hex()} and {two.hex()}")


def long_file(inserts: int) -> Callable[[Player], None]:
    """A long site's file is reopened, and kept as it was, in either form."""

    def holds(player: Player) -> None:
        wrote = f"ok\nfront 1 {inserts}\nwaiting 0\nok\n".encode()
        for script, whole in ((GOES_ON, site_file(inserts)), (GOES_ON_PACKED, packed_file(inserts))):
            hold(ended(player, script, {"s": whole}), 0, wrote, [{"s": whole, "t": whole}])

    return holds


def too_long(player: Player) -> None:
    """A file of more bytes than are read is read as a file that is absent, and a write takes its place."""
    clean = ended(player, USES, {})
    with player.folder({}) as folder:
        with open(folder / "s", "wb") as file:
            file.truncate(MOST_READ + 1)
        with player.begun(USES, Mode.AT_HAND, folder) as begun:
            hold(begun.ended(), 0, clean.wrote, [clean.files])


def size_limit(player: Player) -> None:
    """Where the system lets no file grow so long, a write stops short, and the next one fails."""
    whole = site_file(25)
    with player.folder({"s": whole}) as folder, player.begun(GOES_ON, Mode.AT_HAND, folder) as begun:
        resource.prlimit(begun.traced.pid, resource.RLIMIT_FSIZE, (len(whole) // 2, len(whole) // 2))
        hold(begun.ended(), 0, b"ok\nfront 1 25\nwaiting 0\nrefused 22\n", [{"s": whole}])


def closed_output(player: Player) -> None:
    """Where output is closed, a file that is opened takes its number; no answer goes into it."""
    for script in (KEEPS, long_lines()):
        states = player.plain(script).states
        with player.folder({}) as folder:
            found = run([player.program], text_of(script), folder, output=Stream.CLOSED, errors=Stream.CLOSED)
        if found.status != 1 or found.files not in states:
            raise Difference(f"{script.name} ended with {found.status}, and left {sizes(found.files)}")


def unwritten(word: str, status: int) -> Callable[[Player], None]:
    """The program's words decide its status, even where what it says of them can't be written."""

    def holds(player: Player) -> None:
        script = Script("words", [], (word,))
        calls, whole = player.noted(script)
        plain = Plain(script, Mode.AT_HAND, calls, [], [], [])
        for number, fault in ((at, fault) for at, call in enumerate(calls) if call.name == "write" for fault in failures(call)):
            found = player.disturbed(plain, number, fault)
            is_begin = whole.wrote.startswith(found.wrote) and whole.complained.startswith(found.complained)
            if found.status != status or not is_begin:
                raise Difference(f"call {number} {fault.name}: it ended with {found.status}, after {found.wrote[-80:]!r}")

    return holds


def page(_: Player) -> None:
    """The page names the files that may be removed."""
    if f"`{BESIDE}`" not in (TOP / "docs" / "FORMATS.md").read_text():
        raise Difference("docs/FORMATS.md doesn't name the files that killed writes leave")


CASES: dict[str, Callable[[Player], None]] = {
    "leftovers": leftovers,
    "page": page,
    "pipe": no_plain_file(os.mkfifo),
    "link": no_plain_file(link),
    "link-to-nothing": no_plain_file(link_to_nothing),
    "socket": no_plain_file(named_socket),
    "mode-600": mode(0o600),
    "mode-640": mode(0o640),
    "mode-664": mode(0o664),
    "mode-of-a-new-file": mode(None),
    "two-sites": equal_lengths,
    "past-4-mib": long_file(1100),
    "too-long": too_long,
    "past-16-mib": long_file(4096),
    "size-limit": size_limit,
    "closed-output": closed_output,
    "help": unwritten("--help", 0),
    "unknown-option": unwritten("--no-such", 2),
}
