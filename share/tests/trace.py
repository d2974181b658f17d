"""What the notes' files below a folder have, entry by entry, and what becomes of each: to find why a storm went wrong.

    SHARE_KEEP=/tmp/kept SHARE_STORM=5 VIALSHOAL_SEED=7 python3 -B -m unittest share.tests.long.test_storm
    /usr/bin/python3 -B -m share.tests.trace /tmp/kept/seed-7

Of each entry: its site, author, messages and kind, its hash and that of the one before it, whether it counts where all files are
judged as one set, what it types or says, and which files have it: `m` made there, `o` offered to a log, `w` withdrawn.
"""
import contextlib
import pathlib
import sys
from collections import defaultdict
from typing import NamedTuple

from share.admission.judge import Judge
from share.format.entry import Bad, Entry, Kind
from share.format.operation import CHANGE_LOOKS, DELETE, INSERT, Operation
from share.log.sqlite_file import SqliteFile
from share.store.note_file import about_of

ENTRIES = "SELECT hash, raw, made, offered, hash IN (SELECT hash FROM withdrawn) FROM entry ORDER BY place"


class File(NamedTuple):
    """A note's file: its entries, how each of them is there, and the sites and authors of its own numbers."""

    entries: list[Entry]
    marks: dict[bytes, str]
    own: set[tuple[int, bytes]]


def file_of(path: pathlib.Path) -> File:
    """What a file has."""
    with contextlib.closing(SqliteFile(path)) as file:
        form = about_of(file).form()
        rows = file.execute(ENTRIES).fetchall()
        own = set(file.execute("SELECT site, author FROM client"))
    marks = {of: "".join(mark for mark, is_set in zip("mow", flags) if is_set) for of, _, *flags in rows}
    found = form.open_many([raw for _, raw, *_ in rows])
    return File([one for one in found if not isinstance(one, Bad)], marks, own)


def in_short(of: bytes) -> str:
    """The begin of a hash or a name."""
    return of.hex()[:6]


def in_words(entry: Entry) -> str:
    """What an entry types or says."""
    if entry.kind is Kind.COPIES:
        said = entry.copied
        stretches = ", ".join(f"{seq}+{size}>{by}" for seq, by, size in said.stretches)
        return (f"{said.site}/{in_short(said.author)} by {said.by_site}/{in_short(said.by)} {stretches} "
                f"up to {in_short(said.last)}")
    return " ".join(map(of_message, entry.messages)) if entry.size else ""


def of_message(one: Operation) -> str:
    """What a message does."""
    names = ",".join(f"{name.site}:{name.at}+{name.length}" for name in one.mentions)
    if one.kind == INSERT:
        return f"{one.data.decode(errors='replace')!r} after {names or 'nothing'}"
    return f"{'hides' if one.kind == DELETE else 'looks' if one.kind == CHANGE_LOOKS else 'shows'} {names}"


def verdict(judge: Judge, entry: Entry) -> str:
    """What becomes of an entry."""
    if not entry.size:
        return "holds" if entry.kind is Kind.CLAIM and judge.holder(entry.site) == entry.author else "says"
    if judge.entry_of(entry.site, entry.last) == entry.hash:
        return "counts"
    held = entry.hash in {one.hash for one in judge.held_up(entry.site)}
    is_out = entry.hash not in {row.entry.hash for row in judge.of(entry.site, entry.author)}
    return "waits" if held else "LOOSE" if judge.is_loose(entry.hash) else "IS NOT HERE" if is_out else "LOST"


def main(folder: pathlib.Path) -> None:
    """Prints all of it."""
    files = {str(path.relative_to(folder)): file_of(path) for path in sorted(folder.glob("*/notes/*.note"))}
    judge, entries, where = Judge(), dict[bytes, Entry](), defaultdict[bytes, list[str]](list)
    for name, file in files.items():
        for entry in file.entries:
            entries[entry.hash] = entry
            where[entry.hash].append(f"{name.split('/')[0]}({file.marks[entry.hash]})")
            if "w" not in file.marks[entry.hash]:
                judge.add(entry)
        print(name, "has the numbers", ", ".join(f"{site}/{in_short(author)}" for site, author in sorted(file.own)))
    for entry in sorted(entries.values(), key=lambda one: (one.site, one.author, one.first, one.kind, one.hash)):
        print(f"{entry.site}/{in_short(entry.author)} {entry.first}-{entry.last} {entry.kind.name} "
              f"{in_short(entry.before)}<{in_short(entry.hash)} {verdict(judge, entry)}: {in_words(entry)} "
              f"[{' '.join(where[entry.hash])}]")
    for one in judge.left_out():
        print("left out:", one.site, in_short(one.author), one.first, one.last, one.characters)


if __name__ == "__main__":
    main(pathlib.Path(sys.argv[1]))
