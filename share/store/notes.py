"""Notes by their names: where their files are, and how they are made, joined and copied."""
import contextlib
import os
import pathlib
import re
import time
from collections.abc import Callable, Sequence
from dataclasses import replace
from itertools import count
from typing import Literal, NamedTuple

from share.admission.judges import judge_of
from share.admission.left_out import LeftOut
from share.format.entry import Entry
from share.format.history import Messages
from share.format.link import NO_ARGUMENT, OF_SECOND_FORM_ALONE, Link, is_link, is_network, is_relay
from share.format.operation import TEXT
from share.format.second.key_link import AnyLink, KeyLink
from share.log.sqlite import GONE_APPLICATION
from share.log.sqlite_file import says_application
from share.program import retyping
from share.program.site import is_full
from share.store import read_only
from share.store.founding import begun
from share.store.guarded import Damaged
from share.store.note_file import FIRST, SECOND, About, Disk, make_note
from share.store.renewal import say_so
from share.store.with_log import with_log
from share.text.errors import Gone, Trouble

# A note's name goes into a path.
NOTE_NAME = re.compile(r"[A-Za-z0-9][A-Za-z0-9._-]{0,63}")
NOTE_SUFFIX = ".note"
# Unreleased versions kept a note in a file below this folder.
GONE_FOLDER = "logs"
# How long opening waits for who renames or deletes a note, and the time between two tries.
NAME_SECONDS, TRY_NAME_SECONDS = 10, 0.01


def data_folder() -> pathlib.Path:
    """Where notes are kept."""
    if named := os.environ.get("VIALSHOAL_DATA"):
        return pathlib.Path(named)
    home = os.environ.get("XDG_DATA_HOME") or pathlib.Path.home() / ".local" / "share"
    return pathlib.Path(home) / "vialshoal"


def is_name(name: str) -> bool:
    """Whether a note can have this name."""
    return bool(NOTE_NAME.fullmatch(name))


def path_of(name: str) -> pathlib.Path:
    """The file of the note of this name."""
    if is_link(name):
        raise Trouble(NO_ARGUMENT)
    if not is_name(name):
        raise Trouble(f"{name!r} can't be a note's name. Use up to 64 letters, digits, dots, hyphens and "
                      "underscores, the first a letter or a digit.")
    path = data_folder() / "notes" / f"{name}{NOTE_SUFFIX}"
    if not path.exists() and says_application(data_folder() / GONE_FOLDER / f"{name}.db", GONE_APPLICATION):
        raise Gone
    return path


def is_here(name: str) -> bool:
    """Whether this disk has the note."""
    return path_of(name).exists()


def names() -> list[str]:
    """The names of the notes that are here."""
    found = (path.name[:-len(NOTE_SUFFIX)] for path in (data_folder() / "notes").glob(f"*{NOTE_SUFFIX}"))
    return sorted(filter(is_name, found))


class Renewed(NamedTuple):
    """The name that a note has that was copied into a new one; what isn't in the new one, in words; what was left out of the old one
    for good; and whether the new one is of the first form, and the old one wasn't."""

    before: str
    missing: list[str]
    left_out: list[LeftOut]
    is_back: bool


def open_note(name: str, url: str | None, link: AnyLink | None, form_number: int | None = None) -> Disk:
    """The file of a note, which is made where it isn't there: as a link says, or new, of a form."""
    path = path_of(name)
    try:
        if not path.exists():
            _make_first(path, url, link, form_number or form_of_new(url))
        disk = _named(name, path)
    except Damaged as why:
        if not path.exists():
            raise _is_gone(name) from why
        raise Trouble(f"{why}. bin/note recover {path.parent} brings back what can be read of it; or move it away, "
                      "and join the note again by its link.") from why
    except OSError as why:
        raise Trouble(f"{why.filename}: {why.strerror}. Set VIALSHOAL_DATA to a folder that can be written.") from why
    try:
        check_agreement(disk.about, name, url, link)
        if url and url != disk.about.url:
            disk.point_to(url)
    except BaseException:
        disk.close()
        raise
    return disk


def _named(name: str, path: pathlib.Path) -> Disk:
    """A note's file, which keeps its name as long as it is open."""
    disk, end = Disk(path), time.monotonic() + NAME_SECONDS
    while not disk.share_name() and time.monotonic() < end:
        time.sleep(TRY_NAME_SECONDS)
    if not (disk.share_name() and disk.is_in_place()):
        disk.close()
        raise _is_gone(name)
    return disk


def _is_gone(name: str) -> Trouble:
    return Trouble(f"The note {name} is being renamed or deleted, or was just now.")


def link_to(name: str) -> str:
    """The link of a note that is here."""
    about = read_only.about(existing(name))
    if not about.url:
        raise Trouble(f"The note {name} is on this machine alone, and has no log to share it by. bin/note renew "
                      f"{name} --log URL copies it into one that is shared.")
    kind: Literal["plain", "sealed"] = "sealed" if about.sealed else "plain"
    link: AnyLink = Link(kind, about.secret, about.url) if about.form_number == FIRST else KeyLink(kind, about.secret, about.url)
    return link.spelled()


def renew(name: str, url: str | None, password: str | None, called: str = "",
          begins: Callable[[Messages], Messages] = lambda messages: messages, form_number: int | None = None) -> Renewed:
    """Copies a note into a new one with a key of its own, under its name, or what is made of its messages: of a form, or of its own;
    those who have the old one are told so by one of this name."""
    path = existing(name)
    found = read_only.judged(path)
    url = url or _log_of_new(found.about.url)
    if found.about.url:
        # What others wrote while nobody had the note open here is in its log alone.
        found = with_log(found, found.about.url, password)
    judge, old_form = found.judge, found.about.form_number
    messages, missing = judge.count().messages, read_only.missing(judge, found.faults)
    left_out = retyping.left_out(judge, read_only.own(path).anew)
    messages, form_number = begins(messages), form_number or max(old_form, form_of_new(url))
    _see_that_there_is_room(name, messages, form_number)
    beside = path.with_name(f".renewed.{os.getpid()}{NOTE_SUFFIX}")
    make_note(beside, *begun(url, messages, form_number))
    try:
        before = _give_way(name, path)
        os.rename(beside, path)
    finally:
        beside.unlink(missing_ok=True)
    say_so(path_of(before), called, password)
    return Renewed(before, missing, left_out, form_number < old_form)


def _see_that_there_is_room(name: str, messages: Messages, form_number: int) -> None:
    """Refuses messages for which a new note of a form has no room."""
    others = sorted({part.holder.text for part in messages.parts()} - {TEXT})
    if form_number == FIRST and others:
        raise Trouble(f"The note {name} has a text {others[0]}, for which one of the first form has no room, and stays as it is. bin/note "
                      f"export {name} FILE --text {others[0]} writes that text as a file.")
    if is_full(len(messages)):
        raise Trouble(f"The note {name} has {len(messages):,} messages, as many as a note may have. So would a copy with its history, "
                      f"in which nothing could be typed. bin/note renew {name} --fresh makes a new note of its text.")


def _log_of_new(url: str) -> str:
    """Where the log of a renewed note is: on the same server; a log in a file is that of one note, and gets one beside it."""
    if not url or is_network(url):
        return url
    return next(one for number in count(2) if not os.path.exists(one := f"{url}.{number}"))


def _give_way(name: str, path: pathlib.Path) -> str:
    """Gives a note's file one more name, so that another file can take its place; that name."""
    try:
        with contextlib.closing(Disk(path)) as disk:
            is_open = disk.locked()
    except Damaged as why:
        raise Trouble(f"{why}. bin/note recover {path.parent} brings back what can be read of it.") from why
    if is_open or path.with_name(path.name + "-wal").exists():
        raise Trouble(f"The note {name} is open. Quit its editors first.")
    before = next(one for number in count(1) if not path_of(one := f"{name[:56]}.old-{number}").exists())
    os.link(path, path_of(before))
    return before


def recover(folders: Sequence[pathlib.Path]) -> list[str]:
    """Brings notes back from what is left of people's files, and says of each what was found, in words. A log in a file that
    somebody else's file names isn't gone on with unasked: that would be a file wherever they say."""
    found: dict[bytes, tuple[str, About, dict[bytes, Entry]]] = {}
    told, logs = [], dict[bytes, str]()
    for path in _note_files(folders):
        try:
            one = read_only.found_in(path)
        except Trouble as why:
            told.append(str(why))
            continue
        told += [f"{path}: {fault}" for fault in one.faults]
        about = one.about
        if about.url and not is_network(about.url) and not _is_own(path):
            logs[about.secret], about = about.url, replace(about, url="")
        name, before, held = found.get(about.secret, (path.stem, about, {}))
        found[about.secret] = name, before if before.url else about, held | {entry.hash: entry for entry in one.entries}
    for name, about, held in found.values():
        told.append(_brought_back(name, about, [*held.values()], logs.get(about.secret)))
    return told or ["No note's file was found in these folders."]


def existing(name: str) -> pathlib.Path:
    """The file of a note that is here."""
    path = path_of(name)
    if not path.exists():
        raise Trouble(f"There is no note {name} here.")
    return path


def form_of_new(url: str | None = None) -> int:
    """Of which form new notes are, whose log is there."""
    return SECOND if url and is_relay(url) else int(os.environ.get("VIALSHOAL_FORM", FIRST))


def _make_first(path: pathlib.Path, url: str | None, link: AnyLink | None, form_number: int) -> None:
    """Makes a note's file."""
    if link:
        make_note(path, About(link.form == "sealed", link.secret, url or link.url, link.form_number))
    else:
        make_note(path, *begun(url, (), form_number))


def check_agreement(about: About, name: str, url: str | None, link: AnyLink | None) -> None:
    """Looks whether what was given is of this note."""
    if link and (link.form_number, link.form == "sealed", link.secret) != (about.form_number, about.sealed, about.secret):
        raise Trouble(f"The note {name} here is another one than the link's. Join it under another name.")
    if url and url != about.url and is_network(url) and not about.sealed:
        raise Trouble(f"The note {name} isn't sealed, and nothing goes to a server unsealed. bin/note renew {name} "
                      f"--log {url} copies it into a sealed one.")
    if url and is_relay(url) and about.form_number == FIRST:
        raise Trouble(f"The note {name} is of the first form. {OF_SECOND_FORM_ALONE} bin/note renew {name} --log {url} copies it into one.")


def _note_files(folders: Sequence[pathlib.Path]) -> list[pathlib.Path]:
    """The notes' files in folders, and in their folders of notes."""
    found: list[pathlib.Path] = []
    for folder in folders:
        if folder.is_file():
            found.append(folder)
        elif folder.is_dir():
            found += sorted(path for path in [*folder.iterdir(), *folder.glob("notes/*")]
                            if re.search(r"\.(note(\.damaged-\d+)?|vialshoal-note)$", path.name) and path.is_file())
        else:
            raise Trouble(f"{folder} isn't there.")
    return found


def _is_own(path: pathlib.Path) -> bool:
    """Whether a file is in this person's data folder."""
    return path.resolve().is_relative_to(data_folder().resolve())


def _brought_back(name: str, about: About, entries: list[Entry], log: str | None) -> str:
    """Puts entries into the note's file here; what was done, in words, and which log wasn't taken over."""
    name = re.sub(r"\.note$", "", name)
    if not is_name(name):
        name = "recovered"
    for number in count(1):
        path = path_of(name if number == 1 else f"{name[:56]}.{number}")
        if not path.exists():
            make_note(path, about)
        try:
            with contextlib.closing(Disk(path)) as disk:
                if disk.about.secret != about.secret:
                    continue
                disk.check()
                log = None if disk.about.url else log
                gone = {of for _, of in disk.entries.withdrawn()}
                disk.keep([entry for entry in entries if entry.hash not in gone], made=False)
                judge = judge_of(disk.form, (row.entry for row in disk.entries.rows() if row.entry.hash not in gone))
                break
        except Damaged:
            continue
    messages = judge.count().messages
    sites, name = len({message.site for message in messages}), path.name[:-len(NOTE_SUFFIX)]
    return (f"{name}: {len(messages):,} messages of {sites:,} sites, in {path}"
            + (f"; {judge.incomplete():,} more lack something." if judge.incomplete() else ".")
            + (f" Its log was the file {log}, which isn't gone on with unless you name it: bin/note {name} --log {log}"
               if log else ""))
