"""The verbs about notes as a whole: they are brought up to date, checked, renamed and deleted."""
import argparse
import pathlib
import time
from collections.abc import Sequence
from concurrent.futures import ThreadPoolExecutor

from share.cli import access
from share.cli.output import INCOMPLETE, print_json, print_text, report, report_missing
from share.editors.client import state_of_engine
from share.engine import server
from share.proved.comparing import Compared, compared, read_by_both
from share.store import naming, notes, read_only
from share.store.guarded import Damaged, Unkept
from share.sync.errand import Errand, run_errand
from share.text.errors import Trouble, counted, entries
from share.text.line import Line

# The most notes that are done at once. They wait for their logs most of the time.
NOTES_AT_ONCE = 6
# The status where the proved note shows something else.
DIFFERS = 1


def sync(given: argparse.Namespace) -> int:
    """Sends what logs lack and gets what they have, once, or again and again."""
    password, before = access.given_password(given), dict[str, Line]()
    for name in given.names:
        notes.existing(name)
    while True:
        with ThreadPoolExecutor(NOTES_AT_ONCE) as pool:
            found = [*pool.map(lambda name: _synced(name, password), given.names or _shared())]
        status = INCOMPLETE if any("offline" in one for one in found) else 0
        _print_synced([one for one in found if one != before.get(one["name"])], given.json)
        if given.every is None:
            return status
        before = {one["name"]: one for one in found}
        time.sleep(given.every)


def check(given: argparse.Namespace) -> int:
    """Says whether the library's note, which is proved, shows the same of a note's file."""
    found = compared(read_by_both(notes.existing(given.name)))
    if given.json:
        print_json({"note": given.name, "messages": found.messages, "characters": found.characters, "differences": found.differences}, [])
    else:
        print_text("".join(f"{line}\n" for line in _lines_of_check(found)))
    status = report_missing(found.faults)
    return DIFFERS if found.differences else status


def _lines_of_check(found: Compared) -> Sequence[str]:
    return found.differences or [f"The proved note shows the same: {counted(found.messages, 'message')}, "
                                 f"{counted(found.characters, 'character')}."]


def rename(given: argparse.Namespace) -> int:
    """Gives a note another name."""
    naming.rename_note(given.name, given.new)
    left = [path.name for path in naming.left_beside(given.name)]
    report([f"{one} keeps its name." for one in [*naming.before(given.name), *left]])
    if given.json:
        return print_json({"note": given.new, "before": given.name}, [])
    return 0


def delete(given: argparse.Namespace) -> int:
    """Takes a note from this disk, where the user agrees who is told what that is."""
    path = notes.existing(given.name)
    if not given.yes:
        said = _goes(given.name, path)
        if not access.has_terminal():
            raise Trouble(f"{said} Nothing was deleted, since nobody can be asked here. --yes says so.")
        print_text(said + "\n")
        if not access.says_yes(f"Delete {given.name} from this disk"):
            raise Trouble("Nothing was deleted.")
    naming.delete_note(given.name)
    if given.json:
        return print_json({"note": given.name, "deleted": str(path)}, [])
    return 0


def _shared() -> list[str]:
    """The notes that are here and have a log, and those of which that can't be seen."""
    found = []
    for name in notes.names():
        try:
            if read_only.about(notes.path_of(name)).url:
                found.append(name)
        except Trouble:
            found.append(name)
    return found


def _synced(name: str, password: str | None) -> Line:
    """Brings a note up to date; how that went."""
    try:
        if not read_only.about(notes.path_of(name)).url:
            return {"name": name, "came": 0, "unsent": 0}
        if line := server.connected(name):
            state = state_of_engine(line)
            away = state.get("why", "it doesn't answer") if state["log"] == "away" else None
            done = Errand(0, away, [])
        else:
            done = run_errand(name, password)
        unsent = read_only.about_and_unsent(notes.path_of(name))[1]
    except (Trouble, Unkept, Damaged, OSError) as why:
        return {"name": name, "came": 0, "unsent": 0, "offline": str(why)}
    found: Line = {"name": name, "came": done.came, "unsent": unsent}
    return found | ({"offline": done.offline} if done.offline else {}) | ({"told": done.told} if done.told else {})


def _print_synced(found: Sequence[Line], as_json: bool) -> None:
    if as_json:
        print_json({"notes": found}, [])
        return
    for one in found:
        words = f"{counted(one['unsent'], 'edit')} kept" if one["unsent"] else "all sent"
        came = f", {entries(one['came'])} came" if one["came"] else ""
        away = f": {one['offline']}" if "offline" in one else ""
        print_text(f"{one['name']}  {'not reached' if away and not one['unsent'] else words}{came}{away}\n")
        report(one.get("told", []))


def _goes(name: str, path: pathlib.Path) -> str:
    """What is lost where a note is deleted, and what isn't."""
    try:
        about, unsent = read_only.about_and_unsent(path)
    except Trouble as why:
        return f"{why} With it go the copies of it that were set aside."
    kept = (f"Others keep theirs, and its log stays as it is ({about.url}); to have it again you need its link." if about.url else
            "It has no log, so it is nowhere else, unless you gave somebody a copy of the file.")
    lost = f" {counted(unsent, 'edit')} that may never have been sent would be lost." if unsent else ""
    older = naming.before(name)
    return (f"The note {name} would go from this disk, with its key.{lost} {kept}"
            + (f" {', '.join(older)} would stay." if older else ""))
