"""The verbs for scripts that edit a note: by the engine that has it open, where one does, and else under a number that
this person has."""
import argparse
import json
import sys
import threading
from collections.abc import Callable
from concurrent.futures import ThreadPoolExecutor
from typing import NamedTuple

from share.cli import access
from share.cli.line_changes import line_changes, word_changes
from share.cli.of_files import NOTES_AT_ONCE
from share.cli.output import report, says_once
from share.cli.texts import STANDARD_INPUT, argument, text_of_file
from share.editors.client import WaitsFor, note_for_script
from share.editors.mirror import TextChange
from share.store import notes
from share.store.guarded import Unkept
from share.text.errors import Refused, Trouble

NOTHING_DONE, FAILED = 1, 2


def append(given: argparse.Namespace) -> int:
    """Types at the end."""
    text = argument(given.text) + "\n" if given.text is not None else text_of_file(STANDARD_INPUT)
    return _edited(given, lambda old: [(len(old), len(old), text)] if text else [])


def replace(given: argparse.Namespace) -> int:
    """Puts words in the place of others."""
    if not given.old:
        raise Trouble("There is nothing to look for.")
    if not (notes.is_here(given.name) or access.secret(given.link_file, "VIALSHOAL_LINK")):
        raise Trouble(f"There is no note {given.name} here.")
    old, new = argument(given.old), argument(given.new)
    return _edited(given, lambda text: word_changes(text, old, new), "replaced")


def import_files(given: argparse.Namespace) -> int:
    """Makes files' texts notes' texts. Of several notes some are done at once, since most of the time goes by for their logs."""
    words = [given.name, given.file, *given.more]
    names, files = words[::2], words[1::2]
    if len(names) != len(files) or len(set(names)) < len(names) or files.count(STANDARD_INPUT) > 1:
        raise Trouble("Each note needs a file, and comes once.")
    if len(names) > 1 and access.given_link(given):
        raise Trouble("A link is of one note.")
    texts = map(text_of_file, files)
    jobs = [(seen_to_be_right(argparse.Namespace(**{**vars(given), "name": name})), text) for name, text in zip(names, texts)]
    interrupted = threading.Event()
    with ThreadPoolExecutor(NOTES_AT_ONCE) as pool:
        try:
            found = [*pool.map(lambda job: _tried(job[0], lambda old: line_changes(old, job[1]), interrupted), jobs)]
        except BaseException:
            interrupted.set()
            pool.shutdown(wait=False, cancel_futures=True)
            raise
    return max(_told(job[0], one) for job, one in zip(jobs, found))


class ScriptEdit(NamedTuple):
    """An edit of a script's: how many changes were made, whether they are sent, and what the user is to be told."""

    changes: int
    is_sent: bool
    says: list[str]


def _edited(given: argparse.Namespace, changes_of: Callable[[str], list[TextChange]], what: str = "changed") -> int:
    """Makes changes of the text, each in the text that those before it leave."""
    return _told(seen_to_be_right(given), _done(given, changes_of, says_once(given.name)), what)


def seen_to_be_right(given: argparse.Namespace) -> argparse.Namespace:
    """The words, once it is seen that they are of a note that may be opened, or made."""
    link = access.given_link(given)
    access.require_note(given, given.name, link)
    access.require_agreement(given, given.name, link)
    return given


def _done(given: argparse.Namespace, changes_of: Callable[[str], list[TextChange]], waits_for: WaitsFor) -> ScriptEdit:
    with note_for_script(given.name, access.quiet_opener(given, given.name), waits_for) as note:
        changes = note.edit(changes_of)
        return ScriptEdit(changes, note.is_sent(), note.says)


def _tried(given: argparse.Namespace, changes_of: Callable[[str], list[TextChange]],
           interrupted: threading.Event) -> ScriptEdit | Exception:
    """The same of one of several notes, of which the others go on."""
    says = says_once(given.name)

    def waits_for(what: str) -> None:
        if interrupted.is_set():
            raise Trouble("This was interrupted.")
        says(what)

    try:
        return _done(given, changes_of, waits_for)
    except (Trouble, Refused, Unkept, OSError) as why:
        return why


def _told(given: argparse.Namespace, done: ScriptEdit | Exception, what: str = "changed") -> int:
    """Says what was done; the status."""
    if isinstance(done, Exception):
        report([f"{given.name}: {done}" if given.more else str(done)])
        return FAILED
    report(done.says)
    if given.json:
        print(json.dumps({"note": given.name, what: done.changes, "sent": done.is_sent}))
    else:
        say_if_unsent(given.name, done.is_sent)
    return 0 if done.changes or what == "changed" else NOTHING_DONE


def say_if_unsent(name: str, is_sent: bool) -> None:
    """Says that what was done isn't sent, where it isn't."""
    if not is_sent:
        print(f"note: kept in {notes.path_of(name)}, and not sent yet.", file=sys.stderr)
