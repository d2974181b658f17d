"""The verbs of bin/note that open a note, or bring one back."""
import argparse
import curses
import os
import pathlib
import sys

from share.cli import access
from share.cli.output import print_bytes, report_missing, says_once
from share.cli.renewing import renew_note
from share.editors.client import note_for_script
from share.editors.joined_line import NextEngine
from share.editors.note import EngineNote
from share.editors.terminal.app import edit
from share.editors.terminal.keys import safe_for_terminal
from share.engine import server
from share.program import retyping
from share.program.process import TOP, make_ready
from share.store import contents, notes
from share.text.errors import Trouble, counted
from share.text.rope import swapped

# By which a page's editors come to the note's engine.
ENGINE_COMMAND = [str(TOP / "bin" / "note"), "engine"]


def run_note_verb(given: argparse.Namespace) -> int:
    """Does what a verb says; the status."""
    if given.verb != "link":
        make_ready()
    if given.verb == "recover" and given.lost:
        return retype(given, *given.names)
    if given.verb == "recover":
        for told in notes.recover([pathlib.Path(name) for name in given.names]):
            print(safe_for_terminal(told))
        return 0
    (name,) = given.names
    if given.verb == "link":
        print(notes.link_to(name))
    elif given.verb == "engine":
        for_editors(given, name)
    elif given.verb == "web":
        in_browser(given, name)
    elif given.verb == "renew":
        return renew_note(given, name)
    elif given.prints:
        return print_note(given, name)
    else:
        on_screen(given, name)
    return 0


def on_screen(given: argparse.Namespace, name: str) -> None:
    """Edits the note in the terminal, and says what is left to be sent."""
    notes.path_of(name)
    if not access.has_terminal():
        raise Trouble("The editor needs a terminal. To print a note: bin/note NAME --print.")
    link = access.given_or_asked_link(given, name)
    access.require_agreement(given, name, link)
    line = server.connected_or_started(name, access.opener(given, name, link))
    following = NextEngine(name, [*ENGINE_COMMAND, name, *_options(given)])
    os.environ.setdefault("ESCDELAY", "25")
    try:
        note = curses.wrapper(edit, name, lambda bar, wake: EngineNote(line, bar, wake, access.own_name(), following.line))
    except curses.error as why:
        raise Trouble(f"The terminal can't be used ({why}). TERM has to name one that this system "
                      "knows.") from why
    if unsent := note.session.status().unsent:
        print(f"Not sent yet, and kept in {notes.path_of(name)}: {counted(unsent, 'edit')}. Open the note again when "
              "its log can be reached.")


def for_editors(given: argparse.Namespace, name: str) -> None:
    """Hands lines on between an editor and the note's engine, which is started where it isn't there."""
    access.require_agreement(given, name, access.given_link(given))
    server.relayed(name, access.opener_by_link(given, name))


def in_browser(given: argparse.Namespace, name: str) -> None:
    """Opens the note in the browser, by engines of its own account."""
    try:
        from share.editors.web.opening import serve_note
    except ModuleNotFoundError as why:
        raise Trouble(f"The page needs Debian's python3-aiohttp ({why}).") from why
    notes.path_of(name)
    link = access.given_or_asked_link(given, name)
    access.require_agreement(given, name, link)
    if link:
        os.environ["VIALSHOAL_LINK"] = link.spelled()
    options = _options(given, ("--form", given.form and str(given.form)))

    def commands(note: str) -> tuple[list[str], dict[str, str]]:
        """The command of a note's engine, and its environment: what was given is for this one."""
        if note == name:
            return [*ENGINE_COMMAND, note, *options], {**os.environ}
        return [*ENGINE_COMMAND, note], {key: value for key, value in os.environ.items() if key != "VIALSHOAL_LINK"}

    serve_note(name, commands, access.own_name(), given.browses)


def _options(given: argparse.Namespace, *more: tuple[str, str]) -> list[str]:
    """The options of an engine's command that were given."""
    words = [("--log", given.log), ("--password-file", given.password_file), *more]
    return [word for pair in words if pair[1] for word in pair]


def print_note(given: argparse.Namespace, name: str) -> int:
    """Prints the note, and what is missing in it on standard error."""
    found = contents.text_of_note(name, access.given_url(given), access.given_link(given), access.given_password(given))
    text = swapped(found.text)
    if sys.stdout.isatty():
        # A terminal does what control characters say, whoever typed them.
        lines = text.decode("utf-8", "surrogateescape").split("\n")
        text = "\n".join(map(safe_for_terminal, lines)).encode("utf-8", "replace")
    print_bytes(text)
    return report_missing(found.missing)


def retype(given: argparse.Namespace, name: str) -> int:
    """Shows what was left out of the note, and types it again."""
    if not notes.is_here(name):
        raise Trouble(f"There is no note {name} here.")
    access.require_agreement(given, name, access.given_link(given))
    with note_for_script(name, access.quiet_opener(given, name), says_once(name)) as note:
        found = note.recover()
        unsent = bool(found) and not note.is_sent()
    for line in found:
        print(f"{retyping.called(line)}, {counted(line['characters'], 'character')}:")
        print(safe_for_terminal(line["text"], "\n\t"))
    print(f"Typed again: {retyping.whose_in_words(retyping.summed(found))}." if found else "Nothing was left out.")
    if unsent:
        print(f"note: kept in {notes.path_of(name)}, and not sent yet.", file=sys.stderr)
    return 0
