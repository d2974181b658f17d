"""By what a note is reached: the log's address, the link and the password that the command line names."""
import argparse
import contextlib
import getpass
import os
import pathlib
import sys
from collections.abc import Callable

from share.engine import server
from share.format import link as links
from share.format.second.key_link import AnyLink, link_of
from share.store import notes, read_only
from share.sync.session import Bar, Session
from share.text.errors import Trouble

OpensWithBar = Callable[[Bar, Callable[[], None]], Session]


def secret(name: str | None, variable: str) -> str | None:
    """What a file or a variable has that no argument may, since every account sees those."""
    if name is None:
        return os.environ.get(variable) or None
    try:
        return pathlib.Path(name).read_text(encoding="utf-8").strip()
    except (OSError, ValueError) as why:
        raise Trouble(f"{name} can't be read ({why}).") from why


def given_url(given: argparse.Namespace) -> str | None:
    """Where the log is, if that was given."""
    return links.url_of(given.log) if given.log else None


def given_link(given: argparse.Namespace) -> AnyLink | None:
    """The link, if one was given."""
    spelled = secret(given.link_file, "VIALSHOAL_LINK")
    return link_of(spelled) if spelled else None


def given_password(given: argparse.Namespace) -> str | None:
    """The server's password, if one was given."""
    return secret(given.password_file, "VIALSHOAL_PASSWORD")


def has_terminal() -> bool:
    """Whether a user can be asked."""
    return sys.stdin.isatty() and sys.stdout.isatty()


def says_yes(question: str) -> bool:
    """Whether the user answers a question with yes."""
    try:
        return input(f"{question} (y or n)? ").strip().lower() in ("y", "yes")
    except (EOFError, KeyboardInterrupt):
        return False


def require_note(given: argparse.Namespace, name: str, link: AnyLink | None) -> None:
    """Asks before a note is made that isn't here, since its name may be a typing error. Scripts say `--new`."""
    # A log that can be none is told first.
    given_url(given)
    if link or given.new or notes.is_here(name):
        return
    if not has_terminal():
        raise Trouble(f"There is no note {name} here. --new makes one.")
    if not says_yes(f"There is no note {name} here. Make a new one"):
        raise Trouble("No note was made.")


def given_or_asked_link(given: argparse.Namespace, name: str) -> AnyLink | None:
    """The link that was given, or that is asked for where there is no such note."""
    link = given_link(given)
    if not has_terminal():
        require_note(given, name, link)
    if link or given.new or notes.is_here(name) or not has_terminal():
        return link
    print(f"There is no note {name} here. To join one, paste its link, which isn't shown; Enter alone makes a new "
          "note.")
    try:
        spelled = getpass.getpass("Link: ")
    except (EOFError, KeyboardInterrupt) as why:
        raise Trouble("No note was made.") from why
    return link_of(spelled) if spelled.strip() else None


def require_agreement(given: argparse.Namespace, name: str, link: AnyLink | None) -> None:
    """Refuses a log, a link or a form that aren't the note's, before an engine is asked. Where the link is the note's and names another
    log, the user is asked whether that is gone on with."""
    path = notes.path_of(name)
    _require_form(getattr(given, "form", None), name, link)
    if link and not given.log and path.exists():
        about = read_only.about(path)
        notes.check_agreement(about, name, None, link)
        if link.url != about.url:
            _ask_for_log(name, about.url, link.url)
            given.log = link.url
    server.agree_with_engine(name, given_url(given), link)


def _require_form(form: int | None, name: str, link: AnyLink | None) -> None:
    """Refuses another form than that of a note that is here or joined, which it would keep without a word."""
    path = notes.path_of(name)
    if form and path.exists() and (own := read_only.about(path).form_number) != form:
        raise Trouble(f"The note {name} is of form {own}. bin/note renew {name} --form {form} copies it into one of form {form}.")
    if form and link and link.form_number != form:
        raise Trouble(f"That link's note is of form {link.form_number}. Leave out --form {form}.")


def _ask_for_log(name: str, old: str, new: str) -> None:
    said = f"The note {name} has {f'its log at {old}' if old else 'no log'}, and the link names {new}."
    if not has_terminal():
        raise Trouble(f"{said} Nothing was sent. Whoever believes the link goes on with bin/note {name} --log {new}.")
    print(f"{said} Whoever sent the link may have another one in mind; nothing is sent there before you say so.")
    if not says_yes(f"Go on with {new}"):
        raise Trouble("The note's log is as it was, and nothing was sent.")


def opener(given: argparse.Namespace, name: str, link: AnyLink | None) -> OpensWithBar:
    """Return what opens the note that the command line names."""
    url, password = given_url(given), given_password(given)

    def opened(bar: Bar, wake: Callable[[], None]) -> Session:
        return Session(notes.open_note(name, url, link, getattr(given, "form", None)), password, bar, wake)

    return opened


def opener_by_link(given: argparse.Namespace, name: str) -> OpensWithBar:
    """The same, where nobody can be asked for a link."""
    return opener(given, name, given_link(given))


def quiet_opener(given: argparse.Namespace, name: str) -> Callable[[Callable[[], None]], Session]:
    """The same, where nobody sees the progress."""
    opens = opener_by_link(given, name)
    return lambda wake: opens(lambda done, total: None, wake)


def own_name() -> str:
    """What others see at this person's cursor."""
    with contextlib.suppress(KeyError, OSError):
        return os.environ.get("VIALSHOAL_NAME") or getpass.getuser()
    return ""
