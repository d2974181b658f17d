"""bin/note renew: a note is copied into a new one."""
import argparse

from share.cli import access
from share.cli.output import report, report_missing
from share.editors.terminal.keys import safe_for_terminal
from share.format.history import Messages
from share.program import retyping
from share.store import nicknames, notes, read_only, renewal
from share.store.guarded import Damaged, Unkept
from share.sync.errand import run_errand
from share.text.errors import Trouble

# What goes where a note is copied back into the first form.
OF_FIRST_FORM = ("It is of the first form again: a number, be it one that was copied, can be taken over there for a few hashes, and there "
                 "is one text alone.")


def renew_note(given: argparse.Namespace, name: str) -> int:
    """Copies the note into a new one, and says what isn't in that on standard error."""
    is_fresh, names = given.fresh or bool(given.without), nicknames.known(name)
    kept = set(names)

    def begins(messages: Messages) -> Messages:
        if not is_fresh:
            return messages
        made = agreed(given, names, messages)
        kept.intersection_update(made.sizes)
        return made.messages

    done = notes.renew(name, access.given_url(given), access.given_password(given), access.own_name(), begins, given.form)
    if names:
        nicknames.remember(done.before, names)
        # A number that isn't used in the new note is perhaps another one's there.
        nicknames.remember(name, {site: called for site, called in names.items() if site in kept})
    status = report_renewed(name, done, is_fresh, names)
    report(given_to_log(name, access.given_password(given)))
    return status


def given_to_log(name: str, password: str | None) -> list[str]:
    """Gives the log of a new note what the note begins with, so that whoever has the link can join; why that can't be done now, in
    words."""
    try:
        if not read_only.about(notes.path_of(name)).url:
            return []
        why = run_errand(name, password).offline
    except (Trouble, Unkept, Damaged, OSError) as fault:
        why = str(fault)
    return [f"The log couldn't be given the new note ({why}). It gets it once you open {name}, or by bin/note sync {name}; until then "
            "whoever joins finds nothing."] if why else []


def report_renewed(name: str, done: notes.Renewed, is_fresh: bool, names: dict[int, str]) -> int:
    """Says what a note that was renewed has; the status."""
    has = "the text of the old one, where its history begins; the old one" if is_fresh else (
        "the text and the history of the old one, which")
    print(f"{name} is a new note with {has} is {done.before} now. If it has a log, bin/note link {name} prints its link, for those who are "
          "to go on.")
    if done.is_back:
        print(OF_FIRST_FORM)
    missing = done.missing
    if done.left_out:
        lines = retyping.with_names(retyping.as_lines(done.left_out, set()), names)
        missing = [*missing, f"Left out of the old note for good, and not in the new one: {retyping.whose_in_words(lines)}."]
    return report_missing(missing)


def agreed(given: argparse.Namespace, names: dict[int, str], messages: Messages) -> renewal.Fresh:
    """The text as it is, for a note that begins with it, where the user says so who is told what that is."""
    made = renewal.fresh(messages, frozenset(given.without or ()))
    print(safe_for_terminal(renewal.fresh_in_words(made, names)))
    if not given.yes:
        if not access.has_terminal():
            raise Trouble("Nothing was done, since nobody can be asked here whether that is wanted. --yes says so.")
        if not access.says_yes("Make it"):
            raise Trouble("Nothing was done.")
    return made
