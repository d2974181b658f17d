"""The verbs for scripts that say something of a note: remarks, suggestions, replies, and what becomes of them."""
import argparse
import json
from collections.abc import Callable

from share.cli import access
from share.cli.critic import line_and_column
from share.cli.editing import say_if_unsent
from share.cli.output import quoted, report, says_once
from share.cli.texts import STANDARD_INPUT, argument, argument_or_input
from share.editors.client import RequestRefused, ScriptNote, note_for_script
from share.store import notes
from share.text.errors import Trouble, counted
from share.text.line import Line

# What is told of a suggestion whose passage was changed since.
WHAT_CHANGED = {"was": "The passage was", "now": "It is now", "becomes": "It would be"}


def remark(given: argparse.Namespace) -> int:
    """Remarks on a passage or a place."""
    body = _body_given(given)
    return say(given, lambda note: note.write_at("remark", lambda text: asked_place(text, given), body=body)["thread"], "remark")


def suggest(given: argparse.Namespace) -> int:
    """Suggests other words for a passage, or new ones at a place."""
    if STANDARD_INPUT == given.new == given.body:
        raise Trouble("NEW and BODY can't both be standard input.")
    new, body = argument_or_input(given.new), _body_given(given)
    return say(given, lambda note: note.write_at("suggest", lambda text: asked_place(text, given), new=new, body=body)["thread"],
               "suggestion")


def reply(given: argparse.Namespace) -> int:
    """Replies."""
    body = _body_given(given)
    return say(given, lambda note: note.write("reply", to=given.id, body=body)["record"], "reply")


def revise(given: argparse.Namespace) -> int:
    """Has something of this person's say something else."""
    body = _body_given(given)
    return say(given, lambda note: note.write("revise", to=given.id, body=body) and given.id, "revise")


def change_state(given: argparse.Namespace) -> int:
    """Resolves, opens again, rejects or takes back, as the verb says."""
    return say(given, lambda note: note.write(given.verb, to=given.id) and given.id, given.verb)


def accept(given: argparse.Namespace) -> int:
    """Does what is suggested."""
    def accepted(note: ScriptNote) -> str:
        shown = dict[str, str]()
        while True:
            try:
                note.write("accept", to=given.id, **shown)
                return str(given.id)
            except RequestRefused as why:
                if why.line["error"] != "changed":
                    raise
                report(f"{what} {quoted(str(why.line.get(name, '')))}" for name, what in WHAT_CHANGED.items())
                if not given.anyway:
                    raise
                shown = {"becomes": why.line["becomes"]}

    return say(given, accepted, "accept")


def say(given: argparse.Namespace, does: Callable[[ScriptNote], object], what: str) -> int:
    """Says something of a note that is here, or is joined by a link; the status."""
    link = access.given_link(given)
    if not link:
        notes.existing(given.name)
    access.require_agreement(given, given.name, link)
    with note_for_script(given.name, access.quiet_opener(given, given.name), says_once(given.name), access.own_name()) as note:
        found = does(note)
        is_sent = note.is_sent()
    report(note.says)
    if given.json:
        print(json.dumps({"note": given.name, what: found, "sent": is_sent}))
    else:
        if what in ("remark", "suggestion", "reply"):
            print(found)
        say_if_unsent(given.name, is_sent)
    return 0


def asked_place(text: str, given: argparse.Namespace) -> Line:
    """The passage or the place that the command line names, as a request has it."""
    begin, end = _passage(text, argument(given.on)) if given.at is None else (_place_at(text, *given.at),) * 2
    return {"begin": begin, "end": end}


def _passage(text: str, words: str) -> tuple[int, int]:
    """Where words are that are there just once."""
    if not words:
        raise Trouble("--on needs some words.")
    begin = text.find(words)
    if begin < 0:
        raise Trouble(f"{quoted(words)} isn't in the note.")
    many, again = 1, text.find(words, begin + 1)
    if again >= 0:
        while again >= 0:
            many, again = many + 1, text.find(words, again + 1)
        line, column = line_and_column(text, begin)
        raise Trouble(f"{quoted(words)} is in the note {counted(many, 'time')}, first at {line}:{column}. Name more of its words, or a "
                      "place by --at.")
    return begin, begin + len(words)


def _place_at(text: str, line: int, column: int) -> int:
    """Where a line's column is."""
    lines = text.split("\n")
    if line > len(lines):
        raise Trouble(f"The note has {counted(len(lines), 'line')}, and no line {line}.")
    if column > len(lines[line - 1]) + 1:
        raise Trouble(f"Line {line} has {counted(len(lines[line - 1]), 'character')}, and no column {column}.")
    return sum(len(one) + 1 for one in lines[:line - 1]) + column - 1


def _body_given(given: argparse.Namespace) -> str:
    """What is said; of standard input without the last line end."""
    return argument_or_input(given.body).removesuffix("\n" if given.body == STANDARD_INPUT else "")
