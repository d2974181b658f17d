"""The words of the verbs for scripts, each with its own --help."""
import argparse
import re
from collections.abc import Callable, Sequence
from contextlib import suppress
from datetime import datetime

from share.cli.review_words import CRITIC, REVIEW_VERBS, REVIEW_VERBS_OF_ANY_WORDS, add_review_verbs
from share.format.operation import TEXT
from share.format.second.form import RecordForm

SCRIPT_VERBS = ("cat", "append", "replace", "import", "export", "list", "history", "log", "changed", "search", "sync", "check", "rename",
                "delete", *REVIEW_VERBS)
# Those that need no more words, and those whose words may begin with a hyphen.
ALONE, OF_ANY_WORDS = ("list", "sync", "remarks"), ("append", "replace", "search", *REVIEW_VERBS_OF_ANY_WORDS)
LONGEST_PAUSE = 86_400.0
WHICH_TEXTS = f"a note of the second form has texts 1 to {RecordForm.texts[-1]}, one of the first form has text {TEXT} alone"
# What stands before a word that begins with a hyphen, so that it is taken for no option. No word of a command line has it.
NO_OPTION = "\0"
SCRIPT_STATUSES = """\
Ends with 0; with 2 and a sentence where it couldn't be done; with 3 where something of the note is missing in what
was read, which standard error says.
"""


def script_parser() -> argparse.ArgumentParser:
    """The verbs and their words."""
    every = argparse.ArgumentParser("bin/note")
    verbs = every.add_subparsers(dest="verb", required=True)

    def verb(name: str, words: str, *arguments: str, more: str = "", of_a_note: bool = True,
             makes: bool = False) -> argparse.ArgumentParser:
        one = verbs.add_parser(name, help=words, description=f"{words[0].upper()}{words[1:]}.", epilog=more + SCRIPT_STATUSES,
                               formatter_class=argparse.RawDescriptionHelpFormatter)
        if of_a_note:
            _add_words_of_a_note(one)
        if makes:
            one.add_argument("--new", action="store_true", help="make a note that isn't here")
            add_form(one, "made")
        one.add_argument("--json", action="store_true", help="give data as JSON")
        for argument in arguments:
            one.add_argument(argument.lower(), metavar=argument, type=_word)
        return one

    _add_text(verb("cat", "prints a note's text"))
    append = verb("append", "types at the end of a note: TEXT and a line end, else what standard input has", makes=True)
    append.add_argument("text", metavar="TEXT", nargs="?", type=_word)
    verb("replace", "puts NEW in the place of OLD, wherever that stands", "OLD", "NEW",
         more="Ends with 1 where OLD doesn't stand in the note.\n")
    _add_import_and_export(verb)
    _add_verbs_of_files(verb)
    add_review_verbs(verb, _word)
    _add_verbs_of_the_past(verb)
    return every


def add_form(one: argparse.ArgumentParser, done: str) -> None:
    """Adds the option that says of which form a note is to which something is done."""
    one.add_argument("--form", metavar="FORM", type=int, choices=(1, 2),
                     help=f"of which form a note is that is {done}: 1, or 2, which versions before this one can't read")


def _add_verbs_of_the_past(verb: Callable[..., argparse.ArgumentParser]) -> None:
    """Adds the verbs that say what a note was, and what became of it."""
    past = verb("history", "prints a note's text as it was, with --json also who wrote what",
                more="A note begins empty. bin/note log says what was done since, and which N is after that.\n")
    past.add_argument("--at", type=int, metavar="N", required=True, help="after the first N messages")
    verb("log", "says what was done, step by step, and by whom",
         more="Before each step is the N with which bin/note history prints the text as it was then. At the end is what was\n"
              "left out for good, since others hold its place; bin/note recover --lost NAME types it again.\n")
    one = verb("changed", "says what changed of a note, and by whom, with the lines around; with --json with all of the text",
               more="What came is between {++ and ++}, what went between {-- and --}, or in colours, with who did that.\n")
    one.add_argument("--since", metavar="looked|TIME|N", type=_since, default={},
                     help="since you looked last, as an editor was closed or left alone for five minutes, which is meant without it; since "
                          "you had looked at a TIME as 2030-12-31T23:59; or since the first N messages, as bin/note log tells it")
    one.add_argument("--until", metavar="N", type=int, help="with --since N: up to the first N messages, and not up to now")


def _add_import_and_export(verb: Callable[..., argparse.ArgumentParser]) -> None:
    more = verb("import", "makes a file's text the note's, by the changes that are needed", "FILE", makes=True,
                more="- is standard input. The file has to be UTF-8; its line ends are kept. Several notes are done in the time of a few;\n"
                     "with --json each has a line.\n" + CRITIC)
    more.add_argument("more", metavar="NAME FILE", nargs="*", help="more notes, each with its file")
    more.add_argument("--format", choices=("text", "critic"), default="text",
                      help="critic makes the file's suggestions and remarks, as far as they aren't there; its text has to be the note's")
    export = verb("export", "writes a note's text as a file", "FILE", more="- is standard output.\n" + CRITIC)
    export.add_argument("--format", choices=("text", "html", "critic", "note"), default="text",
                        help="html has the looks, too; critic the remarks and suggestions; note all of a relay's note, with its link, as "
                        "its page and recover read it")
    export.add_argument("--remarks", action="store_true", help="html: with the remarks and suggestions in the margin")
    export.add_argument("--all", action="store_true", help="also those that are settled")
    export.add_argument("--replace", action="store_true", help="replace a file that is there")
    _add_text(export)


def _add_words_of_a_note(one: argparse.ArgumentParser) -> None:
    one.add_argument("name", metavar="NAME", type=_word, help="the note")
    one.add_argument("--log", metavar="URL", help="where the note's log is; without it, where it was last")
    one.add_argument("--link-file", metavar="FILE", help="a file that has the note's link")
    one.add_argument("--password-file", metavar="FILE", help="a file that has the server's password")


def _add_text(one: argparse.ArgumentParser) -> None:
    one.add_argument("--text", metavar="N", dest="of_text", type=_text, default=TEXT,
                     help="which text of a note that has several; 1 is the note's")


def _add_verbs_of_files(verb: Callable[..., argparse.ArgumentParser]) -> None:
    """Adds the verbs that are about notes as a whole."""
    verb("list", "lists the notes of this data folder", of_a_note=False,
         more="Of a note with a log it says how many edits were never sent, as far as that is known without asking the log, and when its\n"
              "file was changed last.\n")
    search = verb("search", "looks for words in all notes that are here, in capitals or not", of_a_note=False,
                  more="Prints each line that has them, after the note's name and the line's number. Ends with 1 where there is none.\n"
                       "What is in a log alone isn't looked at; bin/note sync brings it.\n")
    search.add_argument("words", metavar="WORDS", nargs="+", type=_word)
    sync = verb("sync", "sends what notes have that their logs lack, and gets what the logs have; without NAME, of all notes",
                of_a_note=False, more="Ends with 3 where a log couldn't be reached. A password is for all logs of these notes.\n")
    sync.add_argument("names", metavar="NAME", nargs="*")
    sync.add_argument("--every", metavar="SECONDS", type=_pause, help="go on until this is ended, with this pause between")
    sync.add_argument("--password-file", metavar="FILE", help="a file that has the server's password")
    check = verb("check", "says whether the library's note, which is proved, shows the same of a note's file", of_a_note=False,
                 more="The note has to be of the second form. What is in its log alone isn't looked at; bin/note sync brings it.\n"
                      "Ends with 1 where something differs.\n")
    rename = verb("rename", "gives a note another name on this disk; nobody else's changes", of_a_note=False)
    delete = verb("delete", "takes a note from this disk, with its text and its keys, after asking; others keep theirs, and its log "
                            "stays as it is", of_a_note=False)
    check.add_argument("name", metavar="NAME", help="the note")
    for one in rename, delete:
        one.add_argument("name", metavar="NAME", help="the note, which no editor has open")
    rename.add_argument("new", metavar="NEW", help="its new name")
    delete.add_argument("--yes", action="store_true", help="don't ask")


def with_hyphens(words: Sequence[str]) -> list[str]:
    """The words of a verb, of whose texts one may begin with a hyphen: `-milk` is no option."""
    return [NO_OPTION + one if words[0] in OF_ANY_WORDS and re.match("-(?!-|h$).", one) else one for one in words]


def _pause(given: str) -> float:
    with suppress(ValueError):
        if 0 < (seconds := float(given)) <= LONGEST_PAUSE:
            return seconds
    raise argparse.ArgumentTypeError(f"{given!r} isn't a pause of up to a day, in seconds")


def _text(given: str) -> int:
    with suppress(ValueError):
        if (number := int(given)) in RecordForm.texts:
            return number
    raise argparse.ArgumentTypeError(f"{given!r} is no text's number: {WHICH_TEXTS}")


def _since(given: str) -> dict[str, int]:
    """A time or place, as an engine is asked for it; none for the last look."""
    with suppress(ValueError, OverflowError, OSError):
        return {} if given == "looked" else {"at": int(given)} if re.fullmatch("[0-9]+", given) else {
            "time": int(datetime.fromisoformat(given).timestamp())}
    raise argparse.ArgumentTypeError(f"{given!r} is neither looked, nor a time as 2030-12-31T23:59, nor a number of messages")


def _word(given: str) -> str:
    return given.removeprefix(NO_OPTION)
