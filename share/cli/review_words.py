"""The words of the verbs about what is said of a note, each with its own --help."""
import argparse
import re
from collections.abc import Callable

REVIEW_VERBS = ("remarks", "remark", "suggest", "reply", "resolve", "reopen", "accept", "reject", "revise", "withdraw")
# Those whose words may begin with a hyphen.
REVIEW_VERBS_OF_ANY_WORDS = ("remark", "suggest", "reply", "revise")
MakesVerb = Callable[..., argparse.ArgumentParser]
HOW_TO_PLACE = """\
--on names the passage by its words, which have to be in the note just once; --at names a place by its line, and its column,
counted in characters from 1.
"""
INPUT = "- as {} is what standard input has.\n"
CRITIC = """
critic is CriticMarkup: {++new++}, {--old--}, {~~old~>new~~}, and {==passage==}{>>NAME: remark<<}{>>NAME: reply<<}. Marks that the
text itself has get a backslash inside, as {\\++.
"""


def add_review_verbs(verb: MakesVerb, word: Callable[[str], str]) -> None:
    """Adds the verbs."""
    listed = verb("remarks", "lists remarks and suggestions; without NAME, the open ones of all notes that are here", of_a_note=False,
                  more="Before each is the note, the line and the column; then its ID, its state and who wrote it. Of a suggestion, what\n"
                       "is there now is after -, and what is to be there after +. What is in a log alone is read where a NAME is given.\n")
    listed.add_argument("names", metavar="NAME", nargs="*", help="the notes")
    listed.add_argument("--open", action="store_true", help="only those that are open")
    listed.add_argument("--author", metavar="WHO", help="only those of this person")
    listed.add_argument("--password-file", metavar="FILE", help="a file that has the server's password")
    listed.set_defaults(log=None, link_file=None)

    remark = verb("remark", "remarks on a passage of a note, or on a place", more=HOW_TO_PLACE + INPUT.format("BODY"))
    suggest = verb("suggest", "suggests NEW for a passage of a note, or at a place; nothing is changed before somebody accepts",
                   more=HOW_TO_PLACE + INPUT.format("NEW or BODY") + "An empty NEW suggests that the passage be deleted.\n")
    for one in remark, suggest:
        where = one.add_mutually_exclusive_group(required=True)
        where.add_argument("--at", metavar="LINE[:COLUMN]", type=_line_and_column, help="the place")
        where.add_argument("--on", metavar="TEXT", type=word, help="the passage")
    remark.add_argument("body", metavar="BODY", type=word)
    suggest.add_argument("new", metavar="NEW", type=word)
    suggest.add_argument("body", metavar="BODY", type=word, nargs="?", default="", help="what is said about it")

    replying = _of_a_thread(verb, "reply", "replies to a remark or suggestion", INPUT.format("BODY"))
    replying.add_argument("body", metavar="BODY", type=word)
    _of_a_thread(verb, "resolve", "says that a remark or suggestion is settled")
    _of_a_thread(verb, "reopen", "says that one is open again")
    accept = _of_a_thread(verb, "accept", "does what is suggested, as you",
                          "Where the passage was changed since, nothing is done, and both texts are told.\n")
    accept.add_argument("--anyway", action="store_true", help="also where the passage was changed since")
    _of_a_thread(verb, "reject", "says that what is suggested won't be done")
    revising = _of_own(verb, "revise", "has a remark, suggestion or reply of yours say something else", INPUT.format("BODY"))
    revising.add_argument("body", metavar="BODY", type=word)
    _of_own(verb, "withdraw", "takes back a remark, suggestion or reply of yours; replies of others stay")


def _of_a_thread(verb: MakesVerb, name: str, words: str, more: str = "", of: str = "the remark or suggestion") -> argparse.ArgumentParser:
    one = verb(name, words, more="bin/note remarks NAME says which ID each has.\n" + more)
    one.add_argument("id", metavar="ID", help=of)
    return one


def _of_own(verb: MakesVerb, name: str, words: str, more: str = "") -> argparse.ArgumentParser:
    return _of_a_thread(verb, name, words, "With --json it says so of replies, too.\n" + more, "the remark, suggestion or reply")


def _line_and_column(given: str) -> tuple[int, int]:
    """A place as people count it."""
    if found := re.fullmatch(r"([1-9][0-9]{0,8})(?::([1-9][0-9]{0,8}))?", given):
        return int(found[1]), int(found[2] or 1)
    raise argparse.ArgumentTypeError(f"{given!r} is no line, nor a line and a column")
