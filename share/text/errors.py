"""What went wrong, in words: what it is, and what to do about it."""

REFUSALS = {
    1: "its bytes are no message",
    2: "it is of another text",
    3: "another message has the same site and number",
    4: "it doesn't begin where its site's characters end",
    5: "its stamp isn't above the stamps of what it builds on",
    6: "64 messages wait already for what they build on",
    7: "there is no memory for it",
    8: "a message waits that shows that this site was further once",
    9: "a message with the greatest stamp came in, and no edit can follow it",
    10: "one site types at most 16,777,216 bytes, and this one goes on under another number now: do it again, a part of it "
        "at a time if it is long",
    11: "a position or a name isn't in the text",
    12: "it is scattered over more than 1,024 stretches",
    20: "the program can't read it",
    21: "a note has two million messages at most; save it as a file, or have bin/note renew NAME --fresh make a new note of "
        "its text",
    23: "this site has made its last edit, and goes on under another number now: do it again",
}

# Where what a note begins with isn't here, and wasn't in its log; where it has no log; and once it has come.
NOT_BEGUN = "This note's text isn't in its log yet. It comes, and can be edited, once somebody who has it opens the note."
BEGIN_LOST = ("Something that this note began with is lost, so nothing of it can be shown or edited. bin/note recover FOLDER takes it from "
              "another copy of the note's file.")
BEGUN = "This note's text is here now."
# A note, a link or an entry of a form that only unreleased versions wrote.
GONE_FORM = "This note was made by an unreleased version of vialshoal and can't be opened."
# Entries of kinds that this version doesn't know.
NEWER = "Something in this note was made by a later version of vialshoal. It is kept, and isn't shown here."


class Trouble(Exception):
    """What a user is told where the note has to be closed: what happened, and what to do."""


class Gone(Trouble):
    """A note, a link or an entry has a form that only unreleased versions wrote. Nothing was changed."""

    def __init__(self) -> None:
        super().__init__(GONE_FORM)


def later(what: str) -> Trouble:
    """Return the error for a file that only a later version reads."""
    return Trouble(f"{what} was made by a later version of vialshoal. Nothing was changed; open it with that version.")


class Refused(Exception):
    """The program refused an own edit, by this number."""

    def __init__(self, number: int):
        super().__init__(f"The edit was {refusal(number)}.")
        self.number = number


def refusal(number: int) -> str:
    """The words for a refusal, with its number."""
    return f"refused ({number}): {REFUSALS.get(number, 'this version has no words for the number')}"


def counted(number: int, noun: str) -> str:
    """A number with its noun, as `1 edit` and `2 edits`."""
    return f"{number:,} {noun}" if number == 1 else f"{number:,} {noun}s"


def entries(number: int) -> str:
    """A number of entries, in words."""
    return "1 entry" if number == 1 else f"{number:,} entries"
