"""Files with what is said of a note: CriticMarkup, which can be said of a note again that has the same text, and the margin of a page."""
import argparse
import json
import os
from collections import Counter
from collections.abc import Iterable, Iterator

from share.cli import access, critic
from share.cli.critic import Reviewed, SaidBy, place_in_words
from share.cli.editing import seen_to_be_right, say_if_unsent
from share.cli.html import InMargin
from share.cli.output import quoted, report, says_once
from share.cli.remarks import review_of
from share.cli.texts import text_of_file
from share.editors.client import ScriptNote, note_for_script
from share.editors.threads import OPEN, SUGGESTION, speaker
from share.engine.thread_lines import ACCEPTED, TAKEN
from share.store.read_only import Judged
from share.text.errors import Trouble, counted
from share.text.line import Line

# What becomes of a thread that isn't open, by which request.
STATE_REQUESTS = {"resolved": "resolve", "rejected": "reject", ACCEPTED: "resolve"}
# How much of both texts is shown where they differ.
SHOWN = 20
# What is known of a thread by which it isn't made twice: its passage, what is suggested, and the words.
KnownThread = tuple[int, int, str | None, str]


def exported(given: argparse.Namespace, there: Judged) -> tuple[bytes, list[str]]:
    """A note's text with what is said of it, and what is missing in that."""
    review = review_of(given.name, there)
    asked = _asked_for(review.threads, given)
    away = sum("begin" not in one for one in asked)
    missing = [f"{counted(away, 'remark')} isn't written, since its text isn't here." if away == 1 else
               f"{counted(away, 'remark')} aren't written, since their text isn't here."] if away else []
    written = critic.written(review.text, (_reviewed(one) for one in asked if "begin" in one))
    return written.encode(), review.missing + missing


def in_margin(given: argparse.Namespace, there: Judged, text: bytes) -> list[InMargin]:
    """What is said of a note that has this text, for its page."""
    asked = [one for one in _asked_for(review_of(given.name, there).threads, given) if "begin" in one]
    sizes = _sizes(text, sorted({one[place] for one in asked for place in ("begin", "end")}))
    return [InMargin(sizes[one["begin"]], sizes[one["end"]], one) for one in asked]


def _sizes(text: bytes, places: Iterable[int]) -> dict[int, int]:
    """How many bytes there are before places, which count characters and rise."""
    points, found, at, size = text.decode("utf-8", "surrogateescape"), dict[int, int](), 0, 0
    for place in places:
        size += len(points[at:place].encode("utf-8", "surrogateescape"))
        at = place
        found[place] = size
    return found


def _asked_for(threads: Iterable[Line], given: argparse.Namespace) -> list[Line]:
    """The threads that are written: those that are open, or all but what was taken back."""
    return [one for one in threads if one["state"] == OPEN or given.all and one["state"] != TAKEN]


def _reviewed(one: Line) -> Reviewed:
    """A thread as a file has it."""
    new = one.get("new", "") if one["kind"] == SUGGESTION else None
    replies = (SaidBy(speaker(reply), reply.get("body", "")) for reply in one.get("replies", []) if not reply.get("taken"))
    return Reviewed(one["begin"], one["end"], new, SaidBy(speaker(one), one.get("body", "")), one["state"], (*replies,))


def import_critic(given: argparse.Namespace) -> int:
    """Says of a note what a file says of its text."""
    if given.more:
        raise Trouble("A file with remarks is imported into one note at a time.")
    text, threads = critic.read(text_of_file(given.file))
    seen_to_be_right(given)
    with note_for_script(given.name, access.quiet_opener(given, given.name), says_once(given.name), access.own_name()) as note:
        there, known = note.reviewed()
        _require_text(given, there, text)
        made = _say_all(note, note.version, _Known(known), threads)
        is_sent = note.is_sent()
    report(note.says)
    if given.json:
        print(json.dumps({"note": given.name, "made": made, "sent": is_sent}))
    else:
        say_if_unsent(given.name, is_sent)
    return 0


def _require_text(given: argparse.Namespace, there: str, text: str) -> None:
    """Refuses a file that is about another text."""
    if there == text:
        return
    at = len(os.path.commonprefix([there, text]))
    here, other = (quoted(one[at:at + SHOWN]) if one[at:] else "nothing more" for one in (there, text))
    raise Trouble(f"The text of {given.name} isn't that of {given.file} without what this suggests. {place_in_words(there, at)}: "
                  f"the note has {here}, and the file {other}.")


def _say_all(note: ScriptNote, version: int, there: "_Known", threads: Iterable[Reviewed]) -> int:
    """Says what isn't said of the note yet; how many threads are new. So after a kill midway the same again ends it."""
    made = 0
    for one in threads:
        suggested = None if one.state == ACCEPTED else one.new
        body = _spoken(one.said) or (ACCEPTED if one.state == ACCEPTED else "")
        if suggested is None and not body:
            # A remark without words is none.
            continue
        thread, replies = there.taken((one.begin, one.end, suggested, body))
        if thread is None:
            where = {"version": version, "begin": one.begin, "end": one.end, "body": body}
            asked = note.write("remark", **where) if suggested is None else note.write("suggest", new=suggested, **where)
            thread, made = asked["thread"], made + 1
            if one.state != OPEN:
                note.write(STATE_REQUESTS[one.state], to=thread)
        for reply in filter(None, map(_spoken, one.replies)):
            if replies[reply]:
                replies[reply] -= 1
            else:
                note.write("reply", to=thread, body=reply)
    return made


def _spoken(said: SaidBy) -> str:
    """Somebody's words as one's own: who says them is said in them, since nobody speaks for others."""
    return said.body if said.name in ("", access.own_name()) else _with_name(said.name, said.body)


def _with_name(name: str, body: str) -> str:
    return f"{name}: {body}" if body else f"{name}:"


class _Known:
    """What is said of a note already, each once for each time."""

    def __init__(self, threads: Iterable[Line]):
        self._by_words: dict[KnownThread, list[Line]] = {}
        for one in threads:
            if "begin" in one and one["state"] != TAKEN:
                new = one.get("new", "") if one["kind"] == SUGGESTION else None
                for words in _as_said(one):
                    self._by_words.setdefault((one["begin"], one["end"], new, words), []).append(one)
        self._taken = set[str]()

    def taken(self, known: KnownThread) -> tuple[str | None, Counter[str]]:
        """The thread that says so, which is then known no more, with the words of its replies; None where there is none."""
        one = next((one for one in self._by_words.get(known, []) if one["id"] not in self._taken), None)
        if one is None:
            return None, Counter()
        self._taken.add(one["id"])
        return one["id"], Counter(words for reply in one.get("replies", []) for words in _as_said(reply))


def _as_said(one: Line) -> Iterator[str]:
    """What was said, with who said it, and without."""
    yield one.get("body", "")
    yield _with_name(speaker(one), one.get("body", ""))
