"""Lines of the engine's protocol, and what is wrong with one."""
import json
import re

from share.log.base import Unreachable
from share.store.guarded import Damaged, Unkept
from share.text.errors import Trouble
from share.text.line import MOST_LINE, Line
from share.text.looks import MOST_COLOUR

# The most changes of an edit, which take some seconds, and the most stretches that are given looks at once.
MOST_REPLACEMENTS = 50_000
# Greater numbers aren't the same in all languages.
MOST_NUMBER = 2**53 - 1
MOST_ID = 64
EDITOR = re.compile(r"[A-Za-z0-9-]{1,64}")
COLOUR = re.compile(r"#[0-9a-fA-F]{6}")

# Made once, since each line needs one.
ENCODER, DECODER = json.JSONEncoder(ensure_ascii=False, separators=(",", ":")), json.JSONDecoder()


class Wrong(Exception):
    """A request can't be done: the code of why, and words."""

    def __init__(self, code: str, words: str, **more: object):
        super().__init__(words)
        self.code, self.more = code, more


def failure(fault: Exception) -> Line:
    """The error of a request that isn't done, for a reason that was thought of or another one."""
    if isinstance(fault, Wrong):
        return {"error": fault.code, "words": str(fault), **fault.more}
    known = isinstance(fault, (Trouble, Unkept, Damaged, Unreachable))
    return {"error": "failed", "words": str(fault) if known else f"{type(fault).__name__}: {fault}"}


def parse(data: bytes | None) -> Line:
    """The object that a line has; None is a line that was too long."""
    if data is None:
        raise Wrong("long", f"The line has more than {MOST_LINE:,} bytes.")
    try:
        line = DECODER.decode(data.decode())
    except (ValueError, RecursionError):
        line = None
    if not isinstance(line, dict):
        raise Wrong("json", "The line is no JSON object in UTF-8.")
    return line


def serialize(line: Line) -> bytes:
    """The line of an object, with its end."""
    return ENCODER.encode(line).encode("utf-8", "replace") + b"\n"


def editor_of(request: Line) -> str:
    """What an editor calls itself that can open again, if it does."""
    given = request.get("editor", "")
    if not isinstance(given, str) or given and not EDITOR.fullmatch(given):
        raise Wrong("field", "editor has to have 1 to 64 letters, digits and -.")
    if "again" in request and not given:
        raise Wrong("field", "again is of an editor that said editor as it opened the note first.")
    return given


def once_of(request: Line) -> int | None:
    """The number by which an editor asks for something again, if the request has one."""
    return number(request, "once") if "once" in request else None


def edits_of(request: Line, default: int) -> int:
    """How many edits an editor says that it has made, if it says so."""
    given = request.get("edits")
    return given if type(given) is int and 0 <= given <= MOST_NUMBER else default


def number(request: Line, name: str, default: int | None = None) -> int:
    """A field that is a number from 0 on."""
    value = request.get(name, default)
    if type(value) is not int or not 0 <= value <= MOST_NUMBER:
        raise Wrong("field", f"{name} has to be a number from 0 on.")
    return value


def string(request: Line, name: str) -> str:
    """A field that is a string."""
    value = request.get(name)
    if not isinstance(value, str) or not is_whole(value):
        raise Wrong("field", f"{name} has to be a string of whole characters.")
    return value


def is_id(given: object) -> bool:
    """Whether a request may have this as its id."""
    if isinstance(given, str):
        return len(given) <= MOST_ID and is_whole(given)
    return type(given) is int and abs(given) <= MOST_NUMBER


def is_whole(text: str) -> bool:
    """Whether a text has no half of a surrogate pair."""
    return not any("\ud800" <= letter <= "\udfff" for letter in text)


def replacements(request: Line) -> list[tuple[int, int, str]]:
    """The changes of an edit."""
    found = request.get("changes")
    if not isinstance(found, list) or not all(_is_replacement(one) for one in found):
        raise Wrong("field", "changes has to be a list of [begin, end, text].")
    if len(found) > MOST_REPLACEMENTS:
        raise Wrong("long", f"An edit has {MOST_REPLACEMENTS:,} changes at most.")
    return [(begin, end, text) for begin, end, text in found]


def ranges(request: Line) -> list[tuple[int, int]]:
    """The stretches that are given looks."""
    found = request.get("ranges")
    if not isinstance(found, list) or len(found) > MOST_REPLACEMENTS or not all(_is_range(one) for one in found):
        raise Wrong("field", f"ranges has to be a list of [begin, end], of {MOST_REPLACEMENTS:,} at most.")
    return [(begin, end) for begin, end in found]


def _is_range(one: object) -> bool:
    return (isinstance(one, list) and len(one) == 2 and all(type(place) is int for place in one)
            and 0 <= one[0] <= one[1] <= MOST_NUMBER)


def looks(request: Line) -> tuple[bool | None, int | None]:
    """The looks that are to be set: whether they are bold, and a colour."""
    bold, colour = request.get("bold"), request.get("colour")
    if bold is None and colour is None:
        raise Wrong("field", "bold or colour has to be given.")
    is_colour = colour is None or type(colour) is int and 0 <= colour <= MOST_COLOUR
    if not (bold is None or type(bold) is bool) or not is_colour:
        raise Wrong("field", f"bold has to be true or false, and colour a number up to {MOST_COLOUR}.")
    return bold, colour


def _is_replacement(one: object) -> bool:
    if not isinstance(one, list) or len(one) != 3:
        return False
    begin, end, text = one
    return (type(begin) is int and type(end) is int and isinstance(text, str)
            and max(abs(begin), abs(end)) <= MOST_NUMBER)
