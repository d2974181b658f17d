"""What a terminal sends as keys, and what must not be sent to it: control characters."""
import codecs
import re
from collections.abc import Iterator
from dataclasses import dataclass
from enum import Enum, auto

# What is drawn for a control character, and for a byte that is no UTF-8.
DOT, UNREADABLE = "\u00b7", "\ufffd"
# C0 and C1, the line and paragraph separators, and what turns the direction of writing for all that follows.
CONTROL = re.compile("[\0-\x1f\x7f-\x9f\u2028-\u202e\u2066-\u2069]")
_UNSAFE = re.compile(f"{CONTROL.pattern}|[\ud800-\udfff]")
# What no text gets by typing and pasting: control characters but the tab and the line end.
_UNTYPED = re.compile("[\0-\x08\x0a-\x0c\x0e-\x1f\x7f-\x9f]")

# A lone Esc is known by the silence after it. The rest of a sequence may come in a packet of its own.
ESCAPE_SECONDS = 0.025
SEQUENCE_SECONDS = 0.5
# The silence after an end marker that ends a paste: a marker in the pasted text is followed by
# more of it at once.
PASTE_QUIET_SECONDS = 0.03
# A paste whose end marker is lost ends when it hasn't grown for this time by more than one can type.
PASTE_LOST_SECONDS = 5.0
GROWTH = 256
# No note holds a longer paste.
LONGEST_PASTE = 1 << 24
# A sequence that is longer is none.
LONGEST_SEQUENCE = 4_096

PASTES_ON, PASTES_OFF = b"\x1b[?2004h", b"\x1b[?2004l"
# The buttons, the moves while one is down, and the wheel, spelled as numbers.
MOUSE_ON, MOUSE_OFF = b"\x1b[?1002h\x1b[?1006h", b"\x1b[?1006l\x1b[?1002l"
_PASTE_BEGIN, _PASTE_END = b"\x1b[200~", b"\x1b[201~"


def safe_for_terminal(text: str, kept: str = "") -> str:
    """A text as it may be sent to a terminal: a dot in place of each control character that isn't to be
    kept."""
    def safe(found: re.Match[str]) -> str:
        if found[0] in kept:
            return found[0]
        return UNREADABLE if "\ud800" <= found[0] <= "\udfff" else DOT
    return _UNSAFE.sub(safe, text)


class Key(Enum):
    """A key that types no character."""

    LEFT = auto()
    RIGHT = auto()
    UP = auto()
    DOWN = auto()
    HOME = auto()
    END = auto()
    PAGE_UP = auto()
    PAGE_DOWN = auto()
    WORD_LEFT = auto()
    WORD_RIGHT = auto()
    ENTER = auto()
    BACKSPACE = auto()
    DELETE = auto()
    ESCAPE = auto()
    UNDO = auto()
    REDO = auto()
    REPLACE = auto()
    LINE = auto()
    MARK = auto()
    CUT = auto()
    COPY = auto()
    PUT = auto()
    KILL = auto()
    FIND = auto()
    REMARK = auto()
    SUGGEST = auto()
    THREADS = auto()
    NEXT_THREAD = auto()
    SUGGESTING = auto()
    NEXT_CHANGE = auto()
    PREVIOUS_CHANGE = auto()
    SAVE = auto()
    QUIT = auto()
    OTHER = auto()


@dataclass(frozen=True)
class Pasted:
    """A text that was pasted, without the control characters that it had; `too_long` where it was thrown
    away."""

    text: str
    dropped: int = 0
    too_long: bool = False


class Button(Enum):
    """What the mouse does."""

    DOWN = auto()
    MOVED = auto()
    UP = auto()
    WHEEL_UP = auto()
    WHEEL_DOWN = auto()


@dataclass(frozen=True)
class Mouse:
    """The mouse at a cell of the screen: its first button, moved while that is down, or its wheel."""

    does: Button
    column: int
    line: int


# A key, a pasted text, the mouse, or characters that were typed.
Event = Key | Pasted | Mouse | str

_CONTROLS = {"\r": Key.ENTER, "\n": Key.ENTER, "\b": Key.BACKSPACE, "\x7f": Key.BACKSPACE, "\x1a": Key.UNDO,
             "\x19": Key.REDO, "\x12": Key.REPLACE, "\x0c": Key.LINE, "\0": Key.MARK, "\x18": Key.CUT,
             "\x16": Key.PUT, "\x01": Key.HOME, "\x05": Key.END, "\x0b": Key.KILL,
             "\x14": Key.REMARK, "\x15": Key.SUGGEST, "\x0f": Key.THREADS, "\x0e": Key.NEXT_THREAD,
             "\x06": Key.FIND, "\x13": Key.SAVE, "\x11": Key.QUIT, "\x03": Key.ESCAPE, "\x07": Key.ESCAPE}
# Those that are pressed with Alt, too.
_WITH_ALT = Key.ENTER, Key.BACKSPACE
# By the last letter of a sequence, and by the number of one that ends in ~.
_LETTERS = {"A": Key.UP, "B": Key.DOWN, "C": Key.RIGHT, "D": Key.LEFT, "H": Key.HOME, "F": Key.END}
_NUMBERS = {1: Key.HOME, 3: Key.DELETE, 4: Key.END, 5: Key.PAGE_UP, 6: Key.PAGE_DOWN, 7: Key.HOME, 8: Key.END, 19: Key.NEXT_CHANGE,
            32: Key.PREVIOUS_CHANGE}
_BY_WORDS = {Key.LEFT: Key.WORD_LEFT, Key.RIGHT: Key.WORD_RIGHT}
_BY_SHIFT = {Key.NEXT_CHANGE: Key.PREVIOUS_CHANGE}
_ALT = {"w": Key.COPY, "u": Key.SUGGESTING, "b": Key.WORD_LEFT, "f": Key.WORD_RIGHT}
# The keys of a number pad that is switched to sequences.
_PAD: dict[str, Event] = {"M": Key.ENTER, "X": "=", **dict(zip("jklmnopqrstuvwxy", "*+,-./0123456789"))}
_SHIFT = 1
# A mouse's number, without the bits of what is held beside; and what it is as the button is let go.
_MOUSE, _HELD = {0: Button.DOWN, 32: Button.MOVED, 64: Button.WHEEL_UP, 65: Button.WHEEL_DOWN}, 4 | 8 | 16

_TEXT = re.compile(rb"[\t\x20-\x7e\x80-\xff]+")
# The sequences of xterm, tmux, screen, rxvt and the Linux console; Alt puts one more Esc before in some.
_SEQUENCE = re.compile(rb"""\x1b(?:
    \x1b?\[\[[A-E]
  | \[<(?P<mouse>[0-9]{1,5};[0-9]{1,5};[0-9]{1,5})(?P<mouse_last>[Mm])
  | \[M[\x20-\xff]{3}
  | \x1b?\[(?!M)(?P<numbers>[0-9;]{0,16})(?P<last>[@-Z\\-~$])
  | \x1b?\[(?!M)[0-?]*[ -/]*[@-Z\\-~]
  | \x1b?O(?P<pad_numbers>[0-9;]{0,16})(?P<pad>[@-~])
  | [\]P_^X][^\x07\x1b]*(?:\x07|\x1b\\)
  | (?P<alt>[\0-\x1a\x1c-NQ-WYZ\\`-\x7f]
        |[\xc0-\xdf][\x80-\xbf]|[\xe0-\xef][\x80-\xbf]{2}|[\xf0-\xf7][\x80-\xbf]{3})
    )""", re.VERBOSE)
# What can become a sequence with more bytes.
_UNFINISHED = re.compile(rb"""\x1b(?:
    \x1b?(?:\[(?:\[|M[\x20-\xff]{0,2}|[0-?]*[ -/]*)?)?
  | \x1b?O[0-9;]*
  | [\]P_^X][^\x07\x1b]*\x1b?
  | [\xc0-\xf7][\x80-\xbf]{0,2}
    )\Z""", re.VERBOSE)
# The rest of a key's sequence, after its Esc.
_KEY = re.compile(rb"[\[O].", re.DOTALL)
_STRINGS = (b"\x1b]", b"\x1bP", b"\x1b_", b"\x1b^", b"\x1bX")


class Paste:
    """A paste that is coming in."""

    def __init__(self, now: float) -> None:
        self._bytes, self._too_long, self._ended = bytearray(), False, False
        self._came_at = self._grew_at = now
        self.size = self._grew_to = 0

    def add(self, data: bytes, now: float) -> None:
        """Takes in what came now."""
        place = max(0, len(self._bytes) - len(_PASTE_END) + 1)
        self._bytes += data
        self._came_at, self.size = now, self.size + len(data)
        self._ended = self._ended or self._bytes.find(_PASTE_END, place) >= 0
        if self.size >= self._grew_to + GROWTH:
            self._grew_at, self._grew_to = now, self.size
        if len(self._bytes) > LONGEST_PASTE:
            self._too_long = True
            del self._bytes[:-len(_PASTE_END)]

    def due(self) -> float:
        """When it has ended, if nothing more comes."""
        return self._came_at + PASTE_QUIET_SECONDS if self._ended else self._grew_at + PASTE_LOST_SECONDS

    def done(self) -> Pasted:
        """What was pasted: characters, tabs and line ends. Markers in it, and what came at once after the last
        one, are of the text, so that no text that is pasted can act as keys."""
        if self._too_long:
            return Pasted("", 0, True)
        data = self._bytes.replace(_PASTE_BEGIN, b"").replace(_PASTE_END, b"")
        text = re.sub("\r\n|\n", "\r", data.decode("utf-8", "ignore"))
        text, dropped = _UNTYPED.subn("", text)
        return Pasted(text, dropped)


class Keyboard:
    """Makes keys, characters and pastes of the bytes that a terminal sends.

    A sequence that means nothing here is swallowed whole."""

    def __init__(self) -> None:
        self._bytes, self._since = bytearray(), 0.0
        self._characters = codecs.getincrementaldecoder("utf-8")("ignore")
        self.paste: Paste | None = None

    def feed(self, data: bytes, now: float) -> list[Event]:
        """What bytes mean that came now, with those that wait."""
        if self.paste:
            self.paste.add(data, now)
            return self.expire(now)
        # Where nobody looked in time, a key that was pressed long after Esc isn't Alt with that key.
        late = self.expire(now) if self._is_escape() and not _KEY.match(data) else []
        self._since = now
        self._bytes += data
        return [*late, *self._events(now)]

    def due(self) -> float | None:
        """When what waits for more bytes has to do without."""
        if self.paste:
            return self.paste.due()
        if not self._bytes:
            return None
        return self._since + (ESCAPE_SECONDS if self._is_escape() else SEQUENCE_SECONDS)

    def expire(self, now: float) -> list[Event]:
        """What that means which has waited long enough."""
        due = self.due()
        if due is None or now < due:
            return []
        if self.paste:
            pasted, self.paste = self.paste.done(), None
            return [pasted]
        waited, self._bytes = bytes(self._bytes), bytearray()
        if waited.startswith(_STRINGS):
            # Alt with a letter, and what was typed after it.
            return self.feed(waited[2:], now)
        return [Key.ESCAPE] * len(waited) if not waited.strip(b"\x1b") else []

    def _is_escape(self) -> bool:
        return not self._bytes.strip(b"\x1b")

    def _events(self, now: float) -> Iterator[Event]:
        """Reads the bytes as far as they say something whole."""
        data, at = bytes(self._bytes), 0
        while at < len(data) and not self.paste:
            if text := _TEXT.match(data, at):
                at = text.end()
                if typed := _UNTYPED.sub("", self._characters.decode(text[0])):
                    yield typed
                continue
            self._characters.reset()
            if data[at] != 0x1b:
                at += 2 if data.startswith(b"\r\n", at) else 1
                yield _CONTROLS.get(chr(data[at - 1]), Key.OTHER)
            elif found := _SEQUENCE.match(data, at):
                at = found.end()
                yield from self._meant(found, now)
            elif _UNFINISHED.match(data, at):
                if len(data) - at <= LONGEST_SEQUENCE:
                    break
                at = len(data)
            else:
                at = self._broken_end(data, at)
        if self.paste:
            self.paste.add(data[at:], now)
            at = len(data)
        self._bytes = bytearray(data[at:])

    def _meant(self, found: re.Match[bytes], now: float) -> Iterator[Event]:
        """What a whole sequence means."""
        if found[0] == _PASTE_BEGIN:
            self.paste = Paste(now)
        elif found[0] == _PASTE_END:
            pass
        elif found["alt"] is not None:
            yield from _of_alt(found["alt"].decode("utf-8", "ignore"))
        elif found["pad"] is not None:
            last = found["pad"].decode()
            yield _PAD.get(last) or _with(found[0], _LETTERS.get(last.upper()), found["pad_numbers"],
                                          last.islower())
        elif found["mouse"] is not None:
            number, column, line = map(int, found["mouse"].split(b";"))
            does = _MOUSE.get(number & ~_HELD)
            if does:
                yield Mouse(Button.UP if found["mouse_last"] == b"m" else does, column - 1, line - 1)
        elif found["last"] is not None:
            yield _of_sequence(found[0], found["numbers"], found["last"].decode())
        # Whatever else a terminal sends is no key.

    @staticmethod
    def _broken_end(data: bytes, at: int) -> int:
        """Where a sequence ends that was broken off by a byte that can't be in one."""
        place = at + 1
        while place < len(data) and data[place] in b"[O0123456789;:<=>?":
            place += 1
        return place


def _of_alt(key: str) -> list[Event]:
    """Alt with a key; or Esc, then a control key, which nobody presses with Alt: both may come at once where nobody looked for a while."""
    control = _CONTROLS.get(key)
    return [Key.ESCAPE, control] if control and control not in _WITH_ALT else [_ALT.get(key, Key.OTHER)]


def _of_sequence(sequence: bytes, numbers: bytes, last: str) -> Event:
    if last in "~^$@":
        number = int(numbers.split(b";")[0] or 0)
        return _with(sequence, _NUMBERS.get(number), numbers.partition(b";")[2])
    if last in "abcd":
        # rxvt's, with Shift.
        return _LETTERS[last.upper()]
    return _with(sequence, _LETTERS.get(last), numbers)


def _with(sequence: bytes, key: Key | None, numbers: bytes, control: bool = False) -> Key:
    """A key with what is held beside it: the last number, less one, has a bit each for Shift, Alt and
    Control."""
    number = int(numbers.split(b";")[-1] or 1)
    held = control or sequence.startswith(b"\x1b\x1b") or (number - 1) & ~_SHIFT
    if key is None:
        return Key.OTHER
    if (number - 1) & _SHIFT:
        key = _BY_SHIFT.get(key, key)
    return _BY_WORDS.get(key, key) if held else key
