"""Where a grapheme ends, what people see as one character, as far as Python's own tables tell; and where in a stretch that gives way
to another one the other one stands."""
import unicodedata

from share.text.change import LINE_END, boundary

# No grapheme is taken for longer, so that a run of marks without an end is looked at in part.
MOST_GRAPHEME_BYTES = 256
# A code point goes on with no more than this many bytes.
MOST_MORE_BYTES = 3
ZERO_WIDTH_JOINER = "\u200d"
# Its line end is an editor's CR LF.
CR_LF = "\n\r"


def grapheme_size(data: bytes) -> int:
    """The bytes of the first grapheme of a text. A byte that is no UTF-8 is one by itself."""
    points = data[:boundary(data, min(len(data), MOST_GRAPHEME_BYTES))].decode("utf-8", "surrogateescape")
    end = next((at for at in range(1, len(points)) if not _is_joined(points, at)), len(points))
    return len(points[:end].encode("utf-8", "surrogateescape"))


def _is_joined(points: str, at: int) -> bool:
    """Whether a code point goes on with the grapheme before it."""
    before, point = points[at - 1], points[at]
    if before + point == CR_LF:
        return True
    if unicodedata.category(before) == "Cc":
        return False
    if _is_flag_letter(point):
        # Where a text begins with flags, each has two of them.
        return _is_flag_letter(before) and at % 2 == 1
    return (before == ZERO_WIDTH_JOINER or unicodedata.category(point) in ("Mn", "Me", "Mc", "Cf")
            or "\U0001f3fb" <= point <= "\U0001f3ff" or "\u1160" <= point <= "\u11ff" or "\ud7b0" <= point <= "\ud7fb")


def _is_flag_letter(point: str) -> bool:
    return "\U0001f1e6" <= point <= "\U0001f1ff"


def inside(passage: bytes) -> tuple[int, int]:
    """Where in a stretch that gives way to another one the other one stands, and where the character before that place begins:
    behind the first line end or, where it has one line, the first blank, or else the first grapheme. Both are 0 where it has one
    grapheme alone."""
    for apart in (LINE_END, b" "):
        at = passage.find(apart) + 1
        if 0 < at < len(passage) and grapheme_size(passage[at - 1:at + 1 + MOST_MORE_BYTES]) == 1:
            return at, at - 1
    at = grapheme_size(passage)
    return (at, 0) if at < len(passage) else (0, 0)
