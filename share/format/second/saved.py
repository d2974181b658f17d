"""A note as one file, as a relay's page saves it and bin/note writes it: its link, by which whoever has the file reads and writes, and its
entries as a log has them, each after its length."""
import re
from collections.abc import Iterable
from typing import NamedTuple

from share.format.second.key_link import KeyLink, read_key_link
from share.text.errors import Trouble, later

SAVED_SUFFIX = ".vialshoal-note"
BEGIN, AFTER_LINK, MOST_LINK = b"vialshoal note 2\n", b"\n", 1_000
OF_A_LATER_VERSION = re.compile(rb"vialshoal note ([3-9]|[1-9][0-9]+)\n")
LENGTH_BYTES = 4
CUT_SHORT = "That file was cut short"


class SavedNote(NamedTuple):
    """What a file has: a note's link, and bytes that may be its entries, up to where it was cut short."""

    link: KeyLink
    raws: list[bytes]
    is_whole: bool


def saved_note(link: KeyLink, raws: Iterable[bytes]) -> bytes:
    """A note as a file."""
    return BEGIN + link.spelled().encode() + AFTER_LINK + b"".join(len(raw).to_bytes(LENGTH_BYTES, "big") + raw for raw in raws)


def read_saved_note(data: bytes) -> SavedNote:
    """What a file has; Trouble where it is none of a note, or of none that can be read."""
    if OF_A_LATER_VERSION.match(data):
        raise later("That file")
    spelled, after, _ = data.removeprefix(BEGIN)[:MOST_LINK].partition(AFTER_LINK)
    if not data.startswith(BEGIN) or not after or not spelled.isascii():
        raise Trouble(f"{CUT_SHORT}, or isn't a note's.")
    link, raws, at = read_key_link(spelled.decode()), list[bytes](), len(BEGIN) + len(spelled) + 1
    while at < len(data):
        begin = at + LENGTH_BYTES
        at = begin + int.from_bytes(data[at:begin], "big")
        if at > len(data):
            return SavedNote(link, raws, False)
        raws.append(data[begin:at])
    return SavedNote(link, raws, True)
