"""Adds an entry to a note by the library for each line of a script, which has the hash of the message that the entry's only one follows.
All else of the entries is alike, and none of those messages comes. The library is the one that the only word names."""
import os
import sys

from measuring import TOP

sys.path[:0] = [str(TOP), str(TOP / "library" / "python")]
[_, os.environ["VIALSHOAL_LIBRARY"]] = sys.argv

from tools.packed.chunks import chunks, placed  # noqa: E402
from tools.packed.messages import Insert, Operation  # noqa: E402
from tools.packed.packed import DEFAULT_LOOKS  # noqa: E402
from vialshoal import Entry, Head, Note  # noqa: E402

TEXT, SITE, READER = 1, 2, 1
FOUNDER, AUTHOR, KEY = bytes([1]) * 32, bytes([2]) * 32, bytes([3]) * 32
NO_BASIS = bytes(2)


def main() -> None:
    [chunk] = chunks(TEXT, placed([Operation(TEXT, SITE, 2, 2, Insert(None, 0, DEFAULT_LOOKS, b"a"))]))
    with Note(site=READER, key=KEY, founder=FOUNDER, number=READER) as note:
        for line in sys.stdin:
            match line.split():
                case [_, "entry", before]:
                    note.add(Entry(Head(AUTHOR, bytes.fromhex(before), 2, 1, SITE, TEXT), NO_BASIS + chunk))
                    print("added")


if __name__ == "__main__":
    main()
