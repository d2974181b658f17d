"""Writes what fuzz.c begins with into a folder, from the tests of the repository: the messages and chunks that scripts take in, the files
that they reopen; and edits, drawn at random, that sites hand to one another, and say in notes.

  python3 library/test/seeds.py FOLDER
"""
from __future__ import annotations

import random
import re
import sys
from collections.abc import Iterator
from pathlib import Path

TOP = Path(__file__).resolve().parents[2]
SCRIPT_ROWS = TOP / "crates" / "script_rows" / "stdin"
SPELLED = re.compile(rb"\b4f5[0-9a-f]{9,}\b")
# The calls by the numbers that fuzz.c gives them; those above are edits.
TAKE, UNPACK, LOAD, HAND_OVER, PACK, MERGE, NOTE, EDIT = 0, 1, 2, 3, 4, 5, 13, 15
# Those of notes, by the numbers that fuzz_notes.c gives them.
CHANGED, GIVE, UPDATE, SAY, EDIT_NOTE = 3, 4, 6, 7, 15
CHUNK = b"OTC1"
FILES = (b"OTS1", b"OTP1")
# No input is longer, so that many are played.
MOST, AT_RANDOM = 4096, 100


def given(data: bytes) -> bytes:
    """Bytes that a call is given."""
    return len(data).to_bytes(2, "little") + data


def of_script(script: bytes) -> bytes:
    """What a script spells is taken in by three sites in turn."""
    spelled = [bytes.fromhex(it[:len(it) // 2 * 2].decode()) for it in SPELLED.findall(script)]
    return b"".join(bytes([UNPACK if it.startswith(CHUNK) else TAKE, at % 3]) + given(it) for at, it in enumerate(spelled))


def at_random(draw: random.Random) -> bytes:
    """Edits, and what makes sites meet."""
    made = []
    for _ in range(draw.randrange(4, 40)):
        whose = draw.randrange(3)
        if draw.random() < 0.6:
            where = draw.choices(range(0xF0), k=2)
            made.append(bytes([EDIT, whose, *where, draw.randrange(256)]) + given(b"Oberon"[:draw.randrange(7)]))
        else:
            made.append(bytes([draw.choice([HAND_OVER, PACK, MERGE]), whose, 0, 0]))
    return b"".join(made)


def of_notes(draw: random.Random) -> bytes:
    """Edits of notes, and entries that come and go."""
    made = []
    for _ in range(draw.randrange(4, 60)):
        what, which = draw.choice([EDIT_NOTE, EDIT_NOTE, SAY, GIVE, GIVE, UPDATE, CHANGED]), draw.randrange(0xF0)
        made.append(bytes([NOTE, 0, what, which]))
        if what == EDIT_NOTE:
            made.append(bytes(draw.choices(range(0xF0), k=3)) + given(b"Oberon"[:draw.randrange(7)]))
        elif what == GIVE:
            made.append(bytes([draw.randrange(12)]))
        elif what == CHANGED:
            made.append(bytes([draw.randrange(12), 1 << draw.randrange(8), draw.randrange(0xF0), draw.randrange(8)]))
    return b"".join(made)


def seeds() -> Iterator[bytes]:
    """All of them, some of which are the same."""
    scripts = [path.read_bytes() for path in sorted(TOP.glob("rows/*/script"))] + SCRIPT_ROWS.read_bytes().split(b"\n= ")
    yield from map(of_script, scripts)
    for path in sorted(TOP.glob("rows/*/files*/*")):
        file = path.read_bytes() if path.is_file() else b""
        if file.startswith(FILES):
            yield bytes([LOAD, 0]) + given(file) + bytes([HAND_OVER, 0, 0, 0])
    for made in at_random, of_notes:
        yield from (made(random.Random(number)) for number in range(AT_RANDOM))


def main(folder: Path) -> None:
    folder.mkdir(parents=True, exist_ok=True)
    kept = sorted({seed for seed in seeds() if 0 < len(seed) <= MOST})
    for number, seed in enumerate(kept):
        (folder / f"{number:04}").write_bytes(seed)
    print(f"seeds: {len(kept)}")


if __name__ == "__main__":
    main(Path(sys.argv[1]))
