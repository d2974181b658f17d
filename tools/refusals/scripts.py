"""The scripts of which each allocation is refused."""
from __future__ import annotations

from collections.abc import Sequence
from dataclasses import dataclass, field

from tools import ROWS, rows
from tools.running import Files, files_below

LONGEST_INSERT = 4096
DEFAULT_HEIGHT = 24


@dataclass(frozen=True)
class Script:
    """Lines, the program's arguments, and the files that it finds."""

    name: str
    lines: list[str]
    words: tuple[str, ...] = ()
    files: Files = field(default_factory=dict)
    # The answers that some lines must have with ample memory, by the number of the line.
    ample: dict[int, str] = field(default_factory=dict)

    @property
    def height(self) -> int:
        """The rows of a screen."""
        return int(self.words[self.words.index("--height") + 1]) if "--height" in self.words else DEFAULT_HEIGHT


def row(name: str) -> Script:
    """The script of a row of rows/."""
    it = rows.load(name)
    return Script(name, it.script.decode().splitlines(), tuple(word.decode() for word in it.words), it.files)


def events(name: str, text: str, *words: str, files: Files | None = None) -> Script:
    """A script of events that semicolons part."""
    return Script(name, [line.strip() for line in text.split(";")], words, files or {})


def full_room() -> Script:
    lines = ["1 type 1 0 a"] * 66 + [f"2 take 1 m{k}" for k in range(2, 66)] + ["2 take 1 m1", "2 text 1"]
    waits = {66 + k: "waits" for k in range(64)}
    return Script("full-room", lines, ample={**waits, 130: "taken 64 0", 131: f"text 65 {'a' * 65}"})


def merge_that_does_not_drain() -> Script:
    lines = ["1 type 1 0 ab", "1 type 1 2 c", "2 take 1 m2", "2 merge 1 1", "2 text 1", "2 settle 1", "2 text 1"]
    ample = {2: "waits", 3: "merged 2", 4: "text 3 abc", 6: "text 3 abc"}
    return Script("merge-that-does-not-drain", lines, ample=ample)


def long_type(length: int) -> Script:
    """Another site takes exactly the messages that were sent."""
    sent = -(-length // LONGEST_INSERT)
    lines = [f"1 type 1 0 {'y' * length}", *[f"2 take 1 m{k}" for k in range(1, sent + 2)]]
    return Script(f"type-of-{length}-bytes", lines, ample={sent: "taken 0 0", sent + 1: "refused 20"})


DRAWN = ("--width", "20", "--height", "8")


def of_texts() -> Sequence[Script]:
    """What texts are asked for and how they are edited."""
    return [
        row("first-message"),
        row("delete-and-concurrent-insert"),
        events(
            "three-sites-one-cause",
            "1 type 1 0 AC; 2 take 1 m1; 3 take 1 m1; 1 type 1 1 B; 2 type 1 1 X; 2 type 1 2 Y; 3 take 1 m2; 3 take 1 m3;"
            "3 take 1 m4; 1 take 1 m3; 1 take 1 m4; 2 take 1 m2; 1 text 1; 2 text 1; 3 text 1",
            *("--count", "3"),
        ),
        row("looks-by-attribute"),
        events(
            "where-names-are-shown",
            "1 type 1 0 Hello; 2 take 1 m1; 2 type 1 2 xyz; 1 take 1 m2; 1 where 1 1 0 5; 1 cut 1 1 4; 1 where 1 1 0 5;"
            "1 where 1 2 0 3; 1 names 1 0 5; 1 names 1 0 6",
        ),
        events(
            "edits-by-names",
            "1 type 1 0 Hello; 2 take 1 m1; 2 type 1 2 xyz; 1 take 1 m2; 1 delete 1 2 1 1 1 0 3 1 1 4; 1 text 1; 1 delete 1 1 0 1;"
            "1 restore 1 1 0 5 2 0 3; 1 text 1; 1 cut 1 0 2; 1 delete 1 1 3 1; 1 restore 1; 1 text 1; 1 recall 1 0; 1 text 1",
        ),
        events("what-lies-beyond-fronts", "1 type 1 0 Hello; 1 cut 1 1 4; 1 since 1; 1 since 1 1 1; 1 past 1; 1 past 1 1 1; 1 past 1 1 9"),
    ]


def of_commands() -> Sequence[Script]:
    """Files by commands, what was cut last, and saving."""
    return [
        events(
            "load-a-file",
            "1 type 1 0 Edit.Load n.txt; 1 open user 1; 1 point 0 1; 1 click 0 1; 1 text 1; 1 key !; 1 show",
            *DRAWN,
            files={"n.txt": bytes.fromhex("610d0a620a")},
        ),
        events("store-a-file", "1 type 1 0 Edit.Store s; 1 open user 1; 1 click 0 1; 1 click 0 1; 1 text 1"),
        events(
            "store-and-load",
            "1 type 1 0 Edit.Store s; 1 looks 1 0 4 colour=3; 1 open user 1; 1 click 0 1; 1 type 2 0 Edit.Load s;"
            "1 open user 2 12; 1 point 0 13; 1 click 0 13; 1 runs 2; 1 show",
        ),
        events("recall", "1 type 1 0 abcd; 1 cut 1 1 3; 1 recall 1 2; 1 text 1; 1 recall 1 0; 1 text 1"),
        events("recall-in-three-looks", "1 type 1 0 abcd; 1 looks 1 1 3 colour=3; 1 cut 1 0 4; 1 recall 1 0; 1 runs 1"),
        events("save-in-three-looks", "1 type 1 0 abcd; 1 looks 1 1 3 colour=3; 1 type 2 0 Z; 1 save 1 0 4 2 1; 1 runs 2"),
        merge_that_does_not_drain(),
        row("save-into-another-text"),
    ]


def of_the_screen() -> Sequence[Script]:
    """Viewers, frames, the caret, the selection, searching."""
    return [
        row("narrow-screen"),
        events(
            "drawing",
            "1 type 1 0 Oberon\\0dab; 1 open user 1; 1 show; 1 type 1 2 xyz; 1 scroll 1 1; 1 show; 1 type 1 0 \\0d;"
            "1 open system 1; 1 move 1 1; 1 open user 1 4; 1 move 3 3; 1 cut 1 0 3; 1 show; 1 close 1; 1 show; 1 close 3",
            *DRAWN,
        ),
        row("insert-behind-the-frame"),
        row("delete-of-two-pieces-in-a-frame"),
        row("caret-stays-with-its-character"),
        row("commands-on-the-selection"),
        events(
            "search",
            "1 type 1 0 ab ab\\0dEdit.Search ab; 1 open user 1; 1 point 1 1; 1 click 0 2; 1 click 0 2; 1 click 0 2",
        ),
    ]


def of_sites() -> Sequence[Script]:
    """Restoring, waiting, merging, long edits, and sites that are kept and reopened."""
    return [
        row("restore-a-character"),
        row("restore-and-concurrent-delete"),
        row("forget-the-waiting-room"),
        row("merge-both-ways"),
        long_type(LONGEST_INSERT),
        long_type(LONGEST_INSERT + 1),
        row("keep-a-site"),
        row("reopen-a-site"),
        events(
            "keep-and-reopen",
            "1 type 1 0 abc; 2 take 1 m1; 2 type 1 3 x; 1 take 1 m2; 1 keep 1 s.ots; 1 cut 1 1 2; 1 restore 1; 1 keep 1 s.ots",
        ),
        events(
            "reopen-and-go-on",
            "1 open user 1; 1 reopen 1 s.ots; 1 text 1; 1 runs 1; 1 front 1; 1 show; 1 recall 1 0; 1 restore 1; 1 type 1 3 d;"
            "2 merge 1 1; 2 text 1; 1 keep 1 s.ots; 1 reopen 1 s.ots",
            *DRAWN,
            files=files_below(ROWS / "keep-a-site" / "files-after"),
        ),
        full_room(),
    ]


def of_packed_sites() -> Sequence[Script]:
    """Sites that are kept packed, and reopened from that; files that are refused among them."""
    kept = files_below(ROWS / "keep-a-packed-site" / "files-after")
    wrong = files_below(ROWS / "reopen-packed-told-wrongly" / "files")
    return [
        row("keep-a-packed-site"),
        row("reopen-a-packed-site"),
        events(
            "reopen-packed-and-go-on",
            "1 open user 1; 1 reopen 1 s.otp; 1 runs 1; 1 show; 1 recall 1 0; 1 type 1 3 d; 2 merge 1 1; 2 text 1;"
            "1 keep 1 s.otp; 1 keep 1 s.otp packed; 2 reopen 2 s.otp; 1 reopen 1 s.otp",
            *DRAWN,
            files=kept,
        ),
        events(
            "reopen-what-is-packed-wrongly",
            "1 reopen 1 same-stamp; 1 reopen 1 0e-at-the-end; 1 reopen 1 late-cause; 1 reopen 1 tag-2; 1 reopen 1 site-2; 1 reopen 1 good",
            files={name: wrong[name] for name in ("same-stamp", "0e-at-the-end", "late-cause", "tag-2", "site-2", "good")},
        ),
    ]


def chunk(*parts: str) -> str:
    """The hex of a chunk of text 1."""
    return "4f5443310001" + "".join(parts).replace(" ", "")


def of_chunks() -> Sequence[Script]:
    """Texts that are packed into chunks, and chunks that are unpacked; refused ones among them."""
    # Site 1 types abc, and then the byte 0f, which is a code in a chunk; site 2 types x after it.
    typed, after = chunk("0f01010100 06 01 616263 0e0f"), chunk("0f02010300 05 01 03 78")
    # Site 1 typed an a, and types b and c after it; site 3 types x, and site 5 y, both after the a.
    later, first = chunk("0f01020201 05 01 00 62 63 0f03010200 05 01 00 78"), chunk("0f01010100 61 0f05010200 05 01 00 79")
    # Site 7 types z, and site 1 has typed another letter than that a.
    reused = chunk("0f07010100 7a 0f01010100 62")
    return [
        events(
            "pack-and-unpack",
            f"1 type 1 0 abc; 1 type 1 3 \\0f; 1 pack 1; 2 unpack 1 {typed}; 2 unpack 1 {typed}; 2 type 1 4 x; 2 pack 1 1 2;"
            f"1 unpack 1 {after}; 1 pack 1; 1 pack 1 1 1; 1 pack 1 1 2 2 1; 2 merge 1 1; 1 unpack 2 {typed}; 1 pack 2",
        ),
        events(
            "unpack-what-waits",
            f"2 unpack 1 {later}; 2 unpack 1 {later}; 2 unpack 1 {first}; 2 unpack 1 {later}; 2 text 1; 2 unpack 1 {reused};"
            f"2 unpack 1 {chunk('0f01010100 62')}; 2 unpack 1 {typed[:-2]}; 2 type 1 0 d; 2 pack 1 1 3 3 1 5 1 7 1",
        ),
        events(
            "unpack-the-cause-last",
            f"2 unpack 1 {later}; 2 unpack 1 {chunk('0f05010100 7a 0f01010100 61')}; 2 text 1; 2 unpack 1 {later}",
        ),
        events(
            "unpack-before-viewers",
            f"1 open user 1; 1 unpack 1 {typed}; 1 unpack 1 {chunk('0f02010300 05 01 03 78 79 7a 0f01030400 07 00 01 00 01')}; 1 text 1;"
            f"1 show; 1 unpack 1 {chunk('0f03010900 0c 00 01 01 00 0b 02 03 00 01 01 01')}; 1 runs 1; 1 show; 1 pack 1",
            *DRAWN,
        ),
    ]


def scripts() -> list[Script]:
    return [*of_texts(), *of_commands(), *of_the_screen(), *of_sites(), *of_packed_sites(), *of_chunks()]
