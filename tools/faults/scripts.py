"""The scripts whose calls are made to fail."""
from __future__ import annotations

from tools import ROWS
from tools.faults.judging import BESIDE
from tools.refusals.scripts import LONGEST_INSERT, Script, chunk, events, row
from tools.running import Files, files_below

SITE_FILE_TAG, PACKED_FILE_TAG = b"OTS1", b"OTP1"
LOOKS = bytes.fromhex("104f6265726f6e31302e53636e2e466e740100")
SCREEN = ("--width", "40", "--height", "12")


def insert(site: int, at: int, length: int) -> bytes:
    """A message: the Insert of site's characters from one on, below the one before."""
    seq = at // LONGEST_INSERT + 1
    fields = [b"OT\1\1", (1, 2), (site, 2), (seq, 4), (seq, 8), (site if at else 0, 2), (max(0, at - 1), 4), (at, 4)]
    head = b"".join(it if isinstance(it, bytes) else it[0].to_bytes(it[1], "big") for it in fields)
    return head + LOOKS + length.to_bytes(2, "big") + bytes([97 + seq % 26]) * length


def site_file(inserts: int) -> bytes:
    """The file of site 1 that has this many of its longest Inserts."""
    messages = [insert(1, LONGEST_INSERT * k, LONGEST_INSERT) for k in range(inserts)]
    listed = b"".join(len(it).to_bytes(2, "big") + it for it in messages)
    return SITE_FILE_TAG + bytes([0, 1, 0, 1]) + inserts.to_bytes(4, "big") + listed


def packed_file(inserts: int) -> bytes:
    """The same, packed."""
    whole = PACKED_FILE_TAG + bytes([0, 1, 0, 1]) + b"\1\1\0"
    length = b"\6\xfe\x1f"
    return whole + b"".join(length + bytes([97 + seq % 26]) * LONGEST_INSERT for seq in range(1, 1 + inserts))


def left(count: int) -> Files:
    """Files that killed writes have left, in this number."""
    return {f"{BESIDE}{number}": b"OTS1" for number in range(count)}


def of_site_files() -> list[Script]:
    kept = files_below(ROWS / "keep-a-site" / "files-after")
    packed = files_below(ROWS / "keep-a-packed-site" / "files-after")
    return [
        events(
            "reopen-and-keep",
            "1 reopen 1 s.ots; 1 type 1 0 X; 1 keep 1 s.ots; 1 cut 1 0 1; 1 keep 1 t; 2 merge 1 1; 2 keep 1 t; 2 reopen 2 t",
            files=kept,
        ),
        events(
            "equal-lengths",
            "1 type 1 0 abc; 2 take 1 m1; 1 keep 1 s; 2 keep 1 s; 2 keep 1 s; 1 reopen 2 s; 1 keep 1 s",
            files={"s": b"OTS1"},
        ),
        events(
            "reopen-and-keep-packed",
            "1 reopen 1 s.otp; 1 type 1 0 X; 1 keep 1 s.otp packed; 1 cut 1 0 1; 1 keep 1 t packed; 2 merge 1 1; 2 keep 1 t packed;"
            "2 reopen 2 t; 2 keep 1 t; 1 keep 1 t packed",
            files=packed,
        ),
        events(
            "unpack-and-keep",
            f"1 type 1 0 abc; 1 pack 1; 2 unpack 1 {chunk('0f01010100 06 01 616263')}; 2 keep 1 t packed; 2 type 1 3 x; 2 pack 1 1 1;"
            f"2 keep 1 t packed; 1 unpack 1 {chunk('0f02010200 05 01 02 78')}; 1 keep 1 s; 1 pack 1",
        ),
        events("both-forms", "1 type 1 0 abc; 1 keep 1 s packed; 1 keep 1 s; 1 keep 1 s packed; 1 keep 2 s; 1 reopen 2 s"),
        events("among-leftovers", "1 type 1 0 abc; 1 keep 1 s; 2 reopen 1 s; 1 keep 1 s", files=left(3)),
        row("keep-what-others-wrote"),
        row("keep-where-a-folder-lies"),
        row("reopen-both-sites"),
        row("reopen-behind-what-waits"),
    ]


def of_texts_as_files() -> list[Script]:
    return [
        events(
            "store-and-load",
            "1 type 1 0 Edit.Store s; 1 looks 1 0 4 colour=3; 1 open user 1; 1 click 0 1; 1 type 2 0 Edit.Load s;"
            "1 open user 2 6; 1 point 0 7; 1 click 0 7; 1 click 0 1; 1 show; 1 keep 2 s",
            *SCREEN,
        ),
        events(
            "load-and-store",
            "1 type 1 0 Edit.Load n.txt\\0dEdit.Store n.txt; 1 open user 1; 1 point 0 2; 1 click 0 1; 1 click 0 2; 1 key !;"
            "1 click 0 2; 1 close 1; 1 open system 1; 1 keep 1 n.txt",
            *SCREEN,
            files={"n.txt": bytes.fromhex("610d0a620a")},
        ),
        events(
            "load-what-takes-several-reads",
            "1 type 1 0 Edit.Load long; 1 open user 1; 1 point 0 1; 1 click 0 1; 1 show; 1 front 1; 1 keep 1 long",
            files={"long": b"x" * 150_000},
        ),
        row("load-fails-and-then-loads"),
        row("store-a-text"),
        row("store-where-a-folder-lies"),
    ]


def long_lines() -> Script:
    """More than the program reads, and than it writes, at once."""
    lines = [it for k in range(4) for it in (f"1 type 1 0 {chr(97 + k) * 20_000}", "1 keep 1 s")]
    return Script("long-lines", [*lines, "1 text 1"])


def scripts() -> list[Script]:
    return [*of_site_files(), *of_texts_as_files(), long_lines()]


def four_mib() -> Script:
    """A file past 4 MiB."""
    lines = ["1 reopen 1 s", "1 type 1 0 a", "1 front 1", "1 keep 1 s"]
    return Script("four-mib", lines, files={"s": site_file(1100)})
