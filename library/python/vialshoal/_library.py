"""The C library, and how its calls are called."""
from __future__ import annotations

import ctypes
import os
from ctypes import POINTER, c_bool, c_char_p, c_int8, c_size_t, c_uint8, c_uint16, c_uint32, c_uint64, c_void_p
from collections.abc import Callable, Iterator
from pathlib import Path
from typing import NamedTuple, Union, cast

MALFORMED = 1
WRONG_TEXT = 2
CONFLICT = 3
BAD_OFFSET = 4
ROOM_FULL = 6
OUT_OF_MEMORY = 7
BEHIND = 8
BAD_FILE = 13
NOT_OPEN = 101
ALREADY_OPEN = 102
OUT_OF_TEXT = 103
TOO_LONG = 104
NO_NUMBER = 105
NO_NAME = 106
TOO_SHORT = 107
NO_MESSAGE = 108
STILL_NOTED = 109

# The replica's refusals are those of docs/FORMATS.md.
REASONS = {
    1: "the bytes are no message, or no chunk",
    2: "the message, or the chunk, is of another text",
    3: "another operation has this identity: two copies edited as one site",
    4: "the message does not fit the others of its site",
    5: "the stamp is not above that of each cause",
    6: "64 messages wait already",
    7: "memory was refused",
    8: "what waits shows that the site was further once",
    9: "the greatest stamp was taken in",
    10: "the site would have put in more than 2^24 bytes",
    13: "the bytes are no file of a site; or a text file would pass 2^20 bytes, a packed one 2^22 operations",
    12: "a set of names needs more than 1,024 ranges",
    23: "the site has made its last operation in the text",
    NOT_OPEN: "the text is closed",
    ALREADY_OPEN: "the text is open already",
    OUT_OF_TEXT: "a position lies outside the text, or a range ends before its begin",
    TOO_LONG: "more than 2^24 bytes are to be put in",
    NO_NUMBER: "a number is that of no text, site, name or colour, or a font is none",
    NO_NAME: "the name is that of no character that was taken in",
    STILL_NOTED: "changes are noted, and told as such",
}


class Handle(ctypes.Structure):
    _fields_ = [("at", c_void_p)]


class PastHandle(ctypes.Structure):
    _fields_ = [("at", c_void_p)]


class NoteHandle(ctypes.Structure):
    _fields_ = [("at", c_void_p)]


CHash = c_uint8 * 32


class CHead(ctypes.Structure):
    _fields_ = [("author", CHash), ("before", CHash), ("first", c_uint32), ("count", c_uint16), ("site", c_uint16),
                ("text", c_uint16)]


class CSiteFront(ctypes.Structure):
    _fields_ = [("site", c_uint16), ("seq", c_uint32)]


class CTaking(ctypes.Structure):
    _fields_ = [("kind", c_uint32), ("drained", c_uint32), ("dropped", c_uint32), ("stopped", c_bool)]


class CSettling(ctypes.Structure):
    _fields_ = [("drained", c_uint32), ("dropped", c_uint32), ("stopped", c_bool)]


class CUnpacking(ctypes.Structure):
    _fields_ = [("taken", c_uint64), ("known", c_uint64), ("waiting", c_uint64), ("done", c_uint64), ("stopped", c_bool)]


class CName(ctypes.Structure):
    _fields_ = [("site", c_uint16), ("offset", c_uint32)]


class CNameRange(ctypes.Structure):
    _fields_ = [("site", c_uint16), ("offset", c_uint32), ("length", c_uint32)]


class CPlace(ctypes.Structure):
    _fields_ = [("pos", c_uint64), ("is_shown", c_bool)]


class CChange(ctypes.Structure):
    _fields_ = [("kind", c_uint32), ("beg", c_uint64), ("end", c_uint64)]


class CReplacing(ctypes.Structure):
    _fields_ = [("deleted", c_uint64), ("inserted", c_uint64)]


class CLooksRun(ctypes.Structure):
    _fields_ = [("end", c_uint64), ("colour", c_uint8), ("offset", c_int8)]


HANDLE = POINTER(Handle)
PAST = POINTER(PastHandle)
NOTE = POINTER(NoteHandle)
FRONTS = POINTER(CSiteFront)
U32 = POINTER(c_uint32)
U64 = POINTER(c_uint64)
CALLS = {
    "new": (HANDLE, c_uint16, c_uint16),
    "free": (HANDLE,),
    "load": (HANDLE, c_char_p, c_size_t),
    "store": (HANDLE, c_char_p, c_size_t, U64),
    "store_packed": (HANDLE, c_char_p, c_size_t, U64),
    "insert": (HANDLE, c_uint64, c_char_p, c_size_t, U32),
    "insert_in_looks": (HANDLE, c_uint64, c_char_p, c_size_t, c_char_p, c_size_t, c_uint8, c_int8, U32),
    "delete": (HANDLE, c_uint64, c_uint64, U32),
    "change_looks": (HANDLE, c_uint64, c_uint64, c_uint8, c_char_p, c_size_t, c_uint8, c_int8, U32),
    "restore": (HANDLE, U32),
    "recall": (HANDLE, c_uint64, U32),
    "delete_names": (HANDLE, POINTER(CNameRange), c_size_t, U32),
    "restore_names": (HANDLE, POINTER(CNameRange), c_size_t, U32),
    "messages": (HANDLE, U64),
    "message": (HANDLE, c_uint64, c_char_p, c_size_t, U64),
    "let_go": (HANDLE,),
    "take": (HANDLE, c_char_p, c_size_t, POINTER(CTaking)),
    "unpack": (HANDLE, c_char_p, c_size_t, POINTER(CUnpacking)),
    "settle": (HANDLE, POINTER(CSettling)),
    "forget": (HANDLE, U32),
    "merge": (HANDLE, HANDLE, U64),
    "waiting": (HANDLE, U32),
    "sites": (HANDLE, POINTER(c_uint16), c_size_t, U64),
    "front": (HANDLE, c_uint16, U32),
    "since": (HANDLE, FRONTS, c_size_t, U64, c_char_p, c_size_t, U64),
    "pack": (HANDLE, FRONTS, c_size_t, c_char_p, c_size_t, U64),
    "changes": (HANDLE, POINTER(CChange), c_size_t, U64),
    "end_noting": (HANDLE, c_uint64),
    "replacement": (HANDLE, POINTER(CReplacing)),
    "save": (HANDLE, c_char_p, c_size_t, U64),
    "past": (HANDLE, FRONTS, c_size_t, PAST),
    "past_free": (PAST,),
}
# A hash or a key is 32 bytes; a head that is given, those of a CHead.
NOTE_CALLS = {
    "new": (NOTE, c_uint16, c_char_p, c_char_p, c_uint16, c_char_p, c_char_p, c_char_p, c_size_t),
    "free": (NOTE,),
    "claim": (NOTE, c_char_p, c_uint16, c_char_p),
    "add": (NOTE, c_char_p, c_char_p, c_size_t),
    "update": (NOTE,),
    "insert": (NOTE, c_uint16, c_uint64, c_char_p, c_size_t, U32),
    "delete": (NOTE, c_uint16, c_uint64, c_uint64, U32),
    "change_looks": (NOTE, c_uint16, c_uint64, c_uint64, c_uint8, c_char_p, c_size_t, c_uint8, c_int8, U32),
    "delete_names": (NOTE, c_uint16, POINTER(CNameRange), c_size_t, U32),
    "restore_names": (NOTE, c_uint16, POINTER(CNameRange), c_size_t, U32),
    "own": (NOTE, c_uint16, c_char_p, c_uint64, POINTER(CHead), c_char_p, c_size_t, U64),
    "changes": (NOTE, c_uint16, POINTER(c_bool), POINTER(CChange), c_size_t, U64),
    "front": (NOTE, c_uint16, c_uint16, U32),
    "sites": (NOTE, c_uint16, POINTER(c_uint16), c_size_t, U64),
    "past": (NOTE, c_uint16, FRONTS, c_size_t, PAST),
}
# What a handle of each kind is asked; that of a note with the number of a text.
READS = {
    "length": (U64,),
    "bytes": (c_uint64, c_uint64, c_char_p, c_size_t, U64),
    "looks": (c_uint64, POINTER(CLooksRun), c_char_p, c_size_t, U64),
    "names": (c_uint64, c_uint64, POINTER(CName), c_size_t, U64),
    "find": (c_uint16, c_uint32, POINTER(CPlace)),
}


AnyHandle = Union[Handle, PastHandle, NoteHandle]


class Reads(NamedTuple):
    """A kind of handle, and the calls that free and read it."""

    handle: Callable[[], AnyHandle]
    free: Callable[..., int]
    length: Callable[..., int]
    bytes: Callable[..., int]
    looks: Callable[..., int]
    names: Callable[..., int]
    find: Callable[..., int]


def path() -> str:
    """Where the C library is: as VIALSHOAL_LIBRARY says, else beside this file, as a wheel has it, else where the system
    looks."""
    named = os.environ.get("VIALSHOAL_LIBRARY")
    if named:
        return named
    beside = Path(__file__).with_name("libvialshoal.so")
    return str(beside) if beside.is_file() else "libvialshoal.so"


def load(kind: type[ctypes.CDLL]) -> ctypes.CDLL:
    library = kind(path())
    reads = {f"{kind}{name}": (*handle, *arguments)
             for kind, handle in (("", (HANDLE,)), ("past_", (PAST,)), ("note_", (NOTE, c_uint16))) for name, arguments in READS.items()}
    of_notes = {f"note_{name}": arguments for name, arguments in NOTE_CALLS.items()}
    for name, arguments in {**CALLS, **reads, **of_notes}.items():
        call = getattr(library, f"vialshoal_{name}")
        call.argtypes = arguments
        call.restype = c_uint32
    return library


# A PyDLL keeps the interpreter's lock, which a call that takes microseconds isn't worth letting go; calls that may take long let it go.
calls, long_calls = load(ctypes.PyDLL), load(ctypes.CDLL)
# What takes no longer than some microseconds.
FEW = 1 << 16


def calls_for(length: int) -> ctypes.CDLL:
    """The library for a call that reads or writes so many bytes."""
    return calls if length <= FEW else long_calls


def begin_of(room: ctypes.Array[ctypes.c_char], length: int) -> bytes:
    """So many bytes of a room, without a copy of the rest."""
    return cast(bytes, room[:length])


def chunks_in(packed: bytes) -> Iterator[bytes]:
    """The chunks of a room, each behind its length."""
    end = 0
    while end < len(packed):
        beg = end + 2
        end = beg + int.from_bytes(packed[end:beg], "little")
        yield packed[beg:end]


def reads(library: ctypes.CDLL, handle: Callable[[], AnyHandle], kind: str) -> Reads:
    return Reads(handle, *(getattr(library, f"vialshoal_{kind}{name}") for name in ("free", *READS)))


def reads_of_note(library: ctypes.CDLL, note: NoteHandle, text: int) -> Reads:
    """The calls that read a text of a note. To free it does nothing: the note has it."""
    def of_text(name: str) -> Callable[..., int]:
        call = getattr(library, f"vialshoal_note_{name}")

        def asked(handle: NoteHandle, *words: object) -> int:
            return cast(int, call(handle, text, *words))
        return asked
    return Reads(lambda: note, lambda handle: 0, *map(of_text, READS))
