"""A site's own packed file: what the site has taken in, a byte a letter, so that a long note is opened again without the
program being handed all of it.

The program writes and reads the file. Nothing hangs on it: what counts is what the note's file says, and the packed file is
gone on from only where it is the one that was noted there, and all that it has counts still. So one that is missing or
damaged, that a kill left without its note, or that was put back, is passed over.
"""
import contextlib
import pathlib
import struct

from share.admission.judging import Judging
from share.format.entry import digest
from share.format.operation import TEXT
from share.log.folder import make_folder
from share.program.site import PACKED_NAME, Site
from share.store.atomic import PRIVATE
from share.store.note_file import Disk

# It is written once this many messages came that it doesn't have, and a part of those that it has; as the note is closed
# once the second number did.
MANY_NEW, AT_END, SHARE = 20_000, 1_000, 4
# What a program that was killed as it wrote leaves in the folder.
LEFT = ".file-of-a-text-that-is-not-whole-yet-*"
SITE_BITS = 16
# Of a site, how many messages the file has, and what names the last of them.
PACKED_FRONT = struct.Struct(">HI32s")


def folder_of(disk: Disk, site: int, text: int = TEXT) -> pathlib.Path | None:
    """The folder of the packed file of a site of this person and a text, which is made; None where it can't be."""
    folder = _folder(disk, site, text)
    with contextlib.suppress(OSError):
        make_folder(folder)
        return folder
    return None


def _folder(disk: Disk, site: int, text: int) -> pathlib.Path:
    return disk.path.with_suffix(".packed") / (str(site) if text == TEXT else f"{site}-{text}")


def _noted_as(site: int, text: int) -> int:
    """By which number it is noted which packed file is the newest of a site and a text."""
    return site + (text - TEXT << SITE_BITS)


def leave(disk: Disk, site: int, text: int = TEXT) -> None:
    """Takes the folder away again, where no file is in it."""
    with contextlib.suppress(OSError):
        folder = _folder(disk, site, text)
        folder.rmdir()
        folder.parent.rmdir()


def fronts_of(disk: Disk, judge: Judging, site: int, folder: pathlib.Path | None, text: int = TEXT) -> dict[int, int]:
    """How far a site's packed file of a text goes, where it can be gone on from; else nothing."""
    noted = disk.own.packed(_noted_as(site, text))
    try:
        if not (folder and noted and digest((folder / PACKED_NAME).read_bytes()) == noted[0]):
            return {}
        found = [*PACKED_FRONT.iter_unpack(noted[1])]
    except (OSError, struct.error):
        return {}
    return {of: seq for of, seq, _ in found} if all(judge.entry_of(of, seq, text) == by for of, seq, by in found) else {}


def keep(disk: Disk, judge: Judging, site: Site) -> None:
    """Writes a site's packed file anew, with all that the site has taken in, as far as there is room."""
    text = site.text_number
    folder = _folder(disk, site.number, text)
    with contextlib.suppress(OSError):
        for left in folder.glob(LEFT):
            left.unlink()
        fronts = site.keep()
        found = [(of, seq, judge.entry_of(of, seq, text)) for of, seq in fronts.items()]
        if found and all(by for _, _, by in found):
            (folder / PACKED_NAME).chmod(PRIVATE)
            disk.own.note_packed(_noted_as(site.number, text), digest((folder / PACKED_NAME).read_bytes()),
                                 b"".join(PACKED_FRONT.pack(of, seq, by or b"") for of, seq, by in found))
