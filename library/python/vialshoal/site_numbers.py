"""Numbers of sites, given out by a server or by one who invites: each once, for ever, whichever processes ask at once.

>>> import tempfile
>>> with tempfile.TemporaryDirectory() as folder:
...     numbers = SiteNumbers(f"{folder}/numbers", range(100, 200))
...     numbers.give("Ann's laptop"), numbers.give("Bob's phone"), numbers.given()
(100, 101, {100: "Ann's laptop", 101: "Bob's phone"})

The file has a line for each, synced before the number is told. A line that a program or a machine left torn counts as one. Nothing else
may write the file, and no older copy be put in its place. Two files need ranges that don't meet: so one who invites has a range, too.
"""
from __future__ import annotations

import fcntl
import os
import re

from ._journal import sync_folder_of

_LINE = re.compile(rb"(\d{5}) (.*)")


class SiteNumbers:
    """A file of the numbers that are given, of some consecutive ones."""

    def __init__(self, path: str | os.PathLike[str], among: range = range(1, 65536)) -> None:
        if not among or among.step != 1 or among[0] < 1 or among[-1] > 65535:
            raise ValueError(f"not consecutive numbers of sites: {among}")
        self._path, self._among = os.path.realpath(path), among

    def give(self, to: str = "") -> int:
        """A number that nobody had. It is noted whose it is."""
        with open(self._path, "ab+") as file:
            fcntl.flock(file, fcntl.LOCK_EX)
            file.seek(0)
            lines = file.read().split(b"\n")
            number = max(self._among[0], [0, *_numbers(lines)][-1] + 1)
            if number not in self._among:
                raise LookupError(f"each of {self._among[0]} to {self._among[-1]} is given")
            file.write(b"%s%05d %s\n" % (b"\n" * bool(lines[-1]), number, " ".join(to.split()).encode("utf-8", "replace")))
            file.flush()
            os.fsync(file)
            sync_folder_of(self._path)
            return number

    def given(self) -> dict[int, str]:
        """The numbers that were given, and to whom; an empty name where that is torn."""
        with open(self._path, "rb") as file:
            lines = file.read().split(b"\n")
        found = zip(_numbers(lines), map(_LINE.fullmatch, lines))
        return {number: whole[2].decode("utf-8", "replace") if whole else "" for number, whole in found}


def _numbers(lines: list[bytes]) -> list[int]:
    """The number of each line; one that is torn has the next."""
    numbers = [0]
    for line in lines if lines[-1] else lines[:-1]:
        found = _LINE.fullmatch(line)
        numbers.append(max(int(found[1]) if found else 0, numbers[-1] + 1))
    return numbers[1:]
