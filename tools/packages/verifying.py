"""Says whether a package has the bytes that this checkout makes, once that is proved."""
from __future__ import annotations

import re
import tempfile
from pathlib import Path

from tools.packages.making import SOURCE, Wish, make, sum_of
from tools.packages.processors import FIRST, PROCESSORS
from tools.packages.release import current

# How the names of packages end, and which they are.
ENDS = {r"\.tar\.gz": SOURCE, r"_(\w+)\.deb": "deb", r"-linux-(\w+)\.tgz": "npm", r"-py3-none-.*(x86_64|aarch64)\.whl": "wheel"}


class Unknown(Exception):
    """The file isn't a package that is made here."""


def wish_of(name: str, unproved: Path | None) -> Wish:
    """What is to be made so that a file of this name comes out."""
    for end, kind in ENDS.items():
        if found := re.search(f"{end}$", name):
            its = [*found.groups()]
            fits = [it for it in PROCESSORS.values() if its and its[0] in (it.machine, it.debian, it.node)]
            return Wish([kind], fits or [FIRST], unproved)
    raise Unknown(f"{name} is none of the packages that bin/package makes")


def verify(file: Path, unproved: Path | None) -> bool:
    """Makes the package again, and says whether the file is that."""
    given, wish, release = sum_of(file), wish_of(file.name, unproved), current(unproved is None)
    if not any(version in file.name for version in release.versions):
        raise Unknown(f"{file.name} isn't of this checkout ({release.about}): check out the commit that the name has")
    with tempfile.TemporaryDirectory(prefix="verify-") as room:
        (made,) = make(wish, Path(room))
        found = sum_of(made)
        if made.name != file.name:
            raise Unknown(f"this checkout makes {made.name}, and not {file.name}")
        if found != given:
            print(f"{file}: not what this checkout makes\n{given}  is given\n{found}  is made\n{_difference(file, made)}")
            return False
    print(f"{given}  {file}\n{'made of' if unproved else 'proved and made of'} {release.about}")
    return True


def _difference(file: Path, made: Path) -> str:
    """Where two files differ first."""
    ours, theirs = made.read_bytes(), file.read_bytes()
    at = next((at for at, (a, b) in enumerate(zip(ours, theirs)) if a != b), min(len(ours), len(theirs)))
    return f"they differ from byte {at} on; {len(theirs)} bytes are given, {len(ours)} made"
