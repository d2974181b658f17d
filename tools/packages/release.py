"""What is packaged, and how it is called: versions name the commit, and say where something isn't as it should be."""
from __future__ import annotations

import json
import os
import subprocess
import time
from dataclasses import dataclass

from tools import TOP
from tools.building import kit

NAME = "vialshoal"
CHANGED, UNPROVED = "changed", "unproved"
SHORT = 12


def git(*words: str) -> str:
    """What git says of this checkout."""
    return subprocess.run(["git", "-C", str(TOP), *words], stdout=subprocess.PIPE, text=True, check=True).stdout.strip()


@dataclass(frozen=True)
class Release:
    """A commit as it is packaged. It comes before the version whose number it has, and later ones sort after it."""

    number: str
    commit: str
    seconds: int
    # What users are to know of it.
    marks: tuple[str, ...]

    @property
    def name(self) -> str:
        """A package that isn't proved has another name, so that none takes the place of a proved one unseen."""
        return f"{NAME}-{UNPROVED}" if UNPROVED in self.marks else NAME

    @property
    def moment(self) -> str:
        return time.strftime("%Y%m%d%H%M%S", time.gmtime(self.seconds))

    @property
    def version(self) -> str:
        """As Debian spells versions."""
        return "+".join([f"{self.number}~git{self.moment}.{self.commit[:SHORT]}", *self.marks])

    @property
    def sources_version(self) -> str:
        """The same, of sources, of which nothing is built."""
        return self.version.replace(f"+{UNPROVED}", "")

    @property
    def python_version(self) -> str:
        return f"{self.number}.dev{self.moment}+" + ".".join([f"g{self.commit[:SHORT]}", *self.marks])

    @property
    def node_version(self) -> str:
        return f"{self.number}-" + ".".join(["git", self.moment, f"g{self.commit[:SHORT]}", *self.marks])

    @property
    def versions(self) -> tuple[str, ...]:
        """One of these is in the name of each package."""
        return self.version, self.sources_version, self.python_version, self.node_version

    @property
    def about(self) -> str:
        """The commit, for a list of sums."""
        return ", ".join([f"Vialshoal, commit {self.commit}", *self.marks])

    @property
    def proof(self) -> str:
        """Whether the program is proved, and by what."""
        return "not proved" if UNPROVED in self.marks else f"proved, by {kit()}"

    def environment(self) -> dict[str, str]:
        """The environment of a tool whose output is to be the same everywhere."""
        kept = {name: value for name, value in os.environ.items() if not name.startswith(("DEB_", "LC_", "VIALSHOAL_"))}
        return {**kept, "SOURCE_DATE_EPOCH": str(self.seconds), "LC_ALL": "C.UTF-8", "LANG": "C.UTF-8", "TZ": "UTC"}


def current(is_proved: bool) -> Release:
    """The commit of this checkout."""
    number = json.loads((TOP / "library" / "node" / "package.json").read_text())["version"]
    marks = [CHANGED] * bool(git("status", "--porcelain", "--untracked-files=no")) + [UNPROVED] * (not is_proved)
    return Release(number, git("rev-parse", "HEAD"), int(git("show", "--no-patch", "--format=%ct", "HEAD")), tuple(marks))


def toolchain(is_proved: bool) -> str:
    return kit() if is_proved else "proved by nothing"
