"""The Debian package: the program, and the note in the terminal, Emacs, Neovim and the page, with the manual's pages."""
from __future__ import annotations

import hashlib
import shutil
from email.utils import formatdate
from pathlib import Path

from tools.builds import BUILT_FROM, PROGRAM
from tools.packages.binaries import Binaries
from tools.packages.calling import call
from tools.packages.release import NAME, UNPROVED, Release

CHANGELOG = """\
{name} ({version}) unstable; urgency=medium

  * Commit {commit}.

 -- Vialshoal maintainers <maintainers@users.noreply.vialshoal.example>  {date}
"""
NOT_PROVED = "\n .\n This build isn't proved. It is for trying, and nobody is to rely on it."


def make(release: Release, sources: Path, binaries: Binaries, room: Path, to: Path) -> Path:
    """Makes the package by debhelper, in a folder of its own."""
    folder = room / "debian"
    shutil.copytree(sources, folder, symlinks=True)
    program = folder / "crates" / PROGRAM / "out" / PROGRAM
    program.parent.mkdir(parents=True)
    shutil.copy(binaries.program(), program)
    sums = f"{release.commit} {hashlib.sha256(program.read_bytes()).hexdigest()}"
    program.with_name(BUILT_FROM).write_text(f"{release.about}\n{release.proof}\n{sums}\n")
    shutil.copytree(sources / "tools" / "packages" / "debian", folder / "debian")
    _fill(folder / "debian", release)
    words = ["dpkg-buildpackage", f"--host-arch={binaries.processor.debian}", "--build=any", "--no-sign", "--no-check-builddeps"]
    call([*words, "--no-pre-clean"], folder, release.environment())
    (made,) = room.glob("*.deb")
    return Path(shutil.move(made, to / made.name))


def _fill(folder: Path, release: Release) -> None:
    """Writes what differs between releases."""
    is_proved = UNPROVED not in release.marks
    words = {
        "name": release.name,
        "other": f"{NAME}-{UNPROVED}" if is_proved else NAME,
        "about": "" if is_proved else " (not proved)",
        "more": "" if is_proved else NOT_PROVED,
    }
    for path in folder / "control", folder / "lintian-overrides":
        text = path.read_text()
        for word, value in words.items():
            text = text.replace(f"@{word}@", value)
        path.write_text(text)
    (folder / "lintian-overrides").rename(folder / f"{release.name}.lintian-overrides")
    date = formatdate(release.seconds)
    changes = CHANGELOG.format(name=release.name, version=release.version, commit=release.commit, date=date)
    (folder / "changelog").write_text(changes)
