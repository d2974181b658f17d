"""A fresh Debian in a folder, in which a package is installed and used."""
from __future__ import annotations

import subprocess
from collections.abc import Sequence
from contextlib import ExitStack
from pathlib import Path

from tools.packages.calling import call

SUITE = "bookworm"
USER = "anna"
CERTAIN = {"DEBIAN_FRONTEND": "noninteractive", "PATH": "/usr/sbin:/usr/bin:/sbin:/bin", "LC_ALL": "C.UTF-8"}


def foreign_root(folder: Path, architecture: str, *packages: str) -> Path:
    """A folder with the files of Debian for another processor, whose programs an emulator runs from outside."""
    call(["debootstrap", "--foreign", f"--arch={architecture}", "--variant=minbase", f"--include={','.join(packages)}", SUITE, folder])
    for package in folder.glob("var/cache/apt/archives/*.deb"):
        if package.name.startswith(("lib", "python3", "zlib1g")):
            files = subprocess.run(["dpkg-deb", "--fsys-tarfile", package], stdout=subprocess.PIPE, check=True).stdout
            subprocess.run(["tar", "--extract", "--keep-directory-symlink", "--directory", folder], input=files, check=True)
    return folder


class Root:
    """A folder that debootstrap makes, with an account in it. It has its own /proc as long as it is used."""

    def __init__(self, folder: Path) -> None:
        self.folder, self._left = folder, ExitStack()

    def __enter__(self) -> Root:
        call(["debootstrap", "--variant=minbase", SUITE, self.folder])
        call(["mount", "-t", "proc", "proc", self.folder / "proc"])
        self._left.callback(call, ["umount", self.folder / "proc"])
        self.run("useradd", "--create-home", "--shell", "/bin/bash", USER)
        return self

    def __exit__(self, *_: object) -> None:
        self._left.close()
        subprocess.run(["rm", "-rf", "--one-file-system", self.folder], check=True)

    def run(self, *words: str, given: str = "") -> str:
        """What a command prints that root runs there."""
        return call(["chroot", self.folder, *words], environment=CERTAIN, given=given)

    def install(self, *packages: str) -> None:
        self.run("apt-get", "install", "--yes", "--quiet", "--no-install-recommends", *packages)

    def as_user(self, *words: str) -> list[str]:
        """The words by which a user runs a command there."""
        names = [f"HOME=/home/{USER}", f"USER={USER}", "TERM=screen", "LC_ALL=C.UTF-8"]
        inside = ["env", "-i", "-C", f"/home/{USER}", *names, "PATH=/usr/bin:/bin", *words]
        return ["chroot", f"--userspec={USER}", str(self.folder), *inside]

    def used(self, words: Sequence[str], given: str = "") -> str:
        """What a command prints that a user runs there."""
        return call(self.as_user(*words), given=given)
