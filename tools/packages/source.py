"""The source archive: what git has of this checkout, as it is here. All other packages are made from what is in it."""
from __future__ import annotations

import subprocess
from pathlib import Path

from tools import TOP
from tools.packages.calling import call
from tools.packages.release import NAME, Release


def pack(release: Release, to: Path) -> Path:
    """Makes the archive."""
    folder = f"{NAME}-{release.sources_version}"
    listed = subprocess.run(["git", "ls-files", "-z"], cwd=TOP, stdout=subprocess.PIPE, check=True).stdout
    names = b"".join(name + b"\0" for name in listed.split(b"\0") if name and (TOP / name.decode()).exists())
    words = ["tar", "--create", "--format=gnu", f"--mtime=@{release.seconds}", "--owner=0", "--group=0", "--numeric-owner"]
    words += ["--mode=u=rwX,go=rX", f"--transform=flags=r;s,^,{folder}/,", "--no-recursion", "--null", "--files-from=-"]
    packed = subprocess.run(words, cwd=TOP, input=names, stdout=subprocess.PIPE, env=release.environment(), check=True).stdout
    archive = to / f"{folder}.tar.gz"
    with open(archive, "wb") as file:
        subprocess.run(["gzip", "--best", "--no-name"], input=packed, stdout=file, check=True)
    return archive


def unpack(archive: Path, to: Path) -> Path:
    """Unpacks it into a folder; the folder of the sources."""
    call(["tar", "--extract", "--gzip", "--file", archive, "--directory", to])
    return to / archive.name.removesuffix(".tar.gz")
