"""The packages of the library: a wheel for Python and an archive for npm."""
from __future__ import annotations

import json
import shutil
import subprocess
import sys
from collections.abc import Mapping
from pathlib import Path

from tools.npm import LACKING, limit
from tools.packages.binaries import Binaries
from tools.packages.calling import Failed, Words, call
from tools.packages.release import Release

PYTHON = "/usr/bin/python3"


def wheel(release: Release, sources: Path, binaries: Binaries, room: Path, to: Path) -> Path:
    """Makes the wheel, whose setup.py finds in the library on which systems it runs."""
    folder, made = room / "python", room / "wheels"
    shutil.copytree(sources / "library" / "python", folder)
    shutil.move(binaries.shared(room), folder / "vialshoal")
    _rewrite(folder / "pyproject.toml", {"name": release.name, "version": release.python_version})
    _rewrite(folder / "vialshoal" / "__init__.py", {"__version__": release.python_version})
    one = built_wheel(folder, made, release.environment())
    return Path(shutil.move(one, to / one.name))


def built_wheel(folder: Path, to: Path, environment: Mapping[str, str] | None = None) -> Path:
    """Has Python make the wheel of a folder that has the library in it."""
    words: Words = ["-B", "-m", "pip", "wheel", "--quiet", "--no-deps", "--no-build-isolation", "--no-index", "--wheel-dir", to, "."]
    call([PYTHON, *words], folder, environment)
    (one,) = to.glob("*.whl")
    return one


def _rewrite(path: Path, values: dict[str, str]) -> None:
    """Gives names that a file of TOML, or of Python, sets other values."""
    path.write_text("".join(_line(line, values) for line in path.read_text().splitlines(keepends=True)))


def _line(line: str, values: dict[str, str]) -> str:
    """A line of such a file, with its value where it has another one."""
    name = line.partition(" = ")[0]
    return f'{name} = "{values[name]}"\n' if name in values else line


def npm(release: Release, sources: Path, binaries: Binaries, room: Path, to: Path) -> Path:
    """Makes npm's archive: with WebAssembly where Rust can compile it here; else npm installs it on such systems alone as the
    addon is for."""
    folder = room / "npm"
    _fill(folder, release, sources)
    shutil.move(binaries.addon(sources / "library", room), folder)
    limit(folder, binaries.processor.node)
    path = folder / "package.json"
    package = json.loads(path.read_text()) | {"name": release.name, "version": release.node_version}
    path.write_text(json.dumps(package, indent=2) + "\n")
    words: Words = ["npm", "pack", "--silent", "--offline", "--ignore-scripts", "--pack-destination", room]
    made = room / call(words, folder, release.environment()).strip()
    return Path(shutil.move(made, to / f"{made.stem}-linux-{binaries.processor.node}.tgz"))


def _fill(folder: Path, release: Release, sources: Path) -> None:
    """Fills a folder with the package for Node, and WebAssembly where Rust can compile it."""
    words = [sys.executable, "-B", "-m", "tools.npm", str(folder)]
    status = subprocess.run([*words, "--wasm"], cwd=sources, env=release.environment(), stdout=2).returncode
    if status not in (0, LACKING):
        raise Failed(f"tools.npm ended with {status}")
    if status:
        call(words, sources, release.environment())
