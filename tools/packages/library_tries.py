"""The library's packages are tried, in bare folders."""
from __future__ import annotations

from pathlib import Path
from typing import TYPE_CHECKING

from tools import TOP
from tools.packages.archives import PYTHON
from tools.packages.calling import call
from tools.packages.examples import MEETS, example
from tools.packages.lacking import Lacking
from tools.packages.release import NAME

if TYPE_CHECKING:
    from tools.packages.trying import Trial


def in_python(trial: Trial) -> None:
    """Installs the wheel and runs the page's lines."""
    folder = trial.folder("python")
    call([PYTHON, "-m", "venv", folder / "venv"])
    python = folder / "venv" / "bin" / "python"
    call([python, "-m", "pip", "install", "--quiet", "--no-index", trial.of(".whl")], folder)
    said = call([python, example("LIBRARY.md", "In Python", folder, "meet.py")], folder)
    assert said == f"b'{MEETS}'\n", said


def in_node(trial: Trial) -> None:
    """Installs npm's archive and runs the page's lines."""
    folder = trial.folder("node")
    installed(trial, folder)
    file = example("LIBRARY.md", "In Node", folder, "meet.mjs")
    file.write_text(file.read_text().replace(f"'{NAME}'", f"'{trial.release.name}'"))
    said = call(["node", file], folder)
    assert said == f"{MEETS}\n", said


def by_tests(trial: Trial) -> None:
    """Has the library's tests play what is installed: the addon, and WebAssembly in Node, in a page and in a worker."""
    folder = trial.folder("tested")
    package = installed(trial, folder)
    said = call([TOP / "library" / "test" / "run", "--package", package], folder)
    if left_out := [line for line in said.splitlines() if line.endswith("nothing is tested")]:
        raise Lacking("; ".join(left_out))


def installed(trial: Trial, folder: Path) -> Path:
    """The package as npm installs it."""
    (folder / "package.json").write_text("{}\n")
    call(["npm", "install", "--offline", "--no-audit", "--no-fund", trial.of(".tgz")], folder)
    return folder / "node_modules" / trial.release.name
