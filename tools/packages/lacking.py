"""What the short form of bin/package --test leaves out, since something that it needs isn't here."""
from __future__ import annotations

import shutil
import subprocess
from collections.abc import Iterator
from pathlib import Path

from tools.compiling import LIBRARY, build_of
from tools.packages.archives import PYTHON
from tools.packages.making import Wish
from tools.packages.processors import FIRST

# The commands, modules of Python and files that packages of a kind are made with.
COMMANDS = {"deb": ("dh", "dh_python3", "lintian"), "wheel": (FIRST.compiler,), "npm": (FIRST.compiler, "npm")}
MODULES = {"wheel": ("ensurepip", "setuptools", "wheel")}
FILES = {"npm": ("/usr/include/node/node_api.h",)}
# Those that have the library, whose proof takes longer than the short form may.
WITH_LIBRARY = ("wheel", "npm")


class Lacking(Exception):
    """Something that is needed isn't installed."""


def for_kind(kind: str) -> Iterator[str]:
    """What packages of a kind need that isn't here."""
    yield from (name for name in COMMANDS.get(kind, ()) if shutil.which(name) is None)
    yield from (name for name in FILES.get(kind, ()) if not Path(name).exists())
    for name in MODULES.get(kind, ()):
        if subprocess.run([PYTHON, "-c", f"import {name}"], stderr=subprocess.DEVNULL).returncode:
            yield f"Python's {name}"


def of_these(wish: Wish) -> list[str]:
    """The kinds that can be made here; what is lacking for others is told."""
    found = []
    has_library = wish.unproved is not None or build_of(LIBRARY, FIRST.target).is_current()
    for kind in wish.kinds:
        lacks = [*for_kind(kind), *["proved library, which bin/library makes"] * (kind in WITH_LIBRARY and not has_library)]
        if lacks:
            print(f"{kind}: left out, since there is no {', '.join(lacks)}", flush=True)
        else:
            found.append(kind)
    return found
