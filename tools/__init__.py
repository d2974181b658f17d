"""Tests of the program from outside: rows of data, and scripts of which each allocation is refused in turn."""
from __future__ import annotations

import os
from pathlib import Path

TOP = Path(__file__).resolve().parent.parent
ROWS = TOP / "rows"


def cache_folder() -> Path:
    """Return the folder outside the tree in which tests keep what makes a later run shorter, and which commit passed."""
    return Path(os.environ.get("XDG_CACHE_HOME") or Path.home() / ".cache") / "vialshoal"
