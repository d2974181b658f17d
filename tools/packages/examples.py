"""The examples that pages have."""
from __future__ import annotations

import re
from pathlib import Path

from tools import TOP

# A sentence, and the lines after it that are set in.
BLOCK = r"{}.*?\n\n((?:    .*\n|\n)+)"
# What the examples of docs/LIBRARY.md print.
MEETS = "Oberon"


def example(page: str, begins: str, room: Path, name: str) -> Path:
    """The lines of a page that follow a sentence, as a file."""
    found = re.search(BLOCK.format(re.escape(begins)), (TOP / "docs" / page).read_text())
    assert found, f"docs/{page} has no example after {begins}"
    file = room / name
    file.write_text(re.sub(r"^    ", "", found[1], flags=re.MULTILINE))
    return file
