"""Where a number becomes a size in the crates of the library for C, and why it is cut short nowhere, though sizes have 32 bits in
WebAssembly: sizes.txt lists each."""
from __future__ import annotations

import re
from collections.abc import Iterator
from pathlib import Path

from tools.rust.workspace import LIBRARY, RUST

LISTED = Path(__file__).resolve().parent / "sizes.txt"
BECOMES = re.compile(r"\bas usize\b|\busize::(?:try_)?from\b")


def crates_of(name: str) -> set[str]:
    """A crate of what is made, and those below it."""
    found, left = set(), [name]
    while left:
        crate = left.pop()
        if crate not in found:
            found.add(crate)
            left += re.findall(r'path = "\.\./(\w+)"', (RUST / "crates" / crate / "Cargo.toml").read_text())
    return found


def conversions() -> Iterator[str]:
    """The lines in which a number becomes a size, each after its file."""
    for crate in sorted(crates_of(LIBRARY)):
        for path in sorted((RUST / "crates" / crate / "src").rglob("*.rs")):
            for line in path.read_text().splitlines():
                if BECOMES.search(line) and not line.strip().startswith("//"):
                    yield f"{path.relative_to(RUST / 'crates')}: {line.strip()}"


def listed() -> list[str]:
    """Those that were looked at."""
    return [line for line in LISTED.read_text().splitlines() if line and not line.startswith("#")]
