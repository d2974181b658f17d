"""Builds the program as ordinary Rust, from rust/, by cargo."""
from __future__ import annotations

from collections.abc import Iterator
from pathlib import Path

from tools import TOP
from tools.builds import OUT, PROGRAM, Build, first_line, sum_of_files

WORKSPACE = TOP / "rust"
MANIFEST = WORKSPACE / "Cargo.toml"
PARTS = ("crates", "kit")


def rustc() -> str:
    return first_line(["rustc", "--version"])


def rust_files() -> Iterator[Path]:
    yield from (MANIFEST, MANIFEST.with_suffix(".lock"))
    for part in PARTS:
        yield from sorted(it for it in (WORKSPACE / part).rglob("*") if it.is_file())


def sum_of_rust() -> str:
    return sum_of_files(rust_files())


RUST = Build("rust", OUT / "rust", "not proved: ordinary Rust", "cargo", rustc, sum_of_rust)


def make(room: Path) -> Path:
    """Has cargo make the program; what it compiled is kept for the next time, in the folder that it uses by itself."""
    target = WORKSPACE / "target"
    words = ["build", "--release", "--offline", "--locked", "--manifest-path", MANIFEST, "--target-dir", target, "-p", PROGRAM]
    RUST.call(["cargo", *words], room)
    return target / "release" / PROGRAM
