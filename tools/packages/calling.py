"""Calls of other programs."""
from __future__ import annotations

import subprocess
import sys
from collections.abc import Mapping, Sequence
from pathlib import Path
from typing import Union

Words = list[Union[str, Path]]


class Failed(Exception):
    """A program ended with another status than 0."""


def call(words: Sequence[str | Path], folder: Path | None = None, environment: Mapping[str, str] | None = None, given: str = "") -> str:
    """What a program prints, which is shown where it fails."""
    ran = subprocess.run(
        [str(word) for word in words],
        cwd=folder,
        env=environment,
        input=given,
        stdout=subprocess.PIPE,
        stderr=subprocess.STDOUT,
        text=True,
        errors="replace",
    )
    if ran.returncode:
        print(ran.stdout, end="", file=sys.stderr)
        raise Failed(f"{' '.join(map(str, words[:3]))} .. ended with {ran.returncode}")
    return ran.stdout
