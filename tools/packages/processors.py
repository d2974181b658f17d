"""The processors for which there are packages."""
from __future__ import annotations

import platform
from dataclasses import dataclass


@dataclass(frozen=True)
class Processor:
    """A processor as Linux, Debian and Node name it, and what compiles C for it and runs its programs here."""

    machine: str
    debian: str
    node: str
    # The beginning of the names of GNU's tools for it.
    tools: str
    emulator: str

    @property
    def target(self) -> str:
        """As the toolchain names it."""
        return f"{self.machine}-unknown-linux-gnu"

    @property
    def compiler(self) -> str:
        return f"{self.tools}-gcc"

    @property
    def runs(self) -> list[str]:
        """What comes before a program of it on a command line."""
        return [] if platform.machine() == self.machine else [self.emulator, "-L", f"/usr/{self.tools}"]


PROCESSORS = {
    it.machine: it
    for it in (
        Processor("x86_64", "amd64", "x64", "x86_64-linux-gnu", "qemu-x86_64"),
        Processor("aarch64", "arm64", "arm64", "aarch64-linux-gnu", "qemu-aarch64"),
    )
}
# The one for which the toolchain links programs itself.
FIRST = PROCESSORS["x86_64"]
