"""The program and the library, proved and built for a processor, and what is linked of the library."""
from __future__ import annotations

import re
import shutil
from collections.abc import Callable, Iterable, Sequence
from dataclasses import dataclass
from functools import cache, partial
from pathlib import Path

from tools import TOP, building
from tools.building import toolchain_folder
from tools.builds import PROGRAM
from tools.compiling import LIBRARY, MAKES, compiled
from tools.packages.calling import Words, call
from tools.packages.processors import FIRST, Processor

ARCHIVE = MAKES[LIBRARY]
# What the toolchain has as objects for x86-64 alone, for any other processor.
HEAP, HOST = (Path(__file__).with_name(name) for name in ("heap.c", "host.c"))
# What the library has beside its crate.
HEADER, IN_C = TOP / "library" / "vialshoal.h", TOP / "library" / "c"
SHARED = "libvialshoal.so"
EXPORTS = "{ global: vialshoal_*; local: *; };\n"
# What the addon is made of, beside the library.
ADDON = ("addon.c", "note.c", "counted.c")
# Nothing is kept that isn't reached.
LINKED: Words = ["-shared", "-Wl,--gc-sections,--strip-debug"]
# What Rust's own library has beside its code; where it has bitcode, ar would ask LLVM's plugin which symbols there are.
UNUSED: Words = ["-D", "--strip-debug", "--remove-section=.llvmbc", "--remove-section=.llvmcmd"]


def version() -> str:
    """The library's version, which its header has."""
    return ".".join(re.findall(r"#define VIALSHOAL_VERSION_(?:MAJOR|MINOR|PATCH) (\d+)", HEADER.read_text()))


def soname() -> str:
    """The name by which programs ask for the shared library: it is another one when they have to be compiled anew."""
    return f"{SHARED}.{version().partition('.')[0]}"


@dataclass(frozen=True)
class Tools:
    """What compiles and links C, and how the names of GNU's other tools begin."""

    compiler: Sequence[str]
    begin: str = ""

    def compiled(self, source: Path, room: Path) -> Path:
        made = room / f"{source.stem}.o"
        words: Words = ["-std=c11", "-O2", "-Wall", "-Wextra", "-fPIC", "-ffunction-sections", "-c", source, "-o", made]
        call([*self.compiler, *words])
        return made

    def add(self, archive: Path, objects: Iterable[Path]) -> None:
        """Puts objects into an archive."""
        call([f"{self.begin}ar", "qsD", archive, *objects])


def tools_for(processor: Processor) -> Tools:
    return Tools([processor.compiler], f"{processor.tools}-")


@dataclass(frozen=True)
class Binaries:
    """The program, and the archive of the library's objects; each is built when it is asked for."""

    processor: Processor
    program: Callable[[], Path]
    archive: Callable[[], Path]
    tools: Tools

    def shared(self, room: Path) -> Path:
        """Links the library that Python loads."""
        made, exports = room / SHARED, room / "exports"
        exports.write_text(EXPORTS)
        words: Words = [*LINKED, f"-Wl,-soname,{soname()}", f"-Wl,--version-script,{exports}"]
        call([*self.tools.compiler, "-o", made, *words, "-Wl,--whole-archive", self.archive(), "-Wl,--no-whole-archive"])
        exports.unlink()
        return made

    def addon(self, sources: Path, room: Path) -> Path:
        """Compiles and links the library that Node loads, with what the sources have for that."""
        made = room / "vialshoal.node"
        words: Words = [*LINKED, "-std=c11", "-O2", "-Wall", "-Wextra", "-fPIC", "-fvisibility=hidden", "-Wl,--exclude-libs,ALL"]
        words += ["-I/usr/include/node", "-I", sources, *(sources / "node" / name for name in ADDON), self.archive()]
        call([*self.tools.compiler, "-o", made, *words])
        return made


def unproved(folder: Path, processor: Processor, room: Path, tools: Tools) -> Binaries:
    """What a folder has under the names by which cargo leaves them."""
    program, crate = folder.resolve() / PROGRAM, folder.resolve() / ARCHIVE
    return Binaries(processor, lambda: program, cache(partial(whole, lambda: crate, room, tools)), tools)


def proved(processor: Processor, room: Path, tools: Tools) -> Binaries:
    """What is proved and built of this checkout, where that wasn't done here."""
    program, crate = cache(partial(program_for, processor, room)), partial(archive_for, processor, room)
    return Binaries(processor, program, cache(partial(whole, crate, room, tools)), tools)


def whole(crate: Callable[[], Path], room: Path, tools: Tools) -> Path:
    """The library: the crate's objects, and those of its C."""
    archive = room / "libvialshoal.a"
    call([f"{tools.begin}objcopy", *UNUSED, f"--redefine-syms={IN_C / 'symbols'}", crate(), archive])
    tools.add(archive, [tools.compiled(source, room) for source in sorted(IN_C.glob("*.c"))])
    return archive


def program_for(processor: Processor, room: Path) -> Path:
    """The program, which the toolchain links itself for the first processor."""
    if processor == FIRST:
        building.build()
        return building.BUILT
    code, program, tools = compiled(PROGRAM, processor.target), room / PROGRAM, tools_for(processor)
    call([*tools.compiler, "-o", program, code, *(tools.compiled(source, room) for source in (HEAP, HOST))])
    return program


def archive_for(processor: Processor, room: Path) -> Path:
    """The crate's objects, and the three functions by which they call malloc, realloc and free."""
    archive = Path(shutil.copy(compiled(LIBRARY, processor.target), room))
    tools_for(processor).add(archive, heap(processor, room))
    return archive


def heap(processor: Processor, room: Path) -> list[Path]:
    """The objects of these functions."""
    if processor != FIRST:
        return [tools_for(processor).compiled(HEAP, room)]
    tool, packed = f"{processor.tools}-ar", toolchain_folder() / "c" / "liblibc_c.a"
    call([tool, "x", packed], room)
    return [room / name for name in call([tool, "t", packed]).split()]
