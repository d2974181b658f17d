"""What the toolchain compiles of crates that its gate has proved: the library for C, and the program for another processor.

The gate leaves each library as it proved it. Over these the toolchain checks the crate itself once more, which the gate has proved too, as
it compiles it: it compiles nothing else. For a further processor it begins with what it kept of that check, as rt lib does."""
from __future__ import annotations

from collections.abc import Iterator
from functools import partial
from pathlib import Path

from tools.building import kit, needed_crates, progress, proved_copy, sum_of_sources, toolchain_folder, uses
from tools.builds import OUT, PROGRAM, Build, Unbuilt

LIBRARY = "vialshoal_c"
ROOTS = {PROGRAM: ["src/main.rt"], LIBRARY: ["src/lib.rt", "--crate-type", "staticlib"]}
MAKES = {PROGRAM: f"{PROGRAM}.o", LIBRARY: f"lib{LIBRARY}.a"}


def build_of(crate: str, target: str) -> Build:
    """The program's or the library's objects for a processor, as the toolchain names it."""
    sources = partial(sum_of_sources, crate)
    return Build(f"{crate}-{target}", OUT / target / crate, "proved", "rt", kit, sources, crate, MAKES[crate])


def compiled(crate: str, target: str) -> Path:
    """Proves and compiles a crate for a processor, unless what is kept was made so of the files as they are."""
    build = build_of(crate, target)
    with build.alone():
        if not build.is_current():
            if not build.can_be_made():
                raise Unbuilt(f"there is no command {build.command}, by which it is proved")
            crates, sources = needed_crates(crate), build.sum_of_sources()
            build.log.write_bytes(b"")
            with progress(build, crates), proved_copy(crates, build) as room:
                made, checked = room / build.makes, OUT / "checked" / crate
                checked.mkdir(parents=True, exist_ok=True)
                words: list[object] = ["--target", target, "--incremental", checked, "-o", made]
                words += [*ROOTS[crate], *libraries(crate, room / "crates")]
                build.call([*words_for_all(crate), *words], room / "crates" / crate)
                build.keep(made, sources)
    return build.file


def words_for_all(crate: str) -> list[object]:
    """The toolchain's command, and what it is told for any processor."""
    folder = toolchain_folder()
    words: list[object] = [folder / "bin" / "rattle", "build", "--crate-name", crate, "--links", f"{crate}=", "--jobs", 2]
    words += ["--antt-project", folder / "rattle" / "logic" / "antt-project.json", "--logic-built", folder / "logic_built"]
    return [*words, "--toolchain", folder / "toolchain"]


def libraries(crate: str, proved: Path) -> Iterator[str]:
    """The words that name what a crate uses: the toolchain's libraries, and those that were proved in this folder."""
    crates, kept = needed_crates(crate), toolchain_folder() / "rlibs"

    def folder(name: str) -> Path:
        return proved / name / "out" / "rlib" if name in crates else kept

    for name in dict.fromkeys(["std", *uses(crates[crate])]):
        yield f"--extern={name}={folder(name)}/{name}.rlib"
    for each in (kept, *(folder(name) for name in crates if name != crate)):
        yield f"-Ldependency={each}"
