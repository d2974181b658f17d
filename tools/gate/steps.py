"""The steps of the two sets of tests. The gate's decide by construction: fixed seeds, no bound on time, bars that leave room. The long ones
are random runs, storms and kills at random moments."""
from __future__ import annotations

from collections.abc import Iterator

from tools.building import PROVED, kit
from tools.gate.running import Step

MODULE = ("python3", "-B", "-m")
# The kits for which the build with a test in place of each proof was tried. Another kit may need another command line.
TRIED_KITS = ("rattle-kit-13b", "rattle-kit-13f")
# For the long tests: the number of random events, of random sets of entries, and the seconds of two editors in a page.
EVENTS, SETS, SECONDS = "100000", "20000", "600"
# Modules that draw more examples, or print figures of long notes, if a variable asks for that.
EXAMPLES = ("test_judge", "test_margin", "test_message_judge", "test_records", "test_second_form", "test_spelling", "test_joining",
            "test_spots")


def has_toolchain() -> bool:
    """Say whether the toolchain that proves is on this machine."""
    return PROVED.can_be_made()


def rows(build: str) -> Step:
    """Return the step that plays all rows through a build, which is made first if that doesn't need a proof."""
    makes = "" if build == PROVED.name else "bin/site_cli </dev/null && "
    return Step(["sh", "-c", f"{makes}bin/rows"], {"VIALSHOAL_BUILD": build})


def of_sources() -> Iterator[Step]:
    """Yield the checks of the sources, and the tests of tools/."""
    yield Step(["bin/lint"])
    yield Step(["bin/rust", "--check"])
    yield Step(["bin/doors"])
    yield Step([*MODULE, "tools.tests"])


def of_proofs() -> Iterator[Step]:
    """Yield the toolchain's gate, which proves everything from nothing, and the rows through the proved program."""
    yield Step([*MODULE, "tools.gate.proofs"], needed=True)
    yield rows(PROVED.name)
    if kit().startswith(TRIED_KITS):
        yield rows("tried")


def of_rust() -> Iterator[Step]:
    """Yield the tests of ordinary Rust, the bars of memory and instructions, and the library under valgrind and as WebAssembly."""
    yield Step(["bin/rust", "--test"])
    for bars in "hostile", "slow", "run":
        yield Step([f"bench/{bars}", "--bars"])
    for part in "--leaks", "--wasm":
        yield Step(["library/test/run", part], again=False)


def of_program(build: str) -> Iterator[Step]:
    """Yield random and faulty runs of the program, with fixed seeds, and the tests of shared notes and of editors."""
    environment = {"VIALSHOAL_BUILD": build}
    for words in ["bin/meetings"], ["bin/agreement"], ["bin/faults", "--few"]:
        yield Step(words, environment)
    for runner in "share/tests/run", "editors/test/run":
        yield Step([runner], environment, again=False)


def of_library() -> Iterator[Step]:
    """Yield the tests of the library as it is proved."""
    yield Step(["sh", "-c", "bin/library --wheel --node && library/test/run"], again=False)


def gate(library: bool) -> Iterator[Step]:
    """Yield the steps that decide whether a commit is right. Without the toolchain nothing is proved, and ordinary Rust plays scripts."""
    yield from of_sources()
    if has_toolchain():
        yield from of_proofs()
    else:
        yield rows("rust")
    yield from of_rust()
    yield from of_program("proved" if has_toolchain() else "rust")
    if library and has_toolchain():
        yield from of_library()
    yield Step(["bin/package", "--test", "--short"], apart=True, may_be_empty=not has_toolchain())


def long() -> Iterator[Step]:
    """Yield the long steps: random runs, kills at random moments, figures. They need a build of the program."""
    yield Step(["share/tests/run", "--long"], again=False)
    yield Step(["share/tests/run", *EXAMPLES], {"VIALSHOAL_EXAMPLES": "10", "VIALSHOAL_FIGURES": "1"}, again=False)
    yield Step(["library/test/run", "--wasm"], {"VIALSHOAL_SECONDS": SECONDS}, again=False)
    yield Step([*MODULE, "share.tests.note_agreement", SETS, "1"])
    yield Step(["bin/faults"])
    if has_toolchain():
        yield Step(["bin/refusals"])
        yield Step(["bin/rust", "--compare", "--events", EVENTS])
