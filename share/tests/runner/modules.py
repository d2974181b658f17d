"""Which modules of tests there are, in two sets, and in which order they are run."""
import contextlib
import json
import pathlib
import sys
from collections.abc import Callable, Iterable, Mapping, Sequence

from share.relay.page_files import core_path
from share.tests.forms import is_second_form
from share.tests.proved_files import missing_library
from tools import cache_folder

TESTS = pathlib.Path(__file__).resolve().parents[1]
# The folder of the modules that only --long runs.
LONG = "long"
# These need the core as WebAssembly, which bin/library --wasm makes.
OVER_THE_CORE = frozenset(("test_all_at_relay", "test_relay_text", "test_relay_text_firefox", "test_site_texts", "test_site_feed",
                           "test_site_lost", "test_relay_review", "test_relay_left_out", "test_relay_ends", "test_site_reviews",
                           "test_bursts", "test_tab_closed"))
# This needs the library, which is made as ordinary Rust where cargo is.
OVER_THE_LIBRARY = frozenset(("test_proved",))
# These also run over notes of the second form, as "test_one:2": their subjects have other rules there.
OVER_BOTH = frozenset(("test_all_editors", "test_carried", "test_changed", "test_copied_numbers", "test_copies", "test_left_out",
                       "test_losses", "test_numbers", "test_presence", "test_security", "test_versions",
                       "test_withdrawn"))
# A function that says in words that something is missing, or returns nothing if it is here; beside the modules that need it.
Lacking = Callable[[], str]
NEEDS: Sequence[tuple[frozenset[str], Lacking]] = (
    (OVER_THE_CORE, lambda: "" if core_path() else "the core isn't here as WebAssembly (bin/library --wasm makes it)"),
    (OVER_THE_LIBRARY, lambda: "the library isn't here (cargo makes it)" if missing_library() else ""))


def in_set(of_long: bool) -> list[str]:
    """Return the modules of the gate's set, or of the long one, as they are imported below share.tests."""
    folder, begin = (TESTS / LONG, f"{LONG}.") if of_long else (TESTS, "")
    return sorted(f"{begin}{path.stem}" for path in folder.glob("test_*.py"))


def plain(module: str) -> str:
    """Return a module's own name, without its folder and its form."""
    return module.partition(":")[0].rpartition(".")[2]


def found(name: str) -> str:
    """Return the module that a word names; modules of the long set may be named without their folder."""
    module, _, form = name.partition(":")
    if module not in in_set(False) and f"{LONG}.{module}" in in_set(True):
        module = f"{LONG}.{module}"
    return f"{module}:{form}" if form else module


def is_long(module: str) -> bool:
    """Say whether a module is of the long set."""
    return module.startswith(f"{LONG}.")


def of_set(of_long: bool) -> list[str]:
    """Return the modules to run of a set, those over both forms twice. If some lack what they need, end with status 2 and say so."""
    modules = in_set(of_long)
    for needing, lacking in NEEDS:
        if (left := [one for one in modules if plain(one) in needing]) and (why := lacking()):
            print(f"share/tests/run: {why}, and these modules need it: {', '.join(left)}", file=sys.stderr)
            sys.exit(2)
    twice = frozenset[str]() if is_second_form() else OVER_BOTH
    return [one for module in modules for one in (module, f"{module}:2")[:1 + (plain(module) in twice)]]


def _times_file() -> pathlib.Path:
    return cache_folder() / "test-times.json"


def last_times() -> dict[str, float]:
    """Return how many seconds each module took at the last run on this machine."""
    try:
        return {str(name): float(seconds) for name, seconds in json.loads(_times_file().read_text("utf-8")).items()}
    except (OSError, ValueError, AttributeError, TypeError):
        return {}


def keep_times(took: Mapping[str, float]) -> None:
    """Keep how many seconds modules took."""
    path = _times_file()
    with contextlib.suppress(OSError):
        path.parent.mkdir(parents=True, exist_ok=True)
        path.write_text(json.dumps({**last_times(), **{name: round(seconds, 1) for name, seconds in took.items()}}, indent=1), "utf-8")


def longest_first(modules: Iterable[str]) -> list[str]:
    """Order modules by their time at the last run. Modules without a last run come first, the largest file first."""
    times = last_times()

    def size(module: str) -> int:
        path = TESTS / f"{module.partition(':')[0].replace('.', '/')}.py"
        return path.stat().st_size if path.is_file() else 0

    return sorted(modules, key=lambda one: (one in times, -times.get(one, 0), -size(one), one))
