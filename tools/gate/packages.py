"""The Debian packages that the tests need: which are missing, and how they are installed."""
from __future__ import annotations

import os
import shutil
import subprocess
import sys
from collections.abc import Callable, Iterable, Iterator
from pathlib import Path
from typing import NamedTuple

from tools import npm

# The Python for which Debian packages modules; the tests are run by it.
PYTHON = "/usr/bin/python3"
RELEASE = Path("/etc/os-release")
# The word that installs without asking.
INSTALL = "--install"


class Group(NamedTuple):
    """Packages by the commands, the Python modules and the files that they bring."""

    commands: dict[str, str]
    modules: dict[str, str] = {}
    files: dict[str, str] = {}


LINT = Group(
    {"mypy": "mypy", "flake8": "flake8", "tsc": "node-typescript", "luacheck": "lua-check", "emacs": "emacs-nox"},
    {"nacl": "python3-nacl", "hypothesis": "python3-hypothesis", "wcwidth": "python3-wcwidth", "regex": "python3-regex",
     "aiohttp": "python3-aiohttp", "cryptography": "python3-cryptography", "selenium": "python3-selenium"},
    {"/usr/share/nodejs/@types/codemirror/index.d.ts": "libjs-codemirror",
     "/usr/share/emacs/site-lisp/elpa-src/package-lint-*": "elpa-package-lint"})
EDITORS = Group(
    {"emacs": "emacs-nox", "nvim": "neovim"}, {},
    {"/usr/share/emacs/site-lisp/elpa-src/evil-*": "elpa-evil", "/usr/share/emacs/site-lisp/elpa-src/undo-tree-*": "elpa-undo-tree"})
BROWSERS = Group({"chromium": "chromium", "chromedriver": "chromium-driver", "firefox-esr": "firefox-esr", "certutil": "libnss3-tools"})
SHARE = Group(
    {"redis-server": "redis-server", "redis-cli": "redis-tools", "tmux": "tmux", "openssl": "openssl", "zsh": "zsh", "fish": "fish",
     "node": "nodejs", "pandoc": "pandoc", "pdftotext": "poppler-utils", "strace": "strace", **BROWSERS.commands},
    {name: LINT.modules[name] for name in ("nacl", "cryptography", "hypothesis", "wcwidth", "regex", "aiohttp", "selenium")},
    {"/usr/share/javascript/codemirror/lib/codemirror.js": "libjs-codemirror",
     "/usr/share/javascript/markdown-it/markdown-it.js": "libjs-markdown-it"})
LIBRARY = Group(
    {"cc": "gcc", "objcopy": "binutils", "valgrind": "valgrind", "musl-gcc": "musl-tools", "node": "nodejs", "pkgconf": "pkgconf",
     "chromium": "chromium", "chromedriver": "chromium-driver"},
    {"selenium": "python3-selenium", "hypothesis": "python3-hypothesis"},
    {"/usr/include/node/node_api.h": "libnode-dev", "/usr/share/nodejs/ws": "node-ws",
     "/usr/share/javascript/codemirror/lib/codemirror.js": "libjs-codemirror"})
EVERYTHING = (LINT, SHARE, EDITORS, LIBRARY)


def rust_packages() -> list[str]:
    """Return the packages that bring a Rust with the target WebAssembly, unless one is there."""
    try:
        npm.chosen()
    except npm.Lacking:
        is_twelve = RELEASE.is_file() and 'VERSION_ID="12"' in RELEASE.read_text()
        return ["rustc-web", "cargo-web", "rust-web-src", "lld"] if is_twelve else ["rustc", "cargo", "libstd-rust-dev-wasm32", "lld"]
    return []


def missing_of(group: Group) -> Iterator[str]:
    """Yield the packages of a group that aren't installed."""
    yield from (package for command, package in group.commands.items() if not shutil.which(command))
    yield from (package for path, package in group.files.items() if not any(Path("/").glob(path.lstrip("/"))))
    if group.modules:
        looks = f"from importlib.util import find_spec\nprint(*(one for one in {[*group.modules]!r} if not find_spec(one)))"
        python = PYTHON if os.access(PYTHON, os.X_OK) else sys.executable
        found = subprocess.run([python, "-c", looks], stdout=subprocess.PIPE, text=True, check=True).stdout
        yield from (group.modules[name] for name in found.split())


def missing(groups: Iterable[Group]) -> list[str]:
    """Return the packages that are missing, each once, in the order in which they are needed."""
    groups = tuple(groups)
    found = [package for group in groups for package in missing_of(group)]
    return list(dict.fromkeys([*found, *(rust_packages() if LIBRARY in groups else [])]))


def can_install() -> bool:
    """Say whether this user may install Debian's packages here."""
    return os.geteuid() == 0 and shutil.which("apt-get") is not None


def install(packages: list[str]) -> None:
    """Install packages. The output of apt-get goes to standard error."""
    environment = {**os.environ, "DEBIAN_FRONTEND": "noninteractive"}
    for words in ["update"], ["install", "-y", "--no-install-recommends", *packages]:
        subprocess.run(["apt-get", *words], env=environment, stdout=sys.stderr, check=False)


def agreed(question: str) -> bool:
    """Ask on the terminal, if there is one; without one the answer is no."""
    return sys.stdin.isatty() and input(question).strip().lower() in ("y", "yes")


def be_ready(name: str, groups: Iterable[Group], installs: bool, ask: Callable[[str], bool] = agreed) -> None:
    """See that all packages of the groups are here. As root the user is asked, unless `installs` says yes. If some are still missing,
    list them on standard error and end with status 2."""
    groups = tuple(groups)
    lacking = missing(groups)
    if not lacking:
        return
    print(f"{name}: these Debian packages are missing, and the tests need them: {' '.join(lacking)}", file=sys.stderr, flush=True)
    if can_install() and (installs or ask(f"{name}: Install them now? [y/N] ")):
        install(lacking)
        if not (lacking := missing(groups)):
            return
        print(f"{name}: these are still missing: {' '.join(lacking)}", file=sys.stderr)
    elif can_install():
        print(f"{name}: nothing was installed; the word {INSTALL} has them installed", file=sys.stderr)
    else:
        print(f"{name}: as root, install them with: apt-get install {' '.join(lacking)}", file=sys.stderr)
    sys.exit(2)
