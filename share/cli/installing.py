"""Puts the program and all that belongs to it under a prefix, and takes just that away again.

All files are in one folder, lib/vialshoal-NUMBER, to which the link lib/vialshoal leads; what has to be elsewhere is a
link into that. So a version takes another's place by one renaming, and until then nothing has changed.
"""
import argparse
import contextlib
import fcntl
import json
import os
import pathlib
import re
import secrets
import sys
from collections.abc import Iterable, Iterator, Sequence

from share.program.process import BUILT, BUILT_FROM, TOP, command, file_of, is_unproved, make_ready
from share.text.errors import Trouble

PREFIX = "/usr/local"
LIB, CURRENT, MANIFEST, NEW = "lib", "vialshoal", "installed", "new"
TREE = re.compile(r"vialshoal-[0-9a-f]{8}")
ROOMS = ("text", "format", "admission", "review", "log", "relay", "program", "store", "proved", "sync", "engine", "editors", "cli")
PARTS = ("bin/note", "bin/built", "share/*.py", *(f"share/{room}/**/*.py" for room in ROOMS), "share/editors/web/*.*",
         "share/relay/site/*.*", *(f"library/node/{name}.js" for name in ("blocks", "bytes", "delta", "host", "positions")),
         "library/out/node/vialshoal.wasm",
         "share/completions/*", "share/systemd/*", "editors/emacs/*.el", "editors/neovim/plugin/*.lua",
         "editors/neovim/lua/vialshoal/*.lua", "editors/neovim/doc/*", "docs/SHARING.md", "docs/ENGINE.md", "docs/RELAY.md", "docs/man/*.1")
PROGRAM = str(BUILT.relative_to(TOP))
PROGRAM_BUILT_FROM = str(BUILT.with_name(BUILT_FROM).relative_to(TOP))
# What is looked for elsewhere, and where it is in the folder.
LINKS = {
    "bin/note": "bin/note",
    "bin/site_cli": "bin/built",
    "share/bash-completion/completions/note": "share/completions/note.bash",
    "share/bash-completion/completions/site_cli": "share/completions/site_cli.bash",
    "share/fish/vendor_completions.d/note.fish": "share/completions/note.fish",
    # The one is looked at by zsh as it comes, the other by Debian's for what packages bring.
    "share/zsh/site-functions/_note": "share/completions/_note",
    "share/zsh/vendor-completions/_note": "share/completions/_note",
    "share/doc/vialshoal": "docs",
    **{f"share/emacs/site-lisp/{name}.el": f"editors/emacs/{name}.el"
       for name in ("vialshoal", "vialshoal-again", "vialshoal-review", "vialshoal-remarks", "vialshoal-changed", "vialshoal-suggesting",
                    "vialshoal-evil")},
    "share/man/man1/note.1": "docs/man/note.1",
    "share/man/man1/site_cli.1": "docs/man/site_cli.1",
    "share/nvim/site/pack/vialshoal/start/vialshoal": "editors/neovim",
}
# What has to be a file of its own there, told by how it begins: systemd goes on with the file that a link leads to, which the next version
# takes away.
COPIES = {"lib/systemd/user/vialshoal-sync.service": "share/systemd/vialshoal-sync.service",
          "lib/systemd/system/vialshoal-relay.service": "share/systemd/vialshoal-relay.service"}
BEGIN_OF_COPY = b"# Of Vialshoal: "
PLACES = (*LINKS, *COPIES)
RUN = ("bin/note", "bin/built", PROGRAM)
FILE_MODE, RUN_MODE = 0o644, 0o755
Manifest = dict[str, list[str]]
INSTALLING_VERBS = ("install", "uninstall")
ABOUT = {
    "install": "Installs note and site_cli, the Emacs package, the Neovim plug-in, the manual's pages, what shells complete "
               "and services that sync notes and relay them, in place of what was installed before. What is there of others is refused.",
    "uninstall": "Takes away what install has put there, and nothing else.",
}
DESTDIR_AND_STATUSES = ("A packager sets DESTDIR, the folder below which the files are to be. "
                        "Ends with 2 and a sentence where it can't be done.")


class Prefix:
    """A prefix, below the folder in which a packager collects files."""

    def __init__(self, prefix: str):
        if not os.path.isabs(prefix):
            raise Trouble(f"{prefix} isn't a whole path.")
        self.root = pathlib.Path(os.environ.get("DESTDIR", "") + os.path.normpath(prefix))
        self._lib = self.root / LIB
        self._current = self._lib / CURRENT

    def install(self) -> None:
        """Puts all in its place, instead of what was installed before; where that can't be done, nothing."""
        files = _files_to_install()
        self._refuse_what_is_in_the_way()
        with contextlib.ExitStack() as undo:
            made = self._make_folders(self._lib, undo)
            with _alone(self._lib):
                before = self._trees()
                folders = {folder for tree in before for folder in _manifest(tree).get("folders", [])}
                folders |= {*made, *(folder for path in PLACES for folder in self._missing(self.root / path))}
                tree = self._lib / f"{CURRENT}-{secrets.token_hex(4)}"
                undo.callback(_take_away, tree)
                _fill(tree, files, sorted(folders))
                for path in LINKS:
                    self._link(path, undo)
                for path in COPIES:
                    self._copy(path, tree, undo)
                self._lead_to(tree)
                undo.pop_all()
                # What can't be taken away now is at the next time.
                with contextlib.suppress(OSError):
                    for one in before:
                        _take_away(one)

    def uninstall(self) -> list[str]:
        """Takes away what was installed; what stands where something of it should be, and is another's."""
        trees = self._trees() if self._lib.is_dir() else []
        if not trees:
            raise Trouble(f"Nothing is installed under {self.root}.")
        with _alone(self._lib):
            others = [str(self.root / path) for path in PLACES if os.path.lexists(self.root / path) and not self._is_own(path)]
            for path in filter(self._is_own, PLACES):
                (self.root / path).unlink()
            folders = {folder for tree in trees for folder in _manifest(tree).get("folders", [])}
            if self._leads_to_a_tree():
                self._current.unlink()
            for tree in trees:
                _take_away(tree)
        _remove_empty(self.root / folder for folder in sorted(folders, reverse=True))
        return others + [str(tree) for tree in trees if tree.exists()]

    def _refuse_what_is_in_the_way(self) -> None:
        paths = [self.root / path for path in PLACES if not self._is_own(path)]
        if not self._leads_to_a_tree():
            paths.append(self._current)
        for path in filter(os.path.lexists, paths):
            raise Trouble(f"{path} is there, and isn't of an earlier installation. Nothing was installed.")

    def _trees(self) -> list[pathlib.Path]:
        """The folders of what is installed, and of installations that were killed."""
        return [one for one in self._lib.iterdir() if TREE.fullmatch(one.name) and one.is_dir() and not one.is_symlink()]

    def _leads_to_a_tree(self) -> bool:
        return self._current.is_symlink() and bool(TREE.fullmatch(os.readlink(self._current)))

    def _target(self, path: str) -> str:
        """Where a link leads, from its folder."""
        return os.path.relpath(self._lib.resolve() / CURRENT / LINKS[path], (self.root / path).parent.resolve())

    def _is_own(self, path: str) -> bool:
        """Whether a link, or a copy, is one that was put here."""
        if path in COPIES:
            with contextlib.suppress(OSError):
                return (self.root / path).read_bytes().startswith(BEGIN_OF_COPY)
            return False
        return (self.root / path).is_symlink() and os.readlink(self.root / path) == self._target(path)

    def _link(self, path: str, undo: contextlib.ExitStack) -> None:
        self._make_folders((self.root / path).parent, undo)
        if not self._is_own(path):
            os.symlink(self._target(path), self.root / path)
            undo.callback((self.root / path).unlink)

    def _copy(self, path: str, tree: pathlib.Path, undo: contextlib.ExitStack) -> None:
        self._make_folders((self.root / path).parent, undo)
        is_new = not self._is_own(path)
        _write_file(tree, NEW, (tree / COPIES[path]).read_bytes())
        os.replace(tree / NEW, self.root / path)
        if is_new:
            undo.callback((self.root / path).unlink)

    def _lead_to(self, tree: pathlib.Path) -> None:
        """Makes this folder what is installed, all at once."""
        os.symlink(tree.name, tree / NEW)
        os.replace(tree / NEW, self._current)

    def _missing(self, path: pathlib.Path) -> list[str]:
        """The folders above a path that aren't there, below the prefix and the prefix itself."""
        found = [path.parent, *path.parent.parents]
        return [str(one.relative_to(self.root)) for one in found if one.is_relative_to(self.root) and not one.exists()]

    def _make_folders(self, folder: pathlib.Path, undo: contextlib.ExitStack) -> list[str]:
        """Makes a folder, with those above it; the ones that are new."""
        missing = self._missing(folder / NEW)
        self.root.parent.mkdir(parents=True, exist_ok=True)
        for one in reversed(missing):
            (self.root / one).mkdir(mode=RUN_MODE)
            os.chmod(self.root / one, RUN_MODE)
            undo.callback(_remove_empty, [self.root / one])
        return missing


def _program() -> pathlib.Path:
    """The program that is installed: the built one, or the one that VIALSHOAL_PROGRAM names."""
    words = command()
    path = file_of(words)
    if words[1:] or not path.is_file():
        raise Trouble(f"{words[0]} can't be installed as the program.")
    return path


def _files_to_install() -> dict[str, pathlib.Path]:
    """The files of an installation, and what they are copies of."""
    found = {str(path.relative_to(TOP)): path for part in PARTS for path in sorted(TOP.glob(part)) if path.is_file()}
    program = _program()
    record = program.with_name(BUILT_FROM)
    return found | {PROGRAM: program} | ({PROGRAM_BUILT_FROM: record} if record.is_file() else {})


def _fill(tree: pathlib.Path, files: dict[str, pathlib.Path], folders: list[str]) -> None:
    """Fills a folder with all files. First comes their list, so that what was begun can be taken away."""
    tree.mkdir()
    os.chmod(tree, RUN_MODE)
    manifest = {"files": [*files, NEW], "folders": folders}
    _write_file(tree, MANIFEST, json.dumps(manifest, indent=1).encode())
    for path, source in files.items():
        _write_file(tree, path, source.read_bytes())


def _write_file(tree: pathlib.Path, path: str, data: bytes) -> None:
    for folder in reversed(pathlib.PurePath(path).parents):
        (tree / folder).mkdir(exist_ok=True)
        os.chmod(tree / folder, RUN_MODE)
    (tree / path).write_bytes(data)
    os.chmod(tree / path, RUN_MODE if path in RUN else FILE_MODE)


def _manifest(tree: pathlib.Path) -> Manifest:
    """The list of what was put into a folder; nothing where its writing was cut."""
    with contextlib.suppress(OSError, ValueError):
        found = json.loads((tree / MANIFEST).read_bytes())
        if isinstance(found, dict):
            return found
    return {}


def _take_away(tree: pathlib.Path) -> None:
    """Takes away a folder with what was put into it. What others put there stays."""
    files = _manifest(tree).get("files", [])
    for path in files:
        (tree / path).unlink(missing_ok=True)
    folders = {str(one) for path in files for one in pathlib.PurePath(path).parents} - {"."}
    _remove_empty(tree / one for one in sorted(folders, reverse=True))
    (tree / MANIFEST).unlink(missing_ok=True)
    _remove_empty([tree])


def _remove_empty(folders: Iterable[pathlib.Path]) -> None:
    for folder in folders:
        with contextlib.suppress(OSError):
            folder.rmdir()


@contextlib.contextmanager
def _alone(folder: pathlib.Path) -> Iterator[None]:
    """Locks a folder, so that one process at a time changes it."""
    file = os.open(folder, os.O_RDONLY | os.O_DIRECTORY | os.O_CLOEXEC)
    try:
        fcntl.flock(file, fcntl.LOCK_EX)
        yield
    finally:
        os.close(file)


def run(words: Sequence[str]) -> int:
    """Does what `install` or `uninstall` say; the status."""
    verb = words[0]
    own = TOP.parent.parent if (TOP / MANIFEST).exists() else pathlib.Path(PREFIX)
    parser = argparse.ArgumentParser(f"bin/note {verb}", description=ABOUT[verb], epilog=DESTDIR_AND_STATUSES)
    parser.add_argument("--prefix", metavar="DIR", default=str(own), help="where to; without it %(default)s")
    prefix = Prefix(parser.parse_args(words[1:]).prefix)
    try:
        if verb == "install":
            make_ready()
            prefix.install()
            what = ", with a program that isn't proved" if is_unproved(command()) else ""
            print(f"Installed under {prefix.root}{what}. bin/note uninstall takes it away.")
        else:
            for path in prefix.uninstall():
                print(f"note: {path} stays, since others have put something there.", file=sys.stderr)
    except OSError as why:
        raise Trouble(f"{'Nothing was installed' if verb == 'install' else 'Not all was taken away'}: {why}.") from why
    return 0
