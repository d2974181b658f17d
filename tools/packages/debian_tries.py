"""The Debian package is tried: as it is, unpacked, and installed in a fresh Debian."""
from __future__ import annotations

from typing import TYPE_CHECKING

from tools.packages.calling import Words, call
from tools.packages.release import NAME
from tools.packages.roots import USER, Root
from tools.packages.scripts import plain_rows
from tools.packages.terminals import Terminal

if TYPE_CHECKING:
    from tools.packages.trying import Trial

EMACS = '(progn (require (quote vialshoal)) (vialshoal-open "picnic"))'


def no_errors(trial: Trial) -> None:
    call(["lintian", "--fail-on", "error", "--allow-root", trial.of(".deb")])


def unpacked(trial: Trial) -> None:
    """Runs the program from where the package has it."""
    folder = trial.folder("unpacked")
    call(["dpkg-deb", "--extract", trial.of(".deb"), folder])
    command: Words = [*trial.wish.processors[0].runs, folder / "usr/lib" / NAME / "crates/site_cli/out/site_cli"]
    for row in plain_rows():
        assert call(command, given=row.script.decode()) == row.expected.decode(), row.name
    said = call([folder / "usr/lib" / NAME / "bin/built", "--version"])
    assert said == f"{trial.release.about}\n{trial.release.proof}\n", said


def installed(trial: Trial) -> None:
    """Installs it in a fresh Debian, uses all that it has there, and takes it away."""
    with Root(trial.room / "root") as root:
        packed = root.folder / "package.deb"
        packed.write_bytes(trial.of(".deb").read_bytes())
        before = {str(path) for path in root.folder.joinpath("usr").rglob("*vialshoal*")}
        root.install("./package.deb", "emacs-nox", "neovim", "bash-completion", "man-db")
        answers(root)
        in_terminals(root, trial)
        manual(root)
        completions(root)
        root.run("apt-get", "purge", "--yes", "--quiet", trial.release.name)
        assert {str(path) for path in root.folder.joinpath("usr").rglob("*vialshoal*")} == before
        assert not (root.folder / "usr/bin/note").is_symlink()


def answers(root: Root) -> None:
    """A user's site_cli answers scripts."""
    for row in plain_rows():
        assert root.used(["site_cli"], row.script.decode()) == row.expected.decode(), row.name


def in_terminals(root: Root, trial: Trial) -> None:
    """Two terminals, Emacs and Neovim have one note open."""
    room = trial.room

    def opened(name: str, *command: str) -> Terminal:
        return Terminal(room, name, root.as_user(*command))

    with opened("left", "note", "picnic") as left:
        left.sees("Link:")
        left.press("Enter")
        left.sees("site ")
        with opened("right", "note", "picnic") as right:
            right.sees("site ")
            left.type("bread")
            right.sees("bread")
            right.press("End")
            right.type(" and wine")
            left.sees("bread and wine")
            with opened("emacs", "emacs", "-nw", "-q", "--eval", EMACS) as emacs:
                emacs.sees("bread and wine")
                emacs.type("red ")
                left.sees("red bread and wine")
                right.sees("red bread and wine")
            with opened("nvim", "nvim", "-i", "NONE", "-n", "+Vialshoal picnic") as nvim:
                nvim.sees("red bread and wine")
                nvim.type("A, too")
                right.sees("wine, too")
                left.sees("wine, too")
            right.press("C-q")
        left.press("C-q")
    assert root.used(["note", "cat", "picnic"]) == "red bread and wine, too", USER


def manual(root: Root) -> None:
    for page in "note", "site_cli":
        assert f"{page.upper()}(1)" in root.used(["man", page])


def completions(root: Root) -> None:
    """The shell offers verbs, and notes that are here."""
    for typed, wanted in (("note hist", "history"), ("note cat pic", "picnic"), ("note web --no", "--no-browser")):
        words = typed.split()
        asks = f"COMP_WORDS=({typed}); COMP_CWORD={len(words) - 1}; COMP_LINE={typed!r}; COMP_POINT={len(typed)}; _note; echo $COMPREPLY"
        said = root.used(["bash", "-c", f". /usr/share/bash-completion/bash_completion; _completion_loader note; {asks}"])
        assert said.strip() == wanted, (typed, said)
