"""What shells complete: the verbs and options that --help names, and the notes that are here."""
import contextlib
import io
import re
import subprocess
import unittest

from share.cli import installing, main
from share.cli.relaying import RELAY_VERB
from share.cli.script_words import SCRIPT_VERBS
from share.cli.words import NOTE_VERBS
from share.tests.support import TOP, Case
from share.tests.waiting import PATIENCE

COMPLETIONS = TOP / "share" / "completions"
# What prints what a shell offers for the last of some words. Of zsh's own there are stand-ins, which its line editor has.
BASH = """
. "$1/note.bash"
COMP_WORDS=("${@:2}")
COMP_CWORD=$((${#COMP_WORDS[@]} - 1))
_note
printf '%s\\n' "${COMPREPLY[@]}"
"""
ZSH = """
compdef() { :; }
compadd() { shift; print -l -- ${(M)@:#${words[CURRENT]}*}; }
_files() { print -l -- ${words[CURRENT]}*(N); }
. $1/_note
words=("${@:2}") CURRENT=$(($# - 1))
_note
"""
FISH = """
source $argv[1]/note.fish
complete -C (string join ' ' -- $argv[2..])
"""
SHELLS = {"bash": ["bash", "-c", BASH, "bash"], "zsh": ["zsh", "-fc", ZSH, "zsh"], "fish": ["fish", "--no-config", "-c", FISH]}
OPTION = re.compile(r"--[a-z-]+")


class Completed(Case):
    """A command line that is begun, and what shells offer for its last word."""

    def offered(self, *words: str) -> list[str]:
        """What is offered after these words of `note`, by all shells."""
        found = {}
        for shell, command in SHELLS.items():
            run = subprocess.run([*command, str(COMPLETIONS), "note", *words], check=True, timeout=PATIENCE, stdout=subprocess.PIPE,
                                 text=True, cwd=self.folder, env={"VIALSHOAL_DATA": str(self.folder / "data"), "HOME": str(self.folder)})
            found[shell] = sorted(run.stdout.split())
        self.assertEqual(found["zsh"], found["bash"], words)
        self.assertEqual(found["fish"], found["bash"], words)
        return found["bash"]

    def helped(self, *words: str) -> set[str]:
        """The options that --help has."""
        told = io.StringIO()
        with contextlib.redirect_stdout(told), self.assertRaises(SystemExit):
            main.done([*words, "--help"])
        listed = told.getvalue().partition("\noptions:\n")[2].partition("\n\n")[0]
        return {found for line in listed.splitlines() if line.startswith("  -") for found in OPTION.findall(line)}

    def test_verbs(self) -> None:
        self.assertEqual(self.offered(""), sorted((*NOTE_VERBS, *SCRIPT_VERBS, *installing.INSTALLING_VERBS, RELAY_VERB)))
        self.assertEqual(self.offered("his"), ["history"])

    def test_options(self) -> None:
        self.assertEqual(set(self.offered("--")), self.helped())
        for verb in (*SCRIPT_VERBS, *installing.INSTALLING_VERBS, RELAY_VERB):
            self.assertEqual(set(self.offered(verb, "--")), self.helped(verb), verb)
        for verb in NOTE_VERBS:
            self.assertLessEqual(set(self.offered(verb, "--")), self.helped(), verb)
        self.assertEqual(self.offered("export", "picnic", "--format", ""), ["critic", "html", "note", "text"])
        self.assertEqual(self.offered("import", "picnic", "--format", ""), ["critic", "text"])
        self.assertEqual(self.offered("sync", "--every", ""), [])
        self.note("append", "diary", "x", "--new")
        for words in ("sync", "--every"), ("renew", "diary", "--form"), ("cat", "diary", "--text"):
            self.assertEqual(self.offered(*words, ""), [])

    def test_notes_and_files(self) -> None:
        notes = self.folder / "data" / "notes"
        notes.mkdir(parents=True)
        for name in "picnic", "plan", "diary":
            (notes / f"{name}.note").touch()
        for verb in "cat", "check", "rename", "delete", "sync", "remarks", "remark", "accept":
            self.assertEqual(self.offered(verb, "p"), ["picnic", "plan"])
        self.assertEqual(self.offered("di"), ["diary"])
        for words in ("list", ""), ("search", ""), ("rename", "diary", ""), ("remark", "diary", "--on", ""), ("reply", "diary", "7:1", ""):
            self.assertEqual(self.offered(*words), [])
        self.assertEqual(self.offered("relay", ""), [])
        (self.folder / "text.txt").touch()
        for words in ("import", "diary", "te"), ("import", "diary", "x", "plan", "te"), ("cat", "diary", "--link-file", "te"):
            self.assertEqual(self.offered(*words), ["text.txt"])
        self.assertEqual(self.offered("open", "zebra"), [])


if __name__ == "__main__":
    unittest.main()
