"""The verbs for scripts."""
import argparse
from collections.abc import Callable, Sequence

from share.cli import changes, critic_files, editing, of_files, reading, remarks, reviewing
from share.cli.script_words import script_parser, with_hyphens
from share.program.process import make_ready

DOES: dict[str, Callable[[argparse.Namespace], int]] = {
    "cat": reading.cat, "export": reading.export, "history": reading.history, "log": reading.log,
    "list": reading.list_notes, "append": editing.append, "replace": editing.replace,
    "import": lambda given: (critic_files.import_critic if given.format == "critic" else editing.import_files)(given),
    "remarks": remarks.remarks, "remark": reviewing.remark, "suggest": reviewing.suggest, "reply": reviewing.reply,
    "accept": reviewing.accept, "revise": reviewing.revise,
    **dict.fromkeys(("resolve", "reopen", "reject", "withdraw"), reviewing.change_state),
    "search": reading.search, "changed": changes.print_changes, "sync": of_files.sync, "check": of_files.check,
    "rename": of_files.rename, "delete": of_files.delete,
}
# What doesn't ask the program.
WITHOUT_PROGRAM = ("list", "sync", "rename", "delete")


def run_script_verb(words: Sequence[str]) -> int:
    """Does what a verb says; the status."""
    given = script_parser().parse_args(with_hyphens(words))
    if given.verb not in WITHOUT_PROGRAM:
        make_ready()
    return DOES[given.verb](given)
