"""The command bin/note: what its first word names is done, and what went wrong is said in a sentence."""
import contextlib
import locale
import os
import signal
import subprocess
import sys

from share.cli import installing, relaying, scripts, verbs
from share.cli.output import report
from share.cli.script_words import ALONE, SCRIPT_VERBS
from share.cli.words import parsed
from share.program.process import command, make_ready
from share.store.guarded import Unkept
from share.text.errors import GONE_FORM, Refused, Trouble

# The status where a note, or its link, is of a form that only unreleased versions had.
OF_A_FORM_THAT_IS_GONE = 1


def main() -> int:
    """The status with which the command ends."""
    use_utf_8()
    # The terminal is to be put right where the user closes it, too.
    for number in signal.SIGHUP, signal.SIGTERM:
        signal.signal(number, lambda *_: sys.exit(0))
    try:
        if signal.getsignal(signal.SIGINT) is not signal.SIG_IGN:
            signal.signal(signal.SIGINT, signal.default_int_handler)
        if sys.stdout is None:
            raise Trouble("Standard output is closed.")
        return done(sys.argv[1:])
    except BrokenPipeError:
        # Who read what was printed went away.
        os.dup2(os.open(os.devnull, os.O_WRONLY), sys.stdout.fileno())
    except KeyboardInterrupt:
        # A shell's loop is to see by which signal this ended.
        signal.signal(signal.SIGINT, signal.SIG_DFL)
        os.kill(os.getpid(), signal.SIGINT)
    except (Trouble, Refused, Unkept, OSError) as why:
        report([str(why)])
        # An engine that opened the note says it in words.
        return OF_A_FORM_THAT_IS_GONE if str(why) == GONE_FORM else 2
    return 2


def done(words: list[str]) -> int:
    """Does what the command line says; the status."""
    if words and words[0] in (SCRIPT_VERBS if len(words) > 1 else ALONE):
        return scripts.run_script_verb(words)
    if words == ["--version"]:
        make_ready()
        return subprocess.run([*command(), "--version"], check=False).returncode
    if words and words[0] in installing.INSTALLING_VERBS:
        return installing.run(words)
    if words and words[0] == relaying.RELAY_VERB:
        return relaying.run_relay(words)
    return verbs.run_note_verb(parsed(words))


def use_utf_8() -> None:
    """Makes the terminal's characters UTF-8, also where the user's locale is another one or isn't here."""
    with contextlib.suppress(locale.Error):
        locale.setlocale(locale.LC_ALL, "")
    if locale.nl_langinfo(locale.CODESET).upper() != "UTF-8":
        locale.setlocale(locale.LC_CTYPE, "C.UTF-8")
