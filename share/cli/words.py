"""The words of bin/note's command line."""
import argparse

from share.cli import installing, relaying, script_words
from share.format.link import NO_ARGUMENT, is_link
from share.text.errors import Trouble

USAGE = """\
Opens a shared note in the terminal. Whoever has opened the same note edits it at once.

  bin/note NAME                   opens a note; one that isn't here is made, or joined by its link, also a page's address,
                                  which is pasted where it is asked for
  bin/note NAME --print           prints it
  bin/note web NAME               opens it in the browser, or prints the file that a browser opens it by
  bin/note engine NAME            speaks JSON, for editors; docs/ENGINE.md has the protocol
  bin/note link NAME              prints the link by which others join it
  bin/note renew NAME             copies it into a new note with a new key, which those who have the old link
                                  can't read; --fresh and --without SITE .. begin with the text alone
  bin/note recover FOLDER ..      brings notes back from what is left of people's data folders
  bin/note recover --lost NAME    shows what was left out of a note for good, and types it again
  bin/note open NAME              opens a note that has the name of one of these
  bin/note relay                  carries others' notes, which it can't read; --help tells more
  bin/note install, uninstall     puts all this under a prefix, or takes it away; --help tells more

for scripts, each with --help:
  bin/note cat NAME               prints its text
  bin/note append NAME [TEXT]     types at its end; --new makes a note that isn't here
  bin/note replace NAME OLD NEW   replaces what stands in it
  bin/note import NAME FILE ..    makes a file's text the note's, also of several notes at once
  bin/note export NAME FILE       writes its text as a file, as HTML, or with what is remarked as CriticMarkup
  bin/note log NAME               says what was done, and by whom
  bin/note history NAME --at N    prints its text as it was after step N of that
  bin/note changed NAME           says what changed since you looked last, and by whom
  bin/note remarks [NAME ..]      lists remarks and suggestions; remark, suggest, reply, resolve, reopen, accept, reject,
                                  revise and withdraw are about one
  bin/note list                   the notes that are here, what of them is unsent, and when they changed
  bin/note search WORDS           looks for words in all of them
  bin/note sync [NAME ..]         sends and gets what is new of all notes, or of these; --every SECONDS goes on
  bin/note check NAME             says whether the library's note, which is proved, shows the same of its file
  bin/note rename NAME NEW        gives a note another name on this disk
  bin/note delete NAME            takes a note from this disk, after asking

keys:
  arrows, Home, End, PgUp, PgDn   move; Ctrl-Left, Ctrl-Right by words
  Backspace, Delete               delete
  Ctrl-Z, Ctrl-Y                  take back your own last edit, and nobody else's; again, the one before it; do it again
  Ctrl-A, Ctrl-E                  go to the line's begin, to its end
  Ctrl-Space                      begin to select; Ctrl-X cuts, Alt-W copies, Ctrl-V puts what was cut or copied
  Ctrl-K                          cut the rest of the line, or its end
  mouse                           a click goes there, drawing selects, the wheel scrolls; with Shift it is the terminal's
  Ctrl-F                          find; without words, what was looked for last
  Ctrl-R, Ctrl-L                  replace; go to a line
  Ctrl-T, Ctrl-U                  remark on what is selected, or on the cursor's place; suggest something in its place
  Alt-U                           have what you type and delete be suggested, or done again
  F8, Shift-F8                    mark what changed since you looked, then go to the next change, the one before; Esc ends it
  Ctrl-N, Ctrl-O                  go to the next open remark, and show it, with keys to answer it; list all
  Ctrl-S                          save as a file
  Ctrl-Q                          quit
"""
FILES_AND_STATUSES = """\
A note is a file in the data folder: VIALSHOAL_DATA, else $XDG_DATA_HOME/vialshoal, else
~/.local/share/vialshoal. All of it is there, so it can be read and edited without any log. To share it, --log
names a log as the note is made: https://HOST of a relay, redis://HOST:PORT, rediss://HOST:PORT with TLS,
unix:///PATH, or the path of a file for two accounts of one machine. A note on a server is sealed: give the others
its link, by a way on which nobody else reads it.

A link is read from VIALSHOAL_LINK, from the file that --link-file names, or asked for; a server's password from
VIALSHOAL_PASSWORD or the file that --password-file names. A server needs Debian's python3-nacl,
a relay python3-aiohttp and python3-cryptography.
VIALSHOAL_NAME is what others see at your cursor, without it your account's name. VIALSHOAL_PAUSE is how many
seconds of silence end an edit that Ctrl-Z takes back, without it 1, and a suggestion as you type it, without it 4.
VIALSHOAL_PROGRAM names another program than bin/built; VIALSHOAL_BUILD, which is proved, tried or rust, one of its
builds.

Ends with 0; with 2 and a sentence where the note couldn't be opened; --print with 3 where something is missing
in what it printed, which standard error says. docs/SHARING.md says more.
"""
NOTE_VERBS = ("open", "web", "engine", "link", "renew", "recover")
# Each has words of its own.
OTHER_VERBS = (*script_words.SCRIPT_VERBS, *installing.INSTALLING_VERBS, relaying.RELAY_VERB)


def parsed(words: list[str]) -> argparse.Namespace:
    """What the command line says."""
    parser = argparse.ArgumentParser("note", description=USAGE, epilog=FILES_AND_STATUSES, usage="bin/note [VERB] NAME [options]",
                                     formatter_class=argparse.RawDescriptionHelpFormatter)
    parser.add_argument("names", metavar="NAME", nargs="+",
                        help="letters, digits, dots, hyphens and underscores")
    parser.add_argument("--log", metavar="URL", help="where the note's log is; without it, where it was last")
    parser.add_argument("--new", action="store_true", help="make the note where it isn't here, without asking")
    script_words.add_form(parser, "made, or renewed into another one")
    parser.add_argument("--print", action="store_true", dest="prints", help="print the note and end")
    parser.add_argument("--lost", action="store_true",
                        help="recover: show what was left out of the note NAME for good, and type it again")
    parser.add_argument("--fresh", action="store_true",
                        help="renew: begin with the text as it is, without the history; so a note that is full goes on")
    parser.add_argument("--without", metavar="SITE", nargs="+", type=int,
                        help="renew: the same, and without the text of these sites, whose numbers bin/note log tells")
    parser.add_argument("--yes", action="store_true", help="renew: don't ask whether the history is to be left behind")
    parser.add_argument("--no-browser", action="store_false", dest="browses",
                        help="web: only print the file that a browser opens the note by")
    parser.add_argument("--version", action="store_true", help="say which version this is, and end")
    parser.add_argument("--link-file", metavar="FILE", help="a file that has the note's link")
    parser.add_argument("--password-file", metavar="FILE", help="a file that has the server's password")
    given = parser.parse_intermixed_args(words)
    given.verb, given.names = _verb(given.names)
    if any(map(is_link, given.names)):
        raise Trouble(NO_ARGUMENT)
    if len(given.names) != 1 and (given.verb != "recover" or given.lost):
        parser.error("one NAME is needed")
    return given


def _verb(names: list[str]) -> tuple[str, list[str]]:
    if names[0] in NOTE_VERBS and len(names) > 1:
        return names[0], names[1:]
    if names[0] in NOTE_VERBS + OTHER_VERBS:
        raise Trouble(f"{names[0]} needs the name of a note; a note of this name is opened by bin/note open "
                      f"{names[0]}.")
    return "open", names
