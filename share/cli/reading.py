"""The verbs for scripts that read notes, for which no number is needed."""
import argparse
import pathlib
from contextlib import closing
from datetime import datetime

from share.cli import access, critic_files, html
from share.cli.output import print_bytes, print_json, print_text, quoted, report, report_missing
from share.cli.script_words import WHICH_TEXTS
from share.engine import server
from share.format.history import Messages
from share.format.link import is_relay
from share.format.operation import INSERT, TEXT
from share.format.second.key_link import KeyLink, link_of
from share.format.second.saved import saved_note
from share.log.folder import stands_still
from share.log.sqlite_file import WRITTEN_AHEAD, beside
from share.program import replay, retyping
from share.program.replay import Replays, HistoryStep, Wrote
from share.program.site import Site
from share.review.hidden import before_hidden
from share.store import atomic, contents, nicknames, notes, read_only
from share.store.contents import Contents
from share.store.read_only import Judged
from share.text.errors import Trouble, counted
from share.text.line import Line
from share.text.rope import readable, swapped

# What was done, in words, where that isn't a word already.
DONE = {"looked": "changed the looks of"}
# What stands in a step's place before what was left out for good.
LEFT_OUT = "left out"
# The status where no note has the words that are looked for.
NOTHING_FOUND = 1


def cat(given: argparse.Namespace) -> int:
    """Prints a note's text."""
    messages, missing, _ = _found_messages(given, given.of_text)
    text = readable(swapped(_site_of(messages, given.of_text).text()))
    if given.json:
        return print_json({"note": given.name, "text": text, "missing": missing}, missing)
    print_text(text)
    return report_missing(missing)


def export(given: argparse.Namespace) -> int:
    """Writes a note's text as a file."""
    if given.format == "critic" or given.remarks:
        if given.of_text != TEXT or given.format == "text":
            raise Trouble("Remarks and suggestions are about a note's text 1, and are written as html or as critic.")
    data, missing = _exported_whole(given) if given.format == "note" else _exported_text(given)
    if given.file == "-":
        print_bytes(data)
    elif not given.replace and atomic.exists(given.file):
        raise Trouble(f"{given.file} exists. --replace replaces it.")
    else:
        atomic.save(given.file, data, is_private=given.format == "note")
    return report_missing(missing)


def _exported_text(given: argparse.Namespace) -> tuple[bytes, list[str]]:
    there = _what_there_is(given)
    return (critic_files.exported if given.format == "critic" else _exported)(given, there)


def _exported_whole(given: argparse.Namespace) -> tuple[bytes, list[str]]:
    """All of a note as one file, and what is missing in it."""
    found = read_only.found_in(notes.existing(given.name))
    link = link_of(notes.link_to(given.name))
    if not isinstance(link, KeyLink) or not is_relay(link.url):
        raise Trouble(f"The note {given.name} isn't at a relay. bin/note renew {given.name} --log https://HOST copies it into one that is.")
    return saved_note(link, [one.raw for one in found.entries]), found.faults


def _exported(given: argparse.Namespace, there: Judged) -> tuple[bytes, list[str]]:
    """A note's text as a file, and what is missing in it."""
    messages, missing, _ = _messages_of(given, there, given.of_text)
    with closing(_site_of(messages, given.of_text)) as site:
        text = site.text()
        if given.format == "text":
            return swapped(text), missing
        said = critic_files.in_margin(given, there, text) if given.remarks else []
        return html.page(given.name, text, site.runs(), said).encode(), missing


def history(given: argparse.Namespace) -> int:
    """Prints a note's text as it was."""
    there = _what_there_is(given)
    messages, missing, left_out = contents.contents_of(given.name, there)
    if not 0 <= given.at <= len(messages):
        raise Trouble(f"The note's history has {counted(len(messages), 'message')}.")
    replays = Replays()
    past = replays.past(messages, before_hidden(messages, given.at, contents.suggested(there)))
    replays.close()
    text = readable(swapped(past.text))
    if given.json:
        return print_json({"note": given.name, "at": given.at, "length": len(messages), "text": text,
                           "stretches": [_stretch(past.text, one) for one in past.wrote], "left_out": left_out}, missing)
    print_text(text)
    return report_missing(missing)


def log(given: argparse.Namespace) -> int:
    """Says what was done, step by step, and by whom."""
    there = _what_there_is(given)
    messages, missing, left_out = contents.contents_of(given.name, there)
    found = replay.steps(messages, 0, len(messages), contents.suggested(there))
    own, names = _own_sites(given.name), nicknames.known(given.name)
    if given.json:
        steps = [replay.as_line(one) | {"own": one.site in own, "name": names.get(one.site, ""),
                                        "text": _text_of(messages, one)} for one in found]
        return print_json({"note": given.name, "length": len(messages), "steps": steps, "left_out": left_out}, missing)
    for one in found:
        who = names.get(one.site) or f"site {one.site}" + (" (you)" if one.site in own else "")
        what = (f"typed {quoted(_text_of(messages, one))}" if one.did == "typed" else
                f"{DONE.get(one.did, one.did)} {counted(one.size, 'byte')}")
        what += f" in the place of {counted(one.gave_way, 'byte')}" if one.gave_way else ""
        print_text(f"{one.end:>9}  {who:<18}  {what}\n")
    for line in left_out:
        print_text(f"{LEFT_OUT:>9}  {retyping.called(line):<18}  typed {quoted(line['text'])}\n")
    return report_missing(missing)


def list_notes(given: argparse.Namespace) -> int:
    """Lists the notes that are here."""
    paths = {name: notes.path_of(name) for name in notes.names()}
    found = [_listed(name, path) for name, path in paths.items()]
    report(f"Another process, perhaps one that was stopped, holds {folder}. What it is at isn't seen."
           for folder in sorted({path.parent for path in paths.values()}) if stands_still(folder))
    if given.json:
        return print_json({"notes": found}, [])
    for one in found:
        unsent = f"{counted(one['unsent'], 'edit')} unsent" if one.get("unsent") else ""
        changed = datetime.fromisoformat(one["changed"]).strftime("%Y-%m-%d %H:%M") if "changed" in one else ""
        words = [one["name"], one.get("log") or "no log", "open" if one["open"] else "", unsent, changed, one.get("trouble", "")]
        print_text("  ".join(filter(None, words)) + "\n")
    return 0


def search(given: argparse.Namespace) -> int:
    """Looks for words in the notes that are here."""
    wanted, found, missing = " ".join(given.words).casefold(), list[Line](), list[str]()
    if not wanted:
        raise Trouble("There is nothing to look for.")
    for name in notes.names():
        try:
            text = readable(swapped(_text_here(name)))
        except Trouble as why:
            missing.append(str(why))
            continue
        found += [{"note": name, "line": number, "text": line} for number, line in enumerate(text.split("\n"), 1)
                  if wanted in line.casefold()]
    if given.json:
        return print_json({"found": found}, missing) or (0 if found else NOTHING_FOUND)
    for one in found:
        print_text(f"{one['note']}:{one['line']}: {one['text']}\n")
    return report_missing(missing) or (0 if found else NOTHING_FOUND)


def _text_here(name: str) -> bytes:
    """The text of what a note's file has."""
    with closing(_site_of(read_only.judged(notes.path_of(name)).judge.let_through_in_order(TEXT))) as site:
        return site.text()


def _what_there_is(given: argparse.Namespace) -> Judged:
    """What there is of a note."""
    return contents.found_of(given.name, access.given_url(given), access.given_link(given), access.given_password(given))


def _found_messages(given: argparse.Namespace, text: int = TEXT) -> Contents:
    """The messages of a text of a note, and what is missing of that."""
    return _messages_of(given, _what_there_is(given), text)


def _messages_of(given: argparse.Namespace, found: Judged, text: int) -> Contents:
    """The same of what there is of it."""
    if text not in found.about.form().texts:
        raise Trouble(f"The note {given.name} has no text {text}: {WHICH_TEXTS}.")
    return contents.contents_of(given.name, found, text)


def _site_of(messages: Messages, text: int = TEXT) -> Site:
    return Site(replay.REPLAYING, messages, text=text)


def _own_sites(name: str) -> set[int]:
    """This person's numbers in a note."""
    path = notes.path_of(name)
    return read_only.own_sites(path) if path.exists() else set()


def _listed(name: str, path: pathlib.Path) -> Line:
    """What is known of a note without opening it."""
    line: Line = {"name": name, "path": str(path), "open": False}
    try:
        about, unsent = read_only.about_and_unsent(path)
        written = max(one.stat().st_mtime for one in (path, beside(path, WRITTEN_AHEAD)) if one.exists())
    except (Trouble, OSError, ValueError) as why:
        return line | {"trouble": str(why)}
    running = server.connected(name)
    if running:
        running.close()
    changed = datetime.fromtimestamp(written).astimezone().isoformat(timespec="seconds")
    return line | {"open": bool(running), "log": about.url, "sealed": about.sealed, "unsent": unsent, "changed": changed}


def _text_of(messages: Messages, step: HistoryStep) -> str:
    """What a step typed."""
    data = b"".join(one.data for one in messages[step.begin:step.end] if one.kind == INSERT)
    return readable(swapped(data))


def _stretch(text: bytes, one: Wrote) -> Line:
    return {"site": one.site, "text": readable(swapped(text[one.begin:one.end]))}
