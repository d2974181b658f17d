"""Whether the library's note shows the same of a note's file as the judge and the program do: of each text how many messages of each site
count, the bytes, and their looks."""
import contextlib
import pathlib
from collections.abc import Iterator
from typing import Any, NamedTuple

from share.admission.judging import Judging
from share.format.operation import TEXT
from share.format.second.form import RecordForm
from share.program.replay import REPLAYING
from share.program.site import Site
from share.proved.feeding import Fed
from share.store import read_only
from share.store.note_file import About
from share.store.read_only import TakesRows, Judged
from share.text.errors import counted
from share.text.looks import Run
from share.text.rope import readable


class ShownText(NamedTuple):
    """What is shown of a text: how many messages of each site count, the bytes, and their looks."""

    fronts: dict[int, int]
    text: bytes
    runs: list[Run]


NOTHING_SHOWN = ShownText({}, b"", [])


class Both(NamedTuple):
    """A note's file as it was read: what the judge was given of it, and the library's note."""

    judged: Judged
    fed: Fed


class Compared(NamedTuple):
    """How many messages count and how many characters are shown of all texts; in what the proved note differs, in words; and what was
    wrong with the file, so that neither has it."""

    messages: int
    characters: int
    differences: list[str]
    faults: list[str]


def read_by_both(path: pathlib.Path) -> Both:
    """A note's file, which is read once for both; so engines may write to it meanwhile."""
    begun = list[Fed]()

    def begins(about: About) -> TakesRows:
        begun.append(Fed(about.form()))
        return begun[-1].take

    found = read_only.judged(path, begins)
    begun[-1].end()
    return Both(found, begun[-1])


def compared(both: Both) -> Compared:
    """What comes of a file that was read."""
    with contextlib.closing(both.fed):
        differences = [f"The proved note takes {one} for none." for one in both.fed.refused]
        messages = characters = 0
        for text in RecordForm.texts:
            here, there = shown_here(both.judged.judge, text), shown_there(both.fed.note, text)
            differences += differing(text, here, there)
            messages += sum(here.fronts.values())
            characters += len(readable(here.text))
    return Compared(messages, characters, differences, both.judged.faults)


def shown_here(judge: Judging, text: int = TEXT) -> ShownText:
    """What the program shows of the messages that the judge lets through."""
    messages = judge.let_through_in_order(text)
    if not messages:
        return NOTHING_SHOWN
    fronts = {site: front for site in sorted(judge.claimed()) if (front := judge.front(site, text))}
    with contextlib.closing(Site(REPLAYING, messages, text=text)) as site:
        return ShownText(fronts, site.text(), site.runs())


def shown_there(note: Any, text: int = TEXT) -> ShownText:
    """What the library's note shows, None where nothing counts."""
    if note is None:
        return NOTHING_SHOWN
    shown = note.text(text)
    return ShownText(shown.fronts(), bytes(shown), [Run(one.font, one.colour, one.offset, one.end - one.beg) for one in shown.runs()])


def differing(text: int, here: ShownText, there: ShownText) -> Iterator[str]:
    """In what the library's note differs, in words."""
    for site in sorted(here.fronts.keys() | there.fronts.keys()):
        ours, its = here.fronts.get(site, 0), there.fronts.get(site, 0)
        if ours != its:
            yield f"Of site {site}, {counted(ours, 'message')} in text {text} count here, and {its:,} in the proved note."
    if here.text != there.text:
        at = next((at for at, (one, other) in enumerate(zip(here.text, there.text)) if one != other), min(len(here.text), len(there.text)))
        yield (f"Text {text} has {counted(len(here.text), 'byte')} here, and {len(there.text):,} in the proved note; they differ after "
               f"{at:,}.")
    elif here.runs != there.runs:
        yield f"Text {text} looks otherwise in the proved note."
