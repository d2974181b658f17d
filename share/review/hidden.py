"""Which messages of a text type a replacement that is suggested, and hide it at once, by the text's messages alone."""
from collections.abc import Iterable, Iterator, Sequence, Set

from share.format.history import Messages
from share.format.operation import DELETE, RESTORE, Operation
from share.review.places import NameIndex
from share.text.names import Names


def hidden_at_once(suggested: Set[Names], messages: Messages) -> set[tuple[int, int]]:
    """The site and seq of each message that types one of these replacements, and of the next one, which hides just that, as long as
    nothing of it is shown. What was shown before it was hidden is none, whatever is suggested."""
    found = dict(_typed_and_hidden(suggested, messages.runs())) if suggested else {}
    index, runs_of = NameIndex[Names](), {one: list[Operation]() for one in found}
    for one in found:
        index.add([one], one)
    for run in messages.runs() if found else ():
        for one in index.meeting(run.mentions) if run.kind in (DELETE, RESTORE) else ():
            runs_of[one].append(run)
    return {(one.site, seq) for one, runs in runs_of.items() if not any(_shown_after(one, runs)) for seq in found[one]}


def before_hidden(messages: Messages, at: int, suggested: Set[Names]) -> int:
    """A place of the messages; where that is between what types such a replacement and what hides it, the one before both."""
    if not suggested or not 0 < at < len(messages) or not messages[at - 1].data or messages[at].site != messages[at - 1].site:
        return at
    passed_over = hidden_at_once(suggested, messages)
    while at and (last := messages[at - 1]).data and (last.site, last.seq) in passed_over:
        at -= 1
    return at


def _typed_and_hidden(suggested: Set[Names], runs: Iterable[Operation]) -> Iterator[tuple[Names, range]]:
    """The replacements that are typed by messages of their own and hidden by the next one, with the seqs of these."""
    # What each site typed in a row last.
    rows = dict[int, list[Operation]]()
    for run in runs:
        row = rows.setdefault(run.site, [])
        goes_on = bool(row) and row[-1].seq + row[-1].size == run.seq
        if run.data and goes_on:
            row.append(run)
        elif run.data:
            rows[run.site] = [run]
        else:
            if goes_on and run.kind == DELETE and len(run.mentions) == 1 and run.mentions[0] in suggested:
                yield from _row_hidden_by(run, row)
            del rows[run.site]


def _row_hidden_by(run: Operation, row: Sequence[Operation]) -> Iterator[tuple[Names, range]]:
    """What a message hides and the seqs, where it is what messages before it typed last."""
    (names,), last = run.mentions, row[-1]
    first = next((each.seq for part in reversed(row) for each in part.each() if each.at == names.at), None)
    if first is not None and names.site == run.site and names.at + names.length == last.at + len(last.data):
        yield names, range(first, run.seq + 1)


def _shown_after(names: Names, runs: Iterable[Operation]) -> bytearray:
    """Of characters a byte each, 1 where it is shown after these operations: of what deletes and restores one, the greatest key decides."""
    shown = bytearray(b"\1" * names.length)
    for run in sorted(runs, key=lambda one: (one.stamp, one.site)):
        for site, at, length in run.mentions:
            first, last = max(at, names.at) - names.at, min(at + length - names.at, names.length)
            if site == names.site and first < last:
                shown[first:last] = bytes([run.kind == RESTORE]) * (last - first)
    return shown
