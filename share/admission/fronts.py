"""How far the messages of each site go: fronts, as the program has them, and which of some messages they have."""
from collections.abc import Iterator, Mapping

from share.admission.ledger import Branch
from share.admission.lines import Path
from share.format.history import Messages, Part


def parted(messages: Messages, fronts: Mapping[int, int]) -> tuple[Messages, Messages]:
    """Those of messages that count that are up to fronts, and the others; what is in no entry yet is among these."""
    within, beyond = Messages(), Messages()
    for part in messages.parts():
        front = fronts.get(part.holder.site, 0) if isinstance(part.holder, Branch | Path) else 0
        middle = min(max(part.begin, front), part.end)
        within.add(Part(part.holder, part.begin, middle))
        beyond.add(Part(part.holder, middle, part.end))
    return within, beyond


def parted_by_causes(messages: Messages, fronts: Mapping[int, int]) -> tuple[Messages, Messages]:
    """The same, without any whose causes aren't up to the fronts."""
    within, beyond, lengths = Messages(), Messages(), dict[int, int]()
    # How many more of each site are within.
    left = dict(fronts)
    for part in messages.parts():
        at = part.begin
        # Only what may be within is looked at.
        for run in Messages(parts=parted(Messages(parts=(part,)), fronts)[0].parts()).runs():
            has_causes = all(names.at + names.length <= lengths.get(names.site, 0) for names in run.mentions)
            many = min(run.size, left.get(run.site, 0)) if has_causes else 0
            # Where one isn't, none after it is.
            left[run.site] = left.get(run.site, 0) - many if many == run.size else 0
            if many and run.data:
                lengths[run.site] = run.at + many * (len(run.data) // run.size)
            within.add(Part(part.holder, at, at + many))
            beyond.add(Part(part.holder, at + many, at + run.size))
            at += run.size
        beyond.add(Part(part.holder, at, part.end))
    return within, beyond


def sites_of(messages: Messages) -> set[int]:
    """The sites that some messages are of."""
    return {site for part in messages.parts() for site in _of_part(part)}


def _of_part(part: Part) -> Iterator[int]:
    if isinstance(part.holder, Branch | Path):
        yield part.holder.site
    else:
        yield from (one.site for one in part.holder.between(part.begin, part.end))
