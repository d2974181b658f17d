"""The judge of a note, whichever form that has."""
from collections.abc import Iterable

from share.admission.chains import Rank, rank
from share.admission.judge import Judge
from share.admission.judging import Judging
from share.admission.record_judge import RecordJudge
from share.format.entry import Entry, Form
from share.format.second.form import RecordForm


def judge_of(form: Form, entries: Iterable[Entry] = (), room: int | None = None,
             prefers: Rank | None = None) -> Judging:
    """What judges a note of this form, to which entries came. What doesn't count may have a room in memory; `prefers` may say otherwise
    which of two holds; of those that it finds alike the lesser hash or rank does."""
    if isinstance(form, RecordForm):
        return RecordJudge(entries, prefers, form=form, room=room)
    return Judge(entries, rank if prefers is None else _then_by_rank(prefers), form, room)


def _then_by_rank(prefers: Rank) -> Rank:
    return lambda entry: prefers(entry) + rank(entry)
