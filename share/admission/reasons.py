"""Why a message of the second form doesn't count."""
from enum import Enum

from share.admission.causes import Verdict
from share.admission.sayings import Root


class Reason(Enum):
    """Why a message doesn't count."""

    NO_OPENING = "the opening, or some of the base, isn't there"
    LOOSE = "one before it is missing"
    PLACE = "it has no place after the one before it"
    BASE = "it isn't of the base"
    UNCLAIMED = "its author doesn't claim the number"
    HOLDER = "its author doesn't hold the number"
    BRANCH = "another branch holds"
    WRONG = "it is wrong"
    STAMP = "it waits for stamps"
    LACKS = "it waits for what it mentions"
    OTHERS = "it builds on others"
    AFTER = "one before it doesn't count"


REASONS = {Verdict.WRONG: Reason.WRONG, Verdict.HIGH: Reason.STAMP, Verdict.LACKS: Reason.LACKS, Verdict.OTHERS: Reason.OTHERS,
           # Nothing is right that isn't let through.
           Verdict.RIGHT: Reason.AFTER}
ROOTS = {Root.LOOSE: Reason.LOOSE, Root.MISPLACED: Reason.PLACE}
