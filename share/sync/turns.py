"""Which of what is lacked the others are asked for next."""
import heapq
import random
from collections.abc import Iterable

from share.format.heartbeat import MOST_LACKS, Lack


class LacksInTurn:
    """What is asked for by turns: what was asked for least often comes first, so that nothing keeps another thing from its turn, also where
    nobody has it; and of that some by chance, so that several who lack the same ask for different ones."""

    def __init__(self) -> None:
        # How often what is lacked was asked for, where it was; and how often all of it was.
        self._asked: dict[Lack, int] = {}
        self.rounds = 0

    def next(self, lacks: Iterable[Lack]) -> list[Lack]:
        """What is asked for now, of all that is lacked."""
        asked = {one: self._asked.get(one, 0) for one in lacks}
        found = heapq.nsmallest(MOST_LACKS, asked, key=lambda one: (asked[one], random.random()))
        for one in found:
            asked[one] += 1
        self.rounds = min(asked.values(), default=0)
        self._asked = {one: times for one, times in asked.items() if times}
        return found
