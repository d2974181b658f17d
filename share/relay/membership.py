"""Who is at a note: whoever shows, by a signature of a challenge that is used once, that he has its link. The relay has no key, and
learns none."""
import secrets
import time
from collections.abc import Callable, Collection

from share.format.second.append import CHALLENGE_BYTES, may_append
from share.log.relay_messages import Proof

PROOF_SECONDS = 10.0


class NotProved(Exception):
    """Somebody didn't show that he has a note's link, for this reason."""


class Challenge:
    """What one connection is asked to sign."""

    def __init__(self, origins: Collection[str], now: Callable[[], float] = time.monotonic):
        self.random = secrets.token_bytes(CHALLENGE_BYTES)
        self._origins, self._now = origins, now
        self._ends = now() + PROOF_SECONDS
        self._is_used = False

    def member_of(self, proof: Proof) -> bytes:
        """The note of which a proof shows the link."""
        was_used, self._is_used = self._is_used, True
        if was_used or self._now() > self._ends:
            raise NotProved("The challenge is used, or too old.")
        if proof.origin not in self._origins:
            raise NotProved(f"This relay is {', '.join(self._origins)}: reach it so.")
        if not may_append(proof.note, proof.public, self.random, proof.origin, proof.signature):
            raise NotProved("That proves no link of this note.")
        return proof.note
