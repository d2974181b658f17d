"""What becomes of the messages that are next in a chain.

- **Right messages.** Of a chain the messages are let through one after the other, as long as each is right: it mentions
  only characters that are there, its site's characters begin where they ended, and its stamp is above those of
  its causes. So what is let through is what a replica takes in at once, and nothing ever waits there. Letters that are
  typed one after the other (a run) are right where the first one is, and are looked at as one.
- **What they build on.** An entry that says what its messages build on has them let through only where that is
  what counts: else its author saw other characters under the names that they mention. All that an entry mentions
  of other sites was there before its first message.
- **Stamps.** A message whose stamp is over `LEAP` above the greatest that was let through is held back, and is
  asked again when that has risen. To spend all stamps so takes 2^28 messages.
"""
from collections.abc import Sequence
from enum import Enum

from share.admission.chain import Chain, last_of_others
from share.admission.chains import Chains
from share.format.entry import digest
from share.format.operation import Operation

# A message's stamp may be this far above the greatest that was let through.
LEAP = 2**20


class Verdict(Enum):
    """What becomes of a message as things are."""

    RIGHT = "is let through"
    LACKS = "mentions what isn't here"
    OTHERS = "builds on others than those that count"
    HIGH = "has a stamp far above all others"
    WRONG = "is wrong, and left out with what builds on it"


class Causes:
    """The rule, over what is let through of all chains."""

    def __init__(self, chains: Chains):
        self._chains, self._ledger = chains, chains.ledger

    def verdict(self, chain: Chain, run: Operation, greatest: int) -> Verdict:
        """What becomes of a chain's next messages, where the greatest stamp is this."""
        if run.stamp <= chain.stamp or run.data and run.at != chain.length:
            return Verdict.WRONG
        if run.stamp > greatest + LEAP:
            return Verdict.HIGH
        names, newest, lacks, by_site = chain.speaks_of(), 0, False, self._chains.by_site
        for one in names:
            last, of = one.at + one.length - 1, by_site.get(one.site)
            if of is not None and last < of.length:
                newest = max(newest, of.stamp_of(last))
            elif one.site != run.site:
                lacks = True
            else:
                # A site's own characters come with its own messages alone.
                return Verdict.WRONG
        if lacks:
            return Verdict.LACKS
        if not self._has_what_it_builds_on(chain):
            return Verdict.OTHERS
        return Verdict.WRONG if newest >= run.stamp else Verdict.RIGHT

    def needs(self, chain: Chain) -> dict[int, tuple[int, int]]:
        """The sites of which a chain's next message mentions characters that aren't there: the first one that it mentions, and
        how long the site's file has to be to have them all."""
        needs: dict[int, tuple[int, int]] = {}
        for one in chain.speaks_of():
            begin, end = needs.get(one.site, (one.at, 0))
            needs[one.site] = min(begin, one.at), max(end, one.at + one.length)
        return {site: need for site, need in needs.items() if need[1] > self._chains.length(site)}

    def built_on(self, runs: Sequence[Operation]) -> bytes:
        """What messages build on, all of which is let through; nothing where they mention no other site's characters."""
        last, by_site = last_of_others(runs), self._chains.by_site
        return digest(b"".join(by_site[site].inserter_of(last[site]) for site in sorted(last))) if last else b""

    def _has_what_it_builds_on(self, chain: Chain) -> bool:
        """Whether the characters that a chain's next message mentions are those that its author saw."""
        on = b"" if chain.run else self._ledger.on(chain.number)
        return not on or self.built_on(chain.runs()) == on
