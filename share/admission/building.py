"""What becomes of the messages that are next in a line of the second form, as docs/NOTES.md has it under "What counts".

- **Right messages** are let through as those of the first form are (share/admission/causes.py), text by text.
- **What they build on** each message says itself, and just where it mentions characters of another site beyond those that its line
  mentioned: so it is known of which branch of a number they are. Sites of the base have one.
"""
from collections.abc import Callable, Collection, Mapping

from share.admission.causes import LEAP, Verdict
from share.admission.chain import last_of_others
from share.admission.lines import MessageChain
from share.format.operation import Operation

# What hashes are made by, with the note's key.
Digest = Callable[[bytes], bytes]
BUILT_ON = b"\2"


class Building:
    """The rule, over what is let through of all lines of a text."""

    def __init__(self, lines: Mapping[int, MessageChain], base_sites: Collection[int], digest: Digest):
        self._lines, self._base_sites, self._digest = lines, base_sites, digest

    def verdict(self, chain: MessageChain, run: Operation, greatest: int) -> Verdict:
        """What becomes of a line's next messages, where the greatest stamp of the text is this."""
        if run.stamp <= chain.stamp or run.data and run.at != chain.length:
            return Verdict.WRONG
        newest, lacks = 0, False
        for site, at, length in run.mentions:
            last, of = at + length - 1, self._lines.get(site)
            if of is not None and last < of.length:
                newest = max(newest, of.stamp_of(last))
            elif site != run.site:
                lacks = True
            else:
                # A site's own characters come with its own messages alone.
                return Verdict.WRONG
        beyond, on = self.beyond(run, chain.seen), chain.on
        if bool(on) != bool(beyond):
            return Verdict.WRONG
        if run.stamp > greatest + LEAP:
            return Verdict.HIGH
        if lacks:
            return Verdict.LACKS
        if on and on != self.built_on(beyond):
            return Verdict.OTHERS
        return Verdict.WRONG if newest >= run.stamp else Verdict.RIGHT

    def needs(self, chain: MessageChain) -> dict[int, tuple[int, int]]:
        """The sites of which a line's next message mentions characters that aren't there: the first one that it mentions, and
        how long the site's file has to be to have them all."""
        run, needs = chain.next(), dict[int, tuple[int, int]]()
        for site, at, length in run.mentions if run else ():
            begin, end = needs.get(site, (at, 0))
            needs[site] = min(begin, at), max(end, at + length)
        return {site: need for site, need in needs.items() if site not in self._lines or need[1] > self._lines[site].length}

    def beyond(self, run: Operation, seen: Mapping[int, int]) -> list[tuple[int, int]]:
        """The last character of each other site of which a message mentions one beyond those that were mentioned; of sites of the base
        nobody asks."""
        return sorted(one for one in last_of_others((run,)).items() if one[0] not in self._base_sites and one[1] > seen.get(one[0], -1))

    def built_on(self, lasts: list[tuple[int, int]]) -> bytes:
        """What is built on where these are the last characters that are mentioned of other sites, by number."""
        return self._digest(BUILT_ON + b"".join(self._lines[site].inserter_of(last) for site, last in lasts))
