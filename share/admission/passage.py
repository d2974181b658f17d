"""Letting messages through, each after its causes, in whatever order entries came.

A chain that can't go on waits for one thing at a time, and is looked at again when that is there. So an entry costs what
it is about, and not what else waits.
"""
import heapq
import math
from collections.abc import Mapping, Sequence
from typing import Generic, Protocol, TypeVar

from share.admission.causes import LEAP, Verdict
from share.admission.passing import Passing
from share.admission.room import GivenBack
from share.format.history import Messages, Part
from share.format.operation import Operation

# SomeChain of entries, or of messages.
SomeChain = TypeVar("SomeChain", bound=Passing)
Ruled = TypeVar("Ruled", bound=Passing, contravariant=True)

# Letters that are typed on are let through together before those of others whose stamps are lower by no more than this.
AHEAD = 100


class WaitingChains:
    """For what chains wait: for other sites' files to be long enough, or for the greatest stamp to rise."""

    def __init__(self) -> None:
        # The sites that wait for another one's file to have a length, by that one, the shortest first, each with the time at which
        # it began to wait; and those that wait for a stamp.
        self._lengths: dict[int, list[tuple[int, int, int]]] = {}
        self._stamps: list[tuple[int, int]] = []

    def for_stamp(self, stamp: int, site: int) -> None:
        """A site waits for the greatest stamp to come near its own."""
        heapq.heappush(self._stamps, (stamp, site))

    def for_needs(self, site: int, chain: Passing) -> None:
        """A site's chain waits for all that it needs."""
        for of, (_, length) in chain.needs.items():
            heapq.heappush(self._lengths.setdefault(of, []), (length, site, chain.time))

    def near(self, greatest: int) -> Sequence[int]:
        """The sites whose stamps the greatest one has come near."""
        found: Sequence[int] = ()
        while self._stamps and self._stamps[0][0] <= greatest + LEAP:
            found = *found, heapq.heappop(self._stamps)[1]
        return found

    def long_enough(self, site: int, length: int) -> Sequence[tuple[int, int]]:
        """The sites for which a site's file is long enough, and when they began to wait."""
        found: Sequence[tuple[int, int]] = ()
        waiting = self._lengths.get(site)
        while waiting and waiting[0][0] <= length:
            _, other, time = heapq.heappop(waiting)
            found = *found, (other, time)
        return found


class Rule(Protocol[Ruled]):
    """What becomes of the messages that are next in a chain."""

    def verdict(self, chain: Ruled, run: Operation, greatest: int) -> Verdict:
        """What becomes of a chain's next messages, where the greatest stamp is this."""

    def needs(self, chain: Ruled) -> dict[int, tuple[int, int]]:
        """The sites of which a chain's next message mentions characters that aren't there: the first one that it mentions, and
        how long the site's file has to be to have them all."""


class Passage(Generic[SomeChain]):
    """What is let through of the chains, each of a site. `changes` rises where a chain begins to wait, has less to wait for, or grows as
    it waits."""

    def __init__(self, chains: Mapping[int, SomeChain], room: GivenBack, causes: Rule[SomeChain]):
        self.changes = 0
        # The sites whose next message isn't let through, but those where it is wrong, and these.
        self.blocked: set[int] = set()
        self.ended: set[int] = set()
        self._causes, self._chains, self._room = causes, chains, room
        # The sites of whose chains something can perhaps be let through that couldn't when they were last looked at.
        self._stirred: set[int] = set()
        self._first_passed: dict[int, int] = {}
        self._start()
        # Whether what is let through next is all of it.
        self.is_anew = False

    def _start(self) -> None:
        """Begins with nothing let through."""
        self.greatest = 0
        self._waiting = WaitingChains()
        # What was let through since that was last asked for, and all of it, in the order in which it was.
        self._out, self._through = Messages(), Messages()

    def stir(self, site: int) -> None:
        """Notes that a chain grew, which is looked at next, unless it waits for something else."""
        self._room.moved(site)
        if site in self.blocked:
            self.changes += 1
        elif site not in self.ended:
            self._stirred.add(site)

    def forget(self, site: int) -> None:
        """Forgets for what a chain waits, as others took the place of what waited."""
        self.blocked.discard(site)
        self.ended.discard(site)

    def begin_anew(self) -> None:
        """Begins anew with all chains."""
        self._start()
        self.is_anew = True
        self.blocked.clear()
        self.ended.clear()
        for site, chain in self._chains.items():
            chain.begin_anew()
            self._stirred.add(site)

    def taken(self) -> Messages:
        """What was let through since this was last asked; all where that is let through anew."""
        out, self._out, self.is_anew = self._out, Messages(), False
        return out

    def in_order(self) -> Messages:
        """All messages that are let through, each after its causes."""
        return self._through[:]

    def first_passed(self) -> dict[int, int]:
        """The first message of each site that was let through since this was last asked."""
        passed, self._first_passed = self._first_passed, {}
        return passed

    def let_through(self) -> None:
        """Lets through what can be, the lowest stamp first, and with a message those after it in its entry, and some that type on. What
        more it lets through has all that was let through before among its causes or beside it, so the order says nothing of
        what is let through in the end."""
        if not self._stirred:
            return
        heads = [(run.stamp, site) for site in self._stirred if (run := self._chains[site].next())]
        self._stirred = set()
        heapq.heapify(heads)
        while heads:
            site = heads[0][1]
            woken: list[int] = []
            others = min(heads[1:3], default=None)
            if run := self._pass_entry(site, woken, others[0] + AHEAD if others else math.inf):
                heapq.heapreplace(heads, (run.stamp, site))
            else:
                heapq.heappop(heads)
            for other in woken:
                if found := self._chains[other].next():
                    heapq.heappush(heads, (found.stamp, other))

    def _pass_entry(self, site: int, woken: list[int], up_to: float) -> Operation | None:
        """Let the messages of a chain's next entry through, as far as they are right, and of those that type on after it, up to a stamp;
        return the messages that are next if all were right."""
        chain = self._chains[site]
        run, at = chain.next(), chain.at
        while run and chain.at == at:
            verdict = self._causes.verdict(chain, run, self.greatest)
            if verdict is not Verdict.RIGHT:
                self._block(site, chain, run, verdict)
                return None
            self._pass_on(site, chain, run, woken, up_to)
            run = chain.next()
        return run

    def _pass_on(self, site: int, chain: SomeChain, run: Operation, woken: list[int], up_to: float) -> None:
        """Lets a chain's next messages through, and wakes those that waited for them."""
        chain.pass_on(run, up_to)
        part = Part(chain.branch, run.seq - 1, chain.front)
        self._out.add(part)
        self._through.add(part)
        self._first_passed.setdefault(site, run.seq)
        if chain.stamp > self.greatest:
            self.greatest = chain.stamp
            for other in self._waiting.near(chain.stamp):
                self._wake(other, woken)
        for other, time in self._waiting.long_enough(site, chain.length):
            self._has_one_more(other, time, site, woken)
        if site in self._room.lacking:
            self._room.moved(site)

    def _has_one_more(self, other: int, time: int, site: int, woken: list[int]) -> None:
        """Notes that all is there of a site for which another one's chain has waited since some time; it is looked at again as soon
        as that is so of all of them."""
        chain = self._chains[other]
        if chain.time == time and site in chain.needs:
            del chain.needs[site]
            self.changes += 1
            if not chain.needs:
                self._wake(other, woken)

    def _wake(self, site: int, woken: list[int]) -> None:
        """Looks again at a chain that waited."""
        if site in self.blocked:
            self.blocked.discard(site)
            self.changes += 1
            woken.append(site)

    def _block(self, site: int, chain: SomeChain, run: Operation, verdict: Verdict) -> None:
        """Notes for what a chain waits whose next messages can't be let through."""
        self.changes += 1
        if verdict is Verdict.WRONG:
            chain.ended = True
            self.ended.add(site)
            return
        self.blocked.add(site)
        if verdict is Verdict.HIGH:
            self._waiting.for_stamp(run.stamp, site)
        elif verdict is Verdict.LACKS:
            chain.time += 1
            chain.needs = self._causes.needs(chain)
            self._waiting.for_needs(site, chain)
