"""A note's history for its editors: its steps, the text as it was, and who wrote what."""
from collections.abc import Callable, Set
from concurrent.futures import Future, ThreadPoolExecutor
from typing import Any, TypeVar

from share.engine import protocol
from share.engine.authors import Authors
from share.engine.editor import Peer
from share.engine.protocol import Wrong
from share.engine.shared_text import SharedText
from share.program import replay
from share.program.replay import Past, Replays, Wrote
from share.review.hidden import before_hidden
from share.sync.session import Session
from share.text.line import Line
from share.text.names import Names
from share.text.rope import Measured, readable, swapped

# The most steps of a history that are given at once.
MOST_STEPS = 10_000
Worked = TypeVar("Worked")


class History:
    """The requests `history`, `past` and `who`. The engine's thread alone calls it. What may take long is done in one other thread,
    which alone uses the replays, is handed copies, and calls nothing here but `wake` when it has done something."""

    def __init__(self, session: Session, text: SharedText, authors: Authors, wake: Callable[[], None],
                 answer: Callable[[Peer, Line, Line], None]):
        self._session, self._text, self._authors, self._wake, self._answer = session, text, authors, wake, answer
        self._replays, self._thread = Replays(), ThreadPoolExecutor(1)
        # What is done in the thread, and what is done then.
        self._later: list[tuple[Future[Any], Callable[[], None]]] = []

    def steps(self, peer: Peer, request: Line, suggested: Set[Names]) -> None:
        """Does the request `history`, in the thread; without what types replacements that are suggested, and hides them."""
        begin, most = protocol.number(request, "from", 0), protocol.number(request, "most", MOST_STEPS)
        messages = self._session.site.history[:]
        left_out = self._authors.lost(self._session.lost())

        def work() -> Line:
            found = replay.steps(messages, begin, min(most, MOST_STEPS), suggested)
            line: Line = {"length": len(messages), "steps": [replay.as_line(one) for one in found]}
            return line | {"left_out": left_out} if left_out else line

        def with_names(line: Line) -> Line:
            line["steps"] = [one | self._authors.of(one["site"]) for one in line["steps"]]
            return line

        self.answer_when_done(peer, request, work, with_names)

    def past(self, peer: Peer, request: Line, suggested: Set[Names]) -> None:
        """Does the request `past`, in the thread; without replacements that are suggested, as long as they are hidden."""
        at, units = protocol.number(request, "at"), peer.transformer.units
        messages = self._session.site.history[:]
        if at > len(messages):
            raise Wrong("outside", f"The history has {len(messages):,} messages.")

        def work() -> tuple[Past, list[Wrote]]:
            past = self._replays.past(messages, before_hidden(messages, at, suggested))
            return past, replay.in_units(Measured(past.text), past.wrote, units)

        def as_line(found: tuple[Past, list[Wrote]]) -> Line:
            past, wrote = found
            return {"at": at, "text": readable(swapped(past.text)), "stretches": self._authors.stretches(wrote)}

        self.answer_when_done(peer, request, work, as_line)

    def who(self, peer: Peer, request: Line) -> Line:
        """Does the request `who`."""
        transformer = peer.transformer
        transformer.seen(protocol.number(request, "version"))
        begin, end = (self._text.place(peer, protocol.number(request, name)) for name in ("begin", "end"))
        wrote = replay.wrote(self._session.site, begin, end)
        found = replay.in_units(self._text.measured, wrote, transformer.units)
        return {"edits": transformer.edits, "stretches": self._authors.stretches(found)}

    def answer(self) -> None:
        """Answers what the thread has done."""
        done = [one for one in self._later if one[0].done()]
        self._later = [one for one in self._later if one not in done]
        for _, answers in done:
            answers()

    def close(self) -> None:
        """Ends the thread, when what it does just now is done, and the program that it runs."""
        self._thread.shutdown(cancel_futures=True)
        self._replays.close()

    def answer_when_done(self, peer: Peer, request: Line, work: Callable[[], Worked], as_line: Callable[[Worked], Line]) -> None:
        """Does something in the thread, and answers what is made of it then."""
        future = self._thread.submit(work)
        peer.waits += 1

        def answers() -> None:
            peer.waits -= 1
            try:
                answer = as_line(future.result())
            except Exception as fault:  # pylint: disable=broad-except
                answer = protocol.failure(fault)
            self._answer(peer, request, answer)

        self._later.append((future, answers))
        future.add_done_callback(lambda _: self._wake())
