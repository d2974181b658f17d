"""What editors ask about the margin: what is remarked and suggested where, and what is to be written of it."""
import gc
from collections.abc import Callable, Iterable
from functools import wraps
from itertools import islice
from weakref import WeakSet

from share.engine import protocol
from share.engine.accepting import Accepting
from share.engine.arrivals import Arrivals
from share.engine.by_name import ByName
from share.engine.editor import Peer
from share.engine.gaps import rewrite_of
from share.engine.history import History
from share.engine.margin_writing import MarginWriting
from share.engine.margins import MOST_ORDERED_AT_ONCE, FoundThread, ShownMargin, Stood
from share.engine.places import name_before
from share.engine.protocol import Wrong
from share.engine.remembering import Remembering
from share.engine.shared_text import SharedText
from share.engine.thread_lines import MOST_PAGE, ToldTo, thread_lines
from share.program.site import Edited, Site
from share.review.anchor import MOST_ANCHORED, anchored
from share.review.margin import Margin
from share.review.record import MOST_OF_A_BODY, MOST_SELECTED, Anchor, MarginKind, MarginRecord, MarginState
from share.sync.margin import NO_MARGIN
from share.sync.session import Session
from share.text.change import Change
from share.text.errors import Refused
from share.text.line import Line
from share.text.names import Name, Names, united
from share.text.rope import readable, swapped

# The most bytes of a replacement.
MOST_REPLACED = 8_000
STATES = {"resolve": MarginState.RESOLVED, "reopen": MarginState.OPEN, "reject": MarginState.REJECTED}
# The requests about one thread.
OF_A_THREAD = "reply", *STATES, "revise", "withdraw", "accept"


class Range:
    """A stretch of the text that is asked for, until it is answered."""

    def __init__(self, begin: int, end: int):
        self.begin, self.end = begin, end

    def moved(self, change: Change) -> None:
        """Moves along with a change."""
        self.begin, self.end = change.moved(self.begin), change.moved(self.end)


Writes = Callable[["Reviewing", Peer, Line], Line]


def _once(name: str) -> Callable[[Writes], Writes]:
    """Answer a request whose words an engine has written already with the id of these, and don't write them twice."""
    def around(writes: Writes) -> Writes:
        @wraps(writes)
        def written(reviewing: "Reviewing", peer: Peer, request: Line) -> Line:
            number = protocol.once_of(request)
            return {name: peer.said[number]} if number in peer.said else writes(reviewing, peer, request)
        return written
    return around


class Reviewing:
    """The requests about the margin. The engine's thread alone calls it."""

    def __init__(self, session: Session, text: SharedText, arrivals: Arrivals, by_name: ByName, history: History,
                 answer: Callable[[Peer, Line, Line], None], remembering: Remembering):
        self._session, self._text, self._arrivals, self._answer = session, text, arrivals, answer
        self.shown = ShownMargin(session)
        self._writing = MarginWriting(session, arrivals, self.shown, remembering)
        self._accepting, self._history = Accepting(session, text, arrivals, by_name, self._writing), history
        # The stretches that are asked for and not answered yet; and what is done once all is looked at.
        self._ranges, self._waiting = WeakSet[Range](), list[Callable[[], None]]()
        # Whether some of what came is still to be looked at.
        self.has_more = False
        self._of_a_thread = dict(zip(OF_A_THREAD, (self._reply, *[self._state] * len(STATES), self._revise, self._withdraw, self._accept)))

    def moved(self, change: Change, names: list[Names] | None) -> None:
        """Follows a change of the text."""
        self.shown.moved(change, names is not None)
        for one in self._ranges:
            one.moved(change)

    def close(self) -> None:
        """Ends what runs for it."""
        self.shown.close()

    # What is asked.

    def notice(self) -> tuple[int, Line]:
        """How many threads there are, and how many are open, and a number that rises as any may be otherwise; 0 where there is none."""
        many, are_open = self.shown.counts()
        return self.shown.times, {"all": many, "open": are_open}

    def look(self) -> None:
        """Takes over some of what came, where the note has a margin; once that is all, does what waits for it."""
        try:
            self.has_more = self._looks_on(bool(self._waiting))
            if self.has_more:
                # What a large margin is made of stays, and a collector that went through all of it would hold keys up.
                gc.freeze()
        except BaseException:
            # Who waits is told why.
            self.has_more = False
            raise
        finally:
            if not self.has_more:
                waiting, self._waiting = self._waiting, []
                for does in waiting:
                    does()

    def _looks_on(self, searches: bool) -> bool:
        """Takes over some of what came, and looks where some threads are, if that is asked for; whether there is more."""
        return self._session.margin.exists and (self.shown.look_on() or searches and self.shown.search_on())

    def after_look(self, peer: Peer, request: Line, does: Callable[[], Line | None]) -> Line | None:
        """Does a request that is about all that is said: at once, or where much came, later, so that keys are answered meanwhile."""
        if not (self._waiting or self._looks_on(True)):
            return does()

        def answers() -> None:
            peer.waits -= 1
            try:
                answer = does()
            except Exception as fault:  # pylint: disable=broad-except
                answer = protocol.failure(fault)
            if answer is not None:
                self._answer(peer, request, answer)

        peer.waits += 1
        self._waiting.append(answers)
        self.has_more = True
        return None

    def suggested(self) -> set[Names]:
        """The replacements that are suggested."""
        return self._session.margin.said.suggested()

    def remarks(self, peer: Peer, request: Line) -> Line | None:
        """Does the request `remarks`; in the thread of histories where much is to be handed to the program before."""
        self._check()
        transformer = peer.transformer
        transformer.seen(protocol.number(request, "version"))
        begin, most = protocol.number(request, "from", 0), min(protocol.number(request, "most", MOST_PAGE), MOST_PAGE)
        within = Range(*self._places(peer, request)) if "begin" in request else None
        only_open = request.get("open") is True
        if within:
            self._ranges.add(within)

        def found() -> list[FoundThread]:
            self.shown.look()
            return self.shown.within(within.begin, within.end) if within else self.shown.all()

        def answer(found: list[FoundThread]) -> Line:
            asked_for, of = _wanted_threads(self.shown, found, within, only_open)
            told = ToldTo(self._text.measured, transformer.units, self._session.is_own, self._session.margin.knows().data)
            lines = thread_lines(self.shown.stood(islice(asked_for, begin, begin + most)), told)
            return {"edits": transformer.edits, "threads": lines, "of": of}

        def answers() -> Line | None:
            if not within and self.shown.ordered is not None:
                return answer([])
            now = found()
            if self.shown.lacks(one.spot for one in now) <= MOST_ORDERED_AT_ONCE:
                return answer(now)
            self._answer_later(peer, request, lambda: answer(found()))
            return None
        return self.after_look(peer, request, answers)

    def _answer_later(self, peer: Peer, request: Line, answer: Callable[[], Line]) -> None:
        """Answers once the second run of the program has the history."""
        order, history = self.shown.order, self._session.site.history
        messages = history[:]
        self._history.answer_when_done(peer, request, lambda: order.take(history, messages), lambda _: answer())

    # What is written.

    @_once("thread")
    def remark(self, peer: Peer, request: Line) -> Line:
        """Does the request `remark`."""
        body = _body(request, may_be_empty=False)
        anchor = self._anchor(peer, request)
        self._arrivals.check_typing()
        record = self._writing.record(MarginKind.REMARK, peer)._replace(body=body, anchor=anchor)
        return {"thread": self._writing.write_once(peer, request, record)}

    @_once("thread")
    def suggest(self, peer: Peer, request: Line) -> Line:
        """Does the request `suggest`: types the replacement inside what it would replace, hides it, and writes of it."""
        new = swapped(protocol.string(request, "new").encode())
        body = _body(request) if "body" in request else ""
        if len(new) > MOST_REPLACED:
            raise Wrong("long", f"A suggestion has {MOST_REPLACED:,} bytes at most. Suggest it in parts.")
        anchor = self._anchor(peer, request)
        rewrite = rewrite_of(Change(*self._passage(peer, request), new), self._text.measured)
        if not (new or anchor.at):
            raise Wrong("field", "A suggestion has to have something to replace, or new text.")
        self._arrivals.check_typing()
        # Both are written under one number.
        self._session.margin.make_room(len(new))
        names = self._typed_hidden(rewrite.begin + rewrite.inside, new) if new else []
        anchor = anchored(anchor.at, anchor.behind, names, anchor.text, self._session.margin.knows())
        record = self._writing.record(MarginKind.SUGGESTION, peer)._replace(body=body, anchor=anchor, new=tuple(names))
        return {"thread": self._writing.write_once(peer, request, record, names[0].site if names else None)}

    def _typed_hidden(self, place: int, data: bytes) -> list[Names]:
        """Types bytes at a place and hides them, as one edit; their names."""
        names = list[Names]()

        def work(site: Site) -> Edited:
            typed = site.insert(place, data)
            names.extend(united(one.new for one in typed.messages if one.new))
            hidden = site.delete(names)[0] if typed.refused is None else Edited([], typed.refused)
            if hidden.refused is not None:
                raise Refused(hidden.refused)
            return Edited(typed.messages + hidden.messages)

        self._writing.kept(lambda: self._session.edit(work))
        return names

    def of_a_thread(self, peer: Peer, request: Line) -> Line | None:
        """Does one of the requests about a thread."""
        self._check()
        return self.after_look(peer, request, lambda: self._of_a_thread[request["do"]](peer, request))

    @_once("record")
    def _reply(self, peer: Peer, request: Line) -> Line:
        """Does the request `reply`."""
        body = _body(request, may_be_empty=False)
        name = self._thread_name(request)
        record = self._writing.record(MarginKind.REPLY, peer)._replace(body=body, of=self._session.margin.said.ref(name))
        return {"record": self._writing.write_once(peer, request, record)}

    def _state(self, peer: Peer, request: Line) -> Line:
        """Does the requests `resolve`, `reopen` and `reject`."""
        name = self._thread_name(request)
        record = self._writing.record(MarginKind.STATE, peer)
        self._writing.write(record._replace(state=STATES[request["do"]], of=self._session.margin.said.ref(name)))
        return {}

    def _revise(self, peer: Peer, request: Line) -> Line:
        """Does the request `revise`."""
        body = _body(request, may_be_empty=False)
        self._of_own(request, self._writing.record(MarginKind.REVISED, peer)._replace(body=body))
        return {}

    def _withdraw(self, peer: Peer, request: Line) -> Line:
        """Does the request `withdraw`."""
        self._of_own(request, self._writing.record(MarginKind.TAKEN, peer))
        return {}

    def _of_own(self, request: Line, record: MarginRecord) -> None:
        """Writes a record of one of this person's, under the number under which that was written."""
        name, said = _name_in(request), self._session.margin.said
        _check_that_it_is_there(said, name, record.kind)
        if not self._session.is_own(name[0]):
            raise Wrong("own", "Somebody else wrote that.")
        self._writing.write(record._replace(of=said.ref(name)), name[0])

    def _accept(self, peer: Peer, request: Line) -> Line:
        """Does the request `accept`."""
        becomes = protocol.string(request, "becomes") if "becomes" in request else None
        done = self._accepting.accept(peer, self._suggestion(request), becomes)
        self.shown.look()
        return done

    def _suggestion(self, request: Line) -> Stood:
        """The suggestion that a request names."""
        shown = self.shown.one(_name_in(request))
        if shown is None or shown.thread.kind is not MarginKind.SUGGESTION or shown.thread.state is None:
            raise _no_thread()
        return shown

    # What these have in common.

    def _check(self) -> None:
        if not self._session.margin.exists:
            raise Wrong("margin", NO_MARGIN)

    def _places(self, peer: Peer, request: Line) -> tuple[int, int]:
        """The stretch of a request, in bytes."""
        begin, end = (self._text.place(peer, protocol.number(request, name)) for name in ("begin", "end"))
        if begin > end:
            raise Wrong("outside", "The end is before the begin.")
        return begin, end

    def _passage(self, peer: Peer, request: Line) -> tuple[int, int]:
        """The same from its begin to its end."""
        seen = _seen_of(self._text, peer, request)
        return (seen[0][0], seen[-1][1]) if seen else self._places(peer, request)

    def _anchor(self, peer: Peer, request: Line) -> Anchor:
        """What a request's stretch is, as it is now: what its editor had seen of that."""
        self._check()
        peer.transformer.seen(protocol.number(request, "version"))
        seen, (begin, end) = _seen_of(self._text, peer, request), self._passage(peer, request)
        if end - begin > MOST_ANCHORED:
            raise Wrong("long", f"Something can be remarked on {MOST_ANCHORED:,} bytes at most. Select less.")
        site = self._session.site
        at = [one for stretch in seen for one in site.names(*stretch)]
        text = b"".join(self._text.measured.slice(*stretch) for stretch in seen)
        return anchored(at, None if at else name_before(site, begin), [], readable(swapped(text))[:MOST_SELECTED],
                        self._session.margin.knows())

    def _thread_name(self, request: Line) -> Name:
        """The thread that a request names."""
        name = _name_in(request)
        kind = self._session.margin.said.kind(name)
        if kind is None or not kind.begins:
            raise _no_thread()
        return name


def _wanted_threads(shown: ShownMargin, found: list[FoundThread], within: Range | None,
                    only_open: bool) -> tuple[Iterable[FoundThread], int]:
    """Those that are asked for of what was found in a stretch, or of all, in the order of places; and how many they are."""
    def is_wanted(one: FoundThread) -> bool:
        return not only_open or shown.is_open(one.name)

    if within:
        some = [one for one in shown.in_places(found) if one.spot.meets(within.begin, within.end) and is_wanted(one)]
        return some, len(some)
    return filter(is_wanted, shown.in_order()), shown.counts()[only_open]


def _seen_of(text: SharedText, peer: Peer, request: Line) -> list[tuple[int, int]]:
    """The stretch of a request, in bytes, as far as it is still there, without what its editor hadn't seen."""
    begin, end = (protocol.number(request, name) for name in ("begin", "end"))
    return text.kept(peer, begin, end)


def _check_that_it_is_there(said: Margin, name: Name, does: MarginKind) -> None:
    """Refuses what is to be done to something that nobody said, or to words that nobody would see."""
    kind = said.kind(name)
    if kind is None or not (kind.begins or kind is MarginKind.REPLY):
        raise _no_thread()
    if does is MarginKind.REVISED and said.is_taken(name):
        raise Wrong("thread", "That was taken back.")


def _no_thread() -> Wrong:
    return Wrong("thread", "There is no such remark or suggestion here.")


def _body(request: Line, may_be_empty: bool = True) -> str:
    body = protocol.string(request, "body")
    if len(body) > MOST_OF_A_BODY:
        raise Wrong("long", f"That has more than {MOST_OF_A_BODY:,} characters.")
    if not (may_be_empty or body.strip()):
        raise Wrong("field", "body has to have words.")
    return body


def _name_in(request: Line) -> Name:
    """The record that a request names."""
    site, _, at = protocol.string(request, "to").partition(":")
    if not all(part.isascii() and part.isdigit() and len(part) <= 8 for part in (site, at)):
        raise Wrong("field", "to has to be the id of a thread or of a reply.")
    return int(site), int(at)
