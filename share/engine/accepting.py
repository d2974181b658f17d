"""What is suggested is accepted: the replacement is shown, and what it replaces is hidden, both or nothing. It changes the text, as an edit
of who accepts it."""
from share.engine.arrivals import Arrivals
from share.engine.by_name import ByName, see_all_done
from share.engine.editor import Peer
from share.engine.margin_writing import MarginWriting
from share.engine.margins import Stood
from share.engine.protocol import Wrong
from share.engine.shared_text import SharedText
from share.program.site import Edited, Site
from share.program.undo import Step
from share.review.anchor import MOST_ANCHORED
from share.sync.session import Session
from share.text.line import Line
from share.text.names import united
from share.text.rope import readable, swapped

TOO_LONG_TO_SHOW = f"What this would become is longer than {MOST_ANCHORED:,} bytes, so nothing was done. Make the change yourself."
PASSAGE_CHANGED = "The passage has changed since this was shown, so nothing was done. Accept it again if it may become what is shown now."


class Accepting:
    """The request `accept`. The engine's thread alone calls it."""

    def __init__(self, session: Session, text: SharedText, arrivals: Arrivals, by_name: ByName, writing: MarginWriting):
        self._session, self._text, self._arrivals, self._by_name, self._writing = session, text, arrivals, by_name, writing
        by_name.accepted = writing.accepted

    def accept(self, peer: Peer, shown: Stood, becomes: str | None) -> Line:
        """Accept a suggestion, which has this place now, if the passage becomes the text that its user was shown: `becomes`, or without
        it the suggested text, for the passage as it was. Otherwise do nothing, and report what the passage would become."""
        thread, spot = shown.thread, shown.spot
        if not spot.holds or spot.begin is None:
            raise Wrong("elsewhere", "The text that this is about isn't here.")
        if spot.is_accepted:
            return {"done": False}

        def sees(site: Site, edited: Edited) -> None:
            see_all_done(site, edited)
            self._see_that_it_becomes(site, shown, becomes)

        self._arrivals.check_typing()
        peer.coalescing.stop()
        peer.gap = None
        step = Step(came=united(thread.new), went=united(thread.anchor.at), accepts=thread.first.name)
        changed = self._by_name.make(peer, step, redo=True, jumps=peer, sees=sees)
        if changed.does_something():
            peer.undoing.add(changed)
            self._writing.accepted(peer, thread.first.name, True)
        return {"done": changed.does_something()}

    def _see_that_it_becomes(self, site: Site, shown: Stood, wanted: str | None) -> None:
        """Raise Wrong if the passage, which a site shows with the suggestion accepted, isn't the wanted text. A replacement may stand
        beside the passage, because its author may have typed it anywhere, and others something between."""
        begin, end = shown.spot.begin or 0, shown.spot.end
        before, after = self._text.measured.slice(0, self._text.measured.size), site.text()
        found = [one for some in site.where(shown.thread.new) for one in some]
        size = sum(len(one.data) for one in found)
        hidden = len(before) + size - len(after)
        places = [place for one in found for place in (one.position, one.position + len(one.data))]
        first, last = min(places, default=begin), max(places, default=begin)
        low, high = min(begin, first), max(end - hidden + size, last)
        becomes, now = after[low:high], before[low:high - size + hidden]
        is_as_suggested = not shown.spot.is_changed and first >= begin and last <= begin + size
        if is_as_suggested if wanted is None else wanted == readable(swapped(becomes)):
            return
        if high - low > MOST_ANCHORED:
            raise Wrong("long", TOO_LONG_TO_SHOW)
        data, thread = self._session.margin.knows().data, shown.thread
        was, new = (readable(swapped(b"".join(data(one) or b"" for one in names))) for names in (thread.anchor.at, thread.new))
        raise Wrong("changed", PASSAGE_CHANGED, was=was, now=readable(swapped(now)), new=new, becomes=readable(swapped(becomes)))
