"""Remarks, suggestions and replies of a user. If the engine ends before it answers one, the next engine is asked for it by the same number,
so that it is there once."""
import time
from collections.abc import Callable

from share.editors.threads import stretch_after
from share.text.change import Change
from share.text.line import Line

AWAY = "The note's engine ended. What you type is kept here until the next one is there."
# The requests that are asked for again, and for how long the next engine is waited for.
SAID_ONCE, NEXT_ENGINE_SECONDS = ("remark", "suggest", "reply"), 10.0


class Saying:
    """Asks engines for remarks, suggestions and replies. `asks` returns the answer to a request, with the error AWAY if the engine ended
    before it; `comes_back` waits a moment for the next engine and returns whether it is there."""

    def __init__(self, asks: Callable[[Line], Line], comes_back: Callable[[], bool]):
        self._asks, self._comes_back = asks, comes_back
        # The number of the last request, and the stretch that it is about, until it is answered.
        self._once = 0
        self._places: tuple[int, int] | None = None

    def follow(self, change: Change) -> None:
        """Move the stretch with a change of the text."""
        self._places = self._places and stretch_after(*self._places, change)

    def say(self, request: Line) -> Line:
        """Return the answer to a request, with the error AWAY if no next engine came in time."""
        self._once += 1
        self._places = (request["begin"], request["end"]) if "begin" in request else None
        end = time.monotonic() + NEXT_ENGINE_SECONDS
        try:
            while (answer := self._asks({**request, "once": self._once, **self._as_fields()})).get("error") == AWAY:
                while not self._comes_back():
                    if time.monotonic() > end:
                        return answer
            return answer
        finally:
            self._places = None

    def _as_fields(self) -> Line:
        return dict(zip(("begin", "end"), self._places)) if self._places else {}
