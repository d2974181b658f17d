"""The two ways of presence: by a log's channel, which keeps nothing, and by its table."""
import math
import time
from collections.abc import Iterator, Mapping

from share.format import presence
from share.format.entry import Form
from share.format.heartbeat import Hears
from share.log.base import ON_SECONDS, Log, PresenceChannel, Unreachable
from share.log.bell import Bell
from share.program.trace import Traced, trace
from share.sync.meeting import Meeting
from share.text.errors import Trouble

# How often a replicator says by the channel that it is on, and how soon it says all again to who has come, at most.
SAY_ON_SECONDS, AGAIN_SECONDS = ON_SECONDS / 3, 1.0
# After this long in which a replicator didn't hear itself, the channel isn't one.
SILENT_SECONDS = 2.5 * SAY_ON_SECONDS
# The pause before a channel that worked is opened again, and one that didn't.
BROKEN_SECONDS, CLOSED_SECONDS = 1.0, 60.0
# How often shows are said, and how much longer that waits by the table while nobody else is on; how often the table has heartbeats.
SHOW_SECONDS, UNSEEN_SECONDS = 0.2, 1.0
TABLE_SECONDS = ON_SECONDS / 10
# A cursor that moved is said a little later, so that the key that moved it goes first, here and where it is heard.
SHOW_LATER_SECONDS = 0.1


class ByTable:
    """Says by the table what each editor here shows, again and again, and gives what all say there."""

    def __init__(self, log: Log, form: Form, counts: Iterator[int], meeting: Meeting):
        self._log, self._form, self._counts, self._meeting = log, form, counts, meeting
        # What was said last of each editor here, the longest ago first; when something was said, and when a heartbeat is due.
        self._said: dict[bytes, bytes] = {}
        self._spoke = self._due = -math.inf

    def rest(self, shows: Mapping[bytes, bytes]) -> float:
        """How long nothing is to be said yet."""
        is_unseen = self._meeting.on <= 1 and self._said == shows
        return self._spoke + SHOW_SECONDS + (UNSEEN_SECONDS if is_unseen else 0.0) - time.monotonic()

    def turn(self, shows: Mapping[bytes, bytes], hears: Hears) -> list[bytes] | None:
        """Says what is due; what all say, where that was asked."""
        now, said = time.monotonic(), None
        if self.rest(shows) > 0 and not self._meeting.asks():
            return None
        self._spoke = now
        if now >= self._due or self._meeting.asks():
            said, self._due = self._meeting.meet(self._log, hears), now + TABLE_SECONDS
        for token in self._said.keys() - shows.keys():
            self._log.leave(token)
            del self._said[token]
        # What was said longest ago is said again, so that it doesn't end, and others are heard.
        for token in [token for token in shows if self._said.get(token) != shows[token]] or [*self._said][:1]:
            said = self._log.meet(token, self._form.presence(presence.with_count(shows[token], next(self._counts))))
            self._said.pop(token, None)
            self._said[token] = shows[token]
        return said

    def leave(self) -> None:
        """Takes out of the table what was said."""
        if self._spoke > -math.inf:
            for token in self._said:
                self._log.leave(token)
            self._meeting.leave(self._log)
        self._said, self._spoke, self._due = {}, -math.inf, -math.inf


class ByChannel:
    """Says by the channel what changes, and from time to time that this replicator is on. It is opened again where it breaks."""

    def __init__(self, log: Log, form: Form, counts: Iterator[int], meeting: Meeting):
        self._log, self._form, self._counts, self._meeting = log, form, counts, meeting
        self._channel: PresenceChannel | None = None
        # When it is opened, until when it counts as working, and whether this one heard itself since it was opened; and when it
        # is closed where that doesn't happen.
        self._opens, self._works_until, self._worked = -math.inf, time.monotonic() + SILENT_SECONDS, False
        self._closes = math.inf
        # What was said last of each editor here; when the next heartbeat is due, and from when on shows, and all again, may be said.
        self._said: dict[bytes, bytes] = {}
        self._due = self._may_show = self._may_again = -math.inf
        self._shows_at = math.inf

    def works(self) -> bool:
        """Whether others are taken to hear what is said, and this one them."""
        return time.monotonic() < self._works_until

    def turn(self, shows: Mapping[bytes, bytes]) -> float:
        """Says what is due; in how many seconds more is."""
        now = time.monotonic()
        try:
            if self._channel is None and now >= self._opens:
                self._open(now)
            if self._channel:
                if now >= self._closes:
                    raise Unreachable("nothing is heard")
                self._say(self._channel, now, shows)
        except (Unreachable, Trouble):
            self._fails()
        return (self._next(shows) if self._channel else self._opens) - now

    def hear(self, seconds: float, bell: Bell) -> list[bytes]:
        """What was said, as soon as something is; nothing after some time, or where the bell rings."""
        if self._channel is None:
            bell.waits(seconds)
            return []
        try:
            return self._channel.hear(seconds, bell)
        except (Unreachable, Trouble):
            self._fails()
            return []

    def heard(self) -> None:
        """Takes over who was heard."""
        others = self._meeting.others
        if others.was_heard:
            others.was_heard, self._worked = False, True
            self._works_until = self._closes = time.monotonic() + SILENT_SECONDS

    def leave(self) -> None:
        """Says that this one is on no more."""
        if self._channel:
            self._channel.say(self._meeting.heartbeat(Hears.NOTHING))

    def close(self) -> None:
        """Hears no more."""
        if self._channel:
            self._channel.close()
        self._channel = None

    def _open(self, now: float) -> None:
        self._channel, self._worked, self._said, self._opens = self._log.channel(), False, {}, math.inf
        if self._channel is None:
            self._works_until = -math.inf
            return
        trace(Traced.CHANNEL_OPENED)
        self._closes = now + SILENT_SECONDS
        self._channel.say(self._meeting.heartbeat(Hears.CHANNEL_FROM_NOW))
        self._due = now + SAY_ON_SECONDS

    def _say(self, channel: PresenceChannel, now: float, shows: Mapping[bytes, bytes]) -> None:
        is_again = self._meeting.others.has_come and now >= self._may_again
        if is_again:
            self._meeting.others.has_come, self._may_again = False, now + AGAIN_SECONDS
        if is_again or now >= self._due or self._meeting.asks():
            channel.say(self._meeting.heartbeat(Hears.CHANNEL))
            self._due = now + SAY_ON_SECONDS
        if self._said != shows and self._shows_at == math.inf:
            self._shows_at = max(now + SHOW_LATER_SECONDS, self._may_show)
        if not is_again and now < self._shows_at:
            return
        self._may_show, self._shows_at = now + SHOW_SECONDS, math.inf
        for token in self._said.keys() | shows.keys():
            if token not in shows:
                self._show(channel, presence.leaving(self._said[token]))
            elif is_again or self._said.get(token) != shows[token]:
                self._show(channel, shows[token])
        self._said = dict(shows)

    def _show(self, channel: PresenceChannel, data: bytes) -> None:
        channel.say(self._form.presence(presence.with_count(data, next(self._counts))))

    def _next(self, shows: Mapping[bytes, bytes]) -> float:
        """When something is to be said next."""
        return min(self._due, self._closes, self._shows_at, self._may_again if self._meeting.others.has_come else math.inf)

    def _fails(self) -> None:
        """The channel broke, or can't be had; who didn't hear himself since he opened it goes by the table."""
        trace(Traced.CHANNEL_LOST if self._worked else Traced.CHANNEL_REFUSED)
        self.close()
        self._opens = time.monotonic() + (BROKEN_SECONDS if self._worked else CLOSED_SECONDS)
        if not self._worked:
            self._works_until = -math.inf
        self._worked = False


class BothWays:
    """Says by the channel, and by the table where that is needed too: while somebody is on who hears that alone, or this one
    doesn't hear itself on the channel. The presence's thread alone calls it."""

    def __init__(self, log: Log, form: Form, counts: Iterator[int], meeting: Meeting):
        self._log, self._meeting = log, meeting
        self._channel, self._table = ByChannel(log, form, counts, meeting), ByTable(log, form, counts, meeting)
        # Whether the table is used, and when it is looked at next where it isn't.
        self._uses_table, self._looks = False, -math.inf

    def say(self, shows: Mapping[bytes, bytes]) -> tuple[float, list[bytes] | None]:
        """Says what is due; in how many seconds more is, and what all say in the table, where that was asked."""
        rest, works = self._channel.turn(shows), self._channel.works()
        self._use_table(not works or self._meeting.others.need_table)
        if self._uses_table:
            said = self._table.turn(shows, Hears.CHANNEL if works else Hears.TABLE)
            return min(rest, self._table.rest(shows)), said
        now = time.monotonic()
        if now < self._looks:
            return min(rest, self._looks - now), None
        self._looks, said = now + SAY_ON_SECONDS, self._log.met()
        return 0.0 if said else min(rest, SAY_ON_SECONDS), said

    def hear(self, seconds: float, bell: Bell) -> list[bytes]:
        """What was said by the channel, as soon as something is; nothing after some time, or where the bell rings."""
        return self._channel.hear(seconds, bell)

    def heard(self) -> None:
        """Takes over who was heard by the channel."""
        self._channel.heard()

    def leave(self) -> None:
        """Says that this one is on no more."""
        self._use_table(False)
        self._channel.leave()

    def close(self) -> None:
        """Hears no more."""
        self._channel.close()

    def _use_table(self, uses: bool) -> None:
        if uses != self._uses_table:
            self._uses_table = uses
            trace(Traced.TABLE_USED if uses else Traced.TABLE_LEFT)
            if not uses:
                self._table.leave()
