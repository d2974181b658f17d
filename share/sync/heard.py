"""What replicators say of themselves through a log: that they are on, and which entries they lack; and who was heard.

What is said goes by the log's channel, to those who are on at that moment, or by its table, where it is met by all.

Who can write to the log can say there again what was said before, under any name. So what is said has a token and a
count that only rises, inside what is sealed: what isn't above the greatest that was heard under its token, whichever way,
is nothing. What has passed since can't be told from what is said to somebody who has just come; so what is heard first under a
token asks for nothing.
"""
import math
import time
from collections.abc import Callable, Iterable, Iterator, Sequence
from enum import IntEnum

from share.format.heartbeat import Hears, Lack, Said, read_heartbeat, token_of
from share.format.presence import COUNT, FORM, LEAVING_BYTES, RANDOM_BYTES, TOKEN_BYTES, PRESENCE_VERSION, is_leaving, with_count
from share.log.base import MOST_ON, ON_SECONDS

# The most tokens that are remembered; the one that was silent longest is forgotten first.
MOST_TOKENS = 4_096


class Heard(IntEnum):
    """What something is that was said: the first under its token, more than that, or nothing."""

    FIRST = 0
    MORE = 1
    NOTHING = 2


class Voices:
    """The greatest count that was heard under each token, and when it rose last. Its owner's thread alone calls it."""

    def __init__(self) -> None:
        self._greatest: dict[bytes, tuple[int, float]] = {}

    def hears(self, token: bytes, count: int) -> Heard:
        """Takes over a count under a token."""
        known = self._greatest.get(token)
        if known and count <= known[0]:
            return Heard.NOTHING
        self._greatest.pop(token, None)
        self._greatest[token] = count, time.monotonic()
        if len(self._greatest) > MOST_TOKENS:
            del self._greatest[next(iter(self._greatest))]
        return Heard.MORE if known else Heard.FIRST

    def left(self, token: bytes) -> None:
        """Takes over that whoever has a token isn't on any more."""
        self._greatest[token] = self._greatest[token][0], -math.inf

    def is_on(self, token: bytes) -> bool:
        """Whether more was heard under a token lately."""
        known = self._greatest.get(token)
        return known is not None and time.monotonic() - known[1] < ON_SECONDS


class Others:
    """The replicators of others, by what they say. The presence's thread alone calls it."""

    def __init__(self, token: bytes) -> None:
        self._token = token
        self._voices, self._asking = Voices(), Voices()
        # Those who said by the channel that they are on, and those in the table.
        self._by_channel: dict[bytes, None] = {}
        self._in_table: set[bytes] = set()
        # Whether somebody is on who hears the table alone; and whether somebody has come who is to be told what is shown here,
        # and this replicator was heard itself, until who asks takes it back.
        self.need_table = self.has_come = self.was_heard = False

    @property
    def on(self) -> int:
        """How many are on, this one included."""
        return 1 + len(self._in_table | {token for token in self._by_channel if self._voices.is_on(token)})

    def is_on(self, token: bytes) -> bool:
        """Whether a replicator says by the channel that it is on."""
        return token in self._by_channel and self._voices.is_on(token)

    def heard(self, said: Iterable[bytes]) -> list[Lack]:
        """Takes over what was said by the channel; what is asked for."""
        asked = list[Lack]()
        for one in filter(None, map(read_heartbeat, said)):
            if one.token == self._token:
                self.was_heard = True
            elif self._voices.hears(one.token, one.number) is not Heard.NOTHING:
                self._by_channel.pop(one.token, None)
                if one.hears is Hears.NOTHING:
                    self._voices.left(one.token)
                else:
                    self._by_channel[one.token] = None
                self.has_come |= one.hears is Hears.CHANNEL_FROM_NOW
                asked.extend(self._asked_by(one))
        while len(self._by_channel) > MOST_ON:
            del self._by_channel[next(iter(self._by_channel))]
        return asked

    def met(self, said: Iterable[bytes]) -> list[Lack]:
        """Takes over what all say in the table who are on; what is asked for since."""
        on: set[bytes] = set()
        asked, self.need_table = list[Lack](), False
        for one in filter(None, map(read_heartbeat, said)):
            asked.extend(self._met(one, on))
        self._in_table = on
        return asked

    def _met(self, one: Said, on: set[bytes]) -> Sequence[Lack]:
        if one.token == self._token:
            return ()
        is_more = self._voices.hears(one.token, one.number) is not Heard.NOTHING
        if self._voices.is_on(one.token):
            on.add(one.token)
            self.need_table |= one.hears is Hears.TABLE
        return self._asked_by(one) if is_more else ()

    def _asked_by(self, one: Said) -> Sequence[Lack]:
        return one.lacks if self._asking.hears(one.token, one.asks) is Heard.MORE else ()


class Shows:
    """What others' editors show of themselves. The presence's thread alone calls it."""

    def __init__(self, engine: bytes) -> None:
        self._engine, self._voices = engine[:RANDOM_BYTES], Voices()
        # What each has said last by the channel, and what the table has.
        self._by_channel: dict[bytes, bytes] = {}
        self._in_table: dict[bytes, bytes] = {}

    def heard(self, said: Iterable[bytes]) -> None:
        """Takes over what was said by the channel."""
        for token, count, data in self._of_others(said):
            if self._voices.hears(token, count) is not Heard.NOTHING:
                self._by_channel.pop(token, None)
                # What the table has of it was said before that.
                self._in_table.pop(token, None)
                if not is_leaving(data):
                    self._by_channel[token] = data
        while len(self._by_channel) > MOST_ON:
            del self._by_channel[next(iter(self._by_channel))]

    def met(self, said: Iterable[bytes]) -> None:
        """Takes over what all say in the table who are on. What was said before that, or comes again once its editor has left,
        is nothing."""
        now: dict[bytes, bytes] = {}
        for token, count, data in self._of_others(said):
            is_new = self._voices.hears(token, count) is not Heard.NOTHING
            if is_new or token not in now and self._in_table.get(token) == data and self._voices.is_on(token):
                now[token] = data
        self._in_table = {token: data for token, data in now.items() if not is_leaving(data)}

    def now(self, is_on: Callable[[bytes], bool]) -> list[bytes]:
        """What each editor of others has said last, whose replicator is on or is met in the table."""
        on = {token: data for token, data in self._by_channel.items() if is_on(token_of(token[:RANDOM_BYTES]))}
        return [with_count(data, 0) for data in (on | self._in_table).values()]

    def _of_others(self, said: Iterable[bytes]) -> Iterator[tuple[bytes, int, bytes]]:
        """What others say of editors: under which token, and with which count."""
        for data in said:
            if FORM.size <= len(data) <= LEAVING_BYTES and not data.startswith(self._engine):
                version, count = COUNT.unpack_from(data, RANDOM_BYTES)
                if version == PRESENCE_VERSION:
                    yield data[:RANDOM_BYTES] + data[TOKEN_BYTES:2 * TOKEN_BYTES], count, data
