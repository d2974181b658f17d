"""What is said to all who are on by PUBLISH and SUBSCRIBE of a Redis server, which keeps nothing of it.

Whoever reaches the server can say there whatever he likes, as much as he likes. So little is read at once, and who hears it
rests between two readings; the server lets go of who hears too slowly, and what was said until he is back is lost to him.
"""
import ssl
import time

from share.format.presence import MOST_PRESENCE
from share.log.base import PresenceChannel
from share.log.bell import Bell
from share.log.resp import RECEIVED_AT_ONCE, REPLY_SECONDS, Answer, Wire

# The longest that is read to its end, and left out where it is longer than presence may be.
LONGEST_READ = 2**16


class Ear(Wire):
    """A connection that hears what is said on a channel, and on which nothing else is asked."""

    def listen(self, name: str) -> None:
        """Begins to hear."""
        with self._told():
            self._connect()
            if self._exchange(("SUBSCRIBE", name), 0, LONGEST_READ) != [b"subscribe", name.encode(), 1]:
                raise self.strange()
            self._forget()

    def hear(self, seconds: float, bell: Bell) -> list[Answer]:
        """What came since, as soon as there is something: as much as is received at once, and the rest of what that ends with."""
        with self._told():
            if not self._line:
                raise ConnectionError("it isn't heard any more")
            if not self._read:
                bell.waits(seconds, self._line)
                if not self._receive_now():
                    return []
            said, self._end = [], time.monotonic() + REPLY_SECONDS
            while self._at < len(self._read):
                self._most = self._at + LONGEST_READ
                said.append(self._answer(0))
                if self._at > RECEIVED_AT_ONCE:
                    break
            self._forget()
            return said

    def _receive_now(self) -> bool:
        """Takes what has come; whether there was something."""
        assert self._line
        self._line.settimeout(0)
        try:
            data = self._line.recv(RECEIVED_AT_ONCE)
        except (BlockingIOError, ssl.SSLWantReadError):
            return False
        if not data:
            raise ConnectionError("it closed the connection")
        self._read += data
        return True

    def _forget(self) -> None:
        """Forgets what was read and answered."""
        del self._read[:self._at]
        self._at = 0


class RedisChannel(PresenceChannel):
    """A channel of a note's own."""

    def __init__(self, wire: Wire, ear: Ear, name: str):
        self._wire, self._ear, self._name = wire, ear, name
        try:
            ear.listen(name)
        except BaseException:
            ear.close()
            raise

    def say(self, presence: bytes) -> None:
        self._wire.ask("PUBLISH", self._name, presence)

    def hear(self, seconds: float, bell: Bell) -> list[bytes]:
        return [found for one in self._ear.hear(seconds, bell) if (found := _presence_in(one)) is not None]

    def close(self) -> None:
        self._ear.close()


def _presence_in(said: Answer) -> bytes | None:
    """What was said; None where it is something else that a server sends, or too long."""
    match said:
        case [b"message", bytes(), bytes(presence)] if len(presence) <= MOST_PRESENCE:
            return presence
    return None
