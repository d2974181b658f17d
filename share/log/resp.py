"""A connection to a Redis server, which may be anyone's: each answer has a bound and a time, and what isn't one ends
in words.

It speaks RESP 2 itself, so that a hostile server's answer is let go before it fills the memory.
"""
import contextlib
import hashlib
import re
import socket
import ssl
import time
from collections.abc import Iterator, Sequence
from typing import Union
from urllib.parse import urlsplit

from share.log.base import Unreachable
from share.log.bell import Bell
from share.text.errors import Trouble

Word = Union[bytes, str, int]
Answer = Union[bytes, int, None, list["Answer"]]

CONNECT_SECONDS, REPLY_SECONDS = 5, 10
# What is long is given more time: a second for this many bytes.
SLOWEST = 2**12
# The most bytes of an answer, where nothing else is said, and how deep it may be nested.
MOST_ANSWER = 2**20
DEEPEST = 6
RECEIVED_AT_ONCE = 2**16
LONGEST_TOLD = 200
INTEGER = re.compile(rb"-?[0-9]{1,19}")
# What a server says that can't answer now and may later.
ANSWERS_LATER = {
    "LOADING": "is still loading its data",
    "OOM": "has no memory left",
    "MISCONF": "can't write its disk",
    "READONLY": "is a replica that takes no writes",
    "MASTERDOWN": "is a replica whose master is gone",
    "NOREPLICAS": "lacks replicas",
    "CLUSTERDOWN": "is one of a cluster that is down",
    "TRYAGAIN": "is moving the note's keys",
    "BUSY": "is busy with a script",
}
LATER_CODE = re.compile(rf"\b({'|'.join(ANSWERS_LATER)})\b")


class TooLong(Trouble):
    """An answer has more bytes than were let through. The connection was closed."""


class _Refused(Exception):
    """The server answered with an error."""


class Wire:
    """A connection that is made when something is asked, and again after it broke."""

    def __init__(self, url: str, password: str | None = None):
        self.url, self._password = url, password
        self._line: socket.socket | None = None
        self._read = bytearray()
        self._at = self._most = 0
        self._end = 0.0

    def ask(self, *words: Word, waits: float = 0, most: int = MOST_ANSWER, bell: Bell | None = None) -> Answer:
        """The answer to a command, before which the server may wait; None where the bell rings first."""
        with self._told():
            return self._asked(words, waits, most, bell)

    def run(self, script: str, keys: Sequence[Word], words: Sequence[Word], most: int = MOST_ANSWER) -> Answer:
        """The answer of a script, which the server may know already."""
        name = hashlib.sha1(script.encode()).hexdigest()
        with self._told():
            try:
                return self._asked(("EVALSHA", name, len(keys), *keys, *words), 0, most)
            except _Refused as why:
                if not str(why).startswith("NOSCRIPT"):
                    raise
            return self._asked(("EVAL", script, len(keys), *keys, *words), 0, most)

    def close(self) -> None:
        """Closes the connection, if there is one."""
        if self._line:
            self._line.close()
        self._line, self._at = None, 0
        self._read.clear()

    def strange(self) -> Trouble:
        """What is raised where an answer isn't one that a Redis server gives. The connection is closed."""
        self.close()
        return Trouble(f"{self.url} answers, but not as a Redis server. Look at the host and the port.")

    def _too_long(self) -> TooLong:
        return TooLong(f"{self.url} answers with more than was asked for. Look at the host and the port.")

    def _asked(self, words: Sequence[Word], waits: float, most: int, bell: Bell | None = None) -> Answer:
        self._connect()
        answer = self._exchange(words, waits, most, bell)
        if self._at != len(self._read):
            raise self.strange()
        self._read.clear()
        return answer

    def _exchange(self, words: Sequence[Word], waits: float, most: int, bell: Bell | None = None) -> Answer:
        assert self._line
        self._most, self._at, sent = most, 0, _command(words)
        self._line.settimeout(REPLY_SECONDS + len(sent) / SLOWEST)
        self._line.sendall(sent)
        # What was sent may still be on its way.
        self._end = time.monotonic() + REPLY_SECONDS + len(sent) / SLOWEST + waits
        if bell and bell.waits(waits, self._line):
            # The answer is yet to come, so nothing else can be asked here.
            self.close()
            return None
        try:
            return self._answer(0)
        except _Refused:
            # A whole answer, too. One within another one ends the connection.
            if self._at != len(self._read):
                self.close()
            self._read.clear()
            raise

    def _connect(self) -> None:
        if self._line:
            return
        self._line = self._opened()
        if self._password is not None:
            try:
                self._exchange(("AUTH", self._password), 0, MOST_ANSWER)
            except _Refused:
                self.close()
                raise
            self._read.clear()

    def _opened(self) -> socket.socket:
        parts = urlsplit(self.url)
        if parts.scheme == "unix":
            return self._opened_by_path(self.url.removeprefix("unix://"))
        host = parts.hostname or ""
        with contextlib.ExitStack() as failing:
            line = failing.enter_context(socket.create_connection((host, parts.port or 6379), CONNECT_SECONDS))
            line.setsockopt(socket.IPPROTO_TCP, socket.TCP_NODELAY, 1)
            if parts.scheme == "rediss":
                # The certificate and the host's name in it are looked at.
                line = ssl.create_default_context().wrap_socket(line, server_hostname=host)
            failing.pop_all()
        return line

    @staticmethod
    def _opened_by_path(path: str) -> socket.socket:
        with contextlib.ExitStack() as failing:
            line = failing.enter_context(socket.socket(socket.AF_UNIX))
            line.settimeout(CONNECT_SECONDS)
            line.connect(path)
            failing.pop_all()
        return line

    def _answer(self, depth: int) -> Answer:
        line = self._to_line_end()
        kind, rest = line[:1], line[1:]
        if kind == b"+":
            return rest
        if kind == b"-":
            raise _Refused(printable(rest))
        if kind not in b":$*" or not INTEGER.fullmatch(rest) or depth > DEEPEST:
            raise self.strange()
        number = int(rest)
        if kind == b":":
            return number
        if number < 0:
            return None
        if kind == b"*":
            return self._list(number, depth)
        return self._bytes(number)

    def _list(self, length: int, depth: int) -> list[Answer]:
        if length > self._most:
            raise self._too_long()
        return [self._answer(depth + 1) for _ in range(length)]

    def _bytes(self, length: int) -> bytes:
        if self._at + length > self._most:
            raise self._too_long()
        end = self._at + length
        while len(self._read) < end + 2:
            self._receive()
        data = bytes(self._read[self._at:end])
        if self._read[end:end + 2] != b"\r\n":
            raise self.strange()
        self._at = end + 2
        return data

    def _to_line_end(self) -> bytes:
        begin = self._at
        while (end := self._read.find(b"\r\n", begin)) < 0:
            begin = max(self._at, len(self._read) - 1)
            self._receive()
        line = bytes(self._read[self._at:end])
        self._at = end + 2
        return line

    def _receive(self) -> None:
        assert self._line
        if len(self._read) > self._most:
            raise self._too_long()
        left = self._end + len(self._read) / SLOWEST - time.monotonic()
        if left <= 0:
            raise TimeoutError
        self._line.settimeout(left)
        data = self._line.recv(RECEIVED_AT_ONCE)
        if not data:
            raise ConnectionError("it closed the connection")
        self._read += data

    @contextlib.contextmanager
    def _told(self) -> Iterator[None]:
        """Says in words what went wrong."""
        try:
            yield
        except _Refused as why:
            raise self._refused(str(why)) from why
        except TimeoutError as why:
            self.close()
            raise Unreachable(f"{self.url} doesn't answer in time") from why
        except ssl.SSLCertVerificationError as why:
            self.close()
            raise Unreachable(f"{self.url} has a certificate that isn't trusted for it: "
                              f"{printable(why.verify_message)}") from why
        except (OSError, UnicodeError) as why:
            self.close()
            words = why.strerror if isinstance(why, OSError) and why.strerror else str(why)
            raise Unreachable(f"{self.url}: {printable(words)}") from why
        except BaseException:
            self.close()
            raise

    def _refused(self, said: str) -> Exception:
        if found := LATER_CODE.search(said):
            return Unreachable(f"{self.url} {ANSWERS_LATER[found[1]]} ({said})")
        if said.startswith("NOAUTH"):
            return Trouble(f"{self.url} asks for a password. Put it in a file that --password-file names, or in "
                           "VIALSHOAL_PASSWORD.")
        if said.startswith("WRONGPASS") or "invalid password" in said:
            return Trouble(f"{self.url} takes another password ({said}).")
        if said.startswith("ERR") and re.search("without any password|no password is set", said):
            return Trouble(f"{self.url} has no password, so it may be another server than you think. Look at the "
                           "URL, or give no password.")
        if said.startswith("NOPERM"):
            return Trouble(f"{self.url} doesn't let this password keep a log ({said}).")
        if said.startswith(("WRONGTYPE", "ERR")):
            return Trouble(f"{self.url} has something else under the note's keys, or can't keep a log ({said}). "
                           "Remove that, or use another server.")
        return Unreachable(f"{self.url}: {said}")


def printable(words: bytes | str) -> str:
    """What a server said, so that a terminal shows it, whatever it is."""
    text = words.decode(errors="replace") if isinstance(words, bytes) else words
    return "".join(one if one.isprintable() else "?" for one in text[:LONGEST_TOLD])


def _command(words: Sequence[Word]) -> bytes:
    parts = [b"*%d\r\n" % len(words)]
    for word in words:
        data = word if isinstance(word, bytes) else str(word).encode(errors="surrogateescape")
        parts += b"$%d\r\n" % len(data), data, b"\r\n"
    return b"".join(parts)
