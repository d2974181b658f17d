"""The port of a relay, at which no more are connected than a number: who has shown nothing yet makes room for who comes."""
import socket
import struct
import time
from contextlib import suppress

from share.log.polling import can_read

# How many connections may wait to be accepted; and how long one may be there that shows nothing.
WAITING_CONNECTIONS, STRANGER_SECONDS = 128, 15.0
# The bytes that the system keeps for who doesn't read them.
UNREAD_BYTES = 2**18


class Door(socket.socket):
    """A listening socket that counts who is connected."""

    most = 0

    def __init__(self, host: str, port: int, most: int):
        super().__init__(socket.AF_INET6 if ":" in host else socket.AF_INET, socket.SOCK_STREAM)
        self.most = most
        # Those who have shown nothing yet, the first one first, and since when; and those who have.
        self._strangers: dict[socket.socket, float] = {}
        self._known: set[socket.socket] = set()
        try:
            # Connections of the relay of before may not be forgotten yet.
            self.setsockopt(socket.SOL_SOCKET, socket.SO_REUSEADDR, 1)
            # What waits for who reads slowly takes no more in the system than here.
            self.setsockopt(socket.SOL_SOCKET, socket.SO_SNDBUF, UNREAD_BYTES)
            self.bind((host, port))
            self.listen(WAITING_CONNECTIONS)
        except OSError:
            self.close()
            raise
        self.setblocking(False)

    def accept(self) -> tuple[socket.socket, object]:
        """The next connection, where there is room or somebody makes some."""
        self._forget_closed()
        if self.connected() >= self.most and self._strangers and can_read(self, 0):
            # His end is taken note of before the next one is accepted.
            self._show_out(next(iter(self._strangers)))
            raise BlockingIOError
        line, address = super().accept()
        if self.connected() >= self.most:
            with line, suppress(OSError):
                # With nothing left of it here.
                line.setsockopt(socket.SOL_SOCKET, socket.SO_LINGER, struct.pack("ii", 1, 0))
            raise BlockingIOError
        self._strangers[line] = time.monotonic()
        return line, address

    def connected(self) -> int:
        """How many are connected."""
        return len(self._strangers) + len(self._known)

    def knows(self, descriptor: int) -> None:
        """Takes over that who is connected by this has shown something."""
        for line in [one for one in self._strangers if one.fileno() == descriptor]:
            del self._strangers[line]
            self._known.add(line)

    def show_out_the_silent(self) -> None:
        """Lets go of those who have been there long, and have shown nothing."""
        self._forget_closed()
        for line, since in [*self._strangers.items()]:
            if time.monotonic() - since > STRANGER_SECONDS:
                self._show_out(line)

    def _show_out(self, line: socket.socket) -> None:
        del self._strangers[line]
        with suppress(OSError):
            # Who has it open here reads its end, and closes it.
            line.shutdown(socket.SHUT_RDWR)

    def _forget_closed(self) -> None:
        for line in [one for one in self._strangers if one.fileno() < 0]:
            del self._strangers[line]
        self._known = {one for one in self._known if one.fileno() >= 0}
