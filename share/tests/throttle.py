"""A line to a server on which no more comes back than the test has let through, all connections together."""
import contextlib
import math
import socket
import threading

# The most that goes at once.
PIECE = 2_048


class Throttle:
    """A port of the loopback that passes on to another one, and back what is let through."""

    def __init__(self, port: int, most: float = math.inf):
        self.port = port
        # How many bytes came back from the server, and how many may.
        self.received, self._most, self._changed = 0, most, threading.Condition()
        self._listening = socket.create_server(("127.0.0.1", 0))
        self.url = f"redis://127.0.0.1:{self._listening.getsockname()[1]}"
        self._open = [self._listening]
        threading.Thread(target=self._listen, daemon=True).start()

    def lets_through(self, most: float) -> None:
        """Lets so many bytes come back in all."""
        with self._changed:
            self._most = most
            self._changed.notify_all()

    def close(self) -> None:
        """Passes nothing on any more."""
        self.lets_through(math.inf)
        for line in self._open:
            with contextlib.suppress(OSError):
                line.shutdown(socket.SHUT_RDWR)
            line.close()

    def _listen(self) -> None:
        with contextlib.suppress(OSError):
            while True:
                client, _ = self._listening.accept()
                server = socket.create_connection(("127.0.0.1", self.port))
                for line in client, server:
                    # A line has little room for what waits.
                    line.setsockopt(socket.SOL_SOCKET, socket.SO_RCVBUF, 4 * PIECE)
                    self._open.append(line)
                for one, other, comes_back in (client, server, False), (server, client, True):
                    threading.Thread(target=self._pass_on, args=(one, other, comes_back), daemon=True).start()

    def _pass_on(self, one: socket.socket, other: socket.socket, comes_back: bool) -> None:
        with contextlib.suppress(OSError):
            while data := one.recv(PIECE):
                if comes_back:
                    with self._changed:
                        self._changed.wait_for(lambda: self.received + len(data) <= self._most)
                        self.received += len(data)
                other.sendall(data)
            other.shutdown(socket.SHUT_RDWR)
