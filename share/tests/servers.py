"""Redis servers for tests, each in a folder of its own: by a port, with TLS, or by a Unix socket; and a log in a file that goes away."""
import contextlib
import ctypes
import pathlib
import shutil
import socket
import ssl
import subprocess
import tempfile
import threading
from collections.abc import Callable

from share.tests.waiting import PATIENCE, wait_for


# The ports that tests of this process have had.
HAD = set[int]()


def held_port() -> socket.socket:
    """Return a port of the loopback at which nobody listens. As long as it is open, one that lets others use its port may listen there, and
    the system gives it to nobody who asks for any port. A process gets no port twice, because a browser keeps what a page of it left."""
    repeated = list[socket.socket]()
    while port_of(held := _any_port()) in HAD:
        repeated.append(held)
    for one in repeated:
        one.close()
    HAD.add(port_of(held))
    return held


def _any_port() -> socket.socket:
    held = socket.socket()
    held.setsockopt(socket.SOL_SOCKET, socket.SO_REUSEADDR, 1)
    held.bind(("127.0.0.1", 0))
    return held


def port_of(held: socket.socket) -> int:
    """The number of a port."""
    port: int = held.getsockname()[1]
    return port


def exchange(one: pathlib.Path, other: pathlib.Path) -> None:
    """Has two paths be each other's, at once."""
    here, at_once = -100, 2
    if ctypes.CDLL(None, use_errno=True).renameat2(here, bytes(one), here, bytes(other), at_once):
        raise OSError(ctypes.get_errno(), f"{one} and {other} can't be exchanged")


class FileLog:
    """A log in a file, whose folder goes away and comes back."""

    def __init__(self, folder: pathlib.Path):
        self._shared, self._away = folder / "shared", folder / "away"
        self.url = str(self._shared / "note.log")

    def kill(self) -> None:
        """Has nobody reach the log. In two steps somebody could make a new one between them."""
        self._away.write_text("no folder")
        exchange(self._shared, self._away)

    def start(self) -> None:
        """Has all reach it again."""
        exchange(self._shared, self._away)
        self._away.unlink()


class RedisServer:
    """A server on the loopback, which keeps each append on the disk before it answers."""

    scheme = "redis"

    def __init__(self, folder: pathlib.Path, *options: str):
        folder.mkdir(exist_ok=True)
        self.folder, self.options = folder, options
        # Held until it is closed: while it is down somebody else's connection could get its port, too.
        self._held = held_port()
        self.port = port_of(self._held)
        self.url = f"{self.scheme}://127.0.0.1:{self.port}"
        self.start()

    def start(self) -> None:
        """Starts the server, with what its folder has."""
        words = ["redis-server", *self.listening(), "--bind", "127.0.0.1", "--dir", str(self.folder),
                 "--appendonly", "yes", "--appendfsync", "always", "--save", "", *self.options]
        with tempfile.TemporaryFile() as said:
            self.process = subprocess.Popen(words, stdout=said, stderr=said)
            wait_for(lambda: self.answers() or self.process.poll() is not None, "a Redis server to answer")
            if (status := self.process.poll()) is not None:
                said.seek(0)
                raise AssertionError(f"a Redis server has ended with status {status}: {said.read()[-2_000:].decode(errors='replace')}")

    def listening(self) -> list[str]:
        """The options that say where it listens."""
        return ["--port", str(self.port)]

    def connected(self) -> socket.socket:
        """A connection to the server, with nothing looked at."""
        return socket.create_connection(("127.0.0.1", self.port), PATIENCE)

    def answers(self) -> bool:
        """Whether the server answers."""
        with contextlib.suppress(OSError), self.connected() as line:
            line.sendall(b"PING\r\n")
            return line.recv(16)[:5] in (b"+PONG", b"-NOAU")
        return False

    def cli(self, *words: str | bytes) -> bytes:
        """What the server answers to a command, as redis-cli prints it."""
        return subprocess.run(["redis-cli", "-p", str(self.port), *words], capture_output=True, check=True,
                              timeout=PATIENCE).stdout.strip()

    def kill(self) -> None:
        """Kills the server without a word."""
        self.process.kill()
        self.process.wait()

    def close(self) -> None:
        """Kills the server for good."""
        self.kill()
        self._held.close()

    def lose_all(self) -> None:
        """Kills the server, and takes its files away."""
        self.kill()
        shutil.rmtree(self.folder)
        self.folder.mkdir()


class SocketServer(RedisServer):
    """A server that listens at a Unix socket alone."""

    def __init__(self, folder: pathlib.Path, *options: str):
        self.path = folder / "redis.sock"
        super().__init__(folder, *options)
        self.url = f"unix://{self.path}"

    def listening(self) -> list[str]:
        return ["--port", "0", "--unixsocket", str(self.path)]

    def connected(self) -> socket.socket:
        line = socket.socket(socket.AF_UNIX)
        try:
            line.connect(str(self.path))
        except OSError:
            line.close()
            raise
        return line


class TlsServer(RedisServer):
    """A server with TLS alone, whose certificate `certificate` made for some hosts."""

    scheme = "rediss"

    def __init__(self, folder: pathlib.Path, hosts: str, *options: str):
        folder.mkdir(exist_ok=True)
        self.certificate, self.key = certificate(folder, hosts)
        super().__init__(folder, *options)

    def listening(self) -> list[str]:
        return ["--port", "0", "--tls-port", str(self.port), "--tls-cert-file", str(self.certificate),
                "--tls-key-file", str(self.key), "--tls-auth-clients", "no", "--tls-ca-cert-file",
                str(self.certificate)]

    def connected(self) -> socket.socket:
        context = ssl.create_default_context()
        context.check_hostname, context.verify_mode = False, ssl.CERT_NONE
        return context.wrap_socket(super().connected())


def certificate(folder: pathlib.Path, hosts: str) -> tuple[pathlib.Path, pathlib.Path]:
    """A certificate that signs itself, for hosts as openssl spells them, and its key."""
    made, key = folder / "made.crt", folder / "made.key"
    subprocess.run(["openssl", "req", "-x509", "-newkey", "ec", "-pkeyopt", "ec_paramgen_curve:prime256v1", "-nodes",
                    "-days", "2", "-subj", "/CN=note", "-addext", f"subjectAltName={hosts}", "-keyout", str(key),
                    "-out", str(made)], check=True, capture_output=True)
    return made, key


class Hostile:
    """Something at a port that gives an answer of its own to whatever comes in."""

    def __init__(self, answer: Callable[[bytes], bytes]):
        self.answer = answer
        self._listening = socket.create_server(("127.0.0.1", 0))
        self.url = f"redis://127.0.0.1:{self._listening.getsockname()[1]}"
        self._accepting = threading.Thread(target=self._accept, daemon=True)
        self._accepting.start()

    def close(self) -> None:
        """Listens no more. Who is connected is answered as long as he is."""
        with contextlib.suppress(OSError):
            # To close it alone wouldn't end the waiting for somebody.
            self._listening.shutdown(socket.SHUT_RDWR)
        self._accepting.join()
        self._listening.close()

    def _accept(self) -> None:
        with contextlib.suppress(OSError):
            while True:
                threading.Thread(target=self._serve, args=self._listening.accept()[:1], daemon=True).start()

    def _serve(self, line: socket.socket) -> None:
        with contextlib.suppress(OSError), line:
            while asked := line.recv(2**20):
                if not (said := self.answer(asked)):
                    return
                line.sendall(said)
