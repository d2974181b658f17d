"""Where an engine meets its editors: a Unix socket in the data folder, which nobody but this account reaches.

An editor starts `bin/note engine NAME`, which relays lines between its standard input and output and the socket.
Where no engine listens there, it starts one as a process of its own, which ends after its last editor. So no editor's end
takes the engine from the others.
"""
import contextlib
import fcntl
import math
import os
import pathlib
import resource
import select
import selectors
import signal
import socket
import struct
import time
from collections.abc import Callable, Iterator

from share.engine.editor import Peer
from share.engine.engine import Engine
from share.format.second.key_link import AnyLink
from share.log.bell import Bell
from share.log.folder import make_folder
from share.store import notes, read_only
from share.sync.session import Bar, Session
from share.text.errors import Trouble
from share.text.line import PIECE, Assembler

# How long a relay waits for an engine to listen, and an engine for one that is ending; and the time between two tries.
START_SECONDS, TRY_SECONDS = 60, 0.01
# How long an engine waits for its first editor before it ends.
FIRST_EDITOR_SECONDS = 10
# The longest time between two turns: where nothing comes, and where editors send without a pause or are to be told something soon.
RESTING_SECONDS, PRESSED_SECONDS = 0.5, 0.05
# The descriptors that an engine keeps for its note, the log and the program; and how many editors more than it then serves are told so at
# once, while others wait.
OWN_FILES, TOLD_AT_ONCE = 120, 16
# More editors aren't served, however many the system allows.
MOST_EDITORS = 10_000
# The most bytes that a pipe which takes something takes without making the writer wait.
OF_A_PIPE = 4_096
# The most lines of an editor that wait to be done, before no more is read; and the most bytes that wait for it to read, and
# requests that are being done, before no more is done for it.
MOST_UNDONE, MOST_UNREAD, MOST_PENDING = 1_000, 32 << 20, 16
CREDENTIALS = struct.Struct("iII")
ServerOpens = Callable[[Bar, Callable[[], None]], Session]


def run_folder() -> pathlib.Path:
    """The folder of the sockets of this person's engines."""
    return notes.data_folder() / "run"


@contextlib.contextmanager
def _socket_path(name: str) -> Iterator[str]:
    """The path of a note's socket, which is short even where the folder's isn't: a socket's may have 107 bytes."""
    folder = os.open(run_folder(), os.O_RDONLY | os.O_DIRECTORY | os.O_CLOEXEC)
    try:
        yield f"/proc/self/fd/{folder}/{name}.sock"
    finally:
        os.close(folder)


def connected(name: str) -> socket.socket | None:
    """A connection to the engine that has a note open; None where there is none."""
    line = socket.socket(socket.AF_UNIX, socket.SOCK_STREAM)
    try:
        with _socket_path(name) as path:
            line.connect(path)
        return line
    except OSError:
        line.close()
        return None


def agree_with_engine(name: str, url: str | None, link: AnyLink | None) -> None:
    """Checks that a link and a log are those of the note that an engine has open, where one does. An engine that has just
    been started makes the note as its first editor opens that."""
    if line := connected(name):
        with line:
            path, end = notes.path_of(name), time.monotonic() + START_SECONDS
            while not path.exists():
                if time.monotonic() > end:
                    raise _silent(name)
                time.sleep(TRY_SECONDS)
        about = read_only.about(path)
        notes.check_agreement(about, name, url, link)
        if url and url != about.url:
            raise Trouble(f"The note {name} is open with another log. Quit its editors first.")


def _silent(name: str) -> Trouble:
    return Trouble(f"The engine of {name} doesn't answer. Look for a process that hangs.")


def connected_or_started(name: str, opens: ServerOpens) -> socket.socket:
    """A connection to the engine of a note, which is started where it isn't there."""
    notes.path_of(name)
    folder = run_folder()
    make_folder(folder)
    os.chmod(folder, 0o700)
    end, child = time.monotonic() + START_SECONDS, 0
    while not (line := connected(name)):
        if not child or os.waitpid(child, os.WNOHANG)[0]:
            child = _started(name, opens)
        if time.monotonic() > end:
            raise _silent(name)
        time.sleep(TRY_SECONDS)
    return line


def _started(name: str, opens: ServerOpens) -> int:
    """Starts an engine as a process of its own; the number of that process."""
    if child := os.fork():
        return child
    status = 1
    try:
        os.setsid()
        for number in signal.SIGHUP, signal.SIGTERM, signal.SIGINT:
            signal.signal(number, signal.SIG_DFL)
        nothing = os.open(os.devnull, os.O_RDWR)
        for standard in range(3):
            os.dup2(nothing, standard)
        # Nobody who waits for the end of a file that the editor has open is to wait for the engine's.
        os.closerange(3, max(map(int, os.listdir("/proc/self/fd"))) + 1)
        _allow_files()
        serve(name, opens)
        status = 0
    finally:
        # What the relay has to do at its end isn't the engine's.
        os._exit(status)


def _allow_files() -> None:
    """Lets this process have as many descriptors as it may have: each editor takes one."""
    _, most = resource.getrlimit(resource.RLIMIT_NOFILE)
    with contextlib.suppress(OSError, ValueError):
        resource.setrlimit(resource.RLIMIT_NOFILE, (most, most))


def _most_editors() -> int:
    """How many editors an engine in this process can serve."""
    files, _ = resource.getrlimit(resource.RLIMIT_NOFILE)
    return MOST_EDITORS if files == resource.RLIM_INFINITY else max(1, min(files - OWN_FILES, MOST_EDITORS))


def serve(name: str, opens: ServerOpens) -> None:
    """Runs the engine of a note until its last editor has left, unless another process does."""
    with _lock(name) as has_lock:
        if has_lock:
            Server(name, opens).run()


@contextlib.contextmanager
def _lock(name: str) -> Iterator[bool]:
    """Lets one process at a time run a note's engine, and says whether this one may; waits for one that is ending."""
    file = os.open(run_folder() / f"{name}.lock", os.O_RDWR | os.O_CREAT | os.O_CLOEXEC, 0o600)
    try:
        end = time.monotonic() + START_SECONDS
        while time.monotonic() < end:
            with contextlib.suppress(BlockingIOError):
                fcntl.flock(file, fcntl.LOCK_EX | fcntl.LOCK_NB)
                yield True
                return
            if line := connected(name):
                line.close()
                break
            time.sleep(TRY_SECONDS)
        yield False
    finally:
        os.close(file)


class Connection:
    """A connection to an editor, as the engine's end of it. The engine's thread alone calls it."""

    def __init__(self, end: socket.socket):
        self.end = end
        self.out, self._assembler = bytearray(), Assembler()
        # Whether nothing more comes, and whether nothing can be sent: what has come is done all the same.
        self.has_ended = self.is_broken = False
        # What the server waits for there.
        self.watched = 0
        # Lines that came and wait to be done; None is one that was too long.
        self.lines: list[bytes | None] = []
        end.setblocking(False)

    def write(self, data: bytes) -> None:
        """Sends bytes, now or as soon as the editor reads, if it does."""
        if not self.is_broken:
            self.out += data

    def waiting(self) -> int:
        """How many bytes the editor hasn't read."""
        return len(self.out)

    def is_stuck(self) -> bool:
        """Whether it asks for more than it reads."""
        return len(self.out) > MOST_UNREAD

    def send(self) -> None:
        """Sends as much as the editor takes."""
        try:
            while self.out:
                del self.out[:self.end.send(memoryview(self.out)[:PIECE].tobytes())]
        except BlockingIOError:
            pass
        except OSError:
            self.out.clear()
            self.is_broken = True

    def receive(self) -> None:
        """Reads what has come."""
        try:
            data = self.end.recv(PIECE)
        except BlockingIOError:
            return
        except OSError:
            data = b""
        self.has_ended = self.has_ended or not data
        self.lines += self._assembler.lines(data)


class Server:
    """An engine with its editors' connections. The thread that calls `run` is the engine's; any may ring the bell, and so may a
    signal."""

    def __init__(self, name: str, opens: ServerOpens):
        self._name = name
        self._bell = Bell()
        self._engine = Engine(name, lambda: opens(self._progress, self._bell.ring), self._bell.ring, self._send_now,
                              journal=run_folder() / f"{name}.editors")
        self._editors: dict[Connection, Peer] = {}
        self._selector = selectors.DefaultSelector()
        self._selector.register(self._bell, selectors.EVENT_READ)
        self._listener = socket.socket(socket.AF_UNIX, socket.SOCK_STREAM)
        self._is_watched = self._stops = False
        # How many editors it serves, and when it takes on more again, where the system has no descriptor for one now.
        self._most, self._takes_on = _most_editors(), -math.inf

    def run(self) -> None:
        """Serves editors until the last one has left."""
        for number in signal.SIGTERM, signal.SIGINT:
            signal.signal(number, lambda *_: self._stop())
        self._listen()
        end = time.monotonic() + FIRST_EDITOR_SECONDS
        try:
            while not self._stops and (self._editors or time.monotonic() < end or not self._is_left_alone()):
                self._turn()
                if self._editors:
                    end = 0
        finally:
            self._close()

    def _close(self) -> None:
        """Closes all that is open. An editor that is still connected sees that the engine has ended."""
        self._listener.close()
        self._engine.close()
        for editor in self._editors:
            editor.end.close()
        self._selector.close()
        self._bell.close()

    def _stop(self) -> None:
        self._stops = True
        self._bell.ring()

    def _is_left_alone(self) -> bool:
        """Stops listening, unless somebody has come in this moment; whether nobody has. Whoever comes later starts another engine,
        which waits for the end of this one."""
        with _socket_path(self._name) as path:
            os.unlink(path)
        self._accept()
        if self._editors:
            self._watch_listener(False)
            self._listener.close()
            self._listener = socket.socket(socket.AF_UNIX, socket.SOCK_STREAM)
            self._listen()
        return not self._editors

    def _listen(self) -> None:
        """Puts the note's socket in its place once it listens, so that whoever finds it is answered."""
        with _socket_path(self._name) as path, _socket_path(f".{os.getpid()}") as fresh:
            with contextlib.suppress(FileNotFoundError):
                os.unlink(fresh)
            before = os.umask(0o177)
            try:
                self._listener.bind(fresh)
            finally:
                os.umask(before)
            self._listener.listen()
            self._listener.setblocking(False)
            os.replace(fresh, path)
        self._watch_listener(True)

    def _watch_listener(self, watches: bool) -> None:
        """Watches whether somebody comes, or doesn't as long as nobody can be taken on."""
        if watches != self._is_watched:
            self._is_watched = watches
            if watches:
                self._selector.register(self._listener, selectors.EVENT_READ)
            else:
                self._selector.unregister(self._listener)

    def _progress(self, done: int, total: int) -> None:
        """Tells editors how far a long history is read: as the note is opened, and where much comes at once."""
        self._engine.progress(done, total)
        self._send_now()

    def _send_now(self) -> None:
        """Sends what can be sent, in the midst of something that takes long."""
        for editor in [*self._editors]:
            editor.send()

    def _turn(self) -> None:
        for editor in self._editors:
            self._wait_for(editor)
        self._watch_listener(self._has_room() and time.monotonic() >= self._takes_on)
        goes_on = self._engine.has_more() or any(self._has_to_do(*each) for each in self._editors.items())
        seconds = 0 if goes_on else PRESSED_SECONDS if self._engine.is_restless() else RESTING_SECONDS
        found = self._selector.select(seconds)
        for key, events in found:
            if key.fileobj is self._listener:
                self._accept()
            elif key.fileobj is self._bell:
                self._bell.silence()
            elif events & selectors.EVENT_READ:
                key.data.receive()
        self._do_lines()
        self._engine.turn(is_called=not all(key.data for key, _ in found) or not found)
        self._send()

    def _wait_for(self, editor: Connection) -> None:
        """Watches whether an editor sends something, or takes something, so that the next turn begins then."""
        # What is sent faster than it is done is read later.
        reads = not (editor.has_ended or editor.is_stuck()) and len(editor.lines) < MOST_UNDONE
        wanted = (selectors.EVENT_READ if reads else 0) | (selectors.EVENT_WRITE if editor.out else 0)
        if wanted == editor.watched:
            return
        if editor.watched:
            self._selector.unregister(editor.end)
        if wanted:
            self._selector.register(editor.end, wanted, editor)
        editor.watched = wanted

    def _has_room(self) -> bool:
        """Whether somebody can be taken on, be it to be told that he is one too many."""
        return len(self._editors) < self._most + TOLD_AT_ONCE

    def _accept(self) -> None:
        """Takes on all who have come."""
        while self._has_room():
            try:
                end = self._listener.accept()[0]
            except BlockingIOError:
                return
            except OSError:
                # Whoever waits is taken on later.
                self._takes_on = time.monotonic() + RESTING_SECONDS
                return
            self._take_on(end)

    def _take_on(self, end: socket.socket) -> None:
        _, user, _ = CREDENTIALS.unpack(end.getsockopt(socket.SOL_SOCKET, socket.SO_PEERCRED, CREDENTIALS.size))
        if user != os.getuid():
            end.close()
            return
        editor = Connection(end)
        self._editors[editor] = peer = self._engine.joined(editor.write, editor.waiting)
        if len(self._editors) > self._most:
            peer.refuse(f"The note {self._name} is open in {self._most:,} editors, as many as this system lets it be. Quit one of them.")

    @staticmethod
    def _has_to_do(editor: Connection, peer: Peer) -> bool:
        """Whether lines of an editor wait that may be done now."""
        return bool(editor.lines) and not editor.is_stuck() and peer.waits < MOST_PENDING

    def _do_lines(self) -> None:
        """Does what has come, editor by editor, until it is time to take in what came from others."""
        end = time.monotonic() + PRESSED_SECONDS
        while time.monotonic() < end:
            waiting = [editor for editor, peer in self._editors.items() if self._has_to_do(editor, peer)]
            if not waiting:
                break
            for editor in waiting:
                self._engine.take(self._editors[editor], editor.lines)

    def _send(self) -> None:
        for editor, peer in [*self._editors.items()]:
            editor.send()
            is_done = not (editor.lines or editor.out or peer.waits)
            if is_done and (editor.has_ended or peer.closes):
                del self._editors[editor]
                if editor.watched:
                    self._selector.unregister(editor.end)
                editor.end.close()
                self._engine.left(peer)


class Relay:
    """Relays bytes between standard input and output and a socket, both ways at once. It is all that its
    process does, in one thread."""

    def __init__(self, line: socket.socket):
        self._line = line
        self._to_engine, self._to_editor = bytearray(), bytearray()
        self._reads, self._is_over = True, False
        line.setblocking(False)

    def run(self) -> None:
        """Relays until the engine closes the connection."""
        poll = select.poll()
        while not (self._is_over and not self._to_editor):
            for end, wanted in self._wanted():
                poll.register(end, wanted)
            for end, events in poll.poll():
                self._does(end, events)
            for end in 0, 1, self._line.fileno():
                with contextlib.suppress(KeyError):
                    poll.unregister(end)

    def _wanted(self) -> Iterator[tuple[int, int]]:
        if self._reads and len(self._to_engine) < PIECE:
            yield 0, select.POLLIN
        if self._to_editor:
            yield 1, select.POLLOUT
        reads = select.POLLIN if not self._is_over and len(self._to_editor) < PIECE else 0
        writes = select.POLLOUT if self._to_engine else 0
        if reads or writes:
            yield self._line.fileno(), reads | writes

    def _does(self, end: int, events: int) -> None:
        if end == 0:
            data = os.read(0, PIECE)
            self._to_engine += data
            self._reads = bool(data)
        elif end == 1:
            del self._to_editor[:os.write(1, self._to_editor[:OF_A_PIPE])]
        else:
            self._exchange(events)
        if not self._reads and not self._to_engine:
            with contextlib.suppress(OSError):
                self._line.shutdown(socket.SHUT_WR)

    def _exchange(self, events: int) -> None:
        """Reads from the socket and writes to it, as much as it takes."""
        try:
            if events & select.POLLOUT:
                del self._to_engine[:self._line.send(self._to_engine[:PIECE])]
            if events & ~select.POLLOUT:
                data = self._line.recv(PIECE)
                self._to_editor += data
                self._is_over = not data
        except BlockingIOError:
            pass
        except OSError:
            self._is_over = True
            self._to_engine.clear()


def relayed(name: str, opens: ServerOpens) -> None:
    """Relays between an editor and the engine of a note."""
    with connected_or_started(name, opens) as line:
        Relay(line).run()
