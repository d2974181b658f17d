"""One process of the program, for one site: events go in, answers come out."""
import contextlib
import fcntl
import os
import pathlib
import select
import shlex
import shutil
import subprocess
import time
from collections.abc import Callable

from share.format.operation import TEXT
from share.log.polling import ready
from share.program.patience import BETWEEN_LOOKS_SECONDS, Patience
from share.text.errors import Trouble

# Not resolved: where it is installed a link leads to the version of the moment.
TOP = pathlib.Path(__file__).absolute().parents[2]
BUILT = TOP / "crates" / "site_cli" / "out" / "site_cli"
RUNS_BUILT, BUILDS = TOP / "bin" / "built", TOP / "bin" / "site_cli"
# What a program was made of, in a file beside it, whose second line begins so where it isn't proved.
BUILT_FROM = "built-from"
NOT_PROVED = "not proved"
NOTHING_BUILT = "Nothing is built here. Run bin/site_cli < demo/two-sites.script first: it builds the program."
# The most lines that one run reads; then a fresh one takes over.
MOST_LINES_READ = 2**20
PIPE = 1 << 20
F_SETPIPE_SZ = 1031
LAST_WAIT_SECONDS = 1
# In a clock's number: that it is a process's processor time.
CLOCK_OF_A_PROCESS = 2
# The lines of an answer that others follow.
FOLLOWED = (b"send ", b"front ", b"run ", b"shown ", b"name ", b"chunk ")


class Ended(Exception):
    """The process ended where it had to answer."""


def command() -> list[str]:
    """What runs the program. VIALSHOAL_PROGRAM may name another executable."""
    if named := os.environ.get("VIALSHOAL_PROGRAM"):
        return shlex.split(named)
    if not os.access(built(), os.X_OK):
        raise Trouble(NOTHING_BUILT)
    return [str(RUNS_BUILT)]


def built() -> pathlib.Path:
    """The program that bin/built runs, where it is there."""
    name = os.environ.get("VIALSHOAL_BUILD", "")
    if not name:
        with contextlib.suppress(OSError):
            name = (TOP / "out" / "last").read_text("utf-8").strip()
    return BUILT if name in ("", "proved") else TOP / "out" / name / BUILT.name


def file_of(words: list[str]) -> pathlib.Path:
    """The file of the program that a command runs."""
    return built() if words[0] == str(RUNS_BUILT) else pathlib.Path(shutil.which(words[0]) or words[0])


def is_unproved(words: list[str]) -> bool:
    """Whether the program that a command runs is written down as one that isn't proved."""
    with contextlib.suppress(OSError, ValueError):
        lines = (file_of(words).parent / BUILT_FROM).read_text("utf-8").splitlines()
        return lines[1:] != [] and lines[1].startswith(NOT_PROVED)
    return False


def make_ready() -> None:
    """Builds the program where there is none, which standard error reports."""
    if os.environ.get("VIALSHOAL_PROGRAM") or os.access(built(), os.X_OK) or not os.access(BUILDS, os.X_OK):
        return
    if subprocess.run([BUILDS], stdin=subprocess.DEVNULL, stdout=subprocess.DEVNULL, check=False).returncode:
        raise Trouble("The program couldn't be built, and none is built here. VIALSHOAL_PROGRAM may name one.")


class Program:
    """A run of the program with one site, which is answered event by event. Its files are in a folder. Who waits for an
    answer of one that stands still is called."""

    def __init__(self, site: int, folder: pathlib.Path | None = None, still: Callable[[], None] = lambda: None, text: int = TEXT):
        self.site, self.text_number, self.lines, self._still, self._has_answered = site, text, 0, still, False
        runs = command()
        words, self.is_unproved = [*runs, "--first", str(site), "--count", "1"], is_unproved(runs)
        # It may have been taken away meanwhile, and what isn't there is no place for files.
        self.folder = folder if folder and folder.is_dir() else None
        try:
            self.process = subprocess.Popen(words, stdin=subprocess.PIPE, stdout=subprocess.PIPE, bufsize=0,
                                            stderr=subprocess.DEVNULL, start_new_session=True, cwd=self.folder)
        except OSError as why:
            raise Trouble(f"The program can't be run ({words[0]}: {why.strerror}). VIALSHOAL_PROGRAM names "
                          "it.") from why
        assert self.process.stdin and self.process.stdout
        self._in, self._out = self.process.stdin.fileno(), self.process.stdout.fileno()
        self._answers = select.poll()
        self._answers.register(self._out, select.POLLIN)
        try:
            os.set_blocking(self._in, False)
            for pipe in self._in, self._out:
                _widen(pipe)
        except BaseException:
            self.close()
            raise

    def ask(self, events: list[bytes]) -> list[list[bytes]]:
        """The answer lines of each event. All events are on their way at once, and answers are read
        meanwhile: if both sides only wrote, both pipes would fill and stand still."""
        self.lines += len(events)
        script = memoryview(b"\n".join([*events, b""]))
        answers: list[list[bytes]] = []
        answer: list[bytes] = []
        part: list[bytes] = []
        patience: Patience | None = None
        # Nearly always the pipe has room for all.
        script = script[self._written(script):]
        while len(answers) < len(events):
            read, write = self._ready(bool(script))
            if not (read or write):
                patience = patience or Patience(self.process.pid, self._has_answered)
                self._wait(patience)
                continue
            patience = None
            if write:
                script = script[self._written(script):]
            if not read:
                continue
            first, *lines = self._read().split(b"\n")
            part.append(first)
            for line in lines:
                answer.append(b"".join(part))
                part = [line]
                if not answer[-1].startswith(FOLLOWED):
                    answers.append(answer)
                    answer = []
        return answers

    def _ready(self, writes: bool) -> tuple[bool, bool]:
        """Whether an answer can be read, and whether events can be written, where some are left, as soon as one can."""
        if writes:
            read, write = ready(BETWEEN_LOOKS_SECONDS, [self._out], [self._in])
            return bool(read), bool(write)
        # Neither end is closed while an answer is waited for.
        return bool(self._answers.poll(BETWEEN_LOOKS_SECONDS * 1_000)), False

    def event(self, verb: str, *words: int | bytes) -> bytes:
        """An event of the site, of its text."""
        parts = [b"%d %s %d" % (self.site, verb.encode(), self.text_number)]
        parts += [b"%d" % word if isinstance(word, int) else word for word in words]
        return b" ".join(parts)

    def text(self) -> bytes:
        """What the site shows."""
        return text_in(self.ask([self.event("text")])[0])

    def processor_seconds(self) -> float:
        """The processor time that the process has used."""
        with contextlib.suppress(OSError):
            return time.clock_gettime(~self.process.pid << 3 | CLOCK_OF_A_PROCESS)
        return 0.0

    def _wait(self, patience: Patience) -> None:
        """Waits on for a process of which nothing came, unless that hangs: then it is ended."""
        if patience.is_over():
            self.process.kill()
            raise Ended("it was ended, since it stood still or worked on without an answer")
        if patience.is_still():
            self._still()

    def _written(self, script: memoryview) -> int:
        try:
            return os.write(self._in, script[:PIPE])
        except BlockingIOError:
            return 0
        except OSError as why:
            raise Ended from why

    def _read(self) -> bytes:
        if not (data := os.read(self._out, PIPE)):
            raise Ended("it ended by itself")
        self._has_answered = True
        return data

    def close(self) -> None:
        """Ends the process, which ends by itself where its input does."""
        for pipe in self.process.stdin, self.process.stdout:
            if pipe:
                pipe.close()
        # Another file may get their numbers.
        self._in = self._out = -1
        try:
            self.process.wait(LAST_WAIT_SECONDS)
        except subprocess.TimeoutExpired:
            self.process.kill()
            self.process.wait()


def _widen(pipe: int) -> None:
    # A long text comes through a wide pipe with fewer turns; where the system gives none, a narrow one does.
    try:
        fcntl.fcntl(pipe, F_SETPIPE_SZ, PIPE)
    except OSError:
        pass


def escaped(data: bytes) -> bytes:
    """Bytes as an event has them."""
    return b"".join([ESCAPES[byte] for byte in data])


def text_in(answer: list[bytes]) -> bytes:
    """The text that an answer to `text` prints."""
    words = answer[-1].split(b" ", 2)
    if words[0] != b"text" or len(words) < 2:
        raise Trouble(f"The program was asked for the text and answered {answer[-1][:60]!r}.")
    return characters(words[2] if len(words) == 3 else b"", int(words[1]))


def characters(printed: bytes, count: int) -> bytes:
    """The characters that an answer prints, and counts."""
    text = printed
    if b"\\" in printed:
        # Python's own unescaping is the quick way, and spells a byte with an x.
        text = printed.replace(b"\\", b"\\x").decode("unicode_escape").encode("latin-1")
    if len(text) != count:
        raise Trouble("The program printed other characters than it counted.")
    return text


ESCAPES = [bytes([byte]) if 0x20 <= byte <= 0x7E and byte != 0x5C else b"\\%02x" % byte
           for byte in range(256)]
