"""Measures how long a keystroke takes in a note of 1 MB, alone and beside another's typing: from the key to
what the terminal is sent for it.

    python3 -m share.tests.keystroke
"""
import fcntl
import multiprocessing
import multiprocessing.synchronize
import os
import pty
import random
import struct
import tempfile
import termios
import time

from share.log.polling import can_read
from share.store import notes
from share.sync.session import Session
from share.tests.note import Note
from share.tests.support import NOTE

SIZE, KEYS, FEW = 1_000_000, 100, 15
LINE = "Line {} of a note as people write them, with some words — and a dash.\n"
ROWS, COLUMNS = 40, 120
SLOW = 0.05
# The other one types so often.
BESIDE = 0.1
DOWN, UP, UNDO, ERASE = b"\x1b[6~", b"\x1b[5~", b"\x1a", b"\x7f"


def answered(terminal: int, wait: float = 30, quiet: float = 0.05) -> float:
    """When an answer began to come, which is drawn as one; what comes after it, as that all is sent, is read
    away."""
    first = None
    while can_read(terminal, quiet if first else wait):
        os.read(terminal, 65_536)
        first = first or time.perf_counter()
    return first or time.perf_counter()


def measure(terminal: int, what: str, key: bytes, count: int = KEYS) -> None:
    """Presses a key so many times, and prints how long the answers took."""
    seconds = []
    for _ in range(count):
        # At any moment of the other one's typing.
        time.sleep(BESIDE * random.random())
        begin = time.perf_counter()
        os.write(terminal, key)
        seconds.append(answered(terminal) - begin)
    seconds.sort()
    median, most = 1000 * seconds[len(seconds) // 2], 1000 * seconds[-1]
    slow = f"{sum(one >= SLOW for one in seconds)} of {count}"
    print(f"{what:<17} {median:6.1f} ms by the median, {most:6.1f} at most, {slow} above {1000 * SLOW:.0f}",
          flush=True)


def opened() -> Note:
    """The note."""
    return Note(Session(notes.open_note("large", None, None)))


def type_beside(begun: multiprocessing.synchronize.Event) -> None:
    """Types at the note's front, which isn't on the other screen: what is sent to that is for its own keys
    alone."""
    note = opened()
    begun.set()
    while True:
        note.moved_to(0)
        note.type("y")
        note.take_in()
        time.sleep(BESIDE)


def main() -> None:
    """Makes the note, opens it in a terminal, and presses keys."""
    os.environ.update(VIALSHOAL_DATA=tempfile.mkdtemp(prefix="share-"), TERM="xterm-256color")
    note = opened()
    begin = time.perf_counter()
    note.type("".join(LINE.format(number) for number in range(SIZE // len(LINE.encode()))))
    print(f"typed in one go: {len(note.text):,} bytes in {time.perf_counter() - begin:.1f} s")
    note.session.close()
    child, terminal = pty.fork()
    if not child:
        os.execv(NOTE, [NOTE, "large"])
    fcntl.ioctl(terminal, termios.TIOCSWINSZ, struct.pack("HHHH", ROWS, COLUMNS, 0, 0))
    answered(terminal, quiet=2)
    for _ in range(20):
        os.write(terminal, DOWN)
    answered(terminal, quiet=1)
    for what, key in (("a letter", b"x"), ("Backspace", ERASE)):
        measure(terminal, what, key)
    for what, key in (("Ctrl-Z", UNDO), ("Enter", b"\r"), ("PgUp", UP), ("PgDn", DOWN)):
        measure(terminal, what, key, FEW)
    processes = multiprocessing.get_context("spawn")
    begun = processes.Event()
    other = processes.Process(target=type_beside, args=(begun,), daemon=True)
    other.start()
    begun.wait()
    answered(terminal, quiet=1)
    for what, key in (("a letter", b"x"), ("Backspace", ERASE), ("Ctrl-Z", UNDO)):
        measure(terminal, f"beside: {what}", key)
    other.terminate()
    os.close(terminal)
    os.waitpid(child, 0)


if __name__ == "__main__":
    main()
