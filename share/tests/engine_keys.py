"""Measures how long a key takes at an engine that has a note of 1 MB open: from the request to its answer, and to
another editor's notice, of the same person and of another one with the same log.

    python3 -m share.tests.engine_keys [FORM ..]

Notes are of the first form, or of those that are named, by turns.
"""
import os
import pathlib
import random
import shutil
import sys
import tempfile
import time
from collections.abc import Callable

from share.store import notes
from share.tests.editors import Editor
from share.tests.keystroke import LINE, SIZE
from share.tests.support import Person

KEYS = 200


def shown(what: str, seconds: list[float]) -> None:
    """Prints how long something took."""
    seconds.sort()
    print(f"{what:<42} {1000 * seconds[len(seconds) // 2]:6.1f} ms by the median, "
          f"{1000 * seconds[len(seconds) * 95 // 100]:6.1f} of 95 in 100, {1000 * seconds[-1]:6.1f} at most", flush=True)


def waited(editor: Editor, is_done: Callable[[], object]) -> float:
    """When something was so."""
    editor.wait_for(is_done, "a line")
    return time.perf_counter()


def measure(what: str, writer: Editor, reader: Editor) -> None:
    """Types letters, and prints how long it took until they were answered, and until another one had them."""
    answers, notices = [], []
    for number in range(KEYS):
        time.sleep(0.03 * random.random())
        version = reader.mirror.version
        begin = time.perf_counter()
        writer.edit((number, number, "x"))
        answers.append(waited(writer, lambda: writer.mirror.answered == writer.mirror.made) - begin)
        notices.append(waited(reader, lambda: reader.mirror.version > version) - begin)
    shown(f"{what}: to the answer", answers)
    shown(f"{what}: to the other's text", notices)


def main() -> None:
    """Measures in notes of the forms that are named."""
    os.environ["VIALSHOAL_ZERO_BITS"] = "0"
    for form in sys.argv[1:] or ["1"]:
        os.environ["VIALSHOAL_FORM"] = form
        folder = pathlib.Path(tempfile.mkdtemp(prefix="share-"))
        try:
            of_one_note(folder, form)
        finally:
            shutil.rmtree(folder)


def of_one_note(folder: pathlib.Path, form: str) -> None:
    """Makes a note, opens it in three editors, and types."""
    log = str(folder / "shared" / "note.log")
    first = Editor(folder / "ada", log=log)
    first.gets_number()
    begin = time.perf_counter()
    first.edit((0, 0, "".join(LINE.format(number) for number in range(SIZE // len(LINE.encode())))))
    first.settle()
    print(f"form {form}, at a load of {os.getloadavg()[0]:.0f}: typed in one go: {SIZE:,} bytes in {time.perf_counter() - begin:.1f} s")
    second = Editor(folder / "ada")
    with Person(folder / "ada").here():
        link = notes.link_to("note")
    third = Editor(folder / "bo", link=link)
    third.wait_for(lambda: third.text == first.text, "the note")
    measure("one engine", first, second)
    measure("two people, a log in a file", first, third)
    for editor in first, second, third:
        editor.close()


if __name__ == "__main__":
    main()
