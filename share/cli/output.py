"""What is printed. A terminal does what control characters say, whoever typed them, so it is sent none."""
import json
import sys
from collections.abc import Callable, Iterable

from share.editors.terminal.keys import safe_for_terminal
from share.text.line import Line

# How much of a text is shown in a line.
MOST_QUOTED = 60
# The status where something is missing in what was printed.
INCOMPLETE = 3


def print_text(text: str) -> None:
    """Prints a text."""
    print_bytes((safe_for_terminal(text, "\n\t") if sys.stdout.isatty() else text).encode())


def print_bytes(data: bytes) -> None:
    """Prints bytes as they are."""
    sys.stdout.buffer.write(data)
    sys.stdout.buffer.flush()


def print_json(line: Line, missing: list[str]) -> int:
    """Prints data; the status."""
    print_bytes(json.dumps(line, ensure_ascii=sys.stdout.isatty()).encode() + b"\n")
    return report_missing(missing)


def report(lines: Iterable[str]) -> None:
    """Says something on standard error."""
    for one in lines:
        print(f"note: {safe_for_terminal(one)}", file=sys.stderr)


def says_once(name: str) -> Callable[[str], None]:
    """Says on standard error what a note is waited for, each thing once."""
    said = set[str]()

    def says(what: str) -> None:
        if what and what not in said:
            said.add(what)
            report([f"{name}: {what}"])

    return says


def report_missing(missing: list[str]) -> int:
    """Says what is missing in what was printed; the status."""
    report(missing)
    return INCOMPLETE if missing else 0


def quoted(text: str) -> str:
    """The begin of a text, in quotes."""
    cut = text if len(text) <= MOST_QUOTED else text[:MOST_QUOTED - 1] + "…"
    return repr(cut)
