"""Scripts that a packaged program is asked, with their answers."""
from __future__ import annotations

from collections.abc import Iterator

from tools import rows
from tools.running import Stream


def plain_rows() -> Iterator[rows.Row]:
    """The rows that are a script and its answers alone."""
    for name in rows.names():
        row = rows.load(name)
        is_plain = not (row.words or row.files or row.files_after or row.digest or row.status or row.complaint)
        if is_plain and (row.output, row.errors) == (Stream.READ, Stream.READ) and row.script.isascii() and b"\r" not in row.script:
            yield row
