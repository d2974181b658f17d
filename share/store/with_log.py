"""What a note's file and its log have together, read without a number."""
import pathlib
from collections.abc import Callable, Iterator
from contextlib import ExitStack, closing, contextmanager, suppress

from share.admission.ledger import Row
from share.format.entry import Bad, Entry, Form, digest
from share.format.link import is_network
from share.log.base import START, InLog, Log, LogLost, Unreachable
from share.log.opening import open_log, opener_of
from share.log.sqlite_file import copied
from share.store.guarded import Damaged, Unkept
from share.store.note_file import Disk
from share.store.read_only import Faults, Judged
from share.text.errors import Trouble, entries

# How often a log is read that loses entries meanwhile.
READ_TRIES = 3


def with_log(found: Judged, url: str, password: str | None, keep: Callable[[list[Entry]], None] = lambda new: None) -> Judged:
    """What a file has and what a log has besides, which is judged a page at a time, and may be kept."""
    wrong, strange = Faults("the log"), set[str]()
    unread: list[str] = []
    form, seen = found.about.form(), set[bytes]()
    try:
        for page in _pages(url, form, password):
            raws = {digest(one.raw): one.raw for one in page if one.raw is not None}
            strange |= {one.place for one in page if one.raw is None}
            new = [raw for of, raw in raws.items() if not found.has(of) and of not in seen]
            opened = form.open_many(new)
            for raw, one in zip(new, opened):
                if isinstance(one, Bad):
                    wrong.add(one)
                    seen.add(digest(raw))
            right = [one for one in opened if not isinstance(one, Bad)]
            found.add(Row(0, one, False) for one in right)
            keep(right)
    except (Unreachable, Trouble) as why:
        unread = [f"The log can't be read ({why}); what was printed is what is here."]
    told = [f"{entries(len(strange))} of the log can't be read."] if strange else []
    return found._replace(faults=[*found.faults, *unread, *wrong.words(), *told])


def keep_in(path: pathlib.Path) -> Callable[[list[Entry]], None]:
    """What puts entries that came from a log into a note's file, as far as that can be. Whoever has the note open does so by itself."""

    def keep(new: list[Entry]) -> None:
        with suppress(Unkept, Damaged, Trouble, OSError):
            if new:
                with closing(Disk(path)) as disk:
                    if not disk.locked():
                        disk.keep(new, made=False)

    return keep


def _pages(url: str, form: Form, password: str | None) -> Iterator[list[InLog]]:
    """All that a log has, page by page; from the front again where it loses entries meanwhile."""
    for _ in range(READ_TRIES):
        try:
            with _opened(url, form, password) as log:
                after = START
                while page := log.read(after):
                    yield page
                    after = page[-1].place
            return
        except LogLost:
            continue
    raise Unreachable(f"{url} is damaged, or loses entries as it is read")


@contextmanager
def _opened(url: str, form: Form, password: str | None) -> Iterator[Log]:
    """A log. Of a file it is a copy, since a log that is opened is written to, and set aside where it is damaged."""
    with ExitStack() as stack:
        if is_network(url):
            yield stack.enter_context(closing(opener_of(url, form, password)()))
            return
        try:
            if not pathlib.Path(url).exists():
                raise Unreachable(f"{url} isn't there")
            copy = stack.enter_context(copied(pathlib.Path(url)))
        except OSError as why:
            raise Unreachable(f"{url}: {why.strerror}") from why
        yield stack.enter_context(closing(open_log(str(copy), form.note)))
