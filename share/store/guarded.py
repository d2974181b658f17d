"""A note's file of SQLite as one thread has it open, looked at before each use: whether another program cut it off, wrote to it, or took it
or what belongs to it away."""
import contextlib
import pathlib
from collections.abc import Callable, Collection, Iterator

from share.log.folder import inode_of, undisturbed
from share.log.sqlite_file import Busy, Malformed, SqliteFile, application_without_log, fault_in
from share.store import unchanged
from share.text.errors import later


# All of SQLite's log is looked at for each key. While there is time its pages go into the file as soon as it has this many bytes more.
LOG_BYTES = 2**18


class Unkept(Exception):
    """The disk didn't take what was to be written, and has all that was there before; in words."""


class Damaged(Exception):
    """The file isn't there any more, or is another one, or can't be read: it has to be written anew."""


class Changed(Damaged):
    """The file is there, and another program changed it or what belongs to it: nothing more may be written to it."""


class GuardedFile:
    """A file that is of an application and has some tables. Whatever is asked of it by `sql` is asked within `reading` or `writing`, which
    say Unkept, Damaged or Changed."""

    def __init__(self, path: pathlib.Path, applications: Collection[int], tables: Collection[str]):
        self.path, self._name, self._applications = path, str(path), applications
        # Empty, SQLite would take it for a new one, and remove what belongs to it.
        if not path.exists() or not path.stat().st_size:
            raise Damaged(f"{path} isn't there" if not path.exists() else f"{path} is empty")
        # How those left it who have it open in this process.
        self._left: unchanged.FileWatch | None = None
        if fault := unchanged.fault(path):
            raise Changed(fault)
        self._version = self._shortened = 0
        self._reading, self._explaining = _Reading(self.see, self._explain), _Reading(lambda: None, self._explain)
        with undisturbed(path.parent):
            self._begin(tables)

    def _begin(self, tables: Collection[str]) -> None:
        with self.reading():
            self.sql = SqliteFile(self.path)
        try:
            with self.reading():
                self._open(tables)
        except BaseException:
            self.close()
            raise

    def _open(self, tables: Collection[str]) -> None:
        self.inode = inode_of(self.path)
        if self.sql.is_later(self._applications):
            raise later(str(self.path))
        if self.sql.application() not in self._applications:
            raise Damaged(f"{self.path} isn't a note's file")
        self.sql.safe()
        self.sql.keep_log_short(unchanged.LOG_PAGES)
        if not self.sql.has_tables(tables):
            raise Damaged(f"{self.path} lacks some of its tables")
        # Read once, it has beside it what belongs to it.
        self._left = unchanged.left(self.path)

    def reading(self) -> contextlib.AbstractContextManager[None]:
        """What is asked meanwhile is asked of a file of which nothing was cut off or taken away: a process that reads an index that was
        cut off is ended for it. Says Unkept or Damaged of what SQLite can't do."""
        return self._reading

    @contextlib.contextmanager
    def writing(self, is_seen: bool = False) -> Iterator[None]:
        """The same, and what is written meanwhile is written as a whole or not at all. Who has just looked at the file says so."""
        with self._explaining if is_seen else self._reading, self._written(), self.sql.transaction():
            yield

    @contextlib.contextmanager
    def transaction(self) -> Iterator[None]:
        """The same within `reading`."""
        with self._written(), self.sql.transaction():
            yield

    def _written(self) -> contextlib.AbstractContextManager[None]:
        return self._left.written() if self._left else contextlib.nullcontext()

    def look(self, read_again: Callable[[], None], at_end: bool = False) -> bool:
        """Sees that a file that is in its place is what was written; where another program wrote to it, by what reading it again says. At
        the end that is done, too, where SQLite wrote there what wasn't looked at. Whether it needn't be read."""
        self.see()
        if self._left and (fault := self._left.fault_of_log(at_end)):
            raise Changed(fault)
        if not self._left or not (state := self._left.unknown(at_end)):
            return True
        try:
            read_again()
        except Damaged as why:
            raise Changed(f"another program wrote to it: {why}") from why
        self._left.knows(state)
        return False

    def look_at_unseen(self, read: Callable[[], None]) -> bool:
        """Looks at what was written and nobody has looked at, and reads what of that is in the file itself; whether there was any. All that
        have it open hear what is wrong with it."""
        if self._left and not self._left.sum_up():
            raise Damaged(f"the log beside {self.path} was written to")
        if not self._left or not (state := self._left.unseen()):
            return False
        try:
            read()
        except Damaged:
            self._left.doubts()
            raise
        self._left.saw(state)
        return True

    def has_long_log(self) -> bool:
        """Whether SQLite's log has become long since it was last shortened, if it was."""
        ahead = self._left.ahead() if self._left else 0
        # It is shorter where it has begun anew.
        self._shortened = min(self._shortened, ahead)
        return ahead >= self._shortened + LOG_BYTES

    def shorten_log(self) -> None:
        """Has what SQLite's log has go into the file, so that what writes next needn't do so, and has less to look at. What is in the
        log was looked at just now."""
        if self._left:
            self._shortened = self._left.ahead()
            with self._reading, self._left.written(moves=True):
                self.sql.shorten_log()

    def check(self) -> None:
        """Looks whether all of the file can be read."""
        with self.reading():
            found = self.sql.execute("PRAGMA quick_check(1)").fetchone()[0]
            application = application_without_log(self.path)
        if found != "ok":
            raise Damaged(f"{self.path}: {found}")
        if application not in self._applications:
            raise Damaged(f"{self.path} doesn't begin as a note's file")

    def is_in_place(self) -> bool:
        """Whether the file is still the one under its name."""
        return inode_of(self._name) == self.inode

    def has_changed(self) -> bool:
        """Whether another connection wrote since this was last asked."""
        with self.reading():
            version = self.sql.one("PRAGMA data_version")
        changed, self._version = version != self._version, version
        return changed

    def close(self) -> None:
        """Lets go of the file."""
        left, self._left = self._left, None
        # With the last of those that have it open goes what belongs to it.
        if left:
            left.let_go()
        self.sql.close()

    def see(self) -> None:
        """Raises Changed where something of the file was cut off or taken away."""
        if self._left and (fault := self._left.fault()):
            raise Changed(fault)

    def _explain(self, why: BaseException) -> None:
        """Says Unkept or Damaged of what SQLite raised."""
        fault = fault_in(why)
        if isinstance(fault, Busy) and self.path.exists():
            raise Unkept(f"{self.path}: {fault}") from why
        if isinstance(fault, (Busy, Malformed)):
            # Another thread that has it open may have seen none of it.
            unchanged.doubt(self.path)
            raise Damaged(f"{self.path}: {fault}") from why


class _Reading(contextlib.AbstractContextManager[None]):
    """What is done before a file is used, and with what is raised meanwhile. One serves all uses, within one another too."""

    def __init__(self, begins: Callable[[], None], fails: Callable[[BaseException], None]):
        self._begins, self._fails = begins, fails

    def __enter__(self) -> None:
        self._begins()

    def __exit__(self, _: object, why: BaseException | None, where: object) -> None:
        if why is not None:
            self._fails(why)
