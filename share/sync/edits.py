"""Edits that are made here: each is kept in the note's file before anyone sees it."""
from collections.abc import Callable, Sequence

from share.admission.judging import Counted
from share.format.chunk import packed_in_parts
from share.format.entry import Copy, Entry, Form
from share.format.operation import Operation
from share.program import retyping
from share.program.alike import One
from share.program.retyping import Lost
from share.program.site import Edited, Site
from share.program.trace import Traced, trace
from share.store.guarded import Unkept
from share.store.own import Anew, Client
from share.sync.numbers import FULL, Numbers
from share.sync.open_file import OpenFile
from share.sync.replica import Replica
from share.sync.replicator import Replicator
from share.sync.state import Holdings
from share.sync.status import Notices
from share.text.errors import Trouble

# What is said of messages, given the last entry that has some of them.
Says = Callable[[Entry], Sequence[Entry]]


class OwnEdits:
    """Makes edits at the replica's site, and puts them into the file. The editor's thread alone calls it."""

    def __init__(self, file: OpenFile, holdings: Holdings, form: Form, numbers: Numbers, replica: Replica,
                 replicator: Replicator, notices: Notices):
        self.text = replica.text
        self._file, self._holdings, self._form, self._numbers = file, holdings, form, numbers
        self._replica, self._replicator, self._notices = replica, replicator, notices
        # The last entry that was made here.
        self.last: Entry
        # Called with what counts since an edit, and after another number was taken: each is of all texts.
        self.elsewhere: Callable[[Counted], None] = lambda found: None
        self.took_another: Callable[[], None] = lambda: None
        self.goes_on()

    @property
    def author(self) -> Client:
        """Under which number edits are made."""
        return self._numbers.own

    def goes_on(self) -> None:
        """Begins after the last entry of this editor's number, which may be none that anybody can claim."""
        own, judge = self._numbers.own, self._holdings.judge
        self.last = judge.last(own.site, self.text) if judge.holder(own.site) else self._form.claim(own.site, own.author)

    def make(self, edit: Callable[[Site], Edited], says: Says = lambda last: ()) -> Edited:
        """Makes an edit, and keeps its messages before anyone sees them, with what is said of them."""
        self.make_room()
        if not (self._numbers.own.stood and self._holdings.judge.begun()):
            raise Trouble(self._numbers.why_none or "Nothing can be typed here until the log has given this editor a number of its own.")
        if self._replica.is_stale or self._holdings.is_anew():
            # What is typed would be said to build on what counts, and others than the user sees may count.
            raise Trouble("What counts of the note can't be shown yet. Type again as soon as it is.")
        site = self._replica.site
        before = len(site.history)
        try:
            edited = edit(site)
        except BaseException:
            # The site may have made some of it, which nobody would keep.
            site.go_back(before)
            raise
        # It goes on under another number before the next edit.
        self._numbers.is_full = self._numbers.is_full or edited.refused in FULL
        if edited.messages:
            self._keep_or_go_back(edited.messages, says, before)
        return edited

    def type_again(self, found: Sequence[Lost]) -> None:
        """Types again what was left out."""
        copies = list[tuple[One, Operation]]()

        def work(site: Site) -> Edited:
            gone = self._holdings.withdrawn()
            here = [row.entry for row in self._holdings.rows.each() if row.entry.hash not in gone]
            typed = retyping.type_again(self._form, found, here, self._holdings.judge, site)
            copies.extend(typed.copies)
            return typed.edited

        # Who has a copy has the word of it, too.
        self.make(work, lambda last: retyping.words_of(copies, self._form, self.author.author, last))

    def make_room(self, length: int = 0) -> None:
        """Goes on under another number where this one has little room left beside this many characters, or can make no
        more edits."""
        if not self._replica.is_stale and self._numbers.take_another_when_full(length):
            # What was read of the file meanwhile is looked at, and taken in, later.
            self._numbers.is_settled = False
            self.took_another()

    def keep(self, messages: Sequence[Operation], anew: Sequence[Anew] = (),
             says: Says = lambda last: (), hidings: Sequence[Copy] = ()) -> None:
        """Puts messages that the site made into the file, after what is said of them up to their last entry, and has them
        sent."""
        made = self._in_entries(messages)
        last = made[-1] if made else self.last
        said = says(last)

        def keep() -> range:
            if self._numbers.is_taken:
                raise Unkept("another editor of yours got this one's number")
            is_seen = self._file.look()
            return self._file.disk.keep([*said, *made], True, anew=anew, hidings=hidings, is_seen=is_seen)

        trace(Traced.EDIT, messages=len(messages), entries=len(made))
        places = self._file.mended(keep)
        self.last = last
        self._holdings.add([*said, *made], places)
        self._holdings.made_anew(anew, hidings)
        found = self._holdings.count()
        self._replica.made(messages, found)
        self.elsewhere(found)
        if found.anew:
            self._numbers.is_settled = False
        self._replicator.made(places[len(places) - len(made):])

    def _in_entries(self, messages: Sequence[Operation]) -> list[Entry]:
        """Messages as entries that follow the last one."""
        judge, own = self._holdings.judge, self._numbers.own
        made, before, done = list[Entry](), self.last, list[Operation]()
        for part in packed_in_parts(messages, judge.length(own.site, self.text)):
            before = self._form.entry(before, part, own.author, judge.built_on(part.operations, done))
            made.append(before)
            done += part.operations
        return made

    def _keep_or_go_back(self, messages: Sequence[Operation], says: Says, before: int) -> None:
        """Keeps messages; where that fails the site has only those it had before."""
        try:
            self.keep(messages, says=says)
        except Unkept as why:
            trace(Traced.EDIT_NOT_KEPT, messages=len(messages))
            self._replica.site.go_back(before)
            self._notices.trouble = f"The last edit couldn't be kept ({why}); all before it is. Make room on the disk."
            raise Trouble(self._notices.trouble) from why
        except BaseException:
            # It is perhaps kept, and perhaps not: what the file has of it is shown again.
            self._replica.site.go_back(before)
            self._replica.is_stale = True
            raise
        self._notices.trouble = None
