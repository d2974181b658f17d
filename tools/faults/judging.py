"""Compares a run in which a call failed, or in which the program was killed at it, with what the pages say."""
from __future__ import annotations

import errno
from enum import Enum

from tools.faults.faults import INTERRUPTED, NO_MEMORY
from tools.faults.playing import REMOVALS, Fault, Mode, Plain, Player, is_of_file
from tools.faults.tracing import EXIT, Call
from tools.refusals.scripts import Script
from tools.refusals.tally import Difference
from tools.rows import difference
from tools.running import Ended, Files

KILLED = -9
BROKEN_OFF = b"refused 21\n"
# How the names of the files begin that a killed write leaves.
BESIDE = ".file-of-a-text-that-is-not-whole-yet-"


class Outcome(Enum):
    """What came of a call that failed, where all is as it has to be."""

    SAME = "as undisturbed"
    REFUSED = "events refused"
    BROKEN_OFF = "broken off"
    CUT = "output cut"
    KILLED = "killed"
    WENT_ON = "killed with a file left, and played again"


def hold(ended: Ended, status: int, wrote: bytes, files: list[Files]) -> None:
    """Fails where a run ended with another status or output, or left the files in none of these states."""
    if ended.status != status:
        raise Difference(f"it ended with {ended.status}, after {ended.wrote[-100:]!r}")
    if ended.complained:
        raise Difference(f"it complained: {ended.complained[:200]!r}")
    if ended.wrote != wrote:
        raise Difference(difference("the output", ended.wrote, wrote)[0])
    if ended.files not in files:
        raise Difference(f"other files are left: {sizes(ended.files)}")


def sizes(files: Files) -> str:
    return ", ".join(f"{name} of {len(content)} bytes" for name, content in files.items()) or "none"


def parted(files: Files) -> tuple[Files, Files]:
    """The files under their names, and those that aren't whole."""
    beside = {name: content for name, content in files.items() if name.startswith(BESIDE)}
    return {name: content for name, content in files.items() if name not in beside}, beside


def is_rename(call: Call) -> bool:
    return call.name.startswith(("rename", "link"))


def only_asks(call: Call) -> bool:
    """Whether a call has no buffer to fill. By such a call Rust's library asks once whether the system has it; if not, another does."""
    return call.result == -errno.EFAULT


class Judge:
    """Judges runs of one script, given in one mode."""

    def __init__(self, player: Player, plain: Plain) -> None:
        self.player, self.plain = player, plain
        self.beside = parted(plain.script.files)[1]

    def run(self, number: int, fault: Fault, removal: Fault | None = None) -> Outcome:
        ended = self.player.disturbed(self.plain, number, fault, removal)
        if ended.status == KILLED:
            return self.killed(number, fault, ended)
        if is_of_file(self.plain.calls[number]):
            return self.of_file(number, fault, removal, ended)
        return self.of_stream(number, fault, ended)

    def same(self, ended: Ended) -> Outcome:
        hold(ended, 0, self.plain.wrote, [self.plain.states[-1]])
        return Outcome.SAME

    def of_file(self, number: int, fault: Fault, removal: Fault | None, ended: Ended) -> Outcome:
        """The event of this call is answered by its fault, and all others are as in the script without it."""
        call, line = self.plain.calls[number], self.plain.lines[number] - 1
        if removal or call.name in REMOVALS:
            ended = self.without_left(ended)
        is_harmless = fault.count is not None or fault is INTERRUPTED or only_asks(call)
        needs_no_answer = is_harmless or call.name in ("close", "lseek", *REMOVALS)
        if needs_no_answer and ended.wrote == self.plain.wrote:
            return self.same(ended)
        if fault.count is not None:
            raise Difference(difference("the output", ended.wrote, self.plain.wrote)[0])
        if self.has_its_name(number):
            return self.refused_though_done(line, ended)
        found = Difference("no answer is right")
        for answer in self.refusals(line, fault):
            try:
                self.refused(line, answer, ended)
                return Outcome.REFUSED
            except Difference as why:
                found = why
        raise found

    def has_its_name(self, number: int) -> bool:
        """Whether the file that this call's event writes has its name already."""
        earlier = zip(self.plain.calls[:number], self.plain.lines)
        return any(is_rename(call) for call, line in earlier if line == self.plain.lines[number])

    def refused_though_done(self, line: int, ended: Ended) -> Outcome:
        """The new file is there, but the disk needn't have its name."""
        answers = self.plain.answers
        wrote = b"".join([*answers[:line], b"refused 22\n", *answers[line + 1 :]])
        hold(ended, 0, wrote, [self.plain.states[-1]])
        return Outcome.REFUSED

    def refusals(self, line: int, fault: Fault) -> list[str]:
        """What the event of a line may be answered."""
        if any(map(is_rename, self.plain.calls_of(line))):
            return ["refused 22"]
        return ["refused 21", *["refused 7"] * (fault is NO_MEMORY)]

    def refused(self, line: int, answer: str, ended: Ended) -> None:
        script = self.plain.script
        others = [it for at, it in enumerate(script.lines) if at != line]
        without = self.player.ended(script, others, script.files)
        answers = self.player.answers(Script(script.name, others, script.words), without)
        wrote = b"".join([*answers[:line], f"{answer}\n".encode(), *answers[line:]])
        hold(ended, 0, wrote, [without.files])

    def without_left(self, ended: Ended) -> Ended:
        """Takes away the file that couldn't be removed, after a look at how the script goes with it."""
        self.went_on(ended)
        named, _ = parted(ended.files)
        return Ended(ended.status, ended.wrote, ended.complained, {**named, **self.beside})

    def of_stream(self, number: int, fault: Fault, ended: Ended) -> Outcome:
        """A run whose reader fails has answered the lines that had ended, and then says so; one whose writer fails has
        written a prefix of what was due."""
        call, plain = self.plain.calls[number], self.plain
        # The buffer of the answers makes an interrupted write again.
        if call.name == "lseek" or fault.count is not None or (fault is INTERRUPTED and ended.status == 0):
            return self.same(ended)
        if call.stream == 0:
            count = plain.lines[number]
            hold(ended, 1, b"".join(plain.answers[:count]) + BROKEN_OFF, [plain.states[count]])
            return Outcome.BROKEN_OFF
        if len(ended.wrote) < plain.written_before(number):
            raise Difference("what was written is no longer there")
        hold(ended, 1, plain.wrote[: len(ended.wrote)], self.states_of(number, ended))
        return Outcome.CUT

    def states_of(self, number: int, ended: Ended) -> list[Files]:
        """The files that a run which stops at a call may leave with this output: an event whose answer is written was done, and
        one whose line wasn't read wasn't."""
        read, call = self.plain.lines[number], self.plain.calls[number]
        done = self.plain.whole_answers(ended.wrote)
        if self.plain.mode is Mode.TYPED or is_of_file(call):
            done = read if self.asks(call) else read - 1
        return self.plain.states[done : read + 1]

    @staticmethod
    def asks(call: Call) -> bool:
        """Whether the program makes this call only once all answers are out."""
        return call.stream == 0 or call.name == EXIT

    def killed(self, number: int, fault: Fault, ended: Ended) -> Outcome:
        """Killed anywhere, it has written a prefix of the answers, at any byte; where it asks for a line, all before it."""
        plain, call = self.plain, self.plain.calls[number]
        named, beside = parted(ended.files)
        hold(
            Ended(ended.status, ended.wrote, ended.complained, {**named, **self.beside}),
            KILLED,
            plain.wrote[: len(ended.wrote)],
            self.states_of(number, ended),
        )
        if plain.mode is Mode.TYPED and self.asks(call) and ended.wrote != b"".join(plain.answers[: plain.lines[number]]):
            raise Difference("a line is asked for before all answers are out")
        if beside == self.beside:
            return Outcome.KILLED
        self.went_on(ended)
        return Outcome.WENT_ON

    def went_on(self, ended: Ended) -> None:
        """At most one file is left that isn't whole, and with it the script is answered as without it."""
        script = self.plain.script
        named, beside = parted(ended.files)
        left = {name: content for name, content in beside.items() if self.beside.get(name) != content}
        if 1 < len(left) or set(self.beside) - set(beside):
            raise Difference(f"other files are left: {sizes(ended.files)}")
        wanted = self.player.ended(script, script.lines, {**named, **self.beside})
        again = self.player.ended(script, script.lines, ended.files)
        hold(again, 0, wanted.wrote, [{**wanted.files, **left}])
