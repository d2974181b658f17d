"""Holds the answers of a run in which one allocation was refused to what the definition of the events allows."""
from __future__ import annotations

import re
from collections.abc import Callable, Sequence

from tools.packed.chunks import chunk_of, read_chunk
from tools.refusals.asking import QUERIES, Answer, Played, site_of, verb_of
from tools.refusals.scripts import LONGEST_INSERT
from tools.refusals.tally import Difference, Outcome, Tally
from tools.running import Files

NO_MEMORY = "refused 7"
NOT_WRITTEN = "refused 22"
# A site that takes in what another one sent, to be compared with it.
READER = "9"

Ample = Callable[..., tuple[list[Answer], Files]]


class Judge:
    """Judges runs of one script."""

    def __init__(self, ample: Ample, played: Played, mended: dict[int, int], tally: Tally) -> None:
        self.ample, self.played, self.mended, self.tally = ample, played, mended, tally
        self.wanted, self.left = ample(played.lines)

    def line(self, at: int) -> str:
        return self.played.lines[at][:60]

    def outcome(self, answers: list[Answer], files: Files) -> Outcome:
        at = next((i for i, (a, b) in enumerate(zip(answers, self.wanted)) if a != b), None)
        if at is None:
            self.same(answers, self.wanted, files, self.left, "though no answer reports a refusal")
            return Outcome.NO_EFFECT
        verb, last = verb_of(self.played.lines[at]), answers[at][-1]
        if answers[at] == [NO_MEMORY] and verb in QUERIES:
            changed = self.wanted[:at] + [[NO_MEMORY]] + self.wanted[at + 1 :]
            self.same(answers, changed, files, self.left, "after a query that was refused")
            return Outcome.QUERY_REFUSED
        if answers[at] == [NO_MEMORY]:
            return self.refused(at, answers, files)
        if answers[at] == [NOT_WRITTEN] and verb in ("click", "keep"):
            self.refused(at, answers, None)
            return Outcome.NOT_WRITTEN
        if re.fullmatch(r"partial \d+ 7", last):
            return self.partial(at, answers, files, int(last.split()[1]))
        if last.endswith(" stopped"):
            self.made_up_for(at, answers, files, int(last.split()[1]))
            return Outcome.STOPPED
        raise Difference(f"`{self.played.lines[at]}` is answered {answers[at]}, and not {self.wanted[at]}")

    def same(
        self, answers: Sequence[Answer], wanted: Sequence[Answer], files: Files | None, left: Files, when: str
    ) -> None:
        """Compares all answers, and the files where there are some to compare."""
        for line, answer, want in zip(self.played.lines, answers, wanted):
            if answer != want:
                raise Difference(f"{when}, `{line[:60]}` is answered {str(answer)[:200]}, and not {str(want)[:200]}")
        if files is not None and files != left:
            raise Difference(f"{when}, other files are left")

    def refused(self, at: int, answers: list[Answer], files: Files | None) -> Outcome:
        """All that follows a refused event is what the script without that event is answered."""
        before, after = self.played.before(at, answers), self.played.after(at, answers)
        for query, answer in after.items():
            if before.get(query, answer) != answer:
                raise Difference(f"`{self.line(at)}` was refused, but `{query}` has another answer after it: {answer}")
        wanted, left = self.ample(self.played.without(at))
        wanted = wanted[:at] + [answers[at]] + wanted[at:]
        self.same(answers, wanted, files, left, f"after `{self.line(at)}`, which was refused")
        return Outcome.EVENT_REFUSED

    def partial(self, at: int, answers: list[Answer], files: Files, done: int) -> Outcome:
        """Of an edit exactly the first messages were sent; of a merge what makes up for it is to be asked for; of a chunk the first
        operations were handed in."""
        line, wanted = self.played.lines[at], self.wanted[at]
        if verb_of(line) == "merge":
            self.made_up_for(at, answers, files, done)
            return Outcome.PARTIAL
        if verb_of(line) == "unpack":
            self.unpacked_in_part(at, answers, files, done)
            return Outcome.PARTIAL
        if answers[at][:-1] != wanted[:done] or not 0 < done < len(wanted) - 1:
            raise Difference(f"of `{self.line(at)}` other messages were sent than the first {done}")
        self.tally.add_part(verb_of(line), done, len(wanted) - 1)
        if verb_of(line) == "type":
            words = line.split(" ", 4)
            part = self.as_its_part_alone(at, " ".join(words[:4] + [words[4][: done * LONGEST_INSERT]]), answers, files)
            if part != wanted[:done] + ["ok"]:
                raise Difference(f"the first part of `{self.line(at)}` alone is answered {part}")
        else:
            self.mirrored(at, answers)
        return Outcome.PARTIAL

    def unpacked_in_part(self, at: int, answers: list[Answer], files: Files, done: int) -> None:
        """All goes on as after the chunk of the first operations."""
        site, verb, text, spelled = self.played.lines[at].split()
        chunk = read_chunk(bytes.fromhex(spelled))
        if not 0 < done < len(chunk.placed):
            raise Difference(f"`{self.line(at)}` is answered {answers[at]}, but has {len(chunk.placed)} operations")
        self.tally.add_part(verb, done, len(chunk.placed))
        first = chunk_of(chunk.text, chunk.placed[:done])
        part = self.as_its_part_alone(at, f"{site} {verb} {text} {first.hex()}", answers, files)
        if not part[0].startswith("unpacked "):
            raise Difference(f"the first part of `{self.line(at)}` alone is answered {part}")

    def as_its_part_alone(self, at: int, part: str, answers: list[Answer], files: Files) -> Answer:
        """After a part of an event all goes on as after an event that is just this part; what this is answered."""
        found, left = self.ample(self.played.lines[:at] + [part] + self.played.lines[at + 1 :])
        wanted = found[:at] + [answers[at]] + found[at + 1 :]
        self.same(answers, wanted, files, left, f"after `{self.line(at)}`, of which a part was done")
        return found[at]

    def mirrored(self, at: int, answers: list[Answer]) -> None:
        """After a part of an edit, and at the end, a site shows what another one does that takes all its messages."""
        if len({site_of(line) for line in self.played.lines}) != 1:
            raise Difference(f"what a part of `{self.line(at)}` comes to can't be compared where there are several sites")
        for event in {at, self.played.events[-1]}:
            shown = self.played.after(event, answers)
            sent = [line.split()[2] for answer in answers[: event + 1] for line in answer if line.startswith("send ")]
            asked = [query for query in shown if verb_of(query) in ("text", "runs", "front")]
            lines = [f"{READER} take {int(message[8:12], 16)} {message}" for message in sent]
            lines += [" ".join([READER, *query.split()[1:]]) for query in asked]
            held = self.ample(lines, ("--first", READER, "--count", "1"))[0][len(sent) :]
            for query, answer in zip(asked, held):
                if shown[query] != answer:
                    raise Difference(
                        f"after a part of `{self.line(at)}`, `{query}` is answered {shown[query]}, and not {answer}"
                    )

    def made_up_for(self, at: int, answers: list[Answer], files: Files, done: int) -> None:
        """What makes up for a part brings the rest, and from there on all is as with ample memory. What a chunk's operation left
        in the room another one of it may drain."""
        which = self.played.events.index(at)
        if which not in self.mended:
            raise Difference(f"`{self.line(at)}` is answered {answers[at]}, for which nothing makes up here")
        total, mend = self.mended[which], self.played.events[which + 1]
        given = re.fullmatch(r"(?:settled|merged) (\d+)(?: 0)?", answers[mend][-1])
        has_rest = done < total or verb_of(self.played.lines[at]) == "unpack"
        if not given or not has_rest or done + int(given[1]) != total:
            raise Difference(f"`{self.line(at)}` is answered {answers[at]}, and then {answers[mend]}")
        self.tally.add_part(verb_of(self.played.lines[at]), done, total)
        rest = self.wanted[: mend + 1] + answers[mend + 1 :]
        self.same(rest, self.wanted, files, self.left, f"after what makes up for `{self.line(at)}`")
