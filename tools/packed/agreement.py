"""Holds the program's packed files and chunks to what tools/packed reads and writes, over texts that were written at random.

Of each site's text the program keeps a packed file and prints the messages and the chunks: each has to be what the others are
packed as. Then the file is cut and changed, and reopened: the program has to take the files that are read here, and no others,
and has to have the operations that were read. Chunks of these operations, some of them changed, and messages are handed to
sites: the program has to answer what is worked out here."""
from __future__ import annotations

import argparse
import random
import sys
from collections import Counter
from collections.abc import Callable, Iterator, Sequence
from functools import partial
from pathlib import Path

from tools.packed import changed
from tools.packed.chunks import pack as chunks_of
from tools.packed.cursor import Refused
from tools.packed.events import NO_CODES, TEXTS, Draw, Pasted, Script
from tools.packed.files import head, read_file
from tools.packed.messages import Operation, read_message, spelled_message
from tools.packed.packed import CODES, DEFAULT_LOOKS, pack, parts, spelled_number
from tools.packed.runs import SITES, Fault, Kept, Program, Tally, kept_by
from tools.packed.unpacking import unpack, unpack_all
from tools.play_rows import NOTHING_BUILT, program
from tools.rows import difference
from tools.running import Files, folder_in_memory

SEEDS = range(1, 41)
# How many other files are made of one, where not said.
OTHERS = 100
# How many files can be good in one script, with one text left.
AT_ONCE = SITES * TEXTS - 1
# How many files are made for one text that is handed chunks.
FILES_A_TEXT = 4
HEAD = len(head(1, 1))


def site_file(text: int, site: int, messages: Sequence[bytes]) -> bytes:
    """The file of messages as they are."""
    numbers = text.to_bytes(2, "big") + site.to_bytes(2, "big") + len(messages).to_bytes(4, "big")
    return b"OTS1" + numbers + b"".join(len(each).to_bytes(2, "big") + each for each in messages)


def compare(kept: Kept, tally: Tally) -> None:
    """The files have the messages, and the messages are packed as the file."""
    read = read_file(kept.packed)
    if [*map(spelled_message, read.operations)] != kept.messages:
        raise Fault(f"{kept.packed.hex()} is read as other operations than site {kept.site} has")
    if (read.text, read.site) != (kept.text, kept.site) or head(kept.text, kept.site) + pack(kept.messages) != kept.packed:
        raise Fault(f"the messages of site {kept.site} are packed as other bytes than {kept.packed.hex()}")
    if site_file(kept.text, kept.site, kept.messages) != kept.plain:
        raise Fault(f"the messages of site {kept.site} are kept as {kept.plain.hex()}")
    if chunks_of(kept.text, read.operations) != kept.chunks or chunks_of(kept.text, read.operations, kept.fronts) != kept.beyond:
        told = [[each.hex() for each in chunks] for chunks in (kept.chunks, kept.beyond)]
        raise Fault(f"what site {kept.site} has, and what beyond {kept.fronts}, is packed as {told}")
    tally.answers["chunks printed"] += len(kept.chunks) + len(kept.beyond)
    tally.operations.update(f"of {type(operation.kind).__name__}" for operation in read.operations)


def other_bytes(history: bytes, rng: random.Random, most: int) -> Iterator[bytes]:
    """Beginnings, and the history with a byte that is another, is put in, or is left out; at this many places."""
    for at in rng.sample(range(len(history)), min(len(history), most)):
        byte = history[at]
        code = bytes([rng.choice([*CODES, *NO_CODES, 0x61, 0x80])])
        yield history[:at]
        for instead in (bytes([byte ^ 1 << rng.randrange(8)]), code, code + bytes([byte]), b"", bytes([byte | 0x80, 0])):
            yield history[:at] + instead + history[at + 1 :]


def other_orders(messages: Sequence[bytes]) -> Iterator[bytes]:
    """The history with what one operation adds left out, twice, or before what the one before adds."""
    each = [*parts(messages)]
    for at, part in enumerate(each):
        yield b"".join([*each[:at], *each[at + 1 :]])
        yield b"".join([*each[:at], part, *each[at:]])
        yield b"".join([*each[: max(0, at - 1)], part, *each[max(0, at - 1) : at], *each[at + 1 :]])


def needless(messages: Sequence[bytes]) -> Iterator[bytes]:
    """The history with what needn't be said before what an operation adds: its site, stamp, looks or place as they are expected."""
    each = [*parts(messages)]
    for at, message in enumerate(messages):
        site = spelled_number(read_message(message).site)
        for said in (b"\1" + site + b"\0", b"\2\0", b"\3" + DEFAULT_LOOKS, b"\4\0"):
            yield b"".join([*each[:at], said, *each[at:]])


def others(kept: Kept, rng: random.Random, most: int) -> list[bytes]:
    """The history itself, and some of those that are made of it."""
    made = [*other_bytes(kept.packed[HEAD:], rng, most), *other_orders(kept.messages), *needless(kept.messages)]
    return [kept.packed[HEAD:], *rng.sample(made, min(len(made), most))]


def other_heads(rng: random.Random, text: int, site: int) -> list[bytes]:
    """The head with each byte changed in turn; the tag isn't made another that is known."""
    whole = head(text, site)
    changed = [whole[:at] + bytes([byte ^ 1 << rng.randrange(8)]) + whole[at + 1 :] for at, byte in enumerate(whole)]
    return [*changed, *(whole[:length] for length in range(HEAD))]


def reopened(data: bytes, site: int, text: int) -> tuple[str, Sequence[Operation]]:
    """What the reopening of a file is to be answered, and the operations that the text has then."""
    try:
        file = read_file(data)
    except Refused:
        return "refused 13", ()
    return ("ok", file.operations) if (file.site, file.text) == (site, text) else ("refused 2", ())


class Reopening:
    """A script that reopens files, each in a text of a site in which nothing was done yet, and what it is to be answered."""

    def __init__(self) -> None:
        self.free = [(site, text) for site in range(1, 1 + SITES) for text in range(1, 1 + TEXTS)]
        self.lines: list[str] = []
        self.wanted: list[str] = []
        self.files: Files = {}
        self.left: Files = {}
        self.answers: Counter[str] = Counter()

    def add(self, data: bytes) -> None:
        """Reopens a file; where it is good, its messages are printed, and it is kept under another name."""
        site, text = self.free[0]
        name = f"f{len(self.files)}"
        self.files[name] = data
        self.lines.append(f"{site} reopen {text} {name}")
        answer, operations = reopened(data, site, text)
        self.wanted.append(answer)
        self.answers[f"answered {answer}"] += 1
        if answer == "ok":
            self.free.pop(0)
            self.lines += [f"{site} since {text}", f"{site} keep {text} {name}k packed"]
            self.wanted += [*(f"message {spelled_message(each).hex()}" for each in operations), "ok", "ok"]
            self.left[f"{name}k"] = data

    def hold(self, runs: Program) -> None:
        wrote, files = runs.play(self.lines, self.files)
        wanted = "".join(f"{line}\n" for line in self.wanted).encode()
        if found := difference("the output", wrote, wanted):
            raise Fault("\n".join([*found, *self.lines, *(f"{name} {data.hex()}" for name, data in self.files.items())]))
        for name, data in self.left.items():
            if files.get(name) != data:
                raise Fault(f"{data.hex()} is reopened, and then kept as other bytes")


def reopen(kept: Kept, histories: Sequence[bytes], runs: Program, rng: random.Random, tally: Tally) -> None:
    """Reopens histories under their right head, and what was kept under others."""
    reopening = Reopening()
    for history in histories:
        site, text = reopening.free[0]
        reopening.add(head(text, site) + history)
    site, text = reopening.free[0]
    for begin in other_heads(rng, text, site):
        reopening.add(begin + kept.packed[HEAD:] if len(begin) == HEAD else begin)
    reopening.hold(runs)
    tally.answers += reopening.answers


def compared(runs: Program, script: Script, tally: Tally) -> list[Kept]:
    """What the sites of a script have, where all of it agrees."""
    kept = [*kept_by(runs, script)]
    for each in kept:
        compare(each, tally)
    return kept


def play_pasted(runs: Program, tally: Tally) -> str:
    """What is wrong with a text of many chunks."""
    try:
        unpack_all(compared(runs, Pasted(), tally)[0], runs, tally)
    except (Fault, Refused) as why:
        return f"{why}"
    return ""


def play(runs: Program, seed: int, most: int, tally: Tally) -> str:
    """What is wrong with a seed's texts, and the script that made them; nothing where all is well."""
    draw, rng = Draw(seed), random.Random(f"others {seed}")
    try:
        kept = compared(runs, draw, tally)
        one = rng.choice(kept)
        histories = others(one, rng, most)
        for at in range(0, len(histories), AT_ONCE):
            reopen(one, histories[at : at + AT_ONCE], runs, rng, tally)
        unpack(rng.choice(kept), -(-most // FILES_A_TEXT), runs, rng, tally)
    except (Fault, Refused) as why:
        return "\n".join([*draw.lines, f"{why}"])
    return ""


def parser() -> argparse.ArgumentParser:
    words = argparse.ArgumentParser(prog="agreement", description=__doc__, formatter_class=argparse.RawDescriptionHelpFormatter)
    words.add_argument("--others", type=int, default=OTHERS, help=f"how many other files are made of one ({OTHERS})")
    words.add_argument("seeds", type=int, nargs="*", help="what the scripts are drawn from (1 to 40)")
    return words


def main(words: Sequence[str]) -> int:
    given, command = parser().parse_args(words), program()
    if command is None:
        print(f"agreement: {NOTHING_BUILT}", file=sys.stderr)
        return 2
    tally, failed = Tally(), 0
    with folder_in_memory("agreement-") as room:
        runs = Program(command, Path(room))
        plays: dict[str, Callable[[], str]] = {}
        if not given.seeds:
            plays = {"what is pasted": partial(play_pasted, runs, tally), "changed messages": partial(changed.play, runs, tally)}
        plays |= {f"seed {seed}": partial(play, runs, seed, given.others, tally) for seed in given.seeds or SEEDS}
        for name, one in plays.items():
            if wrong := one():
                failed += 1
                print(f"{name}:\n{wrong}")
    print(tally)
    print(f"{len(plays) - failed} passed, {failed} failed")
    return 1 if failed else 0
