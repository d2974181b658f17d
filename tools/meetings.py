"""Three sites that write at random and apart, meet by what each has beyond another's fronts, and look back at texts as they were."""
from __future__ import annotations

import random
import sys
from collections.abc import Callable, Sequence

from tools import orders, screens, tracks
from tools.play_rows import NOTHING_BUILT, program
from tools.talking import Fault, Run, edit, edit_by_names, running, shown

SITES = (1, 2, 3)
STEPS = 120
APART = 10  # How many edits are made before two sites meet.
SEEDS = range(1, 11)


def hand_messages(run: Run, giver: int, taker: int) -> None:
    for line in run.ask(f"{giver} since 1{run.fronts(taker)}")[:-1]:
        answer = run.ask(f"{taker} take 1 {line.removeprefix('message ')}")
        if answer != ["taken 0 0"]:
            raise run.fault(f"a message is answered {answer}")


def hand_chunks(run: Run, giver: int, taker: int) -> None:
    lacked = len(run.ask(f"{giver} since 1{run.fronts(taker)}")) - 1
    answers = [
        run.ask(f"{taker} unpack 1 {line.removeprefix('chunk ')}") for line in run.ask(f"{giver} pack 1{run.fronts(taker)}")[:-1]
    ]
    if answers != [[f"unpacked {lacked} 0 0"]] * min(lacked, 1):
        raise run.fault(f"chunks of {lacked} operations are answered {answers}")


def hand_over(run: Run, giver: int, taker: int, draw: random.Random) -> None:
    """What the taker lacks is taken in, message by message or by chunks; then nothing is left."""
    draw.choice([hand_messages, hand_chunks])(run, giver, taker)
    left = run.ask(f"{giver} since 1{run.fronts(taker)}")
    if left != ["ok"]:
        raise run.fault(f"{len(left) - 1} messages are left")


def meet(run: Run, one: int, other: int, draw: random.Random) -> None:
    hand_over(run, one, other, draw)
    hand_over(run, other, one, draw)
    if shown(run, one) != shown(run, other):
        raise run.fault(f"sites {one} and {other} differ")


def write_and_meet(command: str, draw: random.Random) -> None:
    noted: list[tuple[str, str]] = []
    with running(command, len(SITES)) as run:
        for step in range(1, STEPS + 1):
            draw.choice([edit, edit, edit_by_names])(run, draw.choice(SITES), draw)
            site = draw.choice(SITES)
            noted.append((run.fronts(site), run.text(site)))
            if step % APART == 0:
                one, other = draw.sample(SITES, 2)
                meet(run, one, other, draw)
        for one, other in ((1, 2), (2, 3), (1, 2)):
            meet(run, one, other, draw)
        for fronts, text in noted:
            for site in SITES:
                if (then := run.text(site, f"past 1{fronts}")) != text:
                    raise run.fault(f"site {site} had {text!r} at{fronts}, and says {then!r}")


# What is played for each seed.
PLAYS: tuple[Callable[[str, random.Random], None], ...] = (write_and_meet, orders.play, screens.play, tracks.play)


def main(words: Sequence[str]) -> int:
    command = program()
    if command is None:
        print(f"meetings: {NOTHING_BUILT}", file=sys.stderr)
        return 2
    seeds = [int(word) for word in words] or SEEDS
    failed = 0
    for seed in seeds:
        for play in PLAYS:
            try:
                play(command, random.Random(seed))
            except Fault as fault:
                failed += 1
                print(f"seed {seed}:\n{fault}")
    print(f"{len(seeds) * len(PLAYS) - failed} passed, {failed} failed")
    return 1 if failed else 0
