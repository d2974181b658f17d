"""Messages of sites that write at random are handed to others in many orders, with repeats and merges: all show what the operations
show by the definition."""
from __future__ import annotations

import random
from collections.abc import Sequence

from tools.converging.shown import names_of, runs_of, shown as defined, text_of
from tools.packed.messages import read_message
from tools.talking import Run, edit, edit_by_names, running, shown

WRITERS = range(1, 5)
# Of these one is handed messages as they come near their turns, and then merges; two all of them, near their turns and far from these.
HALF, NEAR, FAR = READERS = range(5, 8)
EDITS = 300
# How far from its turn a message comes at most, so that no room is full.
WINDOW = 50
FULL = "refused 6"


def catch_up(run: Run, site: int, seen: dict[int, int], draw: random.Random) -> None:
    """Takes some of the messages in that were sent since, in turn; or none, most of the time."""
    if draw.randrange(4):
        return
    for number in range(seen[site] + 1, draw.randint(seen[site], len(run.sent)) + 1):
        if (answer := run.ask(f"{site} take 1 m{number}")) not in (["taken 0 0"], ["repeat"]):
            raise run.fault(f"m{number} is answered {answer}")
        seen[site] = number


def write(run: Run, draw: random.Random) -> None:
    seen = dict.fromkeys(WRITERS, 0)
    for _ in range(EDITS):
        site = draw.choice(WRITERS)
        catch_up(run, site, seen, draw)
        draw.choice([edit, edit, edit, edit_by_names])(run, site, draw)


def order(count: int, window: int, draw: random.Random) -> list[int]:
    """The numbers of the messages, some of them twice, with each stretch shuffled."""
    numbers = [number for number in range(1, count + 1) for _ in range(draw.choice((1, 1, 1, 2)))]
    stretches = [numbers[at : at + window] for at in range(0, len(numbers), window)]
    return [number for each in stretches for number in draw.sample(each, len(each))]


def hand(run: Run, site: int, numbers: Sequence[int]) -> int:
    """Hands messages in; how many were refused for want of a place, the only reason that there can be."""
    refused = 0
    for number in numbers:
        [answer] = run.ask(f"{site} take 1 m{number}")
        if answer == FULL:
            refused += 1
        elif answer not in ("repeat", "waits") and not answer.startswith("taken "):
            raise run.fault(f"m{number} is answered {answer!r}")
    return refused


def hand_all(run: Run, site: int, numbers: Sequence[int]) -> bool:
    """Hands all in, and again until none is refused; whether one was."""
    for turn in range(len(numbers)):
        if not hand(run, site, numbers):
            return bool(turn)
    raise run.fault("messages are refused again and again")


def waiting(run: Run, site: int) -> int:
    return int(run.ask(f"{site} front 1")[-1].removeprefix("waiting "))


def taken_in(run: Run, site: int) -> int:
    """How many operations a site has taken in."""
    return sum(int(line.split()[2]) for line in run.ask(f"{site} front 1")[:-1])


def merge(run: Run, site: int, other: int) -> int:
    """Takes another's operations over, and counts them."""
    before = taken_in(run, site)
    [answer] = run.ask(f"{site} merge 1 {other}")
    new = taken_in(run, site) - before
    if answer != f"merged {new}":
        raise run.fault(f"{new} operations came, and the answer is {answer!r}")
    return new


def hear_half(run: Run, wanted: list[str], draw: random.Random) -> None:
    """Half of the messages come, and then what each of those who wrote has; what waited is held by then."""
    numbers = order(len(run.sent), WINDOW, draw)
    if hand(run, HALF, numbers[: len(numbers) // 2]):
        raise run.fault("a room is full")
    for writer in WRITERS:
        merge(run, HALF, writer)
    run.wants(f"{HALF} settle 1", f"settled 0 {waiting(run, HALF)}")
    holds(run, HALF, wanted)


def hear_all(run: Run, site: int, wanted: list[str], draw: random.Random) -> None:
    """All messages come, and then two merge both ways."""
    numbers = order(len(run.sent), WINDOW if site == NEAR else 2 * len(run.sent), draw)
    if hand_all(run, site, numbers) != (site == FAR):
        raise run.fault(f"a room of site {site} was full, or none")
    writer = draw.choice(WRITERS)
    if taken_in(run, site) != len(run.sent) or merge(run, site, writer):
        raise run.fault(f"site {site} hasn't all")
    merge(run, writer, site)
    holds(run, site, wanted)
    holds(run, writer, wanted)


def holds(run: Run, site: int, wanted: list[str]) -> None:
    if waiting(run, site):
        raise run.fault(f"at site {site} some wait")
    if (told := shown(run, site)) != wanted:
        raise run.fault(f"site {site} shows {told}, and not {wanted}")


def play(command: str, draw: random.Random) -> None:
    with running(command, len(WRITERS) + len(READERS)) as run:
        write(run, draw)
        characters = defined([read_message(bytes.fromhex(message)) for message in run.sent])
        wanted = [*text_of(characters), *runs_of(characters), *names_of(characters)]
        hear_half(run, wanted, draw)
        for site in (NEAR, FAR):
            hear_all(run, site, wanted, draw)
        for site in WRITERS:
            hand_all(run, site, range(1, len(run.sent) + 1))
            holds(run, site, wanted)
