"""What bench/slow, bench/hostile and bench/run may count of each of their kinds, with --bars, by the program as ordinary Rust: upper
bounds, half as much again as was counted, or of traces a tenth more. So a new square is seen, and what is a square already can't become
worse unseen."""
from __future__ import annotations

from typing import NamedTuple

# Two sizes, the second twice the first.
SIZES_OF_BARS = (125, 250)


class Bar(NamedTuple):
    """The most instructions that a step may take at the second size, and how many more that may be than at the first."""

    most: int
    more: int


STRAIGHT = {
    "placed behind greater keys, messages": Bar(20_000, 1_500),
    "placed behind greater keys, chunks": Bar(15_000, 1_500),
    "placed behind greater keys, a packed file": Bar(22_000, 1_500),
    "n ranges of n characters by names": Bar(3_000, 1_000),
    "100 n characters, all restored": Bar(11_000, 2_000),
    "100 n characters, a Delete refused 5": Bar(8_000, 1_000),
    "2 n characters named by what waits": Bar(78_000, 1_000),
    "typed at random into 20 n letters": Bar(17_000, 1_000),
    "after n lines, a viewer at the last": Bar(54_000, 1_000),
    "sites with a letter": Bar(18_000, 1_000),
    "repeats": Bar(6_000, 1_000),
    "conflicts": Bar(11_000, 1_000),
    "drained": Bar(20_000, 1_000),
    "typed by turns, all names": Bar(3_000, 1_000),
    "typed by turns, where half is": Bar(5_000, 1_000),
    "typed by turns, all cut": Bar(4_000, 1_000),
    "typed by turns, all given a colour": Bar(4_000, 1_000),
    "20 n letters typed one after the other, chunks": Bar(1_600, 500),
    "since the last but one": Bar(11_000, 1_000),
    "since the last but one, the library": Bar(135_000, 20_000),
    "20 n entries after alike hashes, the library": Bar(95_000, 4_000),
    "pack from the last but one": Bar(13_000, 1_000),
}
# A step takes the longer the more there is, so that the whole is a square.
SQUARE = {
    "pieces, all deleted and restored by turns": Bar(375_000, 135_000),
    "pieces, all restored": Bar(174_000, 66_000),
    "pieces, all given a colour": Bar(393_000, 173_000),
    "n ranges, 1,023 at most, named by what waits": Bar(292_000, 103_000),
    "after a line of n that a viewer shows": Bar(164_000, 56_000),
    "scrolled to the last of n lines": Bar(182_000, 101_000),
    "keys in a line of n": Bar(193_000, 69_000),
    "fronts": Bar(30_000, 14_000),
}
INSTRUCTIONS = STRAIGHT | SQUARE

# The bytes of a file, and the bytes of memory a byte where it is reopened, and where its operations come as chunks.
SIZE_OF_FILES = 20_000
REOPENED = {
    "letters at the end": 100,
    "letters at the end, as codes": 70,
    "letters with later stamps": 140,
    "letters before all others": 140,
    "letters at near places": 140,
    "letters, each taken back at once": 280,
    "two letters, one taken back": 270,
    "letters, then taken back": 230,
    "pasted, then taken back": 170,
    "pasted, every second deleted": 140,
    "pasted, every second by sets": 100,
    "pasted, colours by sets": 100,
    "pasted, restored by sets": 100,
    "letters, every second deleted": 150,
    "letters, every second by sets": 130,
    "letters, colours by sets": 120,
    "letters, restored by sets": 130,
    "letters, each typed into": 130,
    "letters, each typed into by another": 120,
    "letters, deleted and coloured by turns": 130,
    "pasted": 30,
    "pasted by two": 170,
    "one deleted again and again": 80,
    "one restored again and again": 110,
    "one coloured again and again": 90,
    "colours, one each": 100,
    "fonts, one each": 90,
    "letters in two fonts by turns": 100,
    "letters in other fonts": 110,
    "letters in long fonts": 40,
    "sites with a letter": 220,
    "sites with a letter taken back": 200,
    "two sites by turns": 80,
    "letters before all others, deleted and restored by turns": 100,
}
UNPACKED = {
    "letters at the end": 260,
    "letters before all others": 170,
    "letters, each taken back at once": 370,
    "letters, restored by sets": 190,
    "pasted by two": 170,
    "sites with a letter": 200,
    # A square: each Delete and Restore notes a change for each piece.
    "letters before all others, deleted and restored by turns": 5500,
}
# The same as chunks that the library takes in, where noting has ended.
UNNOTED = {
    "letters before all others, deleted and restored by turns": 60,
}

# The bytes that are resident an edit, where two sites share so many edits of a trace. What is reserved and never written doesn't show here.
EDITS = 100_000
KEPT = {
    "at the end": 62,
    "at random": 422,
    "in bursts": 196,
    "in prose": 94,
}
