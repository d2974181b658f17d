"""The colour of an editor whose user has chosen none: one that as few as possible have of those who are on."""
import hashlib
import random
from collections import Counter
from collections.abc import Iterable

PALETTE = ("#c0392b", "#2471a3", "#1e8449", "#7d3c98", "#b9770e", "#148f77", "#a04000", "#515a5a", "#ad1457", "#4a6fa5")


def least_used(token: bytes, used: Iterable[str]) -> str:
    """The colour that an editor takes where the others have these. Its token says which one of several, so that those who come at
    once rarely take the same."""
    many = Counter(used)
    return min(PALETTE, key=lambda colour: (many[colour], hashlib.blake2b(token + colour.encode()).digest()))


def settled(token: bytes, used: Iterable[str], now: str) -> str:
    """The colour that it goes on with: another one where fewer have that, by chance, so that not all leave a colour who share it."""
    many = Counter(used)
    if not many[now]:
        return now
    best = least_used(token, many.elements())
    return best if many[best] < many[now] and random.random() * (1 + many[now]) < 1 else now
