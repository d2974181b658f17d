"""What the people of a note were called, by the numbers of their sites, as they said of themselves when they were on.

It is kept beside the note's file, for who looks at the history later. Nothing hangs on it: it can be removed, and where
it can't be written it isn't.
"""
import json
from contextlib import suppress

from share.format.entry import GREATEST_SITE
from share.format.presence import clean_name
from share.store import beside

NICKNAMES_SUFFIX = ".people"
# The most that are kept: who has the note's link could name thousands.
MOST_NICKNAMES = 1_000
LONGEST_FILE = 1 << 20


def known(name: str) -> dict[int, str]:
    """The names of a note's sites."""
    found: object = None
    with suppress(ValueError, RecursionError):
        found = json.loads(beside.kept_bytes(name, NICKNAMES_SUFFIX, LONGEST_FILE))
    if not isinstance(found, dict):
        return {}
    names = {int(site): clean_name(one) for site, one in found.items()
             if site.isascii() and site.isdecimal() and len(site) <= 5 and isinstance(one, str)}
    return {site: one for site, one in names.items() if 1 <= site <= GREATEST_SITE and one}


def remember(name: str, names: dict[int, str]) -> None:
    """Keeps the names of a note's sites; of too many those that came last."""
    kept = dict([*names.items()][-MOST_NICKNAMES:])
    beside.write(name, NICKNAMES_SUFFIX, json.dumps(kept, ensure_ascii=False).encode("utf-8", "replace"))
