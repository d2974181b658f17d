"""The number of examples that a test tries."""
from __future__ import annotations

import os

from hypothesis import settings

# The factor by which a test tries more examples than usual. If it is set, each run tries other examples.
TIMES = int(os.environ.get("VIALSHOAL_EXAMPLES", "0"))


def tries(count: int) -> settings:
    """Return the settings with which a test tries `count` examples. Without VIALSHOAL_EXAMPLES each run tries the same ones."""
    return settings(max_examples=count * max(TIMES, 1), derandomize=not TIMES, database=None, deadline=None)
