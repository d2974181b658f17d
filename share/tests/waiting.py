"""How long tests wait for what has to come."""
import time
from collections.abc import Callable
from typing import Any

# What is waited for comes within seconds; on a machine with much else to do it may take minutes.
PATIENCE = 300


def wait_for(condition: Callable[..., Any], what: str, patience: float = PATIENCE) -> Any:
    """The condition's value, as soon as it is a true one."""
    end, pause = time.monotonic() + patience, 0.005
    while not (value := condition()):
        if time.monotonic() > end:
            raise AssertionError(f"waited {patience} seconds for {what}")
        time.sleep(pause)
        # What takes long isn't asked for all the time.
        pause = min(1.2 * pause, 0.1)
    return value
