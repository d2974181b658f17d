"""Which log a URL is: that of a relay, of a Redis server, or a file."""
import pathlib
from collections.abc import Callable

from share.format.entry import Form
from share.format.link import is_network, is_relay
from share.log.base import Log
from share.log.redis import RedisLog
from share.log.sqlite import SqliteLog


def open_log(url: str, note: bytes, password: str | None = None) -> Log:
    """The log of the note of this identity: that of a Redis server, or a file, which is made where it isn't
    there."""
    return RedisLog(url, note, password) if is_network(url) else SqliteLog(pathlib.Path(url), note)


def opener_of(url: str, form: Form, password: str | None = None) -> Callable[[], Log]:
    """What opens the log of a note, wherever it is, as often as it is called."""
    if not is_relay(url):
        return lambda: open_log(url, form.note, password)
    # Loaded where it is needed, since it takes long.
    from share.log.relay import RelayLogs
    return RelayLogs(url, form)


def can_take_out(url: str) -> bool:
    """Whether the log of a note lets entries be taken out, as far as its URL says; a note without a log has none that could keep any."""
    return not is_relay(url)
